//! The library's message-form test against a codec of our own, written from documents 01 and 02.

use std::collections::BTreeSet;

use paired_rounding::{message_form, Expected};

const Q: u32 = 8_380_417;
const LARGEST_BOUND: u32 = 4_190_208;

/// Keys of a side, as document 02 has it.
const KEYS: usize = 4;

// ---- The codec: fields in bits, most significant first.

/// The header's fields, in their order in a message. `n` is N, sent as N − 1.
#[derive(Clone, Copy, Debug, PartialEq, Eq)]
struct Header {
    sender: u32,
    set: u32,
    kind: u32,
    n: u32,
    round: u32,
    bound: u32,
    serial: u32,
}

/// An opening's fields: the share, then the parts under the receiver's keys.
type Opening = [u32; 1 + KEYS];

const OPENING_BITS: usize = 23 * (1 + KEYS);

/// A message: its header, its openings and the bits that fill the last byte.
#[derive(Clone, Debug, PartialEq, Eq)]
struct Message {
    header: Header,
    openings: Vec<Opening>,
    filling: u32,
}

/// How many openings a round has. Products open two numbers each, and rounds 2 to 5 have two
/// products for each coefficient; BOUND's zero check and answer are one for all coefficients.
fn opening_count(kind: u32, n: u32, round: u32) -> usize {
    let n = n as usize;
    match (round, kind) {
        (1, _) => n,
        (2..=5, _) => 4 * n,
        (6 | 7, 0) => n,
        (6 | 7, 1) => 1,
        _ => panic!("no round {round} of kind {kind}"),
    }
}

/// How many bits fill the last byte.
fn filling_bits(openings: usize) -> u32 {
    (8 - (64 + OPENING_BITS * openings) as u32 % 8) % 8
}

fn message_length(openings: usize) -> usize {
    (64 + OPENING_BITS * openings).div_ceil(8)
}

struct Writer {
    bits: Vec<bool>,
}

impl Writer {
    fn put(&mut self, value: u32, width: u32) {
        assert!(width == 32 || value >> width == 0);
        for place in (0..width).rev() {
            self.bits.push(value >> place & 1 == 1);
        }
    }

    fn bytes(&self) -> Vec<u8> {
        assert_eq!(self.bits.len() % 8, 0);
        self.bits
            .chunks(8)
            .map(|byte| byte.iter().fold(0, |all, &bit| all << 1 | u8::from(bit)))
            .collect()
    }
}

fn encode(message: &Message) -> Vec<u8> {
    let header = &message.header;
    let mut writer = Writer { bits: Vec::new() };
    writer.put(header.sender, 1);
    writer.put(header.set, 1);
    writer.put(header.kind, 1);
    writer.put(header.n - 1, 3);
    writer.put(header.round, 3);
    writer.put(header.bound, 23);
    writer.put(header.serial, 32);
    for &field in message.openings.as_flattened() {
        writer.put(field, 23);
    }
    writer.put(message.filling, filling_bits(message.openings.len()));
    writer.bytes()
}

struct Reader<'a> {
    bytes: &'a [u8],
    position: usize,
}

impl Reader<'_> {
    fn take(&mut self, width: u32) -> u32 {
        let mut value = 0;
        for _ in 0..width {
            let byte = self.bytes[self.position / 8];
            value = value << 1 | u32::from(byte >> (7 - self.position % 8) & 1);
            self.position += 1;
        }
        value
    }
}

/// Reads a message that has the length for so many openings.
fn decode(bytes: &[u8], openings: usize) -> Message {
    assert_eq!(bytes.len(), message_length(openings));
    let mut reader = Reader { bytes, position: 0 };
    let header = Header {
        sender: reader.take(1),
        set: reader.take(1),
        kind: reader.take(1),
        n: reader.take(3) + 1,
        round: reader.take(3),
        bound: reader.take(23),
        serial: reader.take(32),
    };
    let openings: Vec<Opening> = (0..openings)
        .map(|_| [(); 1 + KEYS].map(|()| reader.take(23)))
        .collect();
    let filling = reader.take(filling_bits(openings.len()));
    assert_eq!(reader.position, 8 * bytes.len());
    Message {
        header,
        openings,
        filling,
    }
}

// ---- The questions.

fn bound_allowed(kind: u32, bound: u32) -> bool {
    if kind == 0 {
        bound == 0
    } else {
        (1..=LARGEST_BOUND).contains(&bound)
    }
}

/// The header that the receiver must see.
fn header_for(expected: &Expected) -> Header {
    Header {
        sender: 1 - expected.side,
        set: expected.set,
        kind: expected.kind,
        n: expected.n,
        round: expected.round,
        bound: expected.bound,
        serial: expected.serial,
    }
}

/// The first no, or 0: questions 1, 2, 3, 8, 10, 11, 12.
fn first_no(expected: &Expected, bytes: &[u8]) -> u32 {
    let Expected {
        side,
        set,
        kind,
        n,
        bound,
        round,
        serial,
    } = *expected;
    if side > 1 || set > 1 || kind > 1 {
        return 1;
    }
    if !(1..=8).contains(&n) {
        return 2;
    }
    if !bound_allowed(kind, bound) {
        return 3;
    }
    if !(1..=7).contains(&round) || serial == 0 {
        return 8;
    }
    let openings = opening_count(kind, n, round);
    if bytes.len() != message_length(openings) {
        return 10;
    }
    let message = decode(bytes, openings);
    if message.header != header_for(expected) {
        return 11;
    }
    let fields = message.openings.as_flattened();
    if !fields.iter().all(|&field| field < Q) || message.filling != 0 {
        return 12;
    }
    0
}

/// The library's answer as a number: 0, or the refusal.
fn answer(expected: &Expected, bytes: &[u8]) -> u32 {
    match message_form(expected, bytes) {
        Ok(()) => 0,
        Err(refusal) => refusal.number(),
    }
}

/// Counts how often each answer was seen.
struct Tally {
    seen: [u64; 15],
}

impl Tally {
    fn new() -> Tally {
        Tally { seen: [0; 15] }
    }

    /// The library and our questions agree. Gives the answer.
    fn agree(&mut self, expected: &Expected, bytes: &[u8]) -> u32 {
        let ours = first_no(expected, bytes);
        let theirs = answer(expected, bytes);
        assert_eq!(theirs, ours, "{expected:?}, message {bytes:02x?}");
        self.seen[ours as usize] += 1;
        ours
    }

    /// The library and our questions give the answer known beforehand.
    fn check(&mut self, expected: &Expected, bytes: &[u8], known: u32) {
        let ours = self.agree(expected, bytes);
        assert_eq!(ours, known, "{expected:?}, message {bytes:02x?}");
    }

    fn total(&self) -> u64 {
        self.seen.iter().sum()
    }

    /// Every one of these answers was seen at least so often, and no other one.
    fn assert_seen(&self, answers: &[usize], least: u64) {
        for (number, &times) in self.seen.iter().enumerate() {
            if answers.contains(&number) {
                assert!(times >= least, "answer {number}: only {times} times");
            } else {
                assert_eq!(times, 0, "answer {number}");
            }
        }
    }
}

// ---- Making messages.

/// A small generator (xorshift with a multiplier), the same on every run.
struct Generator {
    state: u64,
}

impl Generator {
    fn new(seed: u64) -> Generator {
        assert_ne!(seed, 0);
        Generator { state: seed }
    }

    fn next(&mut self) -> u32 {
        self.state ^= self.state >> 12;
        self.state ^= self.state << 25;
        self.state ^= self.state >> 27;
        (self.state.wrapping_mul(0x2545_F491_4F6C_DD1D) >> 32) as u32
    }

    /// A number from `low` to `high`, both included.
    fn within(&mut self, low: u32, high: u32) -> u32 {
        let size = u64::from(high - low) + 1;
        low + ((u64::from(self.next()) * size) >> 32) as u32
    }

    fn choose(&mut self, list: &[u32]) -> u32 {
        list[self.within(0, list.len() as u32 - 1) as usize]
    }

    fn coin(&mut self) -> bool {
        self.next() >> 31 == 1
    }

    /// A field below q, often at an end.
    fn field(&mut self) -> u32 {
        match self.within(0, 7) {
            0 => 0,
            1 => Q - 1,
            _ => self.within(0, Q - 1),
        }
    }

    /// A field of 23 bits that is not below q.
    fn field_too_large(&mut self) -> u32 {
        match self.within(0, 2) {
            0 => Q,
            1 => (1 << 23) - 1,
            _ => self.within(Q, (1 << 23) - 1),
        }
    }

    fn bound(&mut self, kind: u32) -> u32 {
        if kind == 0 {
            return 0;
        }
        match self.within(0, 3) {
            0 => 1,
            1 => LARGEST_BOUND,
            _ => self.within(1, LARGEST_BOUND),
        }
    }

    fn bad_bound(&mut self, kind: u32) -> u32 {
        if kind == 0 {
            return match self.within(0, 2) {
                0 => self.within(1, LARGEST_BOUND),
                1 => self.choose(&[1, 1 << 23, 1 << 31]),
                _ => self.within(1, u32::MAX),
            };
        }
        match self.within(0, 2) {
            0 => 0,
            1 => self.choose(&[LARGEST_BOUND + 1, (1 << 23) - 1, (1 << 23) + 1, 1 << 31]),
            _ => self.within(LARGEST_BOUND + 1, u32::MAX),
        }
    }

    fn serial(&mut self) -> u32 {
        match self.within(0, 5) {
            0 => 1,
            1 => u32::MAX,
            2 => self.within(1, 300),
            _ => self.within(1, u32::MAX),
        }
    }

    /// Good settings of this run.
    fn expected(&mut self, side: u32, set: u32, kind: u32, n: u32, round: u32) -> Expected {
        Expected {
            side,
            set,
            kind,
            n,
            bound: self.bound(kind),
            round,
            serial: self.serial(),
        }
    }

    /// Good settings of any run.
    fn any_expected(&mut self) -> Expected {
        let side = self.within(0, 1);
        let set = self.within(0, 1);
        let kind = self.within(0, 1);
        let n = self.within(1, 8);
        let round = self.within(1, 7);
        self.expected(side, set, kind, n, round)
    }

    /// A good message for its receiver.
    fn message(&mut self, expected: &Expected) -> Message {
        let count = opening_count(expected.kind, expected.n, expected.round);
        Message {
            header: header_for(expected),
            openings: (0..count)
                .map(|_| [(); 1 + KEYS].map(|()| self.field()))
                .collect(),
            filling: 0,
        }
    }

    /// Puts a field that is too large, or a filling bit, into a message.
    fn spoil_fields(&mut self, message: &mut Message) {
        let bits = filling_bits(message.openings.len());
        if bits > 0 && self.coin() {
            message.filling = self.within(1, (1 << bits) - 1);
        } else {
            let fields = message.openings.as_flattened_mut();
            let place = self.within(0, fields.len() as u32 - 1) as usize;
            fields[place] = self.field_too_large();
        }
    }

    /// Changes a message's length.
    fn spoil_length(&mut self, bytes: &mut Vec<u8>) {
        let length = bytes.len();
        let other = match self.within(0, 4) {
            0 => 0,
            1 => length - 1,
            2 => length + 1,
            3 => self.within(0, length as u32 - 1) as usize,
            _ => self.within(length as u32 + 1, length as u32 + 300) as usize,
        };
        bytes.resize(other, if self.coin() { 0 } else { 0xFF });
    }
}

/// Every good choice of side, set, kind, N and round.
fn for_every_run(mut act: impl FnMut(u32, u32, u32, u32, u32)) {
    for side in 0..2 {
        for set in 0..2 {
            for kind in 0..2 {
                for n in 1..=8 {
                    for round in 1..=7 {
                        act(side, set, kind, n, round);
                    }
                }
            }
        }
    }
}

// ---- Tests.

/// Document 01's sample as document 02 replaces it: server, set 0, HIGH, N = 1, round 1, serial 1,
/// opened share 1, four zero parts.
#[test]
fn sample() {
    let bytes = [
        0x00, 0x80, 0x00, 0x00, 0x00, 0x00, 0x00, 0x01, 0x00, 0x00, 0x02, 0x00, //
        0x00, 0x00, 0x00, 0x00, 0x00, 0x00, 0x00, 0x00, 0x00, 0x00, 0x00,
    ];
    let message = Message {
        header: Header {
            sender: 0,
            set: 0,
            kind: 0,
            n: 1,
            round: 1,
            bound: 0,
            serial: 1,
        },
        openings: vec![[1, 0, 0, 0, 0]],
        filling: 0,
    };
    assert_eq!(encode(&message), bytes);
    assert_eq!(decode(&bytes, 1), message);
    let phone = Expected {
        side: 1,
        set: 0,
        kind: 0,
        n: 1,
        bound: 0,
        round: 1,
        serial: 1,
    };
    let mut tally = Tally::new();
    tally.check(&phone, &bytes, 0);
    tally.check(&Expected { side: 0, ..phone }, &bytes, 11);
    // The sample of one key a side is too short now.
    tally.check(&phone, &bytes[..14], 10);
}

/// An opening has 115 bits; the length is the header's 8 bytes and the bytes that hold them.
#[test]
fn known_lengths() {
    let lengths = [
        (1, 23),
        (2, 37),
        (3, 52),
        (4, 66),
        (5, 80),
        (6, 95),
        (7, 109),
        (8, 123),
        (12, 181),
        (16, 238),
        (20, 296),
        (24, 353),
        (28, 411),
        (32, 468),
    ];
    let mut generator = Generator::new(9);
    let mut tally = Tally::new();
    let mut seen = BTreeSet::new();
    for_every_run(|side, set, kind, n, round| {
        let count = opening_count(kind, n, round);
        let (_, length) = lengths.into_iter().find(|&(k, _)| k == count).unwrap();
        seen.insert(count);
        let expected = generator.expected(side, set, kind, n, round);
        let mut bytes = encode(&generator.message(&expected));
        assert_eq!(bytes.len(), length);
        tally.check(&expected, &bytes, 0);
        tally.check(&expected, &bytes[..length - 1], 10);
        bytes.push(0);
        tally.check(&expected, &bytes, 10);
    });
    assert!(seen.into_iter().eq(lengths.map(|(count, _)| count)));
    assert_eq!(tally.total(), 3 * 448);
}

/// Openings in all are 19N for HIGH and 17N + 2 for BOUND, as document 01 counts them.
#[test]
fn opening_counts() {
    for n in 1..=8 {
        let all = |kind| -> usize { (1..=7).map(|round| opening_count(kind, n, round)).sum() };
        assert_eq!(all(0), 19 * n as usize);
        assert_eq!(all(1), 17 * n as usize + 2);
    }
}

#[test]
fn the_codec_goes_both_ways() {
    let mut generator = Generator::new(1);
    for _ in 0..2_000 {
        let expected = generator.any_expected();
        let mut message = generator.message(&expected);
        if generator.coin() {
            generator.spoil_fields(&mut message);
        }
        let bytes = encode(&message);
        assert_eq!(decode(&bytes, message.openings.len()), message);
    }
}

#[test]
fn good_messages() {
    let mut generator = Generator::new(2);
    let mut tally = Tally::new();
    for_every_run(|side, set, kind, n, round| {
        for _ in 0..20 {
            let expected = generator.expected(side, set, kind, n, round);
            let message = generator.message(&expected);
            tally.check(&expected, &encode(&message), 0);
        }
    });
    assert_eq!(tally.total(), 8_960);
}

/// One thing in the header is changed: first each field, in the message and in what is expected,
/// then each bit.
#[test]
fn damaged_headers() {
    let mut generator = Generator::new(3);
    let mut tally = Tally::new();
    for_every_run(|side, set, kind, n, round| {
        let expected = generator.expected(side, set, kind, n, round);
        let message = generator.message(&expected);
        let good = message.header;

        let other_n = (n + generator.within(0, 6)) % 8 + 1;
        let other_round = (round + generator.within(1, 7)) % 8;
        let other_bound = good.bound ^ generator.within(1, (1 << 23) - 1);
        let other_serial = good.serial ^ generator.within(1, u32::MAX);
        let changed = [
            Header {
                sender: side,
                ..good
            },
            Header {
                set: 1 - set,
                ..good
            },
            Header {
                kind: 1 - kind,
                ..good
            },
            Header { n: other_n, ..good },
            Header {
                round: other_round,
                ..good
            },
            Header {
                bound: other_bound,
                ..good
            },
            Header {
                serial: other_serial,
                ..good
            },
        ];
        for header in changed {
            assert_ne!(header, good);
            let damaged = Message {
                header,
                ..message.clone()
            };
            tally.check(&expected, &encode(&damaged), 11);
        }

        let bytes = encode(&message);
        for bit in 0..64 {
            let mut damaged = bytes.clone();
            damaged[bit / 8] ^= 0x80 >> (bit % 8);
            tally.check(&expected, &damaged, 11);
        }

        // The message is good, but another one was expected.
        tally.check(
            &Expected {
                side: 1 - side,
                ..expected
            },
            &bytes,
            11,
        );
        tally.check(
            &Expected {
                set: 1 - set,
                ..expected
            },
            &bytes,
            11,
        );
        let serial = expected.serial.checked_add(1).unwrap_or(1);
        tally.check(&Expected { serial, ..expected }, &bytes, 11);
        if kind == 1 {
            let bound = expected.bound % LARGEST_BOUND + 1;
            tally.check(&Expected { bound, ..expected }, &bytes, 11);
        }
        for other in (1..=8).filter(|&other| other != n) {
            tally.agree(
                &Expected {
                    n: other,
                    ..expected
                },
                &bytes,
            );
        }
        for other in (1..=7).filter(|&other| other != round) {
            tally.agree(
                &Expected {
                    round: other,
                    ..expected
                },
                &bytes,
            );
        }
        let bound = 1 - kind;
        tally.agree(
            &Expected {
                kind: 1 - kind,
                bound,
                ..expected
            },
            &bytes,
        );
    });
    assert!(tally.total() >= 30_000);
    tally.assert_seen(&[10, 11], 1_000);
}

/// Each field in turn, the share and the four parts of every opening, is q − 1, which is good, and
/// then not below q; each filling bit in turn is 1.
#[test]
fn damaged_fields_and_filling() {
    let mut generator = Generator::new(4);
    let mut tally = Tally::new();
    for_every_run(|side, set, kind, n, round| {
        let expected = generator.expected(side, set, kind, n, round);
        let message = generator.message(&expected);
        for place in 0..message.openings.len() {
            for field in 0..=KEYS {
                let mut changed = message.clone();
                let large = generator.field_too_large();
                for (number, known) in [(Q - 1, 0), (Q, 12), (large, 12)] {
                    changed.openings[place][field] = number;
                    tally.check(&expected, &encode(&changed), known);
                }
            }
        }
        for bit in 0..filling_bits(message.openings.len()) {
            let mut damaged = message.clone();
            damaged.filling = 1 << bit;
            tally.check(&expected, &encode(&damaged), 12);
        }
    });
    assert!(tally.total() >= 3 * 5 * 5_248);
    tally.assert_seen(&[0, 12], 5 * 5_248);
}

/// Every length up to 500 bytes but the right one, cut from the front of a message that goes on.
#[test]
fn wrong_lengths() {
    let mut generator = Generator::new(5);
    let mut tally = Tally::new();
    for_every_run(|side, set, kind, n, round| {
        let expected = generator.expected(side, set, kind, n, round);
        let mut bytes = encode(&generator.message(&expected));
        let right = bytes.len();
        bytes.resize(500, 0);
        for length in 0..=500 {
            let known = if length == right { 0 } else { 10 };
            tally.check(&expected, &bytes[..length], known);
        }
    });
    assert_eq!(tally.total(), 448 * 501);
}

/// Any bytes, any bytes of the right length, and any fields after the right header.
#[test]
fn random_messages() {
    let mut generator = Generator::new(6);
    let mut tally = Tally::new();
    for turn in 0..45_000 {
        let expected = generator.any_expected();
        let right = encode(&generator.message(&expected));
        let length = match turn % 3 {
            0 => generator.within(0, 500) as usize,
            _ => right.len(),
        };
        let mut bytes: Vec<u8> = (0..length).map(|_| generator.next() as u8).collect();
        if turn % 3 == 2 {
            bytes[..8].copy_from_slice(&right[..8]);
            let filling = filling_bits(opening_count(expected.kind, expected.n, expected.round));
            if generator.coin() {
                // Without this nearly all would have a filling bit set.
                bytes[length - 1] &= 0xFF << filling;
            }
        }
        tally.agree(&expected, &bytes);
    }
    assert_eq!(tally.total(), 45_000);
    tally.assert_seen(&[0, 10, 11, 12], 1_000);
}

/// Any of the questions 1, 2, 3, 8, 10, 11, 12 get a no together; the first one decides.
#[test]
fn first_no_decides() {
    const ORDER: [u32; 7] = [1, 2, 3, 8, 10, 11, 12];
    let mut generator = Generator::new(7);
    let mut tally = Tally::new();
    for turn in 0..64_000_u32 {
        let no = |question: u32| {
            let place = ORDER.iter().position(|&other| other == question);
            turn >> place.unwrap() & 1 == 1
        };
        let mut expected = generator.any_expected();
        let mut message = generator.message(&expected);
        if no(12) {
            generator.spoil_fields(&mut message);
        }
        let mut bytes = encode(&message);
        if no(11) {
            let bit = generator.within(0, 63);
            bytes[bit as usize / 8] ^= 0x80 >> (bit % 8);
        }
        if no(10) {
            generator.spoil_length(&mut bytes);
        }
        if no(8) {
            if generator.coin() {
                expected.serial = 0;
            } else {
                let beyond = generator.within(8, u32::MAX);
                expected.round = generator.choose(&[0, 8, 9, 15, 1 << 31, u32::MAX, beyond]);
            }
        }
        if no(3) {
            expected.bound = generator.bad_bound(expected.kind);
        }
        if no(2) {
            let beyond = generator.within(9, u32::MAX);
            expected.n = generator.choose(&[0, 9, 10, 16, 1 << 31, u32::MAX, beyond]);
        }
        if no(1) {
            let beyond = generator.within(2, u32::MAX);
            let bad = generator.choose(&[2, 3, 1 << 31, u32::MAX, beyond]);
            match generator.within(0, 2) {
                0 => expected.side = bad,
                1 => expected.set = bad,
                _ => expected.kind = bad,
            }
        }
        let first = ORDER.into_iter().find(|&question| no(question));
        tally.check(&expected, &bytes, first.unwrap_or(0));
    }
    assert_eq!(tally.total(), 64_000);
    tally.assert_seen(&[0, 1, 2, 3, 8, 10, 11, 12], 500);
}

/// Settings at and beyond their ends, all together, with an empty message and with one that is
/// good wherever the settings are.
#[test]
fn settings_at_their_ends() {
    let mut generator = Generator::new(8);
    let mut tally = Tally::new();
    let bits = [0, 1, 2, 3, u32::MAX];
    let bounds = [
        0,
        1,
        LARGEST_BOUND,
        LARGEST_BOUND + 1,
        (1 << 23) - 1,
        1 << 23,
        u32::MAX,
    ];
    for side in bits {
        for set in bits {
            for kind in bits {
                for n in [0, 1, 8, 9, u32::MAX] {
                    for bound in bounds {
                        for round in [0, 1, 5, 7, 8, u32::MAX] {
                            for serial in [0, 1, u32::MAX] {
                                let expected = Expected {
                                    side,
                                    set,
                                    kind,
                                    n,
                                    bound,
                                    round,
                                    serial,
                                };
                                if tally.agree(&expected, &[]) == 10 {
                                    let good = encode(&generator.message(&expected));
                                    tally.check(&expected, &good, 0);
                                }
                            }
                        }
                    }
                }
            }
        }
    }
    assert!(tally.total() >= 78_750);
    tally.assert_seen(&[0, 1, 2, 3, 8, 10], 100);
}
