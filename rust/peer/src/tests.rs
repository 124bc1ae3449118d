//! Known results, random runs against the plain meaning, and refusals.

use std::sync::atomic::Ordering;

use crate::dealer::deal;
use crate::field::{add, all_below_q, mul, sub, EARLY_END, Q};
use crate::line_program;
use crate::message::{
    message_length, read_message, write_message, FormTest, Header, Opening, MAX_BYTES, MAX_OPENINGS,
};
use crate::plain::{parts, verdict, Parts};
use crate::random::{RandomRun, SplitMix64};
use crate::refusal::Refusal;
use crate::settings::{Kind, Settings, Shape, KEYS, MAX_COUNT, MAX_SHARED, SETS, WIDTH};
use crate::shared::Shared;
use crate::side::{Begin, Side, PHONE, SERVER, WORK_LENGTH};
use crate::transcript::transcript;

impl RandomRun {
    /// Sets the server's inputs to what the phone's leave, under the run's keys.
    fn share_inputs_anew(&mut self) {
        for (place, &secret) in self.secret.iter().enumerate() {
            let phone = Shared::load(&self.inputs[PHONE], place);
            let server = Shared::whole(secret, &self.keys) - phone;
            server.store(&mut self.inputs[SERVER], place);
        }
    }
}

/// Both sides of a run that has been dealt, with their working slices.
struct Pair {
    shape: Shape,
    run: RandomRun,
    books: [Vec<u32>; 2],
    sides: [Side; 2],
    works: [Vec<u32>; 2],
}

impl Pair {
    fn new(run: RandomRun) -> Pair {
        let count = run.secret.len() as u32;
        let shape = Shape::new(run.set, run.kind, count).unwrap();
        let mut books = [vec![0; shape.book_length()], vec![0; shape.book_length()]];
        let [server, phone] = &mut books;
        deal(run.set, run.kind, count, run.keys, &run.draw, server, phone).unwrap();
        Pair {
            shape,
            run,
            books,
            sides: [Side::new(), Side::new()],
            works: [vec![7; WORK_LENGTH], vec![Q; WORK_LENGTH]],
        }
    }

    fn begin_with(&self, side: usize) -> Begin<'_> {
        Begin {
            side: side as u32,
            set: self.run.set,
            kind: self.run.kind,
            count: self.shape.count as u32,
            bound: self.run.bound,
            serial: self.run.serial,
            keys: self.run.keys[side],
            inputs: &self.run.inputs[side],
            book: &self.books[side],
        }
    }

    fn begin(&mut self) {
        for side in [SERVER, PHONE] {
            let mut new = self.sides[side].clone();
            let mut work = std::mem::take(&mut self.works[side]);
            new.begin(&self.begin_with(side), &mut work).unwrap();
            self.sides[side] = new;
            self.works[side] = work;
        }
    }

    fn send(&mut self, from: usize) -> Vec<u8> {
        let mut message = [0; MAX_BYTES];
        let length = self.sides[from]
            .send(&self.works[from], &mut message)
            .unwrap();
        message[..length].to_vec()
    }

    fn take(&mut self, to: usize, message: &[u8]) -> Result<(), Refusal> {
        self.sides[to].take(&mut self.works[to], message)
    }

    fn pass(&mut self, from: usize) {
        let message = self.send(from);
        self.take(1 - from, &message).unwrap();
    }

    fn play(&mut self) -> Vec<u32> {
        self.play_rounds();
        assert_eq!(self.answer(SERVER), self.answer(PHONE));
        self.answer(SERVER)
    }

    fn play_rounds(&mut self) {
        self.begin();
        for _ in 0..7 {
            self.pass(SERVER);
            self.pass(PHONE);
        }
    }

    /// Begins, and plays until this side's message of this round is due.
    fn play_until(&mut self, round: u8, sender: usize) {
        self.begin();
        for _ in 1..round {
            self.pass(SERVER);
            self.pass(PHONE);
        }
        if sender == PHONE {
            self.pass(SERVER);
        }
    }

    /// Takes a message whose check must fail: the side refuses it with 13, keeps
    /// its working slice and its count, and has stopped.
    fn assert_stopped_by(&mut self, to: usize, changed: &[u8]) {
        let before = (self.works[to].clone(), self.sides[to].opening_count());
        let result = self.take(to, changed).map_err(Refusal::number);
        assert_eq!(result, Err(13));
        let after = (self.works[to].clone(), self.sides[to].opening_count());
        assert!(before == after);
        let mut out = [0; MAX_BYTES];
        let sent = self.sides[to].send(&self.works[to], &mut out);
        assert_eq!(sent, Err(Refusal::NotDue));
        assert_eq!(self.take(to, changed), Err(Refusal::NotDue));
    }

    /// A bad dealer's books: a number of the answer is greater by an amount,
    /// and no check fails. HIGH subtracts an entry of the group, BOUND opens it.
    fn raise_answer(&mut self, group: usize, amount: u32) {
        let by = match self.shape.kind {
            Kind::High => sub(0, amount),
            Kind::Bound => amount,
        };
        let first = self.shape.group_at(group) + 1;
        for place in first..first + self.shape.check_entries() {
            let raised =
                Shared::load(&self.books[SERVER], place) + Shared::whole(by, &self.run.keys);
            raised.store(&mut self.books[SERVER], place);
        }
    }

    fn answer(&self, side: usize) -> Vec<u32> {
        let mut answer = [0; MAX_COUNT];
        let length = self.sides[side].answer(&mut answer).unwrap();
        answer[..length].to_vec()
    }
}

fn plain_answer(run: &RandomRun) -> Vec<u32> {
    match run.kind {
        0 => run
            .secret
            .iter()
            .map(|&w| parts(run.set, w).unwrap().high)
            .collect(),
        _ => vec![verdict(run.set, run.bound, &run.secret).unwrap()],
    }
}

/// A run with these inputs, shares all at the server, keys 1 and this draw.
fn simple_run(set: u32, kind: u32, bound: u32, secret: &[u32]) -> RandomRun {
    let shape = Shape::new(set, kind, secret.len() as u32).unwrap();
    RandomRun {
        set,
        kind,
        bound,
        serial: 1,
        keys: [[1; KEYS]; 2],
        secret: secret.to_vec(),
        inputs: [
            secret.iter().flat_map(|&w| [w; WIDTH]).collect(),
            vec![0; WIDTH * secret.len()],
        ],
        draw: vec![0; shape.draw_length()],
    }
}

/// Set, kind and count of a test's run: all of them in turn.
fn shape_of(number: u32) -> (u32, u32, u32) {
    (number % 2, number / 2 % 2, number / 4 % 8 + 1)
}

/// The openings of a whole run: 19N, or 17N + 2.
fn all_openings(kind: u32, count: u32) -> usize {
    let all = match kind {
        0 => 19 * count,
        _ => 17 * count + 2,
    };
    all as usize
}

fn lines(input: &str) -> String {
    let mut output = Vec::new();
    line_program::run(input.as_bytes(), &mut output).unwrap();
    String::from_utf8(output).unwrap()
}

#[test]
fn constants_multiply_to_the_modulus() {
    for set in &SETS {
        assert_eq!(set.bases[..4].iter().product::<u32>(), set.alpha);
        assert_eq!(set.bases[4], set.parts + 1);
        assert_eq!(set.alpha * set.parts, Q - 1);
    }
}

#[test]
fn lengths_are_those_of_the_request() {
    assert_eq!((KEYS, WIDTH, WORK_LENGTH), (4, 9, 13_824));
    let shape = Shape::new(0, 1, 2).unwrap();
    assert_eq!(shape.book_length(), 9 * (2 * 158 + 3));
    assert_eq!(shape.draw_length(), 9 * (2 * 158 + 3) + 2 * 17 + 1);
    for (openings, bytes) in [(1, 23), (2, 37), (8, 123), (32, 468)] {
        assert_eq!(message_length(openings), bytes);
    }
    let longest = Shape::new(0, 0, 8).unwrap();
    assert_eq!(longest.shared_numbers(), MAX_SHARED);
    for n in 1..=8 {
        let shape = |set, kind| Shape::new(set, kind, n as u32).unwrap();
        assert_eq!(shape(0, 0).shared_numbers(), 165 * n);
        assert_eq!(shape(1, 0).shared_numbers(), 162 * n);
        assert_eq!(shape(0, 1).shared_numbers(), 158 * n + 3);
        assert_eq!(shape(1, 1).shared_numbers(), 155 * n + 3);
        let openings = |kind| (1..=7).map(|r| shape(0, kind).openings(r)).sum::<usize>();
        assert_eq!(openings(0), 19 * n);
        assert_eq!(openings(1), 17 * n + 2);
    }
}

#[test]
fn field_functions() {
    let modulo = |number: i64| number.rem_euclid(i64::from(Q)) as u32;
    let mut generator = SplitMix64::new(20);
    let edges = [0, 1, 2, Q / 2, Q - 2, Q - 1];
    for number in 0..1_000 {
        let [a, b] = match edges.get(number % 6).zip(edges.get(number / 6)) {
            Some((&a, &b)) => [a, b],
            None => [generator.below(Q), generator.below(Q)],
        };
        let [x, y] = [i64::from(a), i64::from(b)];
        assert_eq!(add(a, b), modulo(x + y));
        assert_eq!(sub(a, b), modulo(x - y));
        assert_eq!(mul(a, b), modulo(x * y));
    }
}

/// A number that is not below q is found at every place of a list, in both
/// forms of the question.
#[test]
fn numbers_not_below_q_are_found() {
    let large = [
        Q,
        Q + 1,
        (1 << 23) - 1,
        1 << 23,
        Q + (1 << 23),
        1 << 31,
        Q - 1 + (1 << 31),
        Q + (1 << 31),
        u32::MAX - ((1 << 23) - Q),
        u32::MAX - ((1 << 23) - Q) + 1,
        u32::MAX,
    ];
    let mut generator = SplitMix64::new(21);
    for length in [0, 1, 5, 160, 2_303, 2_304, 2_305, WORK_LENGTH] {
        let mut list: Vec<u32> = (0..length)
            .map(|_| [0, 1, Q - 1, generator.below(Q)][generator.below(4) as usize])
            .collect();
        assert!(all_below_q(&list));
        for place in 0..length {
            let old = list[place];
            list[place] = large[place % large.len()];
            assert!(!all_below_q(&list), "{length} {place}");
            list[place] = old;
        }
        for number in large.into_iter().filter(|_| length > 0) {
            let place = generator.below(length as u32) as usize;
            let old = list[place];
            list[place] = number;
            // Other tests may meet the other form, which answers the same.
            for early in [true, false] {
                EARLY_END.store(early, Ordering::Relaxed);
                assert!(!all_below_q(&list), "{length} {place} {number}");
            }
            list[place] = old;
        }
    }
}

#[test]
fn plain_known_results() {
    for (set, w, high, low) in [
        (0, 95_232, 0, 95_232),
        (0, 95_233, 1, -95_231),
        (0, 8_285_184, 43, 95_232),
        (0, 8_285_185, 0, -95_232),
        (0, Q - 1, 0, -1),
        (1, 261_888, 0, 261_888),
        (1, 261_889, 1, -261_887),
        (1, 8_118_528, 15, 261_888),
        (1, 8_118_529, 0, -261_888),
    ] {
        assert_eq!(parts(set, w), Ok(Parts { high, low }), "set {set}, {w}");
        assert_eq!(Pair::new(simple_run(set, 0, 0, &[w])).play(), [high]);
    }
    for (v, inside) in [
        (4_190_207, 1),
        (4_190_208, 0),
        (4_190_209, 0),
        (4_190_210, 1),
    ] {
        for set in [0, 1] {
            assert_eq!(verdict(set, 4_190_208, &[v]), Ok(inside));
            let mut pair = Pair::new(simple_run(set, 1, 4_190_208, &[v]));
            assert_eq!(pair.play(), [inside]);
        }
    }
    assert_eq!(parts(2, Q), Err(Refusal::Selector));
    assert_eq!(parts(0, Q), Err(Refusal::Range));
    assert_eq!(verdict(2, 0, &[]), Err(Refusal::Selector));
    assert_eq!(verdict(0, 0, &[]), Err(Refusal::Count));
    assert_eq!(verdict(0, 0, &[Q]), Err(Refusal::Bound));
    assert_eq!(verdict(0, 1, &[Q]), Err(Refusal::Range));
}

/// FIPS 204 Decompose, as it is written there.
#[test]
fn plain_parts_are_decompose() {
    let mut generator = SplitMix64::new(1);
    for set in [0, 1] {
        let alpha = SETS[set as usize].alpha as i32;
        for _ in 0..20_000 {
            let w = generator.coefficient(set, 0);
            let mut low = w as i32 % alpha;
            if low > alpha / 2 {
                low -= alpha;
            }
            let high = if w as i32 - low == Q as i32 - 1 {
                low -= 1;
                0
            } else {
                (w as i32 - low) / alpha
            };
            let high = high as u32;
            assert_eq!(parts(set, w), Ok(Parts { high, low }));
        }
    }
}

#[test]
fn books_join_to_what_was_drawn() {
    let mut generator = SplitMix64::new(2);
    for (set, kind) in [(0, 0), (0, 1), (1, 0), (1, 1)] {
        let pair = Pair::new(RandomRun::new(&mut generator, set, kind, 3));
        let shape = &pair.shape;
        let joined = |place| {
            let whole = Shared::load(&pair.books[0], place) + Shared::load(&pair.books[1], place);
            assert_eq!(whole, Shared::whole(whole.share(), &pair.run.keys));
            whole.share()
        };
        let vector_of = |place, length: usize, digit: usize| {
            for j in 0..length {
                assert_eq!(joined(place + j), u32::from(j == digit));
            }
        };
        assert_eq!(joined(0), pair.run.draw[0]);
        for c in 0..shape.count {
            let digits = shape.set.split(joined(shape.mask_at(c)));
            for (i, &digit) in digits.iter().enumerate() {
                vector_of(shape.vector_at(c, i), shape.set.bases[i] as usize, digit);
            }
            for t in 0..8 {
                let [a, b, ab] = [0, 1, 2].map(|k| joined(shape.triple_at(c, t) + k));
                assert_eq!(ab, mul(a, b));
            }
        }
        for group in 0..shape.groups() {
            let place = shape.group_at(group);
            let step = joined(place) / shape.check_step();
            vector_of(place + 1, shape.check_entries(), step as usize);
        }
    }
}

/// A number, then its parts under the server's keys, then under the phone's.
#[test]
fn numbers_of_a_dealt_number_are_in_order() {
    let keys = [[2, 3, 5, 7], [11, 13, 17, 19]];
    for (kind, count) in [(0, 1), (1, 2)] {
        let shape = Shape::new(0, kind, count).unwrap();
        let mut draw = vec![0; shape.draw_length()];
        // The first mask is 100, so that its digit 0 is 4; the phone's numbers of
        // it are 1 to 9, all others 0.
        draw[0] = 100;
        for (number, place) in (1..).zip(&mut draw[1..1 + WIDTH]) {
            *place = number;
        }
        let mut books = [vec![0; shape.book_length()], vec![0; shape.book_length()]];
        let [server, phone] = &mut books;
        deal(0, kind, count, keys, &draw, server, phone).unwrap();
        let at = |book: usize, place: usize| Shared::load(&books[book], place).0;
        assert_eq!(at(PHONE, 0), [1, 2, 3, 4, 5, 6, 7, 8, 9]);
        assert_eq!(
            at(SERVER, 0),
            [99, 198, 297, 496, 695, 1_094, 1_293, 1_692, 1_891]
        );
        for place in 0..16 {
            let one = [1, 2, 3, 5, 7, 11, 13, 17, 19];
            let expected = if place == 4 { one } else { [0; WIDTH] };
            assert_eq!(at(SERVER, 1 + place), expected);
            assert_eq!(at(PHONE, 1 + place), [0; WIDTH]);
        }
    }
}

#[test]
fn random_runs_give_the_plain_answer() {
    let mut generator = SplitMix64::new(3);
    let mut verdicts = [0; 2];
    for number in 0..1_600 {
        let (set, kind, count) = shape_of(number);
        let run = RandomRun::new(&mut generator, set, kind, count);
        let expected = plain_answer(&run);
        if kind == 1 {
            verdicts[expected[0] as usize] += 1;
        }
        let mut pair = Pair::new(run);
        assert_eq!(pair.play(), expected, "run {number}");
        for side in &pair.sides {
            assert_eq!(side.opening_count(), all_openings(kind, count));
        }
    }
    assert!(verdicts.iter().all(|&n| n > 50), "{verdicts:?}");
}

#[test]
fn wrapped_top_digit_is_corrected() {
    // w′ = q − 2 with r = q − 1, and w′ = 190,463 with r = 190,464.
    for (shifted, mask, y, high) in [(Q - 2, Q - 1, Q - 1, 43), (190_463, 190_464, Q - 1, 0)] {
        let w = sub(shifted, SETS[0].alpha / 2 - 1);
        let mut run = simple_run(0, 0, 0, &[w]);
        run.draw[0] = mask;
        let mut pair = Pair::new(run);
        pair.begin();
        // The phone's share is 0, so the server's message shows y.
        let first = pair.send(SERVER);
        assert_eq!(field_of(&first, 0), y);
        pair.take(PHONE, &first).unwrap();
        pair.pass(PHONE);
        for _ in 2..=7 {
            pair.pass(SERVER);
            pair.pass(PHONE);
        }
        assert_eq!(pair.answer(SERVER), [high]);
    }
}

#[test]
fn zero_check_step() {
    let shape = Shape::new(0, 0, 1).unwrap();
    let g = shape.check_step();
    assert_eq!(g, 1_396_736);
    let opened = add(Q - 1, mul(g, 5));
    assert_eq!(opened, 6_983_679);
    assert_ne!(opened / g, (Q - 1) / g);
}

/// Server, set 0, HIGH, N = 1, round 1, serial 1, share 1, four zero parts.
const SAMPLE: [u8; 23] = [
    0x00, 0x80, 0x00, 0x00, 0x00, 0x00, 0x00, 0x01, 0x00, 0x00, 0x02, 0x00, //
    0x00, 0x00, 0x00, 0x00, 0x00, 0x00, 0x00, 0x00, 0x00, 0x00, 0x00,
];

#[test]
fn message_sample() {
    let settings = Settings::new(0, 0, 1, 0).unwrap();
    let header = Header::new(SERVER, &settings, 1, 1);
    let mut message = vec![0xFF; message_length(1)];
    let opening = Opening {
        share: 1,
        checks: [0; KEYS],
    };
    write_message(&header, [opening].into_iter(), &mut message);
    assert_eq!(message, SAMPLE);
}

/// Every field of a message where it belongs, for every number of openings.
#[test]
fn messages_are_packed_in_order() {
    let mut generator = SplitMix64::new(22);
    let settings = Settings::new(1, 1, 3, 4_190_208).unwrap();
    let header = Header::new(PHONE, &settings, 5, 0x8000_0001);
    for count in 1..=MAX_OPENINGS {
        let mut field = || [0, 1, Q - 1, generator.below(Q)][generator.below(4) as usize];
        let openings: Vec<Opening> = (0..count)
            .map(|_| Opening {
                share: field(),
                checks: [(); KEYS].map(|()| field()),
            })
            .collect();
        let mut message = vec![0xFF; message_length(count)];
        write_message(&header, openings.iter().copied(), &mut message);
        // 1 1 1 010 101, then the bound in 23 bits, then the serial in 32.
        let expected = [0xEA, 0xBF, 0xF0, 0x00, 0x80, 0x00, 0x00, 0x01];
        assert_eq!(message[..8], expected);
        let fields: Vec<u32> = openings
            .iter()
            .flat_map(|opening| [&[opening.share][..], &opening.checks].concat())
            .collect();
        for (place, &field) in fields.iter().enumerate() {
            assert_eq!(field_of(&message, place), field, "{count} {place}");
        }
        let padding = 8 * message.len() - (64 + 23 * fields.len());
        assert!(padding < 8);
        assert_eq!(
            message[message.len() - 1]
                .trailing_zeros()
                .min(padding as u32),
            padding as u32
        );

        let mut read = vec![Opening::default(); count];
        read_message(&header, &message, &mut read).unwrap();
        assert_eq!(read, openings);
        for bit in 0..padding {
            let mut changed = message.clone();
            *changed.last_mut().unwrap() |= 1 << bit;
            let result = read_message(&header, &changed, &mut read);
            assert_eq!(result, Err(Refusal::Field));
        }
    }
}

#[test]
fn form_test_asks_in_order() {
    let good = FormTest {
        receiver: 1,
        set: 0,
        kind: 0,
        count: 1,
        bound: 0,
        round: 1,
        serial: 1,
    };
    let message = SAMPLE;
    assert_eq!(good.test(&message), Ok(()));
    let bad = Err;
    assert_eq!(
        FormTest {
            receiver: 2,
            ..good
        }
        .test(&message),
        bad(Refusal::Selector)
    );
    assert_eq!(
        FormTest { kind: 2, ..good }.test(&message),
        bad(Refusal::Selector)
    );
    assert_eq!(
        FormTest { count: 9, ..good }.test(&message),
        bad(Refusal::Count)
    );
    assert_eq!(
        FormTest { bound: 1, ..good }.test(&message),
        bad(Refusal::Bound)
    );
    assert_eq!(
        FormTest { round: 8, ..good }.test(&message),
        bad(Refusal::NotDue)
    );
    assert_eq!(
        FormTest { serial: 0, ..good }.test(&message),
        bad(Refusal::NotDue)
    );
    assert_eq!(good.test(&message[1..]), bad(Refusal::MessageLength));
    assert_eq!(
        FormTest {
            receiver: 0,
            ..good
        }
        .test(&message),
        bad(Refusal::Header)
    );
    assert_eq!(
        FormTest { round: 6, ..good }.test(&message),
        bad(Refusal::Header)
    );
    for padding in [1, 2, 4, 8, 16] {
        let mut changed = message;
        changed[22] = padding;
        assert_eq!(good.test(&changed), bad(Refusal::Field));
    }
    for field in 0..1 + KEYS {
        let with = |number| with_field(&message, field, |_| number);
        assert_eq!(good.test(&with(Q - 1)), Ok(()));
        assert_eq!(good.test(&with(Q)), bad(Refusal::Field));
        assert_eq!(good.test(&with((1 << 23) - 1)), bad(Refusal::Field));
    }
}

#[test]
fn tampered_openings_are_caught() {
    let mut generator = SplitMix64::new(4);
    for number in 0..280 {
        let (set, kind, count) = shape_of(number);
        let mut pair = Pair::new(RandomRun::new(&mut generator, set, kind, count));
        let bad_round = generator.between(1, 7) as u8;
        let from = generator.below(2) as usize;
        let to = 1 - from;
        pair.play_until(bad_round, from);
        let message = pair.send(from);

        // Change one field of one opening by a number that is not 0.
        let fields = (1 + KEYS) * pair.shape.openings(bad_round);
        let field = generator.below(fields as u32) as usize;
        let shift = generator.between(1, Q - 1);
        let changed = with_field(&message, field, |old| add(old, shift));
        pair.assert_stopped_by(to, &changed);

        // Stopped: nothing is due but a new run with a higher serial.
        assert_eq!(pair.take(to, &message), Err(Refusal::NotDue));
        let mut work = pair.works[to].clone();
        let mut side = pair.sides[to].clone();
        assert_eq!(
            side.begin(&pair.begin_with(to), &mut work),
            Err(Refusal::Serial)
        );
        let again = Begin {
            serial: pair.run.serial + 1,
            ..pair.begin_with(to)
        };
        assert_eq!(side.begin(&again, &mut work), Ok(()));
        assert_eq!(side.opening_count(), 0);
    }
}

#[test]
fn every_part_is_checked() {
    let mut generator = SplitMix64::new(17);
    for (set, kind, count) in [(0, 0, 2), (1, 1, 3)] {
        for (round, from, key) in rounds_and_keys() {
            let mut pair = Pair::new(RandomRun::new(&mut generator, set, kind, count));
            pair.play_until(round, from);
            let message = pair.send(from);
            let opening = generator.below(pair.shape.openings(round) as u32) as usize;
            let shift = generator.between(1, Q - 1);
            let part = (1 + KEYS) * opening + 1 + key;
            let changed = with_field(&message, part, |old| add(old, shift));
            pair.assert_stopped_by(1 - from, &changed);
        }
    }
}

/// Every round, sender and place of a key.
fn rounds_and_keys() -> impl Iterator<Item = (u8, usize, usize)> {
    (1..=7).flat_map(|round| {
        [SERVER, PHONE]
            .into_iter()
            .flat_map(move |from| (0..KEYS).map(move |key| (round, from, key)))
    })
}

#[test]
fn swapped_parts_are_refused() {
    let mut generator = SplitMix64::new(18);
    for (round, from, key) in rounds_and_keys() {
        for other in key + 1..KEYS {
            let mut run = RandomRun::new(&mut generator, 0, 0, 1);
            // Shares that are drawn evenly, under keys that are pairwise different.
            run.keys = [[2, 3, 5, 7], [11, 13, 17, 19]];
            for number in &mut run.draw {
                *number = generator.below(Q);
            }
            run.share_inputs_anew();
            let mut pair = Pair::new(run);
            pair.play_until(round, from);
            let message = pair.send(from);
            let [one, two] = [1 + key, 1 + other].map(|field| field_of(&message, field));
            assert_ne!(one, two);
            let changed = with_field(&message, 1 + key, |_| two);
            let changed = with_field(&changed, 1 + other, |_| one);
            pair.assert_stopped_by(1 - from, &changed);
        }
    }
}

#[test]
fn keys_may_be_equal() {
    let mut generator = SplitMix64::new(23);
    for key in [1, 2, Q - 1] {
        for kind in [0, 1] {
            let mut run = RandomRun::new(&mut generator, 1, kind, 2);
            run.keys = [[key; KEYS]; 2];
            run.share_inputs_anew();
            let expected = plain_answer(&run);
            assert_eq!(Pair::new(run).play(), expected);
        }
    }
}

#[test]
fn every_key_is_asked() {
    let mut generator = SplitMix64::new(19);
    let pair = Pair::new(RandomRun::new(&mut generator, 1, 0, 1));
    let run = &pair.run;
    for group in [SERVER, PHONE] {
        for key in 0..KEYS {
            for bad in [0, Q, Q + 1, u32::MAX] {
                let mut keys = run.keys;
                keys[group][key] = bad;
                let begin = Begin {
                    keys: keys[group],
                    ..pair.begin_with(group)
                };
                let mut side = Side::new();
                let mut work = vec![7; WORK_LENGTH];
                let result = side.begin(&begin, &mut work).map_err(Refusal::number);
                assert_eq!(result, Err(4));
                assert_eq!(side, Side::new());
                assert!(work == [7; WORK_LENGTH]);

                let [mut server, mut phone] = pair.books.clone();
                let result = deal(
                    run.set,
                    run.kind,
                    1,
                    keys,
                    &run.draw,
                    &mut server,
                    &mut phone,
                );
                assert_eq!(result.map_err(Refusal::number), Err(4));
                assert!([server, phone] == pair.books);
            }
            for good in [1, Q - 1] {
                let mut keys = run.keys;
                keys[group][key] = good;
                let begin = Begin {
                    keys: keys[group],
                    ..pair.begin_with(group)
                };
                let mut work = vec![7; WORK_LENGTH];
                assert_eq!(Side::new().begin(&begin, &mut work), Ok(()));
            }
        }
    }
}

/// A 23-bit field of a message, read bit by bit.
fn field_of(message: &[u8], field: usize) -> u32 {
    let start = 64 + 23 * field;
    (start..start + 23).fold(0, |bits, at| {
        bits << 1 | u32::from(message[at / 8] >> (7 - at % 8) & 1)
    })
}

/// A message with one 23-bit field replaced, bit by bit.
fn with_field(message: &[u8], field: usize, change: impl Fn(u32) -> u32) -> Vec<u8> {
    let start = 64 + 23 * field;
    let new = change(field_of(message, field));
    let mut changed = message.to_vec();
    for (k, at) in (start..start + 23).enumerate() {
        let bit = (new >> (22 - k) & 1) as u8;
        let mask = 1 << (7 - at % 8);
        changed[at / 8] = (changed[at / 8] & !mask) | (bit * mask);
    }
    changed
}

#[test]
fn calls_refuse_in_order() {
    let mut generator = SplitMix64::new(5);
    let mut pair = Pair::new(RandomRun::new(&mut generator, 0, 0, 2));
    let fresh = Side::new();
    let good = pair.begin_with(SERVER);
    let mut work = vec![Q; WORK_LENGTH];
    let mut refused = |begin: Begin| {
        let mut side = fresh.clone();
        let result = side.begin(&begin, &mut work);
        assert_eq!(side, fresh);
        result.unwrap_err().number()
    };
    let large = [Q; 2 * WIDTH];
    assert_eq!(
        refused(Begin {
            side: 2,
            count: 0,
            ..good
        }),
        1
    );
    assert_eq!(
        refused(Begin {
            count: 0,
            bound: 1,
            ..good
        }),
        2
    );
    assert_eq!(
        refused(Begin {
            bound: 1,
            keys: [0; KEYS],
            ..good
        }),
        3
    );
    assert_eq!(
        refused(Begin {
            keys: [Q; KEYS],
            book: &[],
            ..good
        }),
        4
    );
    assert_eq!(
        refused(Begin {
            book: &[],
            inputs: &large,
            ..good
        }),
        5
    );
    assert_eq!(
        refused(Begin {
            inputs: &large,
            serial: 0,
            ..good
        }),
        6
    );
    assert_eq!(refused(Begin { serial: 0, ..good }), 7);

    let mut message = [0; MAX_BYTES];
    assert_eq!(Side::new().send(&[], &mut message), Err(Refusal::NotDue));
    assert_eq!(Side::new().take(&mut [], &message), Err(Refusal::NotDue));
    assert_eq!(Side::new().answer(&mut []), Err(Refusal::NotDue));
    assert_eq!(Side::new().opening_count(), 0);

    pair.begin();
    let mut server = pair.sides[SERVER].clone();
    let mut work = pair.works[SERVER].clone();
    assert_eq!(
        server.begin(&pair.begin_with(SERVER), &mut work),
        Err(Refusal::NotDue)
    );
    assert_eq!(server.take(&mut work, &[]), Err(Refusal::NotDue));
    assert_eq!(server.send(&work[1..], &mut []), Err(Refusal::Length));
    work[WORK_LENGTH - 1] = Q;
    assert_eq!(server.send(&work, &mut []), Err(Refusal::Range));
    work[WORK_LENGTH - 1] = 0;
    assert_eq!(server.send(&work, &mut []), Err(Refusal::Output));
    assert_eq!(server, pair.sides[SERVER]);

    let first = pair.send(SERVER);
    assert_eq!(pair.take(SERVER, &first), Err(Refusal::Header));
    pair.take(PHONE, &first).unwrap();
    assert_eq!(pair.sides[PHONE].opening_count(), 2);
    let reply = pair.send(PHONE);
    assert_eq!(pair.take(PHONE, &first), Err(Refusal::MessageLength));
    pair.take(SERVER, &reply).unwrap();
    pair.pass(SERVER);
    pair.pass(PHONE);
    assert_eq!(pair.sides.each_ref().map(Side::opening_count), [10, 10]);
    for _ in 3..=6 {
        pair.pass(SERVER);
        pair.pass(PHONE);
    }
    pair.pass(SERVER);
    let mut answer = [9; 4];
    assert_eq!(pair.sides[PHONE].answer(&mut answer), Err(Refusal::NotDue));
    pair.pass(PHONE);
    assert_eq!(
        pair.sides[PHONE].answer(&mut answer[..1]),
        Err(Refusal::Output)
    );
    assert_eq!(pair.sides[PHONE].answer(&mut answer), Ok(2));
    assert_eq!(answer[2..], [9, 9]);
    assert_eq!(pair.shape.kind, Kind::High);
}

#[test]
fn answers_out_of_range_are_refused() {
    let mut generator = SplitMix64::new(16);
    let mut in_range = [0; 2];
    for number in 0..320 {
        let (set, kind, count) = shape_of(number);
        let mut pair = Pair::new(RandomRun::new(&mut generator, set, kind, count));
        let limit = if kind == 0 { [44, 16][set as usize] } else { 2 };
        let mut wanted = plain_answer(&pair.run);
        for (group, number) in wanted.iter_mut().enumerate() {
            let new = match generator.below(8) {
                0 => limit,
                1 => generator.between(limit, Q - 1),
                _ => limit - 1,
            };
            pair.raise_answer(group, sub(new, *number));
            *number = new;
        }
        pair.play_rounds();

        let good = wanted.iter().all(|&number| number < limit);
        in_range[usize::from(good)] += 1;
        for side in &pair.sides {
            let before = side.clone();
            let mut out = [9; MAX_COUNT];
            if good {
                assert_eq!(side.answer(&mut []), Err(Refusal::Output));
                assert_eq!(side.answer(&mut out), Ok(wanted.len()));
                assert_eq!(out[..wanted.len()], wanted);
            } else {
                assert_eq!(side.answer(&mut []), Err(Refusal::Answer));
                assert_eq!(side.answer(&mut out), Err(Refusal::Answer));
                assert_eq!(out, [9; MAX_COUNT]);
            }
            assert_eq!(*side, before);
            assert_eq!(side.opening_count(), all_openings(kind, count));
        }
    }
    assert!(in_range.iter().all(|&n| n > 50), "{in_range:?}");
}

#[test]
fn deal_refuses_in_order() {
    let shape = Shape::new(0, 0, 1).unwrap();
    let length = shape.book_length();
    let mut server = vec![0; length];
    let mut phone = vec![0; length];
    let mut draw = vec![0; shape.draw_length()];
    draw[3] = Q;
    let mut call = |set, count, key, from: usize| {
        deal(
            set,
            0,
            count,
            [[1; KEYS], [key; KEYS]],
            &draw[from..],
            &mut server,
            &mut phone,
        )
        .unwrap_err()
        .number()
    };
    assert_eq!(call(2, 0, 0, 1), 1);
    assert_eq!(call(0, 0, 0, 1), 2);
    assert_eq!(call(0, 1, 0, 1), 4);
    assert_eq!(call(0, 1, 1, 1), 5);
    assert_eq!(call(0, 1, 1, 0), 6);
}

#[test]
fn books_in_place_of_a_draw() {
    let mut generator = SplitMix64::new(15);
    for number in 0..8 {
        let run = RandomRun::new(&mut generator, number % 2, number / 2 % 2, number / 4 + 1);
        let mut numbers = run.numbers_with_books();
        assert_eq!(transcript(&numbers), transcript(&run.numbers()));
        for length in [0, 5, 9, 12, 13 + WIDTH * run.secret.len()] {
            assert_eq!(transcript(&numbers[..length]), Err(Refusal::Length));
        }
        // One number more or less makes it a draw, of a wrong length.
        numbers.push(0);
        assert_eq!(transcript(&numbers), Err(Refusal::Length));
        numbers.truncate(numbers.len() - 2);
        assert_eq!(transcript(&numbers), Err(Refusal::Length));
        // The last number of the phone's book is not below q.
        numbers.push(Q);
        assert_eq!(transcript(&numbers), Err(Refusal::Range));
    }
}

#[test]
fn line_sample() {
    assert_eq!(lines("H - 0 95233\nB - 1 0 0\nH 1 0"), "1 1\n2 1\n3 !2\n");
    assert_eq!(lines("H - 0 95233\nB - 1 0 0\nH 1 0\n"), "1 1\n2 1\n3 !2\n");
}

#[test]
fn line_forms() {
    assert_eq!(lines(""), "");
    assert_eq!(lines("\n"), "1 !12\n");
    let eight = format!("H 0 0{}", " 95233".repeat(8));
    assert_eq!(lines(&eight), "1 1 1 1 1 1 1 1 1\n");
    for (line, answer) in [
        ("H 2 0", "!1"),
        ("H 4294967295 1 8380417", "!1"),
        ("H 0 1", "!2"),
        ("H 0 1 8380417", "!3"),
        ("B 0 0 8380417", "!3"),
        ("B 0 4190209 1", "!3"),
        ("H 0 0 8380417", "!6"),
        ("H 0 0 4294967295", "!6"),
        ("H 0 0 4294967296", "!12"),
        ("H 2 1 x", "!12"),
        ("H 0 0 0000095233", "1"),
        ("H 0000000001 0 261889", "1"),
        ("H 0 0 00000095233", "!12"),
        ("H -0 0 1", "!12"),
        ("H - - 1", "!12"),
        ("H - 0 -", "!12"),
        ("H", "!12"),
        ("H 0", "!12"),
        (" H 0 0 1", "!12"),
        ("H 0 0 1 ", "!12"),
        ("H 0  0 1", "!12"),
        ("H 0 0 1\r", "!12"),
        ("H\t0 0 1", "!12"),
        ("h 0 0 1", "!12"),
        ("H 0 0 +1", "!12"),
        ("B 1 2 8380416 1 0", "1"),
        ("B 1 2 8380415 1 0", "0"),
    ] {
        assert_eq!(lines(line), format!("1 {answer}\n"), "{line:?}");
    }
}

#[test]
fn line_length() {
    let padded = |length: usize| {
        let mut line = String::from("H 0 0");
        while line.len() + 2 <= length {
            line.push_str(" 1");
        }
        if line.len() < length {
            line.push('1');
        }
        line
    };
    assert_eq!(padded(1_024).len(), 1_024);
    let good = "H 0 0 1";
    for (length, answer) in [
        (1_023, 2),
        (1_024, 2),
        (1_025, 12),
        (1_026, 12),
        (200_000, 12),
    ] {
        let line = padded(length);
        assert_eq!(lines(&line), format!("1 !{answer}\n"), "{length}");
        let text = format!("{line}\n{good}\n");
        assert_eq!(lines(&text), format!("1 !{answer}\n2 0\n"), "{length}");
    }
}

#[test]
fn line_numbers_without_a_serial() {
    let mut output = Vec::new();
    let input = "H 0 0 95233\nH 0 0 95233\nH 0 0 95233\n";
    line_program::run_after(u64::from(u32::MAX) - 1, input.as_bytes(), &mut output).unwrap();
    let expected = "4294967295 1\n4294967296 !12\n4294967297 !12\n";
    assert_eq!(String::from_utf8(output).unwrap(), expected);
}
