//! Messages: a header and the openings of a round, bit-packed, most
//! significant bit first, zero bits filling the last byte.

use crate::field::Q;
use crate::refusal::{ask, Refusal};
use crate::settings::{Settings, KEYS, MAX_COUNT, ROUNDS};

/// The most openings in a message.
pub const MAX_OPENINGS: usize = 4 * MAX_COUNT;
/// The longest message, in bytes.
pub const MAX_BYTES: usize = message_length(MAX_OPENINGS);

const FIELD_BITS: u32 = 23;
const OPENING_BITS: usize = (1 + KEYS) * FIELD_BITS as usize;

/// Bytes of a message with this many openings.
pub const fn message_length(openings: usize) -> usize {
    Header::BYTES + (OPENING_BITS * openings).div_ceil(8)
}

/// Reads fields of a lent message; keeps the next bit's position.
struct BitReader<'a> {
    bytes: &'a [u8],
    position: usize,
}

impl BitReader<'_> {
    /// The next field, of 1 to 32 bits.
    fn next(&mut self, width: u32) -> u32 {
        let end = self.position + width as usize;
        let last = end.div_ceil(8);
        let window = self.bytes[self.position / 8..last]
            .iter()
            .fold(0u64, |bits, &byte| bits << 8 | u64::from(byte));
        self.position = end;
        (window >> (8 * last - end) & ((1 << width) - 1)) as u32
    }

    /// Whether all bits from the position on are zero.
    fn rest_is_zero(&mut self) -> bool {
        let left = (8 * self.bytes.len() - self.position) as u32;
        left == 0 || self.next(left) == 0
    }
}

/// Writes fields into a lent output.
struct BitWriter<'a> {
    out: std::slice::IterMut<'a, u8>,
    pending: u64,
    pending_bits: u32,
}

impl<'a> BitWriter<'a> {
    fn new(out: &'a mut [u8]) -> Self {
        BitWriter {
            out: out.iter_mut(),
            pending: 0,
            pending_bits: 0,
        }
    }

    fn push_byte(&mut self, byte: u8) {
        *self.out.next().expect("the output is long enough") = byte;
    }

    fn put(&mut self, value: u32, width: u32) {
        self.pending = self.pending << width | u64::from(value);
        self.pending_bits += width;
        while self.pending_bits >= 8 {
            self.pending_bits -= 8;
            self.push_byte((self.pending >> self.pending_bits) as u8);
        }
    }

    /// Fills the last byte with zero bits.
    fn finish(mut self) {
        if self.pending_bits > 0 {
            self.put(0, 8 - self.pending_bits);
        }
    }
}

/// The fields in front of a message.
#[derive(Clone, Copy, Debug, PartialEq, Eq)]
pub struct Header {
    pub sender: u32,
    pub set: u32,
    pub kind: u32,
    pub count: u32,
    pub round: u32,
    pub bound: u32,
    pub serial: u32,
}

impl Header {
    const SENDER_BITS: u32 = 1;
    const SET_BITS: u32 = 1;
    const KIND_BITS: u32 = 1;
    const COUNT_BITS: u32 = 3;
    const ROUND_BITS: u32 = 3;
    const BOUND_BITS: u32 = 23;
    const SERIAL_BITS: u32 = 32;

    const BITS: u32 = Self::SENDER_BITS
        + Self::SET_BITS
        + Self::KIND_BITS
        + Self::COUNT_BITS
        + Self::ROUND_BITS
        + Self::BOUND_BITS
        + Self::SERIAL_BITS;
    pub const BYTES: usize = Self::BITS as usize / 8;

    pub fn new(sender: usize, settings: &Settings, round: u8, serial: u32) -> Header {
        Header {
            sender: sender as u32,
            set: settings.shape.set_number,
            kind: settings.shape.kind_number(),
            count: settings.shape.count as u32,
            round: u32::from(round),
            bound: settings.bound,
            serial,
        }
    }

    fn read(reader: &mut BitReader) -> Header {
        Header {
            sender: reader.next(Self::SENDER_BITS),
            set: reader.next(Self::SET_BITS),
            kind: reader.next(Self::KIND_BITS),
            count: reader.next(Self::COUNT_BITS) + 1,
            round: reader.next(Self::ROUND_BITS),
            bound: reader.next(Self::BOUND_BITS),
            serial: reader.next(Self::SERIAL_BITS),
        }
    }

    fn write(&self, writer: &mut BitWriter) {
        writer.put(self.sender, Self::SENDER_BITS);
        writer.put(self.set, Self::SET_BITS);
        writer.put(self.kind, Self::KIND_BITS);
        writer.put(self.count - 1, Self::COUNT_BITS);
        writer.put(self.round, Self::ROUND_BITS);
        writer.put(self.bound, Self::BOUND_BITS);
        writer.put(self.serial, Self::SERIAL_BITS);
    }
}

/// What a side sends of an opened number.
#[derive(Clone, Copy, Debug, Default, PartialEq, Eq)]
pub struct Opening {
    pub share: u32,
    /// The parts under the receiver's keys.
    pub checks: [u32; KEYS],
}

/// Writes a message; the output's length is exact.
pub fn write_message(header: &Header, openings: impl Iterator<Item = Opening>, out: &mut [u8]) {
    let mut writer = BitWriter::new(out);
    header.write(&mut writer);
    for opening in openings {
        writer.put(opening.share, FIELD_BITS);
        for check in opening.checks {
            writer.put(check, FIELD_BITS);
        }
    }
    writer.finish();
}

/// Reads a message whose header is known. Asks questions 10 to 12.
pub fn read_message(
    expected: &Header,
    message: &[u8],
    openings: &mut [Opening],
) -> Result<(), Refusal> {
    ask(
        message.len() == message_length(openings.len()),
        Refusal::MessageLength,
    )?;
    let mut reader = BitReader {
        bytes: message,
        position: 0,
    };
    ask(Header::read(&mut reader) == *expected, Refusal::Header)?;
    for opening in openings {
        opening.share = reader.next(FIELD_BITS);
        opening.checks = [(); KEYS].map(|()| reader.next(FIELD_BITS));
        let good = opening.share < Q && opening.checks.iter().all(|&check| check < Q);
        ask(good, Refusal::Field)?;
    }
    ask(reader.rest_is_zero(), Refusal::Field)
}

/// The message-form test. Asks questions 1, 2, 3, 8 and 10 to 12.
#[derive(Clone, Copy, Debug)]
pub struct FormTest {
    pub receiver: u32,
    pub set: u32,
    pub kind: u32,
    pub count: u32,
    pub bound: u32,
    pub round: u32,
    pub serial: u32,
}

impl FormTest {
    pub fn test(&self, message: &[u8]) -> Result<(), Refusal> {
        ask(self.receiver < 2, Refusal::Selector)?;
        let settings = Settings::new(self.set, self.kind, self.count, self.bound)?;
        ask(
            (1..=u32::from(ROUNDS)).contains(&self.round),
            Refusal::NotDue,
        )?;
        ask(self.serial > 0, Refusal::NotDue)?;
        let round = self.round as u8;
        let header = Header::new(1 - self.receiver as usize, &settings, round, self.serial);
        let mut openings = [Opening::default(); MAX_OPENINGS];
        let count = settings.shape.openings(round);
        read_message(&header, message, &mut openings[..count])
    }
}
