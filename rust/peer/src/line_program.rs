//! The line program: one run for each input line.

use std::io::{self, BufRead, Read, Write};

use crate::dealer::deal;
use crate::message::MAX_BYTES;
use crate::refusal::Refusal;
use crate::settings::{Shape, KEYS, MAX_COUNT, WIDTH};
use crate::shared::Shared;
use crate::side::{Begin, Side, PHONE, SERVER, WORK_LENGTH};

/// The longest line, without its line end.
const MAX_LINE: usize = 1_024;
/// Both sides' keys.
const BOTH_KEYS: [[u32; KEYS]; 2] = [[1; KEYS]; 2];

/// Answers every line of the input.
pub fn run(input: impl BufRead, output: impl Write) -> io::Result<()> {
    run_after(0, input, output)
}

/// Answers every line of the input, numbered from the one after `number`. A
/// line whose number is no serial is answered as malformed.
pub(crate) fn run_after(
    mut number: u64,
    mut input: impl BufRead,
    mut output: impl Write,
) -> io::Result<()> {
    let mut line = Vec::with_capacity(MAX_LINE + 1);
    let mut coefficients = Vec::new();
    let mut table = Table::new();
    while let Some(fits) = read_line(&mut input, &mut line)? {
        number += 1;
        let answer = match u32::try_from(number) {
            Ok(serial) if fits => parse(&line, &mut coefficients)
                .ok_or(Refusal::Field)
                .and_then(|request| table.play(&request, &coefficients, serial)),
            _ => Err(Refusal::Field),
        };
        write!(output, "{number}")?;
        match answer {
            Ok(values) => {
                for value in values {
                    write!(output, " {value}")?;
                }
            }
            Err(refusal) => write!(output, " !{}", refusal.number())?,
        }
        output.write_all(b"\n")?;
    }
    output.flush()
}

/// Reads a line without its line end. Gives whether its length is allowed,
/// or `None` at the end of the input; the rest of a longer line is skipped.
fn read_line(input: &mut impl BufRead, line: &mut Vec<u8>) -> io::Result<Option<bool>> {
    line.clear();
    let limit = MAX_LINE as u64 + 1;
    if input.by_ref().take(limit).read_until(b'\n', line)? == 0 {
        return Ok(None);
    }
    if line.last() == Some(&b'\n') {
        line.pop();
    } else if line.len() > MAX_LINE {
        input.skip_until(b'\n')?;
        return Ok(Some(false));
    }
    Ok(Some(true))
}

struct Request {
    kind: u32,
    set: u32,
    bound: u32,
}

/// Reads the fields of a line; `None` if it is malformed.
fn parse(line: &[u8], coefficients: &mut Vec<u32>) -> Option<Request> {
    let mut fields = line.split(|&byte| byte == b' ');
    let kind = match fields.next()? {
        b"H" => 0,
        b"B" => 1,
        _ => return None,
    };
    let set = match fields.next()? {
        b"-" => 0,
        field => parse_number(field)?,
    };
    let bound = parse_number(fields.next()?)?;
    coefficients.clear();
    for field in fields {
        coefficients.push(parse_number(field)?);
    }
    Some(Request { kind, set, bound })
}

/// An unsigned decimal of 1 to 10 digits, at most 2³² − 1.
fn parse_number(field: &[u8]) -> Option<u32> {
    if !(1..=10).contains(&field.len()) {
        return None;
    }
    let mut value: u64 = 0;
    for byte in field {
        if !byte.is_ascii_digit() {
            return None;
        }
        value = 10 * value + u64::from(byte - b'0');
    }
    u32::try_from(value).ok()
}

/// Both sides with their buffers, kept from line to line.
struct Table {
    sides: [Side; 2],
    works: [Vec<u32>; 2],
    books: [Vec<u32>; 2],
    draw: Vec<u32>,
    inputs: Vec<u32>,
    message: [u8; MAX_BYTES],
    answer: [u32; MAX_COUNT],
}

impl Table {
    fn new() -> Table {
        Table {
            sides: [Side::new(), Side::new()],
            works: [vec![0; WORK_LENGTH], vec![0; WORK_LENGTH]],
            books: [Vec::new(), Vec::new()],
            draw: Vec::new(),
            inputs: Vec::new(),
            message: [0; MAX_BYTES],
            answer: [0; MAX_COUNT],
        }
    }

    /// Deals, plays the seven rounds and gives the server's answer.
    fn play(
        &mut self,
        request: &Request,
        coefficients: &[u32],
        serial: u32,
    ) -> Result<&[u32], Refusal> {
        let &Request { kind, set, bound } = request;
        let count = coefficients.len() as u32;
        let shape = Shape::new(set, kind, count)?;

        self.draw.clear();
        self.draw.resize(shape.draw_length(), 0);
        let [server_book, phone_book] = &mut self.books;
        server_book.resize(shape.book_length(), 0);
        phone_book.resize(shape.book_length(), 0);
        let draw = &self.draw;
        deal(set, kind, count, BOTH_KEYS, draw, server_book, phone_book)?;

        self.inputs.clear();
        for &coefficient in coefficients {
            self.inputs.extend(Shared::whole(coefficient, &BOTH_KEYS).0);
        }
        let zeros = [0; WIDTH * MAX_COUNT];
        let inputs = [&self.inputs[..], &zeros[..WIDTH * shape.count]];

        for side in [SERVER, PHONE] {
            let begin = Begin {
                side: side as u32,
                set,
                kind,
                count,
                bound,
                serial,
                keys: BOTH_KEYS[side],
                inputs: inputs[side],
                book: &self.books[side],
            };
            self.sides[side].begin(&begin, &mut self.works[side])?;
        }
        for _round in 1..=7 {
            self.pass(SERVER, PHONE)?;
            self.pass(PHONE, SERVER)?;
        }
        let length = self.sides[SERVER].answer(&mut self.answer)?;
        Ok(&self.answer[..length])
    }

    /// Passes a message's bytes from one side to the other.
    fn pass(&mut self, from: usize, to: usize) -> Result<(), Refusal> {
        let length = self.sides[from].send(&self.works[from], &mut self.message)?;
        self.sides[to].take(&mut self.works[to], &self.message[..length])
    }
}
