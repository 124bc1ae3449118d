//! A run with every message written down.

use std::fmt::Write;

use crate::dealer::deal;
use crate::message::MAX_BYTES;
use crate::refusal::Refusal;
use crate::settings::{Shape, KEYS, MAX_COUNT, WIDTH};
use crate::side::{Begin, Side, PHONE, SERVER, WORK_LENGTH};

/// Plays the run that a list of numbers describes: set, kind, count, bound,
/// serial, the server's keys, the phone's keys, the server's inputs, the phone's
/// inputs (a shared number for each coefficient), the draw.
/// Where exactly as many numbers are left as the two books have, they are the
/// server's book and the phone's, and nothing is dealt.
///
/// Gives a line `SENDER ROUND HEX` for every message, then each side's answer
/// or its refusal, then each side's opening count.
pub fn transcript(numbers: &[u32]) -> Result<String, Refusal> {
    let (&[set, kind, count, bound, serial], rest) =
        numbers.split_first_chunk().ok_or(Refusal::Length)?;
    let (&server_keys, rest) = rest.split_first_chunk::<KEYS>().ok_or(Refusal::Length)?;
    let (&phone_keys, rest) = rest.split_first_chunk::<KEYS>().ok_or(Refusal::Length)?;
    let keys = [server_keys, phone_keys];
    let shape = Shape::new(set, kind, count)?;
    let (server_inputs, rest) = rest
        .split_at_checked(WIDTH * shape.count)
        .ok_or(Refusal::Length)?;
    let (phone_inputs, rest) = rest
        .split_at_checked(WIDTH * shape.count)
        .ok_or(Refusal::Length)?;
    let inputs = [server_inputs, phone_inputs];

    let length = shape.book_length();
    let mut dealt = [vec![0; length], vec![0; length]];
    let books: [&[u32]; 2] = if rest.len() == 2 * length {
        [&rest[..length], &rest[length..]]
    } else {
        let [server_book, phone_book] = &mut dealt;
        deal(set, kind, count, keys, rest, server_book, phone_book)?;
        [&dealt[0], &dealt[1]]
    };

    let mut sides = [Side::new(), Side::new()];
    let mut works = [vec![0; WORK_LENGTH], vec![0; WORK_LENGTH]];
    for side in [SERVER, PHONE] {
        let begin = Begin {
            side: side as u32,
            set,
            kind,
            count,
            bound,
            serial,
            keys: keys[side],
            inputs: inputs[side],
            book: books[side],
        };
        sides[side].begin(&begin, &mut works[side])?;
    }

    let mut text = String::new();
    let mut message = [0; MAX_BYTES];
    for round in 1..=7 {
        for (from, to) in [(SERVER, PHONE), (PHONE, SERVER)] {
            let length = sides[from].send(&works[from], &mut message)?;
            let message = &message[..length];
            write!(text, "{from} {round} ").unwrap();
            for byte in message {
                write!(text, "{byte:02x}").unwrap();
            }
            text.push('\n');
            sides[to].take(&mut works[to], message)?;
        }
    }
    for (number, side) in sides.iter().enumerate() {
        let mut answer = [0; MAX_COUNT];
        match side.answer(&mut answer) {
            Ok(length) => {
                write!(text, "answer {number}").unwrap();
                for value in &answer[..length] {
                    write!(text, " {value}").unwrap();
                }
            }
            Err(refusal) => write!(text, "refused answer {number} {}", refusal.number()).unwrap(),
        }
        text.push('\n');
    }
    for (number, side) in sides.iter().enumerate() {
        writeln!(text, "openings {number} {}", side.opening_count()).unwrap();
    }
    Ok(text)
}
