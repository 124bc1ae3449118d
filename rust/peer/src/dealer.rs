//! The dealer: both sides' books from a draw.

use std::slice::{ChunksExactMut, Iter};

use crate::field::{all_below_q, mul};
use crate::refusal::{ask, Refusal};
use crate::settings::{ask_keys, Kind, Shape, KEYS, TRIPLES, WIDTH};
use crate::shared::Shared;

/// Makes both books, with the server's keys and the phone's. Asks questions 1,
/// 2, 4, 5 and 6.
pub fn deal(
    set: u32,
    kind: u32,
    count: u32,
    keys: [[u32; KEYS]; 2],
    draw: &[u32],
    server_book: &mut [u32],
    phone_book: &mut [u32],
) -> Result<(), Refusal> {
    let shape = Shape::new(set, kind, count)?;
    ask_keys(keys.as_flattened())?;
    let length = shape.book_length();
    ask(draw.len() == shape.draw_length(), Refusal::Length)?;
    ask(server_book.len() == length, Refusal::Length)?;
    ask(phone_book.len() == length, Refusal::Length)?;
    ask(all_below_q(draw), Refusal::Range)?;

    let mut dealer = Dealer {
        keys,
        draw: draw.iter(),
        server: server_book.chunks_exact_mut(WIDTH),
        phone: phone_book.chunks_exact_mut(WIDTH),
    };
    for _ in 0..shape.count {
        let mask = dealer.drawn();
        for (digit, base) in shape.set.split(mask).into_iter().zip(shape.set.bases) {
            dealer.vector(digit, base as usize);
        }
        for _ in 0..TRIPLES {
            let a = dealer.drawn();
            let b = dealer.drawn();
            dealer.put(mul(a, b));
        }
        if shape.kind == Kind::High {
            dealer.group(&shape);
        }
    }
    if shape.kind == Kind::Bound {
        dealer.group(&shape);
    }
    Ok(())
}

struct Dealer<'a> {
    keys: [[u32; KEYS]; 2],
    draw: Iter<'a, u32>,
    server: ChunksExactMut<'a, u32>,
    phone: ChunksExactMut<'a, u32>,
}

impl Dealer<'_> {
    fn next(&mut self) -> u32 {
        *self.draw.next().expect("the draw's length was asked")
    }

    /// Deals a number: the phone's numbers are drawn, the server's are the
    /// difference.
    fn put(&mut self, number: u32) {
        let phone = Shared([(); WIDTH].map(|()| self.next()));
        let server = Shared::whole(number, &self.keys) - phone;
        let place = "the books' lengths were asked";
        phone.store(self.phone.next().expect(place), 0);
        server.store(self.server.next().expect(place), 0);
    }

    /// Draws a number and deals it.
    fn drawn(&mut self) -> u32 {
        let number = self.next();
        self.put(number);
        number
    }

    /// Deals the vector of a number: all 0 but a 1 at its position.
    fn vector(&mut self, position: usize, length: usize) {
        for j in 0..length {
            self.put(u32::from(j == position));
        }
    }

    /// Deals a zero-check group: a mask and the vector of its step.
    fn group(&mut self, shape: &Shape) {
        let mask = self.drawn();
        let step = mask / shape.check_step();
        self.vector(step as usize, shape.check_entries());
    }
}
