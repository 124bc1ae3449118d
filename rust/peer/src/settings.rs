//! Parameter sets, settings, and all lengths that follow from them.

use crate::field::Q;
use crate::refusal::{ask, Refusal};

pub const MAX_COUNT: usize = 8;
pub const MAX_BOUND: u32 = (Q - 1) / 2;
pub const ROUNDS: u8 = 7;

/// Keys of a side.
pub const KEYS: usize = 4;
/// Numbers of a shared number: the share, then the parts under the server's
/// keys, then the parts under the phone's keys.
pub const WIDTH: usize = 1 + 2 * KEYS;
/// The most shared numbers in a book: HIGH in set 0.
pub const MAX_SHARED: usize = 165 * MAX_COUNT;

/// Digits of a split number.
pub const DIGITS: usize = 5;
/// Product triples for each coefficient.
pub const TRIPLES: usize = 8;
/// The zero check of HIGH counts up to this number.
pub const HIGH_CHECK_MAX: u32 = 5;

/// The constants of a parameter set.
#[derive(Debug, PartialEq, Eq)]
pub struct ParameterSet {
    /// The step α.
    pub alpha: u32,
    /// The parts s; s × α = q − 1.
    pub parts: u32,
    /// Bases of the digits, lowest first; the last is s + 1.
    pub bases: [u32; DIGITS],
}

pub const SETS: [ParameterSet; 2] = [
    ParameterSet {
        alpha: 190_464,
        parts: 44,
        bases: [16, 16, 24, 31, 45],
    },
    ParameterSet {
        alpha: 523_776,
        parts: 16,
        bases: [16, 32, 31, 33, 17],
    },
];

impl ParameterSet {
    /// The five digits of a number below q, lowest first.
    pub fn split(&self, number: u32) -> [usize; DIGITS] {
        let mut rest = number;
        self.bases.map(|base| {
            let digit = rest % base;
            rest /= base;
            digit as usize
        })
    }

    /// Sum of the lengths of a number's five vectors.
    pub fn vectors(&self) -> usize {
        self.bases.iter().sum::<u32>() as usize
    }
}

#[derive(Clone, Copy, Debug, PartialEq, Eq)]
pub enum Kind {
    High,
    Bound,
}

/// Set, kind and count: all that lengths depend on.
#[derive(Clone, Copy, Debug, PartialEq, Eq)]
pub struct Shape {
    pub set_number: u32,
    pub set: &'static ParameterSet,
    pub kind: Kind,
    pub count: usize,
}

impl Shape {
    /// Asks questions 1 and 2.
    pub fn new(set: u32, kind: u32, count: u32) -> Result<Shape, Refusal> {
        let parameter_set = SETS.get(set as usize).ok_or(Refusal::Selector)?;
        let kind = match kind {
            0 => Kind::High,
            1 => Kind::Bound,
            _ => return Err(Refusal::Selector),
        };
        ask((1..=MAX_COUNT as u32).contains(&count), Refusal::Count)?;
        Ok(Shape {
            set_number: set,
            set: parameter_set,
            kind,
            count: count as usize,
        })
    }

    pub fn kind_number(&self) -> u32 {
        match self.kind {
            Kind::High => 0,
            Kind::Bound => 1,
        }
    }

    /// The largest number that a zero check of this kind is given.
    pub fn check_max(&self) -> u32 {
        match self.kind {
            Kind::High => HIGH_CHECK_MAX,
            Kind::Bound => self.count as u32,
        }
    }

    /// The width g of a zero-check group's steps.
    pub fn check_step(&self) -> u32 {
        Q / (self.check_max() + 1)
    }

    /// Entries of a zero-check group's vector.
    pub fn check_entries(&self) -> usize {
        self.check_max() as usize + 2
    }

    /// Zero-check groups in a book.
    pub fn groups(&self) -> usize {
        match self.kind {
            Kind::High => self.count,
            Kind::Bound => 1,
        }
    }

    /// Shared numbers of a coefficient in a book.
    pub fn stride(&self) -> usize {
        let plain = 1 + self.set.vectors() + 3 * TRIPLES;
        match self.kind {
            Kind::High => plain + 1 + self.check_entries(),
            Kind::Bound => plain,
        }
    }

    /// Shared numbers in a book.
    pub fn shared_numbers(&self) -> usize {
        let tail = match self.kind {
            Kind::High => 0,
            Kind::Bound => 1 + self.check_entries(),
        };
        self.count * self.stride() + tail
    }

    /// Numbers in one side's book.
    pub fn book_length(&self) -> usize {
        WIDTH * self.shared_numbers()
    }

    /// Numbers in the dealer's draw.
    pub fn draw_length(&self) -> usize {
        self.book_length() + self.count * (1 + 2 * TRIPLES) + self.groups()
    }

    /// Place in the book of a coefficient's mask r.
    pub fn mask_at(&self, coefficient: usize) -> usize {
        coefficient * self.stride()
    }

    /// Place in the book of the vector of a digit of r.
    pub fn vector_at(&self, coefficient: usize, digit: usize) -> usize {
        let before: u32 = self.set.bases[..digit].iter().sum();
        self.mask_at(coefficient) + 1 + before as usize
    }

    /// Place in the book of a product triple.
    pub fn triple_at(&self, coefficient: usize, triple: usize) -> usize {
        self.mask_at(coefficient) + 1 + self.set.vectors() + 3 * triple
    }

    /// Place in the book of a zero-check group.
    pub fn group_at(&self, group: usize) -> usize {
        match self.kind {
            Kind::High => self.triple_at(group, TRIPLES),
            Kind::Bound => self.count * self.stride(),
        }
    }

    /// Numbers opened in a round.
    pub fn openings(&self, round: u8) -> usize {
        match round {
            1 => self.count,
            2..=5 => 4 * self.count,
            _ => self.groups(),
        }
    }

    /// Numbers in an answer.
    pub fn answer_length(&self) -> usize {
        self.groups()
    }

    /// What each number of an answer is below.
    pub fn answer_limit(&self) -> u32 {
        match self.kind {
            Kind::High => self.set.parts,
            Kind::Bound => 2,
        }
    }
}

/// A shape and its bound.
#[derive(Clone, Copy, Debug, PartialEq, Eq)]
pub struct Settings {
    pub shape: Shape,
    pub bound: u32,
}

impl Settings {
    /// Asks questions 1 to 3.
    pub fn new(set: u32, kind: u32, count: u32, bound: u32) -> Result<Settings, Refusal> {
        let shape = Shape::new(set, kind, count)?;
        let allowed = match shape.kind {
            Kind::High => bound == 0,
            Kind::Bound => (1..=MAX_BOUND).contains(&bound),
        };
        ask(allowed, Refusal::Bound)?;
        Ok(Settings { shape, bound })
    }
}

/// Asks question 4 of keys.
pub fn ask_keys(keys: &[u32]) -> Result<(), Refusal> {
    ask(keys.iter().all(|key| (1..Q).contains(key)), Refusal::Key)
}
