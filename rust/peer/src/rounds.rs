//! The steps of the seven rounds, on one side's working slice.
//!
//! Layout of the working slice, in numbers:
//!
//! | from | numbers | contents |
//! |---|---|---|
//! | 0 | 72 | inputs, a shared number for each coefficient |
//! | 72 | 11,880 | book |
//! | 11,952 | 576 | own openings of odd and of even rounds, 32 shared numbers each |
//! | 12,528 | 432 | products under way: u, v and addend, two for each coefficient |
//! | 12,960 | 144 | two registers for each coefficient |
//! | 13,104 | 8 | opened y for each coefficient |
//! | 13,112 | 712 | without a use, 0 |
//!
//! Registers: HIGH keeps the carry (F after round 5) and the count of zero
//! digits (C after round 6); BOUND keeps the results of hi and of lo. The two
//! products of a digit become, or are added to, these registers.
//!
//! A round's openings are worked out when the round before is taken, so that
//! they are still there when the phone sends after its take.

use crate::field::{add, mul, sub};
use crate::message::{Opening, MAX_OPENINGS};
use crate::settings::{Kind, Settings, HIGH_CHECK_MAX, KEYS, MAX_COUNT, MAX_SHARED, WIDTH};
use crate::shared::Shared;

/// Numbers in a working slice.
pub const WORK_LENGTH: usize = WIDTH * 1_536;

const INPUTS: usize = 0;
const BOOK: usize = INPUTS + WIDTH * MAX_COUNT;
const OPENINGS: usize = BOOK + WIDTH * MAX_SHARED;
const PRODUCTS: usize = OPENINGS + 2 * WIDTH * MAX_OPENINGS;
const REGISTERS: usize = PRODUCTS + 2 * 3 * WIDTH * MAX_COUNT;
const OPENED: usize = REGISTERS + 2 * WIDTH * MAX_COUNT;
const END: usize = OPENED + MAX_COUNT;
const _: () = assert!(END <= WORK_LENGTH);

/// A product under way: addend + u × v.
struct Product {
    u: Shared,
    v: Shared,
    addend: Shared,
}

/// One side's view of a run: who it is, the settings and its working slice.
pub struct Player<'a> {
    pub side: usize,
    pub keys: [u32; KEYS],
    pub settings: Settings,
    pub work: &'a mut [u32],
}

impl Player<'_> {
    /// Sets the whole working slice and works out the openings of round 1.
    pub fn start(&mut self, inputs: &[u32], book: &[u32]) {
        self.work.fill(0);
        self.work[INPUTS..INPUTS + inputs.len()].copy_from_slice(inputs);
        self.work[BOOK..BOOK + book.len()].copy_from_slice(book);
        self.open_masked();
    }

    /// Takes the joined numbers of a round, and works out the next openings.
    pub fn advance(&mut self, round: u8, joined: &[u32]) {
        match round {
            1 => self.start_digits(joined),
            2..=5 => self.finish_products(usize::from(round) - 1, joined),
            6 => self.read_checks(joined),
            _ => {}
        }
        match round + 1 {
            next @ 2..=5 => self.start_products(usize::from(next) - 1),
            6 => self.open_checks(),
            7 => self.open_answers(),
            _ => {}
        }
    }

    /// Round 1 opens w′ − r or v + B − 1 − r.
    fn open_masked(&mut self) {
        let shape = self.settings.shape;
        let offset = match shape.kind {
            Kind::High => shape.set.alpha / 2 - 1,
            Kind::Bound => self.settings.bound - 1,
        };
        for c in 0..shape.count {
            let input = Shared::load(&self.work[INPUTS..], c);
            let mask = self.book(shape.mask_at(c));
            let opening = self.add_public(input - mask, offset);
            self.set_opening(1, c, opening);
        }
    }

    /// Keeps the opened y, and starts the registers with digit 0.
    fn start_digits(&mut self, joined: &[u32]) {
        let shape = self.settings.shape;
        for (c, &y) in joined.iter().enumerate() {
            self.work[OPENED + c] = y;
            let registers = match shape.kind {
                Kind::High => {
                    let base = shape.set.bases[0] as usize;
                    let y0 = shape.set.split(y)[0];
                    [
                        self.carry(c, 0, y0),
                        self.vector_entry(c, 0, (base - y0) % base),
                    ]
                }
                Kind::Bound => self
                    .thresholds(y)
                    .map(|t| self.sum_below(c, 0, shape.set.split(t)[0])),
            };
            self.set_register(c, 0, registers[0]);
            self.set_register(c, 1, registers[1]);
        }
    }

    /// Works out both products of a digit, and opens their masked factors.
    fn start_products(&mut self, digit: usize) {
        let shape = self.settings.shape;
        let round = digit as u8 + 1;
        for c in 0..shape.count {
            let y = self.work[OPENED + c];
            let products = match shape.kind {
                Kind::High => self.carry_products(c, digit, y),
                Kind::Bound => self.threshold_products(c, digit, y),
            };
            for (k, product) in products.into_iter().enumerate() {
                let triple = shape.triple_at(c, 2 * (digit - 1) + k);
                let place = 4 * c + 2 * k;
                self.set_opening(round, place, product.u - self.book(triple));
                self.set_opening(round, place + 1, product.v - self.book(triple + 1));
                self.set_product(c, k, &product);
            }
        }
    }

    /// HIGH: what the carry chooses between, for a digit of y.
    fn carry_products(&self, c: usize, digit: usize, y: u32) -> [Product; 2] {
        let set = self.settings.shape.set;
        let carry = self.register(c, 0);
        let own = set.split(y)[digit];
        let choose = |without: Shared, with: Shared| Product {
            u: carry,
            v: with - without,
            addend: without,
        };
        if digit < 4 {
            let base = set.bases[digit] as usize;
            let zero = |d: usize| self.vector_entry(c, digit, (base - d) % base);
            [
                choose(self.carry(c, digit, own), self.carry(c, digit, own + 1)),
                choose(zero(own), zero(own + 1)),
            ]
        } else {
            let parts = set.parts as usize;
            let top = |d: usize| {
                Shared::weighted_sum(self.vector(c, digit), |j| {
                    let sum = j + d;
                    if sum < parts {
                        sum
                    } else {
                        sum - parts
                    }
                })
            };
            [
                choose(top(own), top(own + 1)),
                choose(self.carry(c, digit, own), self.carry(c, digit, own + 1)),
            ]
        }
    }

    /// BOUND: the next step of hi's and of lo's comparison.
    fn threshold_products(&self, c: usize, digit: usize, y: u32) -> [Product; 2] {
        let set = self.settings.shape.set;
        let [hi, lo] = self.thresholds(y);
        [(hi, 0), (lo, 1)].map(|(threshold, k)| {
            let own = set.split(threshold)[digit];
            Product {
                u: self.vector_entry(c, digit, own),
                v: self.register(c, k),
                addend: self.sum_below(c, digit, own),
            }
        })
    }

    /// Finishes both products of a digit with the joined e and f.
    fn finish_products(&mut self, digit: usize, joined: &[u32]) {
        let shape = self.settings.shape;
        for c in 0..shape.count {
            let results = [0, 1].map(|k| {
                let [e, f] = [joined[4 * c + 2 * k], joined[4 * c + 2 * k + 1]];
                let product = self.product(c, k);
                let triple = shape.triple_at(c, 2 * (digit - 1) + k);
                let shares = product.v.scale(e) + product.u.scale(f) + self.book(triple + 2);
                product.addend + self.add_public(shares, sub(0, mul(e, f)))
            });
            let second = match shape.kind {
                Kind::High => self.register(c, 1) + results[1],
                Kind::Bound => results[1],
            };
            self.set_register(c, 0, results[0]);
            self.set_register(c, 1, second);
        }
    }

    /// Round 6 opens ρ + g × n.
    fn open_checks(&mut self) {
        let shape = self.settings.shape;
        match shape.kind {
            Kind::High => {
                for c in 0..shape.count {
                    let zeros = self.register(c, 1);
                    let missing = self.add_public(Shared::default() - zeros, HIGH_CHECK_MAX);
                    self.open_check(c, missing);
                }
            }
            Kind::Bound => {
                let inside = (0..shape.count)
                    .map(|c| {
                        let [hi, lo] = self.thresholds(self.work[OPENED + c]);
                        let between = self.register(c, 0) - self.register(c, 1);
                        self.add_public(between, u32::from(hi < lo))
                    })
                    .fold(Shared::default(), |sum, next| sum + next);
                let outside = self.add_public(Shared::default() - inside, shape.count as u32);
                self.open_check(0, outside);
            }
        }
    }

    fn open_check(&mut self, group: usize, number: Shared) {
        let shape = self.settings.shape;
        let mask = self.book(shape.group_at(group));
        self.set_opening(6, group, mask + number.scale(shape.check_step()));
    }

    /// Keeps the results of the zero checks.
    fn read_checks(&mut self, joined: &[u32]) {
        let shape = self.settings.shape;
        for (group, &opened) in joined.iter().enumerate() {
            let entry = (opened / shape.check_step()) as usize;
            let result = self.book(shape.group_at(group) + 1 + entry);
            self.set_register(group, 1, result);
        }
    }

    /// Round 7 opens F − C, or the zero check's result.
    fn open_answers(&mut self) {
        let shape = self.settings.shape;
        for group in 0..shape.groups() {
            let result = self.register(group, 1);
            let opening = match shape.kind {
                Kind::High => self.register(group, 0) - result,
                Kind::Bound => result,
            };
            self.set_opening(7, group, opening);
        }
    }

    /// hi and lo of an opened y.
    fn thresholds(&self, y: u32) -> [u32; 2] {
        [sub(2 * self.settings.bound - 1, y), sub(0, y)]
    }

    /// Adds a public number: the server to its share, each side own key ×
    /// number to its part under that key, for each of its keys.
    fn add_public(&self, mut shared: Shared, number: u32) -> Shared {
        if self.side == 0 {
            shared.0[0] = add(shared.0[0], number);
        }
        let parts = &mut shared.0[1 + self.side * KEYS..];
        for (part, &key) in parts.iter_mut().zip(&self.keys) {
            *part = add(*part, mul(key, number));
        }
        shared
    }

    /// Sum of a digit's vector where j + d ≥ base.
    fn carry(&self, c: usize, digit: usize, d: usize) -> Shared {
        let base = self.settings.shape.set.bases[digit] as usize;
        Shared::sum(&self.vector(c, digit)[WIDTH * (base - d)..])
    }

    /// Sum of a digit's vector below a position.
    fn sum_below(&self, c: usize, digit: usize, position: usize) -> Shared {
        Shared::sum(&self.vector(c, digit)[..WIDTH * position])
    }

    fn vector_entry(&self, c: usize, digit: usize, position: usize) -> Shared {
        Shared::load(self.vector(c, digit), position)
    }

    /// The vector of a digit of a coefficient's mask.
    fn vector(&self, c: usize, digit: usize) -> &[u32] {
        let shape = &self.settings.shape;
        let from = BOOK + WIDTH * shape.vector_at(c, digit);
        &self.work[from..from + WIDTH * shape.set.bases[digit] as usize]
    }

    fn book(&self, place: usize) -> Shared {
        Shared::load(&self.work[BOOK..], place)
    }

    fn register(&self, c: usize, k: usize) -> Shared {
        Shared::load(&self.work[REGISTERS..], 2 * c + k)
    }

    fn set_register(&mut self, c: usize, k: usize, shared: Shared) {
        shared.store(&mut self.work[REGISTERS..], 2 * c + k);
    }

    fn product(&self, c: usize, k: usize) -> Product {
        let place = 3 * (2 * c + k);
        let list = &self.work[PRODUCTS..];
        Product {
            u: Shared::load(list, place),
            v: Shared::load(list, place + 1),
            addend: Shared::load(list, place + 2),
        }
    }

    fn set_product(&mut self, c: usize, k: usize, product: &Product) {
        let place = 3 * (2 * c + k);
        let list = &mut self.work[PRODUCTS..];
        product.u.store(list, place);
        product.v.store(list, place + 1);
        product.addend.store(list, place + 2);
    }

    fn set_opening(&mut self, round: u8, place: usize, shared: Shared) {
        let from = openings_from(round);
        shared.store(&mut self.work[from..], place);
    }
}

fn openings_from(round: u8) -> usize {
    OPENINGS + WIDTH * MAX_OPENINGS * usize::from(round % 2)
}

/// A side's own openings of a round, from its working slice.
pub fn own_openings(work: &[u32], round: u8, count: usize) -> impl Iterator<Item = Shared> + '_ {
    let from = openings_from(round);
    work[from..from + WIDTH * count]
        .chunks_exact(WIDTH)
        .map(|entry| Shared::load(entry, 0))
}

/// Checks an opening and joins it: under each of my keys the two parts must add
/// to that key × the joined number.
pub fn join(side: usize, keys: &[u32; KEYS], own: Shared, other: &Opening) -> Option<u32> {
    let joined = add(own.share(), other.share);
    let parts = own.parts(side);
    (0..KEYS)
        .all(|i| add(parts[i], other.checks[i]) == mul(keys[i], joined))
        .then_some(joined)
}
