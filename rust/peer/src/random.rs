//! A small seeded generator (SplitMix64) and random runs, for tests and timing.

use crate::dealer::deal;
use crate::field::Q;
use crate::settings::{Shape, KEYS, MAX_BOUND, SETS, WIDTH};
use crate::shared::Shared;

pub struct SplitMix64(u64);

impl SplitMix64 {
    pub fn new(seed: u64) -> Self {
        SplitMix64(seed)
    }

    pub fn next_u64(&mut self) -> u64 {
        self.0 = self.0.wrapping_add(0x9E37_79B9_7F4A_7C15);
        let mut z = self.0;
        z = (z ^ (z >> 30)).wrapping_mul(0xBF58_476D_1CE4_E5B9);
        z = (z ^ (z >> 27)).wrapping_mul(0x94D0_49BB_1331_11EB);
        z ^ (z >> 31)
    }

    /// A number from 0 to `limit` − 1.
    pub fn below(&mut self, limit: u32) -> u32 {
        (self.next_u64() % u64::from(limit)) as u32
    }

    /// A number from `low` to `high`, both included.
    pub fn between(&mut self, low: u32, high: u32) -> u32 {
        low + self.below(high - low + 1)
    }
}

/// An honest run: settings, keys, the joined inputs, their shares and a draw.
#[derive(Clone, Debug)]
pub struct RandomRun {
    pub set: u32,
    pub kind: u32,
    pub bound: u32,
    pub serial: u32,
    /// The server's keys and the phone's.
    pub keys: [[u32; KEYS]; 2],
    pub secret: Vec<u32>,
    /// The server's and the phone's numbers for each coefficient.
    pub inputs: [Vec<u32>; 2],
    pub draw: Vec<u32>,
}

impl RandomRun {
    /// A run of this set, kind and count; numbers at an edge are frequent.
    pub fn new(generator: &mut SplitMix64, set: u32, kind: u32, count: u32) -> RandomRun {
        let shape = Shape::new(set, kind, count).expect("a good shape");
        let bound = match kind {
            0 => 0,
            _ => match generator.below(4) {
                0 => 1,
                1 => MAX_BOUND,
                2 => generator.between(1, 1 << 19),
                _ => generator.between(1, MAX_BOUND),
            },
        };
        let keys = generator.keys();
        let mut inputs = [Vec::new(), Vec::new()];
        let mut secret = Vec::new();
        for _ in 0..count {
            let number = generator.coefficient(set, bound);
            let phone = Shared([(); WIDTH].map(|()| generator.below(Q)));
            let server = Shared::whole(number, &keys) - phone;
            secret.push(number);
            inputs[0].extend(server.0);
            inputs[1].extend(phone.0);
        }
        let style = generator.below(8);
        let draw = (0..shape.draw_length())
            .map(|_| match style {
                0 => 0,
                1 => Q - 1,
                2 => [0, 1, Q - 1][generator.below(3) as usize],
                _ => generator.below(Q),
            })
            .collect();
        RandomRun {
            set,
            kind,
            bound,
            serial: generator.between(1, u32::MAX - 1),
            keys,
            secret,
            inputs,
            draw,
        }
    }

    /// The list of numbers that `transcript` reads.
    pub fn numbers(&self) -> Vec<u32> {
        let mut numbers = self.before_draw();
        numbers.extend(&self.draw);
        numbers
    }

    /// The same with the books of the draw in its place.
    pub fn numbers_with_books(&self) -> Vec<u32> {
        let count = self.secret.len() as u32;
        let shape = Shape::new(self.set, self.kind, count).expect("a good shape");
        let mut server = vec![0; shape.book_length()];
        let mut phone = server.clone();
        deal(
            self.set,
            self.kind,
            count,
            self.keys,
            &self.draw,
            &mut server,
            &mut phone,
        )
        .expect("a good draw");
        let mut numbers = self.before_draw();
        numbers.extend(server);
        numbers.extend(phone);
        numbers
    }

    fn before_draw(&self) -> Vec<u32> {
        let count = self.secret.len() as u32;
        let head = [self.set, self.kind, count, self.bound, self.serial];
        let mut numbers = head.to_vec();
        numbers.extend(self.keys.as_flattened());
        numbers.extend(&self.inputs[0]);
        numbers.extend(&self.inputs[1]);
        numbers
    }
}

impl SplitMix64 {
    /// Both sides' keys: now and then all equal, or each 1, q − 1 or a number that
    /// comes several times.
    fn keys(&mut self) -> [[u32; KEYS]; 2] {
        let style = self.below(8);
        let same = self.between(1, Q - 1);
        [(); 2].map(|()| {
            [(); KEYS].map(|()| match style {
                0 => same,
                1 => [1, Q - 1, same][self.below(3) as usize],
                _ => self.between(1, Q - 1),
            })
        })
    }

    /// A coefficient below q: around a bound, around a step, or anywhere.
    pub fn coefficient(&mut self, set: u32, bound: u32) -> u32 {
        let near = |centre: u32, off: u32| (centre + Q + off - 2) % Q;
        let off = self.below(5);
        match self.below(8) {
            0 => near(0, off),
            1 => near(bound, off),
            2 => near(Q - bound, off),
            3 => {
                let alpha = SETS[set as usize].alpha;
                let steps = self.below((Q - 1) / alpha);
                near(steps * alpha + alpha / 2, off)
            }
            4 if bound > 0 => (Q + self.below(bound) - bound / 2) % Q,
            _ => self.below(Q),
        }
    }
}
