//! One side's numbers of a shared number.

use std::array::from_fn;
use std::ops::{Add, Sub};

use crate::field::{add, mul, reduce, sub};
use crate::settings::{KEYS, WIDTH};

/// The share, the parts under the server's keys, the parts under the phone's
/// keys.
#[derive(Clone, Copy, Debug, Default, PartialEq, Eq)]
pub struct Shared(pub [u32; WIDTH]);

impl Shared {
    /// The whole number with its products by all keys, the server's first.
    pub fn whole(number: u32, keys: &[[u32; KEYS]; 2]) -> Shared {
        let mut numbers = [number; WIDTH];
        for (part, &key) in numbers[1..].iter_mut().zip(keys.as_flattened()) {
            *part = mul(key, number);
        }
        Shared(numbers)
    }

    /// The shared number at a place of a list of shared numbers.
    pub fn load(list: &[u32], place: usize) -> Shared {
        let numbers = &list[WIDTH * place..WIDTH * (place + 1)];
        Shared(from_fn(|i| numbers[i]))
    }

    pub fn store(self, list: &mut [u32], place: usize) {
        list[WIDTH * place..WIDTH * (place + 1)].copy_from_slice(&self.0);
    }

    pub fn scale(self, factor: u32) -> Shared {
        Shared(self.0.map(|number| mul(factor, number)))
    }

    pub fn share(self) -> u32 {
        self.0[0]
    }

    /// The parts under the keys of a side, 0 or 1.
    pub fn parts(self, side: usize) -> [u32; KEYS] {
        from_fn(|i| self.0[1 + side * KEYS + i])
    }

    /// Sum of a list of shared numbers.
    pub fn sum(list: &[u32]) -> Shared {
        let mut total = [0u64; WIDTH];
        for entry in list.chunks_exact(WIDTH) {
            for (sum, &number) in total.iter_mut().zip(entry) {
                *sum += u64::from(number);
            }
        }
        Shared(total.map(reduce))
    }

    /// Sum of a list of shared numbers, each times the weight of its place.
    /// Weights are small, so that the sum fits before it is reduced.
    pub fn weighted_sum(list: &[u32], weight: impl Fn(usize) -> usize) -> Shared {
        let mut total = [0u64; WIDTH];
        for (place, entry) in list.chunks_exact(WIDTH).enumerate() {
            let factor = weight(place) as u64;
            for (sum, &number) in total.iter_mut().zip(entry) {
                *sum += factor * u64::from(number);
            }
        }
        Shared(total.map(reduce))
    }
}

impl Add for Shared {
    type Output = Shared;

    fn add(self, other: Shared) -> Shared {
        Shared(from_fn(|i| add(self.0[i], other.0[i])))
    }
}

impl Sub for Shared {
    type Output = Shared;

    fn sub(self, other: Shared) -> Shared {
        Shared(from_fn(|i| sub(self.0[i], other.0[i])))
    }
}
