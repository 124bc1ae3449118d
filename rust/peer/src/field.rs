//! Arithmetic modulo q. Arguments and results are below q.

use std::sync::atomic::{AtomicBool, Ordering};

/// The modulus of ML-DSA.
pub const Q: u32 = 8_380_417;

/// Bits of a number below q.
const BITS: u32 = 23;

pub fn add(a: u32, b: u32) -> u32 {
    let sum = a + b;
    if sum >= Q {
        sum - Q
    } else {
        sum
    }
}

pub fn sub(a: u32, b: u32) -> u32 {
    if a >= b {
        a - b
    } else {
        a + Q - b
    }
}

pub fn mul(a: u32, b: u32) -> u32 {
    reduce(u64::from(a) * u64::from(b))
}

/// Any number, reduced modulo q.
pub fn reduce(x: u64) -> u32 {
    (x % u64::from(Q)) as u32
}

/// Whether [`all_below_q`] ends at the first number that is not below q. The bench sets it to show what that form costs.
pub static EARLY_END: AtomicBool = AtomicBool::new(false);

/// Whether every number is below q. It is asked of a whole working slice in every send and take, and takes most of a run's time, so this is
/// the one loop that is tuned: without an early end it becomes vector instructions, and in blocks of a fixed length it is unrolled further.
pub fn all_below_q(numbers: &[u32]) -> bool {
    if EARLY_END.load(Ordering::Relaxed) {
        return numbers.iter().all(|&number| number < Q);
    }
    let (blocks, rest) = numbers.as_chunks::<2_304>();
    let bits = blocks
        .iter()
        .fold(bits_of(rest), |bits, block| bits | bits_of(block));
    bits >> BITS == 0
}

/// Bits from place 23 on are all 0 if and only if every number is below q: a
/// number that is not reaches 2^23 itself, or when 2^23 − q is added.
#[inline(always)]
fn bits_of(numbers: &[u32]) -> u32 {
    let (mut bits, mut raised_bits) = (0, 0);
    for &number in numbers {
        bits |= number;
        raised_bits |= number.wrapping_add((1 << BITS) - Q);
    }
    bits | raised_bits
}
