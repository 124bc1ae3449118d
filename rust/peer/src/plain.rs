//! The plain meaning: both parts of an open number, and the verdict.

use crate::field::{add, all_below_q, Q};
use crate::refusal::{ask, Refusal};
use crate::settings::{ParameterSet, MAX_BOUND, MAX_COUNT, SETS};

fn parameter_set(set: u32) -> Result<&'static ParameterSet, Refusal> {
    SETS.get(set as usize).ok_or(Refusal::Selector)
}

#[derive(Clone, Copy, Debug, PartialEq, Eq)]
pub struct Parts {
    pub high: u32,
    pub low: i32,
}

/// w′ = (w + α/2 − 1) mod q; 0 if w′ = q − 1, else w′ / α.
fn high_part(set: &ParameterSet, w: u32) -> u32 {
    let shifted = add(w, set.alpha / 2 - 1);
    if shifted == Q - 1 {
        0
    } else {
        shifted / set.alpha
    }
}

/// The low result of FIPS 204 Decompose.
fn low_part(set: &ParameterSet, w: u32) -> i32 {
    let alpha = set.alpha as i32;
    let mut low = (w % set.alpha) as i32;
    if low > alpha / 2 {
        low -= alpha;
    }
    if w as i32 - low == (Q - 1) as i32 {
        low - 1
    } else {
        low
    }
}

/// High and low part of a coefficient.
pub fn parts(set: u32, w: u32) -> Result<Parts, Refusal> {
    let set = parameter_set(set)?;
    ask(w < Q, Refusal::Range)?;
    Ok(Parts {
        high: high_part(set, w),
        low: low_part(set, w),
    })
}

/// 1 if every centred number's absolute size is below the bound, else 0.
pub fn verdict(set: u32, bound: u32, numbers: &[u32]) -> Result<u32, Refusal> {
    parameter_set(set)?;
    ask((1..=MAX_COUNT).contains(&numbers.len()), Refusal::Count)?;
    ask((1..=MAX_BOUND).contains(&bound), Refusal::Bound)?;
    ask(all_below_q(numbers), Refusal::Range)?;
    let inside = numbers.iter().all(|&v| v.min(Q - v) < bound);
    Ok(u32::from(inside))
}
