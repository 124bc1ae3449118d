//! High and low parts of ML-DSA coefficients, products of its polynomials and the form of messages,
//! worked out by a proved static library.
//!
//! A coefficient `w` is a number below [`Q`]. With the step α of its set, `w` splits into a high
//! part and a signed low part, as Decompose of FIPS 204 (Algorithm 36, α = 2γ2) does it:
//! high × α + low is `w` modulo [`Q`].
//!
//! | set | step α | high part | low part | parameter sets |
//! |---|---|---|---|---|
//! | 0 | 190,464 | 0 to 43 | −95,232 to 95,232 | ML-DSA-44 |
//! | 1 | 523,776 | 0 to 15 | −261,888 to 261,888 | ML-DSA-65, ML-DSA-87 |
//!
//! ```
//! use paired_rounding::{parts, Parts, Refusal, Q};
//!
//! # fn main() -> Result<(), Refusal> {
//! let Parts { high, low } = parts(0, 95_233)?;
//! assert_eq!((high, low), (1, -95_231));
//! assert_eq!(95_233, 190_464 - 95_231);
//!
//! // The topmost coefficients belong to high part 0 again.
//! assert_eq!(parts(0, Q - 1)?, Parts { high: 0, low: -1 });
//! # Ok(())
//! # }
//! ```
//!
//! [`high_part`] and [`low_part`] give one part each, for callers that need no more.
//!
//! A call that cannot be answered is refused, and the [`Refusal`] names the first question that
//! was answered no:
//!
//! ```
//! use paired_rounding::{parts, Refusal, Q};
//!
//! assert_eq!(parts(2, 0), Err(Refusal::SideSetOrKind));
//! assert_eq!(parts(0, Q), Err(Refusal::NotBelowQ));
//! assert_eq!(parts(2, Q), Err(Refusal::SideSetOrKind));
//! ```
//!
//! [`ring_product`] multiplies polynomials modulo [`Q`] and X^256 + 1, where X^256 is −1. For a
//! polynomial that multiplies several rows, [`ring_transform`] is called once and
//! [`ring_product_transformed`] for each row.
//!
//! [`message_form`] tests the form of a message before it is taken further.

#![deny(unsafe_code)]
#![deny(unsafe_op_in_unsafe_fn)]
#![warn(missing_docs)]

/// The README's listings in Rust, as doc tests.
#[cfg(doctest)]
#[doc = include_str!("../../README.md")]
struct Readme;

#[allow(unsafe_code)]
mod ffi;
mod form;
mod refusal;
mod ring;

pub use form::{message_form, Expected};
pub use refusal::Refusal;
pub use ring::{ring_product, ring_product_transformed, ring_transform, RING_SIZE};

/// The modulus q of ML-DSA. Coefficients are numbers below it.
pub const Q: u32 = 8_380_417;

/// High and low part of one coefficient.
#[derive(Clone, Copy, Debug, PartialEq, Eq, Hash)]
pub struct Parts {
    /// The high part: 0 to 43 in set 0, 0 to 15 in set 1.
    pub high: u32,
    /// The low part, from −α/2 to α/2.
    pub low: i32,
}

/// High and low part of coefficient `w`, from one call: high × α + low is `w` modulo [`Q`].
///
/// # Errors
///
/// [`Refusal::SideSetOrKind`] if `set` is not 0 or 1; else [`Refusal::NotBelowQ`] if `w` is not
/// below [`Q`].
///
/// # Examples
///
/// ```
/// use paired_rounding::{parts, Parts, Refusal};
///
/// assert_eq!(parts(1, 261_888), Ok(Parts { high: 0, low: 261_888 }));
/// assert_eq!(parts(1, 261_889), Ok(Parts { high: 1, low: -261_887 }));
/// assert_eq!(parts(1, 8_380_417), Err(Refusal::NotBelowQ));
/// ```
#[inline]
pub fn parts(set: u32, w: u32) -> Result<Parts, Refusal> {
    parts_from(ffi::high_and_low(set, w))
}

/// The high part of coefficient `w`, as [`parts`] gives it: 0 to 43 in set 0, 0 to 15 in set 1.
///
/// # Errors
///
/// [`Refusal::SideSetOrKind`] if `set` is not 0 or 1; else [`Refusal::NotBelowQ`] if `w` is not
/// below [`Q`].
///
/// # Examples
///
/// ```
/// use paired_rounding::{high_part, Refusal};
///
/// assert_eq!(high_part(1, 261_888), Ok(0));
/// assert_eq!(high_part(1, 261_889), Ok(1));
/// assert_eq!(high_part(1, 8_380_417), Err(Refusal::NotBelowQ));
/// ```
#[inline]
pub fn high_part(set: u32, w: u32) -> Result<u32, Refusal> {
    high_from(ffi::high_part(set, w))
}

/// The low part of coefficient `w`, as [`parts`] gives it: from −α/2 to α/2.
///
/// # Errors
///
/// [`Refusal::SideSetOrKind`] if `set` is not 0 or 1; else [`Refusal::NotBelowQ`] if `w` is not
/// below [`Q`].
///
/// # Examples
///
/// ```
/// use paired_rounding::{low_part, Refusal};
///
/// assert_eq!(low_part(0, 95_232), Ok(95_232));
/// assert_eq!(low_part(0, 8_285_185), Ok(-95_232));
/// assert_eq!(low_part(3, 8_285_185), Err(Refusal::SideSetOrKind));
/// ```
#[inline]
pub fn low_part(set: u32, w: u32) -> Result<i32, Refusal> {
    low_from(ffi::low_part(set, w))
}

// The library answers with one number for each part: the part, or the refusal's number times 2^32.

#[inline]
fn parts_from(code: ffi::PartsCode) -> Result<Parts, Refusal> {
    Ok(Parts {
        high: high_from(code.high)?,
        low: low_from(code.low)?,
    })
}

#[inline]
fn high_from(code: i64) -> Result<u32, Refusal> {
    u32::try_from(code).map_err(|_| refusal_from(code))
}

#[inline]
fn low_from(code: i64) -> Result<i32, Refusal> {
    i32::try_from(code).map_err(|_| refusal_from(code))
}

#[cold]
fn refusal_from(code: i64) -> Refusal {
    let number = u32::try_from(code >> 32).ok();
    match number.and_then(Refusal::from_number) {
        Some(refusal) if code & 0xFFFF_FFFF == 0 => refusal,
        _ => panic!("libphone broke its contract: {code} is neither a part nor a refusal"),
    }
}

/// What the calls without a value answer: 0, or the refusal's number.
fn done_from(code: u32) -> Result<(), Refusal> {
    if code == 0 {
        return Ok(());
    }
    match Refusal::from_number(code) {
        Some(refusal) => Err(refusal),
        None => panic!("libphone broke its contract: {code} is neither 0 nor a refusal"),
    }
}

#[cfg(test)]
mod tests {
    use super::*;
    use std::panic::catch_unwind;

    const UNIT: i64 = 1 << 32;

    fn both_from(high: i64, low: i64) -> Result<Parts, Refusal> {
        parts_from(ffi::PartsCode { high, low })
    }

    #[test]
    fn parts_are_values() {
        assert_eq!(high_from(0), Ok(0));
        assert_eq!(high_from(43), Ok(43));
        assert_eq!(high_from(UNIT - 1), Ok(u32::MAX));
        assert_eq!(low_from(0), Ok(0));
        assert_eq!(low_from(-261_888), Ok(-261_888));
        assert_eq!(low_from(i64::from(i32::MAX)), Ok(i32::MAX));
        assert_eq!(low_from(i64::from(i32::MIN)), Ok(i32::MIN));
        let parts = Parts {
            high: 43,
            low: -95_232,
        };
        assert_eq!(both_from(43, -95_232), Ok(parts));
    }

    #[test]
    fn refusals_are_multiples() {
        for &refusal in Refusal::ALL {
            let code = i64::from(refusal.number()) * UNIT;
            assert_eq!(high_from(code), Err(refusal));
            assert_eq!(low_from(code), Err(refusal));
            assert_eq!(both_from(code, code), Err(refusal));
        }
    }

    #[test]
    fn all_else_panics_and_names_the_library() {
        let last = Refusal::ALL.len() as i64;
        let broken = [
            (last + 1) * UNIT,
            UNIT + 1,
            2 * UNIT - 1,
            -UNIT,
            -last * UNIT,
            i64::MAX,
            i64::MIN,
        ];
        for code in broken {
            assert_names_library(catch_unwind(|| high_from(code)).unwrap_err());
            assert_names_library(catch_unwind(|| low_from(code)).unwrap_err());
            assert_names_library(catch_unwind(|| both_from(code, 0)).unwrap_err());
            assert_names_library(catch_unwind(|| both_from(0, code)).unwrap_err());
        }
        assert_names_library(catch_unwind(|| high_from(-1)).unwrap_err());
        assert_names_library(catch_unwind(|| low_from(UNIT - 1)).unwrap_err());
    }

    #[test]
    fn codes_are_nothing_or_refusals() {
        assert_eq!(done_from(0), Ok(()));
        for &refusal in Refusal::ALL {
            assert_eq!(done_from(refusal.number()), Err(refusal));
        }
    }

    #[test]
    #[should_panic(expected = "libphone broke its contract: 4294967295 is neither 0 nor a refusal")]
    fn an_unknown_code_panics() {
        let _ = done_from(u32::MAX);
    }

    fn assert_names_library(panic: Box<dyn std::any::Any + Send>) {
        let message = panic.downcast_ref::<String>().unwrap();
        assert!(message.starts_with("libphone broke its contract"));
    }
}
