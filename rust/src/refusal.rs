use std::error::Error;
use std::fmt;

/// Why a call was refused: the first of its questions that was answered no.
///
/// The questions have fixed numbers from 1 up, and each call asks some of them in a fixed order.
/// [`parts`](crate::parts), [`high_part`](crate::high_part) and [`low_part`](crate::low_part) ask
/// 1 and 6, [`message_form`](crate::message_form) asks 1, 2, 3, 8, 10, 11 and 12,
/// [`ring_product`](crate::ring_product) and the two calls beside it ask 5 and 6. The others are
/// asked by the calls of a side, the deal and the choice of a book.
///
/// Later versions may ask further questions, so a `match` needs an arm for them:
///
/// ```
/// use paired_rounding::{parts, Parts, Refusal};
///
/// let text = match parts(2, 0) {
///     Ok(Parts { high, low }) => format!("{high} {low}"),
///     Err(Refusal::NotBelowQ) => "not a coefficient".to_string(),
///     Err(refusal) => refusal.to_string(),
/// };
/// assert_eq!(text, "refused by question 1: side, set or kind is not 0 or 1");
/// ```
///
/// # Examples
///
/// ```
/// use paired_rounding::{parts, Refusal};
///
/// let refusal = parts(0, 8_380_417).unwrap_err();
/// assert_eq!(refusal, Refusal::NotBelowQ);
/// assert_eq!(refusal.number(), 6);
/// assert_eq!(
///     refusal.to_string(),
///     "refused by question 6: a number is not below q (8380417)"
/// );
/// ```
#[derive(Clone, Copy, Debug, PartialEq, Eq, PartialOrd, Ord, Hash)]
#[non_exhaustive]
#[repr(u32)]
pub enum Refusal {
    /// Question 1: are side, set and kind each 0 or 1?
    SideSetOrKind = 1,
    /// Question 2: is the count N from 1 to 8?
    Count = 2,
    /// Question 3: is the bound B as its kind allows?
    Bound = 3,
    /// Question 4: is every key handed in from 1 to q − 1?
    Key = 4,
    /// Question 5: are all lengths exact?
    Length = 5,
    /// Question 6: is every number read below q?
    NotBelowQ = 6,
    /// Question 7: is the serial above the last one begun here?
    SerialNotAbove = 7,
    /// Question 8: is this call due?
    NotDue = 8,
    /// Question 9: is the output long enough?
    OutputTooShort = 9,
    /// Question 10: is the message's length exact?
    MessageLength = 10,
    /// Question 11: is the header equal to mine, with the other sender?
    Header = 11,
    /// Question 12: are the message's fields below q and its padding zero?
    FieldOrPadding = 12,
    /// Question 13: does every opening pass its check?
    CheckFailed = 13,
    /// Question 14: has either stock a serial above the last?
    NoBookLeft = 14,
    /// Question 15: is every opened answer in range?
    AnswerOutOfRange = 15,
}

impl Refusal {
    /// All refusals, by number.
    pub const ALL: &'static [Refusal] = &[
        Refusal::SideSetOrKind,
        Refusal::Count,
        Refusal::Bound,
        Refusal::Key,
        Refusal::Length,
        Refusal::NotBelowQ,
        Refusal::SerialNotAbove,
        Refusal::NotDue,
        Refusal::OutputTooShort,
        Refusal::MessageLength,
        Refusal::Header,
        Refusal::FieldOrPadding,
        Refusal::CheckFailed,
        Refusal::NoBookLeft,
        Refusal::AnswerOutOfRange,
    ];

    /// The question's number.
    ///
    /// ```
    /// use paired_rounding::Refusal;
    ///
    /// assert_eq!(Refusal::SideSetOrKind.number(), 1);
    /// assert_eq!(Refusal::AnswerOutOfRange.number(), 15);
    /// ```
    #[must_use]
    pub const fn number(self) -> u32 {
        self as u32
    }

    /// The refusal with this number, if there is one.
    ///
    /// ```
    /// use paired_rounding::Refusal;
    ///
    /// assert_eq!(Refusal::from_number(6), Some(Refusal::NotBelowQ));
    /// assert_eq!(Refusal::from_number(0), None);
    /// ```
    #[must_use]
    pub fn from_number(number: u32) -> Option<Refusal> {
        let place = number.checked_sub(1)?;
        Refusal::ALL.get(usize::try_from(place).ok()?).copied()
    }

    /// What is wrong, in plain words.
    ///
    /// ```
    /// use paired_rounding::Refusal;
    ///
    /// assert_eq!(
    ///     Refusal::AnswerOutOfRange.fault(),
    ///     "an opened high part is not below s (44 in set 0, 16 in set 1), or a verdict not 0 or 1"
    /// );
    /// ```
    #[must_use]
    pub const fn fault(self) -> &'static str {
        match self {
            Refusal::SideSetOrKind => "side, set or kind is not 0 or 1",
            Refusal::Count => "the count of coefficients is not from 1 to 8",
            Refusal::Bound => {
                "the bound is not as its kind allows (0 for HIGH, 1 to 4190208 for BOUND)"
            }
            Refusal::Key => "a key is not from 1 to 8380416",
            Refusal::Length => "a length is not exact",
            Refusal::NotBelowQ => "a number is not below q (8380417)",
            Refusal::SerialNotAbove => "the serial is not above the last one begun here",
            Refusal::NotDue => "the call is not due",
            Refusal::OutputTooShort => "the output is too short",
            Refusal::MessageLength => "the message's length is not exact",
            Refusal::Header => "the message's header is not the one expected of the other sender",
            Refusal::FieldOrPadding => {
                "a field of the message is not below q (8380417), or its padding bits are not zero"
            }
            Refusal::CheckFailed => "an opening fails its check",
            Refusal::NoBookLeft => "neither stock has a serial above the last",
            Refusal::AnswerOutOfRange => {
                "an opened high part is not below s (44 in set 0, 16 in set 1), or a verdict not 0 or 1"
            }
        }
    }
}

impl fmt::Display for Refusal {
    fn fmt(&self, f: &mut fmt::Formatter<'_>) -> fmt::Result {
        write!(f, "refused by question {}: {}", self.number(), self.fault())
    }
}

impl Error for Refusal {}

#[cfg(test)]
mod tests {
    use super::*;
    use std::collections::HashSet;

    #[test]
    fn numbers_go_both_ways() {
        for (number, &refusal) in (1..).zip(Refusal::ALL) {
            assert_eq!(refusal.number(), number);
            assert_eq!(Refusal::from_number(number), Some(refusal));
        }
        let next = u32::try_from(Refusal::ALL.len()).unwrap() + 1;
        assert_eq!(next, 16);
        for number in [0, next, 1 << 31, u32::MAX] {
            assert_eq!(Refusal::from_number(number), None);
        }
    }

    #[test]
    fn words_say_the_fault() {
        let mut faults = HashSet::new();
        for refusal in Refusal::ALL {
            let words = refusal.to_string();
            let expected = format!(
                "refused by question {}: {}",
                refusal.number(),
                refusal.fault()
            );
            assert_eq!(words, expected);
            assert!(!words.ends_with(['.', '?']), "{words}");
            assert!(faults.insert(refusal.fault()), "{words}");
            let as_error: &dyn Error = refusal;
            assert_eq!(as_error.to_string(), words);
        }
    }
}
