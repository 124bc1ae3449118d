//! The numbered refusals: the first question answered with no.

/// A refusal; its value is the number of the question.
#[derive(Clone, Copy, Debug, PartialEq, Eq)]
#[repr(u8)]
pub enum Refusal {
    /// Side, set or kind is neither 0 nor 1.
    Selector = 1,
    /// The count of coefficients is not 1 to 8.
    Count = 2,
    /// The bound is not one that the kind allows.
    Bound = 3,
    /// A key is not 1 to q − 1.
    Key = 4,
    /// A length is not exact.
    Length = 5,
    /// A number is not below q.
    Range = 6,
    /// The serial is not above the last one begun.
    Serial = 7,
    /// The call is not due.
    NotDue = 8,
    /// The output is too short.
    Output = 9,
    /// The message's length is not exact.
    MessageLength = 10,
    /// The message's header is not the one expected.
    Header = 11,
    /// A field is not below q, or the padding is not zero.
    Field = 12,
    /// An opening fails its check.
    Check = 13,
    /// An opened answer is not in range.
    Answer = 15,
}

impl Refusal {
    pub fn number(self) -> u8 {
        self as u8
    }
}

/// `Ok` if the question is answered with yes, else the refusal.
pub fn ask(yes: bool, refusal: Refusal) -> Result<(), Refusal> {
    if yes {
        Ok(())
    } else {
        Err(refusal)
    }
}
