use crate::{done_from, ffi, Refusal};

/// What the receiver of a message expects of it: its own side and run.
#[derive(Clone, Copy, Debug, PartialEq, Eq, Hash)]
pub struct Expected {
    /// The receiver's own side: 0 server, 1 phone. The sender must be the other one.
    pub side: u32,
    /// The set, 0 or 1.
    pub set: u32,
    /// The kind: 0 HIGH, 1 BOUND.
    pub kind: u32,
    /// The count N of coefficients, 1 to 8.
    pub n: u32,
    /// The bound B: 0 for HIGH, 1 to 4,190,208 for BOUND.
    pub bound: u32,
    /// The round, 1 to 7.
    pub round: u32,
    /// The run's serial, above 0.
    pub serial: u32,
}

/// Has the message the form that its receiver expects?
///
/// Length, header, fields and padding are tested. Whether the openings pass their checks is not:
/// that takes the receiver's keys.
///
/// # Errors
///
/// The first of these that is answered no: [`Refusal::SideSetOrKind`], [`Refusal::Count`],
/// [`Refusal::Bound`], [`Refusal::NotDue`] (a round outside 1 to 7, or serial 0),
/// [`Refusal::MessageLength`], [`Refusal::Header`], [`Refusal::FieldOrPadding`].
///
/// # Examples
///
/// ```
/// use paired_rounding::{message_form, Expected, Refusal};
///
/// // The phone expects round 1 of run 1 from the server: set 0, HIGH, one coefficient.
/// let phone = Expected { side: 1, set: 0, kind: 0, n: 1, bound: 0, round: 1, serial: 1 };
/// // Its opening is the share 1 and four zero parts.
/// let mut message = [0; 23];
/// message[..11].copy_from_slice(&[0x00, 0x80, 0, 0, 0, 0, 0, 0x01, 0, 0, 0x02]);
/// assert_eq!(message_form(&phone, &message), Ok(()));
///
/// assert_eq!(message_form(&phone, &message[1..]), Err(Refusal::MessageLength));
/// let server = Expected { side: 0, ..phone };
/// assert_eq!(message_form(&server, &message), Err(Refusal::Header));
/// message[22] = 0x01;
/// assert_eq!(message_form(&phone, &message), Err(Refusal::FieldOrPadding));
/// ```
pub fn message_form(expected: &Expected, message: &[u8]) -> Result<(), Refusal> {
    done_from(ffi::message_form(expected, message))
}
