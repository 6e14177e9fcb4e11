//! The refusals, and the outcome that a call hands back.

/// "No. | Given exactly when": the discriminant is the number that document 01 gives, and from 10 on
/// document 02.
#[derive(Clone, Copy, Debug, PartialEq, Eq)]
pub enum Refusal {
    TableMark = 1,
    Table = 2,
    RecordMark = 3,
    RecordLength = 4,
    RecordField = 5,
    RecordValue = 6,
    CancelOfNothing = 7,
    Room = 8,
    Heads = 9,
    ListDamaged = 10,
    TooManySegments = 11,
    NoSuchSegment = 12,
    BadlyEncoded = 13,
    OtherMessage = 14,
    UnknownElement = 15,
    ElementOrder = 16,
    /// No accepted Write-Replace or Cancel has it, whatever the table.
    NoSuchAnswer = 17,
}

impl Refusal {
    pub fn number(self) -> u32 {
        self as u32
    }
}

/// Number 0 and the length written, or a refusal's number and length 0.
#[derive(Clone, Copy, Debug, PartialEq, Eq)]
pub struct Done {
    pub number: u32,
    pub length: usize,
}

impl From<Result<usize, Refusal>> for Done {
    fn from(outcome: Result<usize, Refusal>) -> Done {
        match outcome {
            Ok(length) => Done { number: 0, length },
            Err(refusal) => Done { number: refusal.number(), length: 0 },
        }
    }
}

/// Lays what was written at the start of a lent buffer; the bytes behind it stay.
pub(crate) fn lay(written: &[u8], buffer: &mut [u8]) -> Result<usize, Refusal> {
    let part = buffer.get_mut(..written.len()).ok_or(Refusal::Room)?;
    part.copy_from_slice(written);
    Ok(written.len())
}
