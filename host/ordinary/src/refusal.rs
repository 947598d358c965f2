//! The refusal numbers.

/// What a call answers: done, or the first reason to refuse, in the order
/// 1, 9, 3, 4, 2, 5, 6, 7.
#[derive(Clone, Copy, Debug, PartialEq, Eq)]
pub enum Refusal {
    /// The call was carried out.
    Done = 0,
    /// The image's length is no multiple of 512, or the image has fewer than
    /// 2 or more than 1,024 pages.
    ImageLength = 1,
    /// Check refuses the image.
    Damaged = 2,
    /// A key of 0 or more than 32 bytes, or a bound of more than 32.
    KeyLength = 3,
    /// A value of more than 4,032 bytes.
    ValueLength = 4,
    /// The key is not in the map.
    NoSuchKey = 5,
    /// Too few pages for a put.
    TooFewPages = 6,
    /// The output is too short for the value, or for a batch line's answer.
    OutputShort = 7,
    /// A malformed batch line.
    MalformedLine = 8,
    /// The work area is shorter than the image has pages.
    WorkShort = 9,
}

impl Refusal {
    /// Gives the paper's number.
    pub fn number(self) -> u8 {
        self as u8
    }
}

impl From<Result<(), Refusal>> for Refusal {
    /// Gives `Done` for a call carried out, else its refusal.
    fn from(outcome: Result<(), Refusal>) -> Refusal {
        outcome.err().unwrap_or(Refusal::Done)
    }
}
