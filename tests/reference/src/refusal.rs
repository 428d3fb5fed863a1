//! The numbered refusals.

/// A refusal; its discriminant is the number in the paper.
#[derive(Clone, Copy, Debug, PartialEq, Eq)]
#[repr(u32)]
pub enum Refusal {
    FileTooLong = 1,
    NoVersionWord = 2,
    OtherVersion = 3,
    CaseLayout = 4,
    CountOutOfRange = 5,
    BadVertexLine = 6,
    EdgeEndOutOfRange = 7,
    EdgesNotRising = 8,
    ActOutOfRange = 9,
    ActsRanOut = 10,
    BufferTooSmall = 11,
    AnswerLayout = 12,
    AnswerWrong = 13,
    NotAClaim = 14,
    ClaimWrong = 15,
    ClaimNotTaken = 16,
    ChartWrong = 17,
    NoRule = 18,
    TwoRules = 19,
    CountsDiffer = 20,
    TooManyEdges = 21,
}

impl Refusal {
    /// The number that a caller gets to see.
    pub fn number(self) -> u32 {
        self as u32
    }
}
