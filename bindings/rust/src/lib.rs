//! Rezkundo's library, `librezkundo.a`, as safe functions over slices. `include/rezkundo.h` has the contract of each
//! entry.
//!
//! A run or a check either gives a verdict or an [`Error`]. Numbers that this binding does not know are an error too, so
//! nothing is ever taken for "empty" that is not. Of a claim, of a chart, and of what is built or listed from both the
//! numbers come back as they are: it is taken, or done, where its refusal is 0.

use std::fmt;

/// The version that this binding goes with, as [`version`] tells the library's: major × 10,000 + minor × 100 + patch.
pub const VERSION: u32 = 10_600;
/// The longest file, in bytes.
pub const LONGEST_FILE: usize = 65_536;
/// The least output, in bytes; it suffices for every case.
pub const LEAST_OUTPUT: usize = 8_192;
/// The least work buffer, in cells; it suffices for every case.
pub const LEAST_WORK: usize = 16_384;
/// The most states of a claim.
pub const MOST_STATES: usize = 15;
/// The longest claim, in bytes.
pub const LONGEST_CLAIM: usize = 16_384;
/// The most modes of a chart.
pub const MOST_MODES: usize = 32;
/// The most flags of a chart.
pub const MOST_FLAGS: usize = 8;
/// The most rules of a chart.
pub const MOST_RULES: usize = 512;
/// The longest name of a mode, in bytes.
pub const LONGEST_NAME: usize = 16;
/// The least output of a case that is built, in bytes; it suffices for every chart and claim.
pub const LEAST_CASE: usize = 65_536;
/// The least output of steps that are listed, in bytes; it suffices for every answer.
pub const LEAST_STEPS: usize = 65_536;

/// What was found, or what an answer shows.
#[derive(Clone, Copy, Debug, PartialEq, Eq)]
#[repr(u32)]
pub enum Verdict {
    Lasso = 1,
    Empty = 2,
}

impl Verdict {
    const ALL: [Verdict; 2] = [Verdict::Lasso, Verdict::Empty];

    /// Its number in the C interface.
    pub fn number(self) -> u32 {
        self as u32
    }
}

impl fmt::Display for Verdict {
    /// The word that answer files have for it.
    fn fmt(&self, out: &mut fmt::Formatter) -> fmt::Result {
        out.write_str(match self {
            Verdict::Lasso => "lasso",
            Verdict::Empty => "empty",
        })
    }
}

/// Why a call was refused; docs/REFUSALS.md has each number in words.
#[derive(Clone, Copy, Debug, PartialEq, Eq)]
#[repr(u32)]
pub enum Refusal {
    TooLong = 1,
    NotACase = 2,
    OtherVersion = 3,
    CaseLayout = 4,
    CaseCount = 5,
    CaseVertex = 6,
    CaseEdge = 7,
    CaseEdgeOrder = 8,
    NoSuchAct = 9,
    Unended = 10,
    BufferTooShort = 11,
    AnswerLayout = 12,
    AnswerFalse = 13,
    NotAClaim = 14,
    Claim = 15,
    ClaimFeature = 16,
    Chart = 17,
    ChartGap = 18,
    ChartOverlap = 19,
    CountsDiffer = 20,
    TooManyEdges = 21,
}

impl Refusal {
    /// Every refusal, by rising number.
    pub const ALL: [Refusal; 21] = [
        Refusal::TooLong,
        Refusal::NotACase,
        Refusal::OtherVersion,
        Refusal::CaseLayout,
        Refusal::CaseCount,
        Refusal::CaseVertex,
        Refusal::CaseEdge,
        Refusal::CaseEdgeOrder,
        Refusal::NoSuchAct,
        Refusal::Unended,
        Refusal::BufferTooShort,
        Refusal::AnswerLayout,
        Refusal::AnswerFalse,
        Refusal::NotAClaim,
        Refusal::Claim,
        Refusal::ClaimFeature,
        Refusal::Chart,
        Refusal::ChartGap,
        Refusal::ChartOverlap,
        Refusal::CountsDiffer,
        Refusal::TooManyEdges,
    ];

    /// Its number.
    pub fn number(self) -> u32 {
        self as u32
    }
}

/// The messages of a run. At any moment `sent` is `delivered` plus `joined` plus the cells still full.
#[derive(Clone, Copy, Debug, Default, PartialEq, Eq)]
pub struct Tallies {
    /// How often an offer was put into a message cell, also where one waited there already.
    pub sent: u32,
    /// How often a delivery emptied a cell, also where the offer was not taken.
    pub delivered: u32,
    /// How often an offer was put into a cell where one waited.
    pub joined: u32,
}

/// A run that ended.
#[derive(Clone, Copy, Debug, PartialEq, Eq)]
pub struct Finding {
    pub verdict: Verdict,
    /// The acts counted.
    pub acts: u64,
    pub tallies: Tallies,
    /// The length of the answer, which stands at the output's front.
    pub written: usize,
}

/// No verdict.
#[derive(Clone, Copy, Debug, PartialEq, Eq)]
pub enum Error {
    /// The call was refused. `acts` and `tallies` are those of the run where the list ran out ([`Refusal::Unended`]), else
    /// zeros.
    Refused {
        refusal: Refusal,
        acts: u64,
        tallies: Tallies,
    },
    /// The library returned these numbers, and this binding does not know what they mean together: it is not the one
    /// that the library goes with.
    Unknown(Outcome),
}

impl fmt::Display for Error {
    fn fmt(&self, out: &mut fmt::Formatter) -> fmt::Result {
        match self {
            Error::Refused { refusal, .. } => write!(out, "refused {}", refusal.number()),
            Error::Unknown(numbers) => {
                write!(out, "the library returned unknown numbers: {numbers:?}")
            }
        }
    }
}

impl std::error::Error for Error {}

/// The numbers that the library returns of a run: `rezkundo_outcome` in C.
#[derive(Clone, Copy, Debug, Default, PartialEq, Eq)]
#[repr(C)]
pub struct Outcome {
    pub refusal: u32,
    pub verdict: u32,
    pub acts: u64,
    pub written: u32,
    pub sent: u32,
    pub delivered: u32,
    pub joined: u32,
}

impl Outcome {
    /// Its three tallies.
    pub fn tallies(self) -> Tallies {
        Tallies {
            sent: self.sent,
            delivered: self.delivered,
            joined: self.joined,
        }
    }
}

/// The numbers that the library returns of a check: `rezkundo_checked` in C.
#[repr(C)]
struct Checked {
    refusal: u32,
    verdict: u32,
}

/// The numbers that the library returns of a claim: `rezkundo_claim` in C. Where the claim is refused, all others are 0;
/// so are those of the states that it does not have.
#[derive(Clone, Copy, Debug, Default, PartialEq, Eq)]
#[repr(C)]
pub struct Claim {
    /// 0, 14, 15 or 16.
    pub refusal: u32,
    pub states: u32,
    pub start: u32,
    pub propositions: u32,
    /// Of each state 1 where it is accepting.
    pub accepting: [u32; MOST_STATES],
    /// Of each state the place of its name in the text, without the quotes; 0 where it has none.
    pub name_at: [u32; MOST_STATES],
    /// Of each state the length of its name.
    pub name_length: [u32; MOST_STATES],
}

/// The numbers that the library returns of a chart: `rezkundo_charted` in C. Mode and combination are the first bad pair
/// where the refusal is 18 or 19, else 0.
#[derive(Clone, Copy, Debug, Default, PartialEq, Eq)]
#[repr(C)]
pub struct Charted {
    /// 0, 17, 18 or 19.
    pub refusal: u32,
    pub mode: u32,
    pub combination: u32,
}

/// The numbers that the library returns of a case that is built and of steps that are listed: `rezkundo_built` in C. Mode
/// and combination are the chart's first bad pair where the refusal is 18 or 19, else 0.
#[derive(Clone, Copy, Debug, Default, PartialEq, Eq)]
#[repr(C)]
pub struct Built {
    /// 0, 11, 14 to 21; for a case also 5, and for steps also 1, 3, 12 and 13.
    pub refusal: u32,
    pub mode: u32,
    pub combination: u32,
    /// The length of the text, which stands at the output's front; 0 where the call is refused.
    pub written: u32,
}

// The archive becomes part of this crate, so that a program needs no shared object.
#[link(name = "rezkundo", kind = "static")]
unsafe extern "C" {
    fn rezkundo_version() -> u32;

    fn rezkundo_run_list(
        text: *const u8,
        text_len: usize,
        acts: *const u32,
        acts_len: usize,
        output: *mut u8,
        output_len: usize,
        work: *mut i32,
        work_len: usize,
    ) -> Outcome;

    fn rezkundo_run_rounds(
        text: *const u8,
        text_len: usize,
        output: *mut u8,
        output_len: usize,
        work: *mut i32,
        work_len: usize,
    ) -> Outcome;

    fn rezkundo_check_answer(
        text: *const u8,
        text_len: usize,
        answer: *const u8,
        answer_len: usize,
    ) -> Checked;

    fn rezkundo_read_claim(text: *const u8, text_len: usize) -> Claim;

    fn rezkundo_claim_moves(text: *const u8, text_len: usize, state: u32, values: u32) -> u32;

    fn rezkundo_check_chart(chart: *const u8, chart_len: usize) -> Charted;

    fn rezkundo_build_case(
        chart: *const u8,
        chart_len: usize,
        claim: *const u8,
        claim_len: usize,
        workers: u32,
        output: *mut u8,
        output_len: usize,
    ) -> Built;

    fn rezkundo_list_steps(
        chart: *const u8,
        chart_len: usize,
        claim: *const u8,
        claim_len: usize,
        answer: *const u8,
        answer_len: usize,
        output: *mut u8,
        output_len: usize,
    ) -> Built;
}

/// The version of the linked library.
pub fn version() -> u32 {
    // SAFETY: the call takes nothing and touches no memory.
    unsafe { rezkundo_version() }
}

/// Runs a case by a list of acts.
pub fn run_list(
    text: &[u8],
    acts: &[u32],
    output: &mut [u8],
    work: &mut [i32],
) -> Result<Finding, Error> {
    // SAFETY: each pointer and length come from one slice that lives, and is lent to nobody else, until the call
    // returns.
    finding(unsafe {
        rezkundo_run_list(
            text.as_ptr(),
            text.len(),
            acts.as_ptr(),
            acts.len(),
            output.as_mut_ptr(),
            output.len(),
            work.as_mut_ptr(),
            work.len(),
        )
    })
}

/// Runs a case by rounds, to the run's end.
pub fn run_rounds(text: &[u8], output: &mut [u8], work: &mut [i32]) -> Result<Finding, Error> {
    // SAFETY: as above.
    finding(unsafe {
        rezkundo_run_rounds(
            text.as_ptr(),
            text.len(),
            output.as_mut_ptr(),
            output.len(),
            work.as_mut_ptr(),
            work.len(),
        )
    })
}

/// Checks an answer to a case: the verdict that it shows.
pub fn check_answer(text: &[u8], answer: &[u8]) -> Result<Verdict, Error> {
    // SAFETY: as above; the call only reads.
    let checked =
        unsafe { rezkundo_check_answer(text.as_ptr(), text.len(), answer.as_ptr(), answer.len()) };
    let numbers = Outcome {
        refusal: checked.refusal,
        verdict: checked.verdict,
        ..Outcome::default()
    };
    finding(numbers).map(|found| found.verdict)
}

/// Reads a claim.
pub fn read_claim(text: &[u8]) -> Claim {
    // SAFETY: as above; the call only reads.
    unsafe { rezkundo_read_claim(text.as_ptr(), text.len()) }
}

/// The states to which a state of a claim may move on these flag values, bit d for state d; none for a refused claim, a
/// state or values out of range.
pub fn claim_moves(text: &[u8], state: u32, values: u32) -> u32 {
    // SAFETY: as above; the call only reads.
    unsafe { rezkundo_claim_moves(text.as_ptr(), text.len(), state, values) }
}

/// Checks a chart of modes.
pub fn check_chart(chart: &[u8]) -> Charted {
    // SAFETY: as above; the call only reads.
    unsafe { rezkundo_check_chart(chart.as_ptr(), chart.len()) }
}

/// Builds the case file of a chart and a claim, for so many workers, at the output's front. A refused call leaves the
/// output as it is.
pub fn build_case(chart: &[u8], claim: &[u8], workers: u32, output: &mut [u8]) -> Built {
    // SAFETY: as above.
    unsafe {
        rezkundo_build_case(
            chart.as_ptr(),
            chart.len(),
            claim.as_ptr(),
            claim.len(),
            workers,
            output.as_mut_ptr(),
            output.len(),
        )
    }
}

/// Lists the steps of an answer to the case of a chart and a claim at the output's front: of a lasso a line for each
/// edge, of an "empty" nothing. A refused call leaves the output as it is.
pub fn list_steps(chart: &[u8], claim: &[u8], answer: &[u8], output: &mut [u8]) -> Built {
    // SAFETY: as above.
    unsafe {
        rezkundo_list_steps(
            chart.as_ptr(),
            chart.len(),
            claim.as_ptr(),
            claim.len(),
            answer.as_ptr(),
            answer.len(),
            output.as_mut_ptr(),
            output.len(),
        )
    }
}

/// What the numbers mean. A refusal has no verdict and no answer, and only `Unended` counts acts and messages; whatever
/// differs from that is unknown.
fn finding(numbers: Outcome) -> Result<Finding, Error> {
    let Outcome {
        refusal,
        verdict,
        acts,
        written,
        ..
    } = numbers;
    let tallies = numbers.tallies();
    let counts = acts != 0 || tallies != Tallies::default();
    let known_refusal = Refusal::ALL
        .into_iter()
        .find(|known| known.number() == refusal);
    let known_verdict = Verdict::ALL
        .into_iter()
        .find(|known| known.number() == verdict);
    match (known_refusal, known_verdict) {
        (None, Some(verdict)) if refusal == 0 => Ok(Finding {
            verdict,
            acts,
            tallies,
            written: written as usize,
        }),
        (Some(refusal), None)
            if verdict == 0 && written == 0 && (!counts || refusal == Refusal::Unended) =>
        {
            Err(Error::Refused {
                refusal,
                acts,
                tallies,
            })
        }
        _ => Err(Error::Unknown(numbers)),
    }
}

#[cfg(test)]
mod tests {
    use super::*;

    const TALLIES: Tallies = Tallies {
        sent: 6,
        delivered: 2,
        joined: 1,
    };

    fn outcome(refusal: u32, verdict: u32, acts: u64, written: u32) -> Outcome {
        Outcome {
            refusal,
            verdict,
            acts,
            written,
            ..Outcome::default()
        }
    }

    fn tallied(numbers: Outcome) -> Outcome {
        Outcome {
            sent: TALLIES.sent,
            delivered: TALLIES.delivered,
            joined: TALLIES.joined,
            ..numbers
        }
    }

    fn refused(refusal: Refusal, acts: u64, tallies: Tallies) -> Result<Finding, Error> {
        Err(Error::Refused {
            refusal,
            acts,
            tallies,
        })
    }

    #[test]
    fn known_numbers() {
        let found = |verdict| {
            Ok(Finding {
                verdict,
                acts: 1 << 32,
                tallies: TALLIES,
                written: 60,
            })
        };
        let ended = |verdict| finding(tallied(outcome(0, verdict, 1 << 32, 60)));
        assert_eq!(ended(1), found(Verdict::Lasso));
        assert_eq!(ended(2), found(Verdict::Empty));
        for (place, refusal) in Refusal::ALL.into_iter().enumerate() {
            assert_eq!(refusal.number(), place as u32 + 1);
            assert_eq!(
                finding(outcome(refusal.number(), 0, 0, 0)),
                refused(refusal, 0, Tallies::default())
            );
        }
        assert_eq!(
            finding(tallied(outcome(10, 0, 8, 0))),
            refused(Refusal::Unended, 8, TALLIES)
        );
    }

    #[test]
    fn unknown_numbers() {
        for numbers in [
            outcome(0, 0, 0, 0),
            outcome(0, 3, 8, 60),
            outcome(22, 0, 0, 0),
            outcome(9, 0, 1, 0),
            outcome(9, 0, 1 << 32, 0),
            tallied(outcome(9, 0, 0, 0)),
            outcome(2, 0, 0, 1),
            outcome(2, 2, 0, 0),
            outcome(22, 2, 8, 60),
        ] {
            assert_eq!(finding(numbers), Err(Error::Unknown(numbers)));
        }
    }
}
