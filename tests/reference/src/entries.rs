//! The entries, with the buffers that a caller lends.

use crate::answer::Answer;
use crate::case::{self, Case, MOST_WORKERS, text_of};
use crate::chart::{self, Chart};
use crate::checker;
use crate::claim::{self, Claim, MOST_STATES};
use crate::product::{Automaton, Product};
use crate::refusal::Refusal;
use crate::run::{Run, Tallies, by_list, by_rounds};

/// The least output, in bytes.
pub const OUTPUT_BYTES: usize = 8_192;
/// The least work buffer, in cells.
pub const WORK_CELLS: usize = 16_384;
/// The least output of a case that is built and of steps that are listed.
pub const BUILT_BYTES: usize = 65_536;

/// What a run returns. A refusal has verdict 0; of refusals only 10 has acts
/// and tallies.
#[derive(Clone, Copy, Debug, Default, PartialEq, Eq)]
pub struct Outcome {
    pub refusal: u32,
    pub verdict: u32,
    pub acts: u64,
    pub written: u32,
    pub tallies: Tallies,
}

impl Outcome {
    fn refused(refusal: Refusal) -> Self {
        Outcome {
            refusal: refusal.number(),
            ..Outcome::default()
        }
    }
}

/// What a check returns. A refusal has verdict 0.
#[derive(Clone, Copy, Debug, Default, PartialEq, Eq)]
pub struct Checked {
    pub refusal: u32,
    pub verdict: u32,
}

/// What the reading of a claim returns, by state as far as there are states.
/// A refusal has zeros for the rest.
#[derive(Clone, Copy, Debug, Default, PartialEq, Eq)]
pub struct ClaimRead {
    pub refusal: u32,
    pub states: u32,
    pub start: u32,
    pub propositions: u32,
    pub accepting: [u32; MOST_STATES],
    /// Where the bytes of a name begin in the text, counted from 0; 0 where
    /// there is no name.
    pub name_at: [u32; MOST_STATES],
    pub name_length: [u32; MOST_STATES],
}

impl ClaimRead {
    pub fn of(read: &Result<Claim, Refusal>) -> Self {
        match read {
            Ok(claim) => ClaimRead::taken(claim),
            Err(refusal) => ClaimRead {
                refusal: refusal.number(),
                ..ClaimRead::default()
            },
        }
    }

    fn taken(claim: &Claim) -> Self {
        let mut taken = ClaimRead {
            states: claim.states.len() as u32,
            start: claim.start,
            propositions: claim.propositions,
            ..ClaimRead::default()
        };
        for (number, state) in claim.states.iter().enumerate() {
            let name = state.name.clone().unwrap_or_default();
            taken.accepting[number] = state.accepting.into();
            taken.name_at[number] = name.start as u32;
            taken.name_length[number] = name.len() as u32;
        }
        taken
    }
}

/// What the check of a chart returns. Refusals 18 and 19 have the first bad
/// pair; else mode and combination are 0.
#[derive(Clone, Copy, Debug, Default, PartialEq, Eq)]
pub struct Charted {
    pub refusal: u32,
    pub mode: u32,
    pub combination: u32,
}

impl Charted {
    pub fn of(checked: Result<Chart, chart::Fault>) -> Self {
        match checked {
            Ok(_) => Charted::default(),
            Err(fault) => Charted {
                refusal: fault.refusal.number(),
                mode: fault.mode as u32,
                combination: fault.combination as u32,
            },
        }
    }
}

/// What comes back of a case that is built and of steps that are listed.
/// Refusals 18 and 19 have the chart's first bad pair; else mode and combination
/// are 0.
#[derive(Clone, Copy, Debug, Default, PartialEq, Eq)]
pub struct Built {
    pub refusal: u32,
    pub mode: u32,
    pub combination: u32,
    pub written: u32,
}

impl Built {
    pub fn refused(fault: chart::Fault) -> Self {
        Built {
            refusal: fault.refusal.number(),
            mode: fault.mode as u32,
            combination: fault.combination as u32,
            written: 0,
        }
    }
}

/// Anything that offers the eight entries.
pub trait Tool {
    fn run_list(&self, text: &[u8], acts: &[u32], output: &mut [u8], work: &mut [i32]) -> Outcome;

    fn run_rounds(&self, text: &[u8], output: &mut [u8], work: &mut [i32]) -> Outcome;

    fn check_answer(&self, text: &[u8], answer: &[u8]) -> Checked;

    fn read_claim(&self, text: &[u8]) -> ClaimRead;

    fn claim_moves(&self, text: &[u8], state: u32, values: u32) -> u32;

    fn check_chart(&self, text: &[u8]) -> Charted;

    fn build_case(&self, chart: &[u8], claim: &[u8], workers: u32, output: &mut [u8]) -> Built;

    fn list_steps(&self, chart: &[u8], claim: &[u8], answer: &[u8], output: &mut [u8]) -> Built;
}

/// What a begun run leaves to report.
pub struct Report {
    pub acts: u64,
    pub tallies: Tallies,
    /// Nothing if the acts ran out before the end.
    pub answer: Option<Answer>,
}

impl Report {
    pub fn of(run: &Run) -> Self {
        Report {
            acts: run.acts_counted,
            tallies: run.tallies,
            answer: Answer::of(run),
        }
    }
}

/// The frame of both runs: buffers, then the case, then the search, then what
/// is left in the buffers.
pub fn run_with(
    text: &[u8],
    output: &mut [u8],
    work: &mut [i32],
    search: impl FnOnce(&Case) -> Result<Report, Refusal>,
) -> Outcome {
    if output.len() < OUTPUT_BYTES || work.len() < WORK_CELLS {
        return Outcome::refused(Refusal::BufferTooSmall);
    }
    let report = match case::read(text).and_then(|case| search(&case)) {
        Ok(report) => report,
        Err(refusal) => return Outcome::refused(refusal),
    };
    work.fill(0);
    let Some(answer) = report.answer else {
        return Outcome {
            acts: report.acts,
            tallies: report.tallies,
            ..Outcome::refused(Refusal::ActsRanOut)
        };
    };
    let written = answer.text();
    output[..written.len()].copy_from_slice(written.as_bytes());
    Outcome {
        refusal: 0,
        verdict: answer.verdict(),
        acts: report.acts,
        written: written.len() as u32,
        tallies: report.tallies,
    }
}

/// The frame of the checker: the whole case is judged before the answer.
pub fn check_with(text: &[u8], check: impl FnOnce(&Case) -> Result<Answer, Refusal>) -> Checked {
    match case::read(text).and_then(|case| check(&case)) {
        Ok(answer) => Checked {
            refusal: 0,
            verdict: answer.verdict(),
        },
        Err(refusal) => Checked {
            refusal: refusal.number(),
            verdict: 0,
        },
    }
}

/// The frame of building and listing: the output goes before everything, and
/// only a whole text is written.
pub fn write_with(
    output: &mut [u8],
    make: impl FnOnce() -> Result<Vec<u8>, chart::Fault>,
) -> Built {
    if output.len() < BUILT_BYTES {
        return Built::refused(Refusal::BufferTooSmall.into());
    }
    match make() {
        Ok(text) => {
            output[..text.len()].copy_from_slice(&text);
            Built {
                written: text.len() as u32,
                ..Built::default()
            }
        }
        Err(fault) => Built::refused(fault),
    }
}

/// The workers, if a case may be built for so many.
pub fn worker_count(workers: u32) -> Result<usize, Refusal> {
    let in_range = (1..=MOST_WORKERS).contains(&(workers as usize));
    in_range
        .then_some(workers as usize)
        .ok_or(Refusal::CountOutOfRange)
}

/// A chart and a claim; the whole chart is judged before the claim.
fn read_product(chart: &[u8], claim: &[u8]) -> Result<Product, chart::Fault> {
    Ok(Product {
        chart: Automaton::of_chart(&chart::check(chart)?),
        claim: Automaton::of_claim(&claim::read(claim)?, claim),
    })
}

/// The reference as a tool.
pub struct Reference;

impl Tool for Reference {
    fn run_list(&self, text: &[u8], acts: &[u32], output: &mut [u8], work: &mut [i32]) -> Outcome {
        run_with(text, output, work, |case| {
            Ok(Report::of(&by_list(case, acts)?))
        })
    }

    fn run_rounds(&self, text: &[u8], output: &mut [u8], work: &mut [i32]) -> Outcome {
        run_with(text, output, work, |case| Ok(Report::of(&by_rounds(case))))
    }

    fn check_answer(&self, text: &[u8], answer: &[u8]) -> Checked {
        check_with(text, |case| checker::check(case, answer))
    }

    fn read_claim(&self, text: &[u8]) -> ClaimRead {
        ClaimRead::of(&claim::read(text))
    }

    fn claim_moves(&self, text: &[u8], state: u32, values: u32) -> u32 {
        claim::read(text).map_or(0, |claim| claim.moves(state, values))
    }

    fn check_chart(&self, text: &[u8]) -> Charted {
        Charted::of(chart::check(text))
    }

    fn build_case(&self, chart: &[u8], claim: &[u8], workers: u32, output: &mut [u8]) -> Built {
        write_with(output, || {
            let workers = worker_count(workers)?;
            let product = read_product(chart, claim)?;
            Ok(text_of(&product.case(workers)?))
        })
    }

    fn list_steps(&self, chart: &[u8], claim: &[u8], answer: &[u8], output: &mut [u8]) -> Built {
        write_with(output, || {
            let product = read_product(chart, claim)?;
            let case = product.case(1)?;
            let passing = checker::check(&case, answer)?;
            Ok(product.listing(&checker::meant(&case, answer), &passing))
        })
    }
}
