//! The library as a tool that the comparison calls, over the binding in
//! bindings/rust. The binding keeps every number that the library returns, so
//! nothing that the comparison looks at is lost on the way.

use reference::entries::{Built, Charted, Checked, ClaimRead, Outcome, Tool};
use reference::run::Tallies;
use rezkundo::{
    Error, Finding, build_case, check_answer, check_chart, claim_moves, list_steps, read_claim,
    run_list, run_rounds,
};

/// The proved library.
pub struct Library;

impl Tool for Library {
    fn run_list(&self, text: &[u8], acts: &[u32], output: &mut [u8], work: &mut [i32]) -> Outcome {
        outcome(run_list(text, acts, output, work))
    }

    fn run_rounds(&self, text: &[u8], output: &mut [u8], work: &mut [i32]) -> Outcome {
        outcome(run_rounds(text, output, work))
    }

    fn check_answer(&self, text: &[u8], answer: &[u8]) -> Checked {
        match check_answer(text, answer) {
            Ok(verdict) => Checked {
                refusal: 0,
                verdict: verdict.number(),
            },
            Err(error) => {
                let Outcome {
                    refusal, verdict, ..
                } = numbers(error);
                Checked { refusal, verdict }
            }
        }
    }

    fn read_claim(&self, text: &[u8]) -> ClaimRead {
        let read = read_claim(text);
        ClaimRead {
            refusal: read.refusal,
            states: read.states,
            start: read.start,
            propositions: read.propositions,
            accepting: read.accepting,
            name_at: read.name_at,
            name_length: read.name_length,
        }
    }

    fn claim_moves(&self, text: &[u8], state: u32, values: u32) -> u32 {
        claim_moves(text, state, values)
    }

    fn check_chart(&self, text: &[u8]) -> Charted {
        let charted = check_chart(text);
        Charted {
            refusal: charted.refusal,
            mode: charted.mode,
            combination: charted.combination,
        }
    }

    fn build_case(&self, chart: &[u8], claim: &[u8], workers: u32, output: &mut [u8]) -> Built {
        built(build_case(chart, claim, workers, output))
    }

    fn list_steps(&self, chart: &[u8], claim: &[u8], answer: &[u8], output: &mut [u8]) -> Built {
        built(list_steps(chart, claim, answer, output))
    }
}

fn built(built: rezkundo::Built) -> Built {
    Built {
        refusal: built.refusal,
        mode: built.mode,
        combination: built.combination,
        written: built.written,
    }
}

fn outcome(result: Result<Finding, Error>) -> Outcome {
    match result {
        Ok(found) => Outcome {
            refusal: 0,
            verdict: found.verdict.number(),
            acts: found.acts,
            written: found.written as u32,
            tallies: tallies(found.tallies),
        },
        Err(error) => numbers(error),
    }
}

fn tallies(counted: rezkundo::Tallies) -> Tallies {
    Tallies {
        sent: counted.sent,
        delivered: counted.delivered,
        joined: counted.joined,
    }
}

/// The numbers behind an error: a refusal has verdict 0 and no answer.
fn numbers(error: Error) -> Outcome {
    match error {
        Error::Refused {
            refusal,
            acts,
            tallies: counted,
        } => Outcome {
            refusal: refusal.number(),
            verdict: 0,
            acts,
            written: 0,
            tallies: tallies(counted),
        },
        Error::Unknown(raw) => Outcome {
            refusal: raw.refusal,
            verdict: raw.verdict,
            acts: raw.acts,
            written: raw.written,
            tallies: tallies(raw.tallies()),
        },
    }
}
