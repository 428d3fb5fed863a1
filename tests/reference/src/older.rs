//! The rules before rest loops, as the paper alone has them. Answers of version 1
//! are still judged so, and where no vertex rests runs still come out so.

use crate::answer::Answer;
use crate::case::Case;
use crate::checker;
use crate::graph::Graph;
use crate::refusal::Refusal;
use crate::run::{Run, to_end_by_rounds};

/// The version of the answers that were written and taken then.
pub const VERSION: usize = 1;

/// The run by rounds.
pub fn by_rounds(case: &Case) -> Run<'_> {
    to_end_by_rounds(Run::on(Graph::of_file(case)))
}

/// The checker, which knew one version.
pub fn check(case: &Case, text: &[u8]) -> Result<Answer, Refusal> {
    checker::judge(&Graph::of_file(case), &[VERSION], text)
}
