//! The mutants with one fault each in rest loops or in versions of answers.

use std::borrow::Cow;

use inputs::damage::with_version;
use reference::answer::{ANSWER_NAMES, Answer};
use reference::case::Case;
use reference::checker::{self, VERSIONS, judge, meant};
use reference::entries::Outcome;
use reference::graph::Graph;
use reference::refusal::Refusal;
use reference::run::{Finding, Run};
use reference::text::version;

use crate::mutants::{Buffers, Faulty, Mutant, mutant};

/// Where the version of an answer stands, after the names and a line feed.
const VERSION_AT: usize = ANSWER_NAMES.len() + 1;

/// Every mutant of these.
pub fn rest_mutants() -> Vec<Mutant> {
    vec![
        mutant("no rest loop", NoLoop),
        mutant("a loop on every vertex", LoopEverywhere),
        mutant("loops of accepting vertices only", AcceptingLoops),
        mutant("a vertex with only its own loop rests too", SecondLoop),
        mutant("loops numbered before the file's edges", LoopsFirst),
        mutant("loops numbered from the last vertex", LoopsBackwards),
        mutant("lasso as soon as one rests accepting", AtOnce),
        mutant("9 from P + m with the loops", ActsOnLoops),
        mutant("version 1 judged with loops", FirstWithLoops),
        mutant("version 2 judged without loops", SecondWithoutLoops),
        mutant("loop in range in version 1", LoopInRange),
        mutant("version 3 taken", ThirdTaken),
        mutant("version 1 refused", FirstRefused),
        mutant("version 02 taken", LeadingZero),
        mutant("answers written as version 1", FirstWritten),
        mutant("case of version 2 taken", NewerCase),
    ]
}

/// The graph of a file's edges and a loop on each of these vertices after them.
fn with_loops(case: &Case, on: impl Fn(usize) -> bool) -> Graph<'_> {
    let loops = (0..case.vertices()).filter(|&vertex| on(vertex));
    let loops = loops.map(|vertex| (vertex, vertex));
    Graph::with_edges(case, case.edges.iter().copied().chain(loops).collect())
}

struct NoLoop;
impl Faulty for NoLoop {
    fn graph<'a>(&self, case: &'a Case) -> Graph<'a> {
        Graph::of_file(case)
    }
}

struct LoopEverywhere;
impl Faulty for LoopEverywhere {
    fn graph<'a>(&self, case: &'a Case) -> Graph<'a> {
        with_loops(case, |_| true)
    }
}

struct AcceptingLoops;
impl Faulty for AcceptingLoops {
    fn graph<'a>(&self, case: &'a Case) -> Graph<'a> {
        with_loops(case, |vertex| case.rests(vertex) && case.accepting[vertex])
    }
}

/// What differs are the numbers of the loops that follow.
struct SecondLoop;
impl Faulty for SecondLoop {
    fn graph<'a>(&self, case: &'a Case) -> Graph<'a> {
        let leads_on = |vertex| {
            let mut edges = case.edges.iter();
            edges.any(|&(from, to)| from == vertex && to != vertex)
        };
        with_loops(case, |vertex| !leads_on(vertex))
    }
}

/// Runs and checks number edges alike, so that its own answers pass.
struct LoopsFirst;
impl Faulty for LoopsFirst {
    fn answer(&self, run: &Run) -> Option<Answer> {
        let (in_file, in_all) = (run.case.edges.len(), run.graph.edges.len());
        Some(renamed(Answer::of(run)?, |edge| {
            (edge + in_all - in_file) % in_all
        }))
    }

    fn check(&self, case: &Case, answer: &[u8]) -> Result<Answer, Refusal> {
        let mut edges = meant(case, answer).edges;
        edges.rotate_left(case.edges.len());
        judge(&Graph::with_edges(case, edges), &VERSIONS, answer)
    }
}

struct LoopsBackwards;
impl Faulty for LoopsBackwards {
    fn answer(&self, run: &Run) -> Option<Answer> {
        let (in_file, in_all) = (run.case.edges.len(), run.graph.edges.len());
        Some(renamed(Answer::of(run)?, |edge| {
            if edge < in_file {
                edge
            } else {
                in_file + in_all - 1 - edge
            }
        }))
    }
}

/// The answer with other numbers for its edges.
fn renamed(mut answer: Answer, name: impl Fn(usize) -> usize) -> Answer {
    if let Answer::Lasso { stem, cycle } = &mut answer {
        for edge in stem.iter_mut().chain(cycle) {
            *edge = name(*edge);
        }
    }
    answer
}

/// Does not wait for the floor: the first that rests and accepts has a loop.
struct AtOnce;
impl Faulty for AtOnce {
    fn act(&self, run: &mut Run, act: usize) {
        run.act(act);
        let rests = |&vertex: &usize| run.case.rests(vertex) && run.case.accepting[vertex];
        let reached = |vertex: &usize| run.distances[*vertex].is_some();
        let breaker = (0..run.case.vertices()).filter(reached).find(rests);
        if let Some(breaker) = breaker {
            run.parents[breaker] = run.graph.edges_from(breaker).first().copied();
            run.finding = Some(Finding::Lasso { breaker });
        }
    }
}

/// A delivery on a loop is an idle act.
struct ActsOnLoops;
impl Faulty for ActsOnLoops {
    fn act_count(&self, case: &Case) -> usize {
        case.workers + Graph::rested(case).edges.len()
    }

    fn act(&self, run: &mut Run, act: usize) {
        if act < run.case.act_count() {
            run.act(act);
        }
    }
}

struct FirstWithLoops;
impl Faulty for FirstWithLoops {
    fn check(&self, case: &Case, answer: &[u8]) -> Result<Answer, Refusal> {
        judge(&Graph::rested(case), &VERSIONS, answer)
    }
}

struct SecondWithoutLoops;
impl Faulty for SecondWithoutLoops {
    fn check(&self, case: &Case, answer: &[u8]) -> Result<Answer, Refusal> {
        judge(&Graph::of_file(case), &VERSIONS, answer)
    }
}

/// Reads by the graph with loops, and judges by the one that is meant; so 13
/// comes too late.
struct LoopInRange;
impl Faulty for LoopInRange {
    fn check(&self, case: &Case, answer: &[u8]) -> Result<Answer, Refusal> {
        checker::read(&Graph::rested(case), &VERSIONS, answer)?;
        checker::check(case, answer)
    }
}

struct ThirdTaken;
impl Faulty for ThirdTaken {
    fn check(&self, case: &Case, answer: &[u8]) -> Result<Answer, Refusal> {
        judge(&meant(case, answer), &[1, 2, 3], answer)
    }
}

struct FirstRefused;
impl Faulty for FirstRefused {
    fn check(&self, case: &Case, answer: &[u8]) -> Result<Answer, Refusal> {
        judge(&meant(case, answer), &[2], answer)
    }
}

struct LeadingZero;
impl Faulty for LeadingZero {
    fn check(&self, case: &Case, answer: &[u8]) -> Result<Answer, Refusal> {
        match answer.get(VERSION_AT..VERSION_AT + 2) {
            Some(b"02") => checker::check(case, &with_version(answer, "2")),
            _ => checker::check(case, answer),
        }
    }
}

struct FirstWritten;
impl Faulty for FirstWritten {
    fn leave(&self, outcome: Outcome, _before: &Buffers, output: &mut [u8], _work: &mut [i32]) {
        if outcome.refusal == 0 {
            output[VERSION_AT] = b'1';
        }
    }
}

struct NewerCase;
impl Faulty for NewerCase {
    fn case_text<'a>(&self, text: &'a [u8]) -> Cow<'a, [u8]> {
        if version(text) == Some(2) {
            with_version(text, "1").into()
        } else {
            text.into()
        }
    }
}
