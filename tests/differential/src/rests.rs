//! Comparisons about rest loops: a run beside the one on the same case with its
//! loops written out, a run's answer as one of version 1, files without a dead
//! end beside what they gave before, and the most loops that there can be.

use inputs::damage::with_version;
use inputs::graphs::{first_edges, text_of};
use inputs::written_out::WrittenOut;
use reference::answer::Answer;
use reference::case::{Case, MOST_EDGES, MOST_VERTICES, MOST_WORKERS};
use reference::checker;
use reference::entries::{Checked, Outcome};
use reference::graph::Graph;
use reference::older;
use reference::refusal::Refusal;

use crate::compare::{Comparison, Entry, LEAST, Mismatch, run_inputs};

/// What a run came to.
#[derive(Clone, Copy)]
struct Ran<'a> {
    case: &'a Case,
    text: &'a [u8],
    entry: Entry<'a>,
    outcome: Outcome,
    answer: &'a [u8],
}

impl Ran<'_> {
    /// The answer, unless the list ran out.
    fn answer(&self) -> Option<Answer> {
        let graph = Graph::rested(self.case);
        checker::read(&graph, &checker::VERSIONS, self.answer).ok()
    }

    fn mismatch(&self, summary: String) -> Mismatch {
        Mismatch {
            summary,
            inputs: run_inputs(self.entry, self.text, LEAST),
        }
    }
}

/// A run by rounds, the check of its own answer, and what holds of both beside
/// other runs and checks. Returns the answer; a case that is refused has none.
pub fn compare_whole(comparison: &mut Comparison, case: &Case) -> Result<Vec<u8>, Mismatch> {
    let text = text_of(case);
    compare_run(comparison, case, &text, Entry::Rounds, |comparison, ran| {
        compare_version_1(comparison, ran)?;
        let rests = (0..case.vertices()).any(|vertex| case.rests(vertex));
        comparison.tally.rests[usize::from(rests)] += 1;
        comparison.tally.rests[2] += u64::from(names_loop(ran));
        if rests { Ok(()) } else { expect_as_before(ran) }
    })
}

/// The same by a list, which may run out.
pub fn compare_list(
    comparison: &mut Comparison,
    case: &Case,
    text: &[u8],
    list: &[u32],
) -> Result<(), Mismatch> {
    let entry = Entry::List(list);
    compare_run(comparison, case, text, entry, |_, _| Ok(()))?;
    Ok(())
}

/// A run and the same with the loops written out; if it has ended, the check of
/// its answer and what else is asked of it. Returns the answer.
fn compare_run(
    comparison: &mut Comparison,
    case: &Case,
    text: &[u8],
    entry: Entry,
    beside: impl FnOnce(&mut Comparison, Ran) -> Result<(), Mismatch>,
) -> Result<Vec<u8>, Mismatch> {
    let (outcome, answer) = comparison.run(entry, text, LEAST)?;
    let ran = Ran {
        case,
        text,
        entry,
        outcome,
        answer: &answer,
    };
    if outcome.refusal == 0 {
        comparison.check_own(text, &answer, outcome.verdict)?;
        beside(comparison, ran)?;
    }
    if [0, Refusal::ActsRanOut.number()].contains(&outcome.refusal) {
        compare_written_out(comparison, ran)?;
    }
    Ok(answer)
}

/// Whether the answer has an edge that is not in the file.
fn names_loop(ran: Ran) -> bool {
    let Some(Answer::Lasso { stem, cycle }) = ran.answer() else {
        return false;
    };
    let mut edges = stem.iter().chain(&cycle);
    edges.any(|&edge| edge >= ran.case.edges.len())
}

/// The answer as one of version 1: there it shows the same, unless it names a
/// rest loop.
fn compare_version_1(comparison: &mut Comparison, ran: Ran) -> Result<(), Mismatch> {
    let first = with_version(ran.answer, &older::VERSION.to_string());
    let got = comparison.check(ran.text, &first)?;
    let want = if names_loop(ran) {
        Checked {
            refusal: Refusal::AnswerWrong.number(),
            verdict: 0,
        }
    } else {
        Checked {
            refusal: 0,
            verdict: ran.outcome.verdict,
        }
    };
    if got == want {
        return Ok(());
    }
    let summary = format!("its answer as version 1 should get {want:?} and gets {got:?}");
    Err(ran.mismatch(summary))
}

/// The same run on the case with its loops written out: only the numbers of
/// edges may differ, and so the length of the answer.
fn compare_written_out(comparison: &mut Comparison, ran: Ran) -> Result<(), Mismatch> {
    let Some(written_out) = WrittenOut::of(ran.case) else {
        return Ok(());
    };
    let renamed;
    let entry = match ran.entry {
        Entry::Rounds => Entry::Rounds,
        Entry::List(acts) => {
            renamed = written_out.acts(acts);
            Entry::List(&renamed)
        }
    };
    let text = text_of(&written_out.case);
    let (outcome, answer) = comparison.run(entry, &text, LEAST)?;
    let other = Ran {
        case: &written_out.case,
        text: &text,
        entry,
        outcome,
        answer: &answer,
    };
    let want = ran.answer().map(|answer| written_out.answer(&answer));
    let written = ran.outcome.written;
    if (Outcome { written, ..outcome }, other.answer()) == (ran.outcome, want) {
        return Ok(());
    }
    let summary = format!("with its loops written out it should be the same: {outcome:?}");
    Err(ran.mismatch(summary))
}

/// Where no vertex rests, a run by rounds comes out as before but for the
/// version.
fn expect_as_before(ran: Ran) -> Result<(), Mismatch> {
    let before = older::by_rounds(ran.case);
    let answer = Answer::of(&before).expect("a run by rounds ends");
    let want = Outcome {
        refusal: 0,
        verdict: answer.verdict(),
        acts: before.acts_counted,
        written: ran.answer.len() as u32,
        tallies: before.tallies,
    };
    let answered = with_version(ran.answer, &older::VERSION.to_string());
    if ran.outcome == want && answered == answer.text_as(older::VERSION).into_bytes() {
        return Ok(());
    }
    Err(ran.mismatch(format!("should be as before, {want:?}")))
}

/// The most loops: 496 after 2,000 edges, which leave four vertices, and 500
/// after none; and loops whose numbers stand where one digit more is needed.
pub fn compare_most_loops(comparison: &mut Comparison) -> Result<(), Mismatch> {
    const LAST: usize = MOST_VERTICES - 1;
    let marked: [(usize, fn(usize) -> bool); 9] = [
        (0, |_| false),
        (0, |vertex| vertex == 4),
        (0, |vertex| vertex == LAST),
        (0, |vertex| vertex % 9 == 4),
        (3, |vertex| vertex == LAST),
        (4, |vertex| vertex == 4),
        (4, |vertex| vertex != 4),
        (LAST, |vertex| vertex == LAST),
        (LAST, |_| true),
    ];
    for (source, accepting) in marked {
        for edges in [0, MOST_EDGES] {
            compare_limit(comparison, first_edges(edges, source, accepting))?;
        }
    }
    for vertices in [10, 11, 100, 101] {
        compare_limit(comparison, one_edge(vertices))?;
    }
    // The last loop has number 998 to 1,000, 1,998 to 2,000, and 2,494.
    for edges in [500, 502, 503, 1_503, 1_504, 1_505, 1_999] {
        compare_limit(comparison, first_edges(edges, 0, |vertex| vertex == LAST))?;
    }
    Ok(())
}

/// So many vertices with one edge, from the first to the last, which accepts:
/// its loop has its own number.
fn one_edge(vertices: usize) -> Case {
    let last = vertices - 1;
    Case {
        source: 0,
        workers: 1,
        accepting: (0..vertices).map(|vertex| vertex == last).collect(),
        owners: vec![0; vertices],
        edges: vec![(0, last)],
    }
}

/// By one worker and by the most, by rounds and by acts around the last one.
fn compare_limit(comparison: &mut Comparison, case: Case) -> Result<(), Mismatch> {
    let most_workers = Case {
        workers: MOST_WORKERS,
        owners: (0..case.vertices()).map(|v| v % MOST_WORKERS).collect(),
        ..case.clone()
    };
    for case in [case, most_workers] {
        compare_whole(comparison, &case)?;
        let text = text_of(&case);
        let acts = case.act_count() as u32;
        let loops = Graph::rested(&case).edges.len() - case.edges.len();
        for act in [acts - 1, acts, acts + loops as u32 - 1] {
            comparison.run(Entry::List(&[0, act]), &text, LEAST)?;
        }
        compare_edge_numbers(comparison, &case, &text)?;
    }
    Ok(())
}

/// Answers by edges around the last of the file and the last loop.
fn compare_edge_numbers(
    comparison: &mut Comparison,
    case: &Case,
    text: &[u8],
) -> Result<(), Mismatch> {
    let (in_file, in_all) = (case.edges.len(), Graph::rested(case).edges.len());
    for edge in [in_file.saturating_sub(1), in_file, in_all - 1, in_all] {
        let answer = Answer::Lasso {
            stem: vec![],
            cycle: vec![edge],
        };
        for version in checker::VERSIONS {
            let whole = answer.text_as(version);
            comparison.check(text, whole.as_bytes())?;
            comparison.check(text, (whole + "x").as_bytes())?;
        }
    }
    Ok(())
}
