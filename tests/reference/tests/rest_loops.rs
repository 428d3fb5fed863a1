//! The reference's rest loops and versions of answers: rows for each reading of
//! the request, and what must hold of every case.

use inputs::acts;
use inputs::answers::other_answers;
use inputs::damage::{VERSIONS, damaged};
use inputs::graphs::{Size, every_case, first_edges, random_case};
use inputs::kept::{D, K1, K4, K6};
use inputs::rng::Rng;
use inputs::written_out::WrittenOut;
use reference::answer::Answer;
use reference::case::{self, Case, MOST_EDGES, MOST_VERTICES};
use reference::checker;
use reference::entries::{Reference, Tool};
use reference::graph::Graph;
use reference::older;
use reference::plain::Plain;
use reference::refusal::Refusal;
use reference::run::{Run, by_list, by_rounds};
use reference::text::version;

const SEED: u64 = 6;

/// Vertex 0 goes round, and 1, which accepts and rests, cannot be reached.
const APART: &str = "version vertices edges source workers
1 2 1 0 1
vertex accepting owner
0 0 0
1 1 0
from to
0 0
";

fn cases() -> impl Iterator<Item = Case> {
    let sizes = [(3_000, Size::Small), (200, Size::Medium), (2, Size::Large)];
    let random = sizes.into_iter().flat_map(|(count, size)| {
        (0..count).map(move |round| random_case(&mut Rng::for_round(SEED, round), size))
    });
    (1..=2).flat_map(every_case).chain(random)
}

fn read(text: &str) -> Case {
    case::read(text.as_bytes()).expect("the case is accepted")
}

/// An answer with this line 2, and these lines after the names.
fn answer(head: &str, lines: &str) -> String {
    let names = if head.contains("lasso") {
        "edge"
    } else {
        "vertex distance"
    };
    format!("version verdict stem cycle reached\n{head}\n{names}\n{lines}")
}

/// A case, line 2 of an answer to it, the lines after the names, and the
/// refusal, 0 for a pass.
type Row = (&'static str, &'static str, &'static str, u32);

fn holds(rows: &[Row]) {
    for &(text, head, lines, refusal) in rows {
        let answer = answer(head, lines);
        let checked = Reference.check_answer(text.as_bytes(), answer.as_bytes());
        assert_eq!(checked.refusal, refusal, "{text}{answer}");
    }
}

#[test]
fn loops_follow_the_files_edges_in_vertex_order() {
    let edges = |text| Graph::rested(&read(text)).edges.clone();
    assert_eq!(edges(D), [(1, 2), (0, 0), (2, 2), (3, 3)]);
    assert_eq!(edges(K4), [(0, 0)]);
    assert_eq!(edges(K6), [(1, 1), (0, 0)]);
    assert_eq!(edges(APART), [(0, 0), (1, 1)]);
    assert_eq!(edges(K1), [(0, 1), (1, 2), (2, 1)]);
}

#[test]
fn the_newest_version_is_about_the_graph_with_its_loops() {
    holds(&[
        (D, "2 lasso 1 1 0", "0\n2\n", 0),
        (D, "2 lasso 2 1 0", "0\n2\n2\n", 0),
        (D, "2 lasso 1 2 0", "0\n2\n2\n", 0),
        (D, "2 lasso 1 1 0", "0\n1\n", 13),
        (D, "2 lasso 1 1 0", "0\n3\n", 13),
        (D, "2 lasso 1 1 0", "0\n4\n", 13),
        (D, "2 lasso 0 1 0", "2\n", 13),
        (D, "2 empty 0 0 2", "1 0\n2 0\n", 13),
        (D, "2 empty 0 0 2", "1 0\n2 -500\n", 13),
        (D, "2 empty 0 0 1", "1 0\n", 13),
        (K4, "2 lasso 0 1 0", "0\n", 0),
        (K4, "2 lasso 0 1 0", "1\n", 13),
        (K4, "2 empty 0 0 1", "0 0\n", 13),
        (K6, "2 empty 0 0 1", "0 0\n", 0),
        (K6, "2 lasso 0 1 0", "1\n", 13),
        (K6, "2 lasso 0 1 0", "0\n", 13),
        (APART, "2 empty 0 0 1", "0 0\n", 0),
        (APART, "2 empty 0 0 2", "0 0\n1 0\n", 13),
    ]);
}

#[test]
fn version_1_is_about_the_files_graph() {
    holds(&[
        (D, "1 lasso 1 1 0", "0\n2\n", 13),
        (D, "1 lasso 1 1 0", "0\n1\n", 13),
        (D, "1 empty 0 0 2", "1 0\n2 0\n", 0),
        (D, "1 empty 0 0 4", "0 0\n1 0\n2 0\n3 0\n", 0),
        (D, "1 empty 0 0 1", "1 0\n", 13),
        (K4, "1 lasso 0 1 0", "0\n", 13),
        (K4, "1 empty 0 0 1", "0 0\n", 0),
        (K6, "1 empty 0 0 1", "0 0\n", 0),
        (APART, "1 empty 0 0 1", "0 0\n", 0),
        (APART, "1 empty 0 0 2", "0 0\n1 0\n", 0),
    ]);
}

/// A number out of range is told on its line, one in range only by the passing
/// rule, after what follows it.
#[test]
fn a_loops_number_is_out_of_range_in_version_1() {
    holds(&[
        (D, "1 lasso 1 1 0", "0\n2\nx", 13),
        (D, "2 lasso 1 1 0", "0\n2\nx", 12),
        (D, "2 lasso 1 1 0", "0\n3", 12),
        (D, "2 lasso 1 1 0", "0\n4\nx", 13),
        (D, "1 lasso 1 1 0", "0\n4\nx", 13),
        (K4, "1 lasso 0 1 0", "0\n0\n", 13),
        (K4, "2 lasso 0 1 0", "0\n0\n", 12),
    ]);
}

#[test]
fn other_numbers_are_refused_by_3_and_what_is_none_by_12() {
    for (version, refusal) in [
        ("0", 3),
        ("1", 0),
        ("2", 0),
        ("3", 3),
        ("10", 3),
        ("12", 3),
        ("20", 3),
        ("999999999", 3),
        ("01", 12),
        ("02", 12),
        ("00", 12),
        ("1000000002", 12),
        ("-2", 12),
        ("+2", 12),
        ("2.0", 12),
        ("2\r", 12),
        ("", 12),
    ] {
        let text = answer(&format!("{version} lasso 1 2 0"), "0\n1\n2\n");
        let checked = Reference.check_answer(K1.as_bytes(), text.as_bytes());
        assert_eq!(checked.refusal, refusal, "version {version}");
    }
}

/// Another version goes before line 1, but after the first word and the length.
#[test]
fn the_version_has_its_place_among_the_refusals() {
    let refusal = |text: &[u8]| Reference.check_answer(K4.as_bytes(), text).refusal;
    assert_eq!(refusal(b"version x\n3"), 3);
    assert_eq!(refusal(b"version x\n2"), 12);
    assert_eq!(refusal(b"version x\n1"), 12);
    assert_eq!(refusal(b"verdict x\n3"), 12);
    let mut overlong = b"version x\n3 ".to_vec();
    overlong.resize(65_537, b'x');
    assert_eq!(refusal(&overlong), 1);
}

/// The verdict comes back of either version.
#[test]
fn one_case_passes_with_two_verdicts() {
    let verdict = |head, lines| {
        let answer = answer(head, lines);
        Reference
            .check_answer(K4.as_bytes(), answer.as_bytes())
            .verdict
    };
    assert_eq!(verdict("2 lasso 0 1 0", "0\n"), 1);
    assert_eq!(verdict("1 empty 0 0 1", "0 0\n"), 2);
}

/// At the limits, by hand: 496 loops after 2,000 edges, and 500 after none.
#[test]
fn the_most_loops() {
    let last = MOST_VERTICES - 1;
    let run = |case: Case| {
        let run = by_rounds(&case);
        let answer = Answer::of(&run).expect("the run has ended");
        (answer.text(), run.acts_counted)
    };
    let by_loop = first_edges(MOST_EDGES, 0, |vertex| vertex == last);
    assert_eq!(Graph::rested(&by_loop).edges.len(), 2_496);
    // The source, the others once, and the last vertex once more.
    let want = (answer("2 lasso 1 1 0", "499\n2495\n"), 501);
    assert_eq!(run(by_loop), want);
    let resting_source = first_edges(MOST_EDGES, 4, |vertex| vertex == 4);
    assert_eq!(run(resting_source), (answer("2 lasso 0 1 0", "2000\n"), 2));
    let alone = first_edges(0, 7, |_| true);
    assert_eq!(Graph::rested(&alone).edges.len(), 500);
    assert_eq!(run(alone), (answer("2 lasso 0 1 0", "7\n"), 501));
    let none = first_edges(MOST_EDGES, 0, |_| false);
    let all = (0..MOST_VERTICES).map(|vertex| format!("{vertex} 0\n"));
    let want = answer("2 empty 0 0 500", &all.collect::<String>());
    assert_eq!(run(none), (want, 500));
}

/// Two runs, of which one is on the case with its loops written out.
fn assert_same_run(run: &Run, other: &Run, written_out: &WrittenOut) {
    let renamed = |parent: &Option<usize>| parent.map(|edge| written_out.numbers[edge]);
    let parents: Vec<_> = run.parents.iter().map(renamed).collect();
    assert_eq!(other.parents, parents);
    assert_eq!(other.distances, run.distances);
    assert_eq!(other.queues, run.queues);
    assert_eq!(other.acts_counted, run.acts_counted);
    assert_eq!(other.tallies, run.tallies);
    assert_eq!(other.finding, run.finding);
    let answer = Answer::of(run).map(|answer| written_out.answer(&answer));
    assert_eq!(Answer::of(other), answer);
}

#[test]
fn runs_are_those_of_the_case_with_its_loops_written_out() {
    for (round, case) in cases().enumerate() {
        let Some(written_out) = WrittenOut::of(&case) else {
            continue;
        };
        let other = &written_out.case;
        assert_eq!(Graph::rested(other).edges, other.edges);
        assert_same_run(&by_rounds(&case), &by_rounds(other), &written_out);
        let rng = &mut Rng::for_round(SEED + 1, round as u64);
        let any = acts::any(rng, &case, 40);
        for list in [any, acts::busy(rng, &case, 1_000, 8)] {
            let run = by_list(&case, &list).expect("the acts are in range");
            let renamed = written_out.acts(&list);
            let other = by_list(other, &renamed).expect("the acts are in range");
            assert_same_run(&run, &other, &written_out);
        }
    }
}

#[test]
fn a_reached_accepting_dead_end_is_the_only_other_lasso() {
    let mut by_loops = 0;
    for case in cases() {
        let plain = Plain::of_file(&case);
        let reached = Graph::rested(&case);
        let dead_end = (0..case.vertices()).any(|vertex| {
            let reaches = reference::answer::stem(&reached, vertex).is_some();
            case.rests(vertex) && case.accepting[vertex] && reaches
        });
        let has_lasso = Plain::rested(&case).has_lasso();
        assert_eq!(has_lasso, plain.has_lasso() || dead_end);
        by_loops += usize::from(has_lasso && !plain.has_lasso());
    }
    assert!(by_loops > 500, "{by_loops} lassos by a loop alone");
}

/// A loop makes no stem shorter, and a walk does not leave it.
#[test]
fn a_loop_is_a_cycle_by_itself_and_on_no_stem() {
    let mut found = 0;
    for case in cases() {
        let Some(Answer::Lasso { stem, cycle }) = Answer::of(&by_rounds(&case)) else {
            continue;
        };
        let is_loop = |edge: &usize| *edge >= case.edges.len();
        assert!(!stem.iter().any(is_loop));
        assert!(!cycle.iter().any(is_loop) || cycle.len() == 1);
        found += usize::from(cycle.iter().any(is_loop));
    }
    assert!(found > 300, "{found} cycles of a loop");
}

#[test]
fn where_no_vertex_rests_runs_are_as_before_but_for_the_version() {
    let mut tried = 0;
    for case in cases() {
        if (0..case.vertices()).any(|vertex| case.rests(vertex)) {
            continue;
        }
        let (run, before) = (by_rounds(&case), older::by_rounds(&case));
        assert_eq!(run.acts_counted, before.acts_counted);
        assert_eq!(run.tallies, before.tallies);
        let [text, text_before] = [run, before].map(|run| {
            let answer = Answer::of(&run).expect("the run has ended");
            answer.text_as("any")
        });
        assert_eq!(text, text_before);
        tried += 1;
    }
    assert!(tried > 1_000, "{tried} cases without a dead end");
}

#[test]
fn an_older_checker_refuses_what_runs_write() {
    for case in cases() {
        let answer = Answer::of(&by_rounds(&case)).expect("the run has ended");
        let refusal = older::check(&case, answer.text().as_bytes());
        assert_eq!(refusal, Err(Refusal::OtherVersion));
    }
}

#[test]
fn all_but_version_2_is_judged_as_before() {
    for (round, case) in cases().enumerate() {
        let rng = &mut Rng::for_round(SEED + 2, round as u64);
        for answer in other_answers(rng, &case, older::VERSION) {
            for version_word in VERSIONS {
                let text = answer.text_as(version_word).into_bytes();
                for text in [damaged(rng, &text), text] {
                    let as_before = checker::check(&case, &text) == older::check(&case, &text);
                    assert!(as_before || version(&text) == Some(2));
                }
            }
        }
    }
}

/// What one version's pass says of the other's, rule by rule.
#[test]
fn both_versions_of_one_answer_differ_by_loops_alone() {
    let mut passes = [[0; 2]; 2];
    for (round, case) in cases().enumerate() {
        let rng = &mut Rng::for_round(SEED + 3, round as u64);
        for meant in checker::VERSIONS {
            for answer in other_answers(rng, &case, meant) {
                let [first, second] = checker::VERSIONS.map(|version| {
                    let text = answer.text_as(version);
                    checker::check(&case, text.as_bytes()).is_ok()
                });
                let either = match &answer {
                    Answer::Lasso { stem, cycle } => {
                        let mut edges = stem.iter().chain(cycle);
                        let named = edges.any(|&edge| edge >= case.edges.len());
                        first == (second && !named)
                    }
                    Answer::Empty { reached } => {
                        let rests = |vertex| case.accepting[vertex] && case.rests(vertex);
                        let listed = reached.iter().any(|&(vertex, _)| rests(vertex));
                        second == (first && !listed)
                    }
                };
                assert!(either, "{case:?} {answer:?}");
                passes[usize::from(first)][usize::from(second)] += 1;
            }
        }
    }
    assert!(
        passes.as_flattened().iter().all(|&count| count > 200),
        "{passes:?}"
    );
}
