//! The reference against textbook algorithms, on random graphs and on every
//! graph of up to three vertices.

use inputs::acts;
use inputs::graphs::{Size, every_case, random_case, text_of};
use inputs::rng::Rng;
use reference::answer::Answer;
use reference::case::{self, Case};
use reference::checker;
use reference::graph::Graph;
use reference::plain::Plain;
use reference::run::{Run, by_list, by_rounds};

const SEED: u64 = 20_260_401;

fn cases() -> impl Iterator<Item = Case> {
    let sizes = [(3_000, Size::Small), (200, Size::Medium), (4, Size::Large)];
    sizes.into_iter().flat_map(|(count, size)| {
        (0..count).map(move |round| random_case(&mut Rng::for_round(SEED, round), size))
    })
}

/// What the plain algorithms say of an answer that a run has given.
fn assert_right(case: &Case, run: &Run) {
    let answer = Answer::of(run).expect("the run has ended");
    assert_eq!(
        checker::check(case, answer.text().as_bytes()).as_ref(),
        Ok(&answer)
    );
    let plain = Plain::rested(case);
    match &answer {
        Answer::Lasso { stem, .. } => {
            assert!(plain.has_lasso());
            assert_eq!(plain.distances(), None);
            assert!(stem.len() < case.vertices());
        }
        Answer::Empty { .. } => {
            assert!(!plain.has_lasso());
            assert_eq!(plain.distances().as_ref(), Some(&run.distances));
        }
    }
}

#[test]
fn a_case_survives_its_own_text() {
    for case in cases() {
        assert_eq!(case::read(&text_of(&case)), Ok(case));
    }
}

#[test]
fn runs_by_rounds_are_right() {
    for case in cases() {
        assert_right(&case, &by_rounds(&case));
    }
}

#[test]
fn every_small_graph_is_right() {
    for case in (1..=3).flat_map(every_case) {
        assert_right(&case, &by_rounds(&case));
    }
}

#[test]
fn runs_by_busy_lists_are_right() {
    for (round, case) in cases().take(3_200).enumerate() {
        let mut rng = Rng::for_round(SEED + 1, round as u64);
        let turns_of_ten = rng.pick(&[1, 5, 9, 10]);
        let acts = acts::busy(&mut rng, &case, 100_000, turns_of_ten);
        let run = by_list(&case, &acts).expect("the acts are in range");
        assert_right(&case, &run);
        assert_eq!(run.acts_counted as usize, acts.len());
        assert_eq!(run.tallies.joined > 0, acts::has_meeting(&case, &acts));
    }
}

#[test]
fn rounds_are_a_list_of_whole_rounds() {
    for case in cases().take(3_200) {
        let by_rounds = by_rounds(&case);
        // Each round before the last did something, so these are enough.
        let enough = acts::rounds(&case, by_rounds.acts_counted as usize);
        let by_list = by_list(&case, &enough).expect("the acts are in range");
        assert_eq!(by_list.acts_counted, by_rounds.acts_counted);
        assert_eq!(by_list.tallies, by_rounds.tallies);
        assert_eq!(by_list.finding, by_rounds.finding);
        assert_eq!(Answer::of(&by_list), Answer::of(&by_rounds));
    }
}

/// The stem by another way: all walks of the least length, one step longer at
/// a time, the first in dictionary order kept for each end.
#[test]
fn stems_are_short_and_first_in_order() {
    for case in cases().take(3_000) {
        let graph = Graph::rested(&case);
        let mut best: Vec<Option<Vec<usize>>> = vec![None; case.vertices()];
        best[case.source] = Some(Vec::new());
        for _ in 0..case.vertices() {
            let walks = best.clone();
            for (edge, &(from, to)) in graph.edges.iter().enumerate() {
                let Some(walk) = &walks[from] else {
                    continue;
                };
                let longer = [walk.as_slice(), &[edge]].concat();
                let beats = |known: &Vec<usize>| (longer.len(), &longer) < (known.len(), known);
                if best[to].as_ref().is_none_or(beats) {
                    best[to] = Some(longer);
                }
            }
        }
        for (vertex, walk) in best.into_iter().enumerate() {
            assert_eq!(reference::answer::stem(&graph, vertex), walk);
        }
    }
}
