//! A case with its rest loops written out as edges of the file. No vertex of it
//! rests, and its runs are the same but for the numbers of edges. The loops are
//! found here once more, and not as the reference finds them.

use std::collections::BTreeSet;

use reference::answer::Answer;
use reference::case::{Case, MOST_EDGES};

pub struct WrittenOut {
    pub case: Case,
    /// By edge of the graph with rest loops, its number here.
    pub numbers: Vec<usize>,
}

impl WrittenOut {
    /// Nothing if no vertex rests, or if these are too many edges for a file.
    pub fn of(case: &Case) -> Option<Self> {
        let left: BTreeSet<usize> = case.edges.iter().map(|&(from, _)| from).collect();
        let all: BTreeSet<usize> = (0..case.vertices()).collect();
        let loops = all.difference(&left).map(|&vertex| (vertex, vertex));
        let named: Vec<_> = case.edges.iter().copied().chain(loops).collect();
        let mut edges = named.clone();
        edges.sort_unstable();
        let number = |edge| edges.binary_search(edge).expect("it was put there");
        let numbers = named.iter().map(number).collect();
        let fits = edges.len() <= MOST_EDGES;
        (left != all && fits).then(|| WrittenOut {
            case: Case {
                edges,
                ..case.clone()
            },
            numbers,
        })
    }

    /// The list of the same turns and deliveries.
    pub fn acts(&self, acts: &[u32]) -> Vec<u32> {
        let workers = self.case.workers;
        let renamed = |&act: &u32| match (act as usize).checked_sub(workers) {
            Some(edge) => (workers + self.numbers[edge]) as u32,
            None => act,
        };
        acts.iter().map(renamed).collect()
    }

    /// The answer by the same edges.
    pub fn answer(&self, answer: &Answer) -> Answer {
        let renamed = |edges: &[usize]| edges.iter().map(|&edge| self.numbers[edge]).collect();
        match answer {
            Answer::Lasso { stem, cycle } => Answer::Lasso {
                stem: renamed(stem),
                cycle: renamed(cycle),
            },
            empty => empty.clone(),
        }
    }
}
