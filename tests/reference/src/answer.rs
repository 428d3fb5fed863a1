//! The answer that a run gives, and its text.

use std::fmt::Display;

use crate::graph::Graph;
use crate::run::{Finding, Run};

/// The version of the answers that runs write: about the graph with rest loops.
pub const VERSION: usize = 2;

pub const ANSWER_NAMES: &str = "version verdict stem cycle reached";
pub const LASSO_NAMES: &str = "edge";
pub const EMPTY_NAMES: &str = "vertex distance";

/// What an answer file says.
#[derive(Clone, Debug, PartialEq, Eq)]
pub enum Answer {
    /// Edge numbers, in the order in which they are walked.
    Lasso { stem: Vec<usize>, cycle: Vec<usize> },
    /// Vertices in rising order, each with its number.
    Empty { reached: Vec<(usize, i32)> },
}

impl Answer {
    /// The answer of a run, if it has ended.
    pub fn of(run: &Run) -> Option<Answer> {
        match run.finding? {
            Finding::Lasso { breaker } => {
                let cycle = cycle(run, breaker).expect("parents below the floor close a cycle");
                let (start, _) = run.graph.edges[cycle[0]];
                let stem =
                    stem(&run.graph, start).expect("a vertex with a distance can be reached");
                Some(Answer::Lasso { stem, cycle })
            }
            Finding::Empty => Some(Answer::Empty {
                reached: reached(run),
            }),
        }
    }

    /// 1 for a lasso, 2 for empty: the verdict's number for a caller.
    pub fn verdict(&self) -> u32 {
        match self {
            Answer::Lasso { .. } => 1,
            Answer::Empty { .. } => 2,
        }
    }

    /// The whole answer file.
    pub fn text(&self) -> String {
        self.text_as(VERSION)
    }

    /// The same as one of another version, which need not be one.
    pub fn text_as(&self, version: impl Display) -> String {
        match self {
            Answer::Lasso { stem, cycle } => {
                let counts = format!("{version} lasso {} {} 0", stem.len(), cycle.len());
                let lines = stem.iter().chain(cycle).map(|edge| edge.to_string());
                file([ANSWER_NAMES, &counts, LASSO_NAMES], lines)
            }
            Answer::Empty { reached } => {
                let counts = format!("{version} empty 0 0 {}", reached.len());
                let lines = reached
                    .iter()
                    .map(|(vertex, distance)| format!("{vertex} {distance}"));
                file([ANSWER_NAMES, &counts, EMPTY_NAMES], lines)
            }
        }
    }
}

fn file(head: [&str; 3], lines: impl Iterator<Item = String>) -> String {
    let head = head.into_iter().map(str::to_owned);
    head.chain(lines).map(|line| line + "\n").collect()
}

/// The cycle that n parent edges back from the breaker lead into, forwards;
/// nothing if the parents end before.
pub fn cycle(run: &Run, breaker: usize) -> Option<Vec<usize>> {
    let mut start = breaker;
    for _ in 0..run.case.vertices() {
        start = run.graph.edges[run.parents[start]?].0;
    }
    let mut backwards = Vec::new();
    let mut vertex = start;
    loop {
        let edge = run.parents[vertex]?;
        backwards.push(edge);
        vertex = run.graph.edges[edge].0;
        if vertex == start {
            backwards.reverse();
            return Some(backwards);
        }
    }
}

/// The walk of fewest edges from the source to a vertex, first in dictionary
/// order among equals; nothing if no walk leads there.
pub fn stem(graph: &Graph, end: usize) -> Option<Vec<usize>> {
    let edges_left = fewest_edges_to(graph, end);
    let mut stem = Vec::new();
    let mut vertex = graph.case.source;
    for left in (0..edges_left[vertex]?).rev() {
        // Each step takes the first edge that loses no ground.
        let nearer = |edge: &usize| edges_left[graph.edges[*edge].1] == Some(left);
        let edge = graph.edges_from(vertex).iter().copied().find(nearer)?;
        stem.push(edge);
        vertex = graph.edges[edge].1;
    }
    Some(stem)
}

/// By vertex, the fewest edges of a walk from it to `end`.
pub fn fewest_edges_to(graph: &Graph, end: usize) -> Vec<Option<usize>> {
    let vertices = graph.case.vertices();
    let mut fewest = vec![None; vertices];
    fewest[end] = Some(0);
    for left in 0..vertices {
        for &(from, to) in &graph.edges {
            if fewest[to] == Some(left) && fewest[from].is_none() {
                fewest[from] = Some(left + 1);
            }
        }
    }
    fewest
}

fn reached(run: &Run) -> Vec<(usize, i32)> {
    let distances = run.distances.iter().enumerate();
    distances
        .filter_map(|(vertex, distance)| Some((vertex, (*distance)?)))
        .collect()
}
