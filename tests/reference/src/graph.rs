//! The graph that a run or an answer is about: the edges of a case file, and its
//! rest loops where they are meant.

use crate::case::Case;

/// A case with its edges by number.
#[derive(Clone, Debug)]
pub struct Graph<'a> {
    pub case: &'a Case,
    /// Ends of each edge, `(from, to)`.
    pub edges: Vec<(usize, usize)>,
    /// By vertex, the numbers of the edges that leave it, rising.
    leaving: Vec<Vec<usize>>,
}

impl<'a> Graph<'a> {
    /// The edges of the file alone: what answers of version 1 are about.
    pub fn of_file(case: &'a Case) -> Self {
        Graph::with_edges(case, case.edges.clone())
    }

    /// What runs and answers of version 2 are about: a vertex with no outgoing
    /// edge rests, that is, it has a loop to itself. Loops are numbered after
    /// the file's edges, in vertex order.
    pub fn rested(case: &'a Case) -> Self {
        let resting = (0..case.vertices()).filter(|&vertex| case.rests(vertex));
        let loops = resting.map(|vertex| (vertex, vertex));
        Graph::with_edges(case, case.edges.iter().copied().chain(loops).collect())
    }

    /// The graph of these edges, however they come about.
    pub fn with_edges(case: &'a Case, edges: Vec<(usize, usize)>) -> Self {
        let mut leaving = vec![Vec::new(); case.vertices()];
        for (number, &(from, _)) in edges.iter().enumerate() {
            leaving[from].push(number);
        }
        Graph {
            case,
            edges,
            leaving,
        }
    }

    /// The numbers of the edges that leave a vertex.
    pub fn edges_from(&self, vertex: usize) -> &[usize] {
        &self.leaving[vertex]
    }

    pub fn length(&self, edge: usize) -> i32 {
        let (from, _) = self.edges[edge];
        if self.case.accepting[from] { -1 } else { 0 }
    }

    /// Whether the edge joins vertices of two owners, and so has a cell.
    pub fn has_cell(&self, edge: usize) -> bool {
        let (from, to) = self.edges[edge];
        self.case.owners[from] != self.case.owners[to]
    }
}
