//! The same questions, settled by textbook algorithms on the bare graph: no
//! workers, owners, queues or acts, and no numbers of edges.

use crate::case::Case;

/// A graph by what follows each vertex.
pub struct Plain<'a> {
    pub case: &'a Case,
    /// By vertex, where its edges lead.
    successors: Vec<Vec<usize>>,
}

impl<'a> Plain<'a> {
    /// As the file has it: nothing follows a dead end.
    pub fn of_file(case: &'a Case) -> Self {
        let mut successors = vec![Vec::new(); case.vertices()];
        for &(from, to) in &case.edges {
            successors[from].push(to);
        }
        Plain { case, successors }
    }

    /// With rest: a dead end follows itself.
    pub fn rested(case: &'a Case) -> Self {
        let mut plain = Plain::of_file(case);
        for (vertex, successors) in plain.successors.iter_mut().enumerate() {
            if successors.is_empty() {
                successors.push(vertex);
            }
        }
        plain
    }

    /// Whether a reachable cycle leaves an accepting vertex, by nested
    /// depth-first search: when the outer search is done with an accepting
    /// vertex, the inner one looks for a way back to it.
    pub fn has_lasso(&self) -> bool {
        let vertices = self.case.vertices();
        let mut search = NestedSearch {
            plain: self,
            seen_outside: vec![false; vertices],
            seen_inside: vec![false; vertices],
        };
        search.outer(self.case.source)
    }

    /// Least lengths of walks from the source by vertex (nothing where no walk
    /// leads), by Bellman and Ford; nothing at all if they have no bound.
    pub fn distances(&self) -> Option<Vec<Option<i32>>> {
        let mut starts = vec![None; self.case.vertices()];
        starts[self.case.source] = Some(0);
        self.least_from(starts)
    }

    /// Least sums of a start value and the length of a walk from there.
    pub fn least_from(&self, starts: Vec<Option<i32>>) -> Option<Vec<Option<i32>>> {
        let mut least = starts;
        // Walks without a repeated vertex are settled after n − 1 passes, so a
        // change in the last of n passes shows a cycle of negative length.
        for _ in 0..self.case.vertices() {
            if !self.relax_every_edge(&mut least) {
                return Some(least);
            }
        }
        None
    }

    /// One pass; whether it lowered anything.
    fn relax_every_edge(&self, least: &mut [Option<i32>]) -> bool {
        let mut lowered = false;
        for (from, successors) in self.successors.iter().enumerate() {
            let Some(start) = least[from] else {
                continue;
            };
            let end = start - i32::from(self.case.accepting[from]);
            for &to in successors {
                if least[to].is_none_or(|known| end < known) {
                    least[to] = Some(end);
                    lowered = true;
                }
            }
        }
        lowered
    }
}

struct NestedSearch<'a> {
    plain: &'a Plain<'a>,
    seen_outside: Vec<bool>,
    /// Shared by all inner searches: what an earlier one left without success
    /// cannot lead a later one to success.
    seen_inside: Vec<bool>,
}

impl NestedSearch<'_> {
    fn outer(&mut self, vertex: usize) -> bool {
        self.seen_outside[vertex] = true;
        for &next in &self.plain.successors[vertex] {
            if !self.seen_outside[next] && self.outer(next) {
                return true;
            }
        }
        self.plain.case.accepting[vertex] && self.inner(vertex, vertex)
    }

    fn inner(&mut self, vertex: usize, goal: usize) -> bool {
        for &next in &self.plain.successors[vertex] {
            if next == goal {
                return true;
            }
            if !self.seen_inside[next] {
                self.seen_inside[next] = true;
                if self.inner(next, goal) {
                    return true;
                }
            }
        }
        false
    }
}
