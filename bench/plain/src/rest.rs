//! The edges of a run: those of the file, and a loop for each vertex that none
//! leaves.

use crate::reader::Case;

pub struct Edges {
    /// Where each edge leads. Loops follow the file's edges.
    pub targets: Vec<u16>,
    /// By vertex, its first edge and the one past its last.
    ranges: Vec<(u16, u16)>,
}

impl Edges {
    pub fn rested(case: &Case) -> Self {
        let mut targets = case.targets.clone();
        targets.reserve(case.vertices());
        let mut ranges = Vec::with_capacity(case.vertices());
        for (vertex, ends) in case.first_edges.windows(2).enumerate() {
            let (mut first, mut end) = (ends[0], ends[1]);
            if first == end {
                first = targets.len() as u16;
                end = first + 1;
                targets.push(vertex as u16);
            }
            ranges.push((first, end));
        }
        Edges { targets, ranges }
    }

    /// The numbers of the edges that leave a vertex.
    #[inline]
    pub fn leaving(&self, vertex: usize) -> std::ops::Range<usize> {
        let (first, end) = self.ranges[vertex];
        usize::from(first)..usize::from(end)
    }
}
