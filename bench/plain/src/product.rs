//! Builds the case file of a chart and a claim, and lists the steps of an
//! answer to it by names, with every check of the library's.

use crate::answers::{self, Graph, Shown};
use crate::charts::{self, Chart, MOST_MODES, NO_PAIRS, Pairs};
use crate::claims::{self, Counts, Tables};
use crate::reader::{COUNT, COUNT_NAMES, EDGE_NAMES, MOST_EDGES, MOST_WORKERS, VERTEX_NAMES};
use crate::writer::Writer;

/// The least output of either.
pub const LEAST_OUTPUT: usize = 65_536;

/// Numbers of the refusals.
const BUFFER_TOO_SHORT: u32 = 11;
const COUNTS_DIFFER: u32 = 20;
const TOO_MANY_EDGES: u32 = 21;

/// What comes back: with a refusal nothing is written, and mode and
/// combination are the chart's first bad pair or zeros.
#[derive(Clone, Copy, Debug, Default, PartialEq, Eq)]
pub struct Built {
    pub refusal: u32,
    pub mode: u32,
    pub combination: u32,
    pub written: u32,
}

fn refused(refusal: u32) -> Built {
    Built {
        refusal,
        ..Built::default()
    }
}

fn returned(written: Result<usize, Built>) -> Built {
    match written {
        Ok(written) => Built {
            written: written as u32,
            ..Built::default()
        },
        Err(refused) => refused,
    }
}

/// Builds the case file at the output's front.
pub fn build_case(chart: &[u8], claim: &[u8], workers: u32, output: &mut [u8]) -> Built {
    returned(built(chart, claim, workers, output))
}

/// Lists the steps of an answer at the output's front.
pub fn list_steps(chart: &[u8], claim: &[u8], answer: &[u8], output: &mut [u8]) -> Built {
    returned(listed(chart, claim, answer, output))
}

fn built(chart: &[u8], claim: &[u8], workers: u32, output: &mut [u8]) -> Result<usize, Built> {
    if output.len() < LEAST_OUTPUT {
        return Err(refused(BUFFER_TOO_SHORT));
    }
    if !(1..=MOST_WORKERS as u32).contains(&workers) {
        return Err(refused(COUNT));
    }
    let graph = Parts::read(chart, claim)?.product()?;
    Ok(write_case(&graph, workers, output))
}

fn listed(
    chart_text: &[u8],
    claim_text: &[u8],
    answer: &[u8],
    output: &mut [u8],
) -> Result<usize, Built> {
    if output.len() < LEAST_OUTPUT {
        return Err(refused(BUFFER_TOO_SHORT));
    }
    let parts = Parts::read(chart_text, claim_text)?;
    let mut graph = parts.product()?;
    match answers::check(&mut graph, answer).map_err(refused)? {
        Shown::Empty => Ok(0),
        Shown::Lasso(walk) => {
            let leaves = walk.iter().map(|&edge| graph.edges[usize::from(edge)].0);
            Ok(parts.write_steps(chart_text, claim_text, leaves, output))
        }
    }
}

/// A right chart and a taken claim that go together.
struct Parts {
    chart: Chart,
    next: Pairs,
    claim: Counts,
    tables: Tables,
}

impl Parts {
    fn read(chart: &[u8], claim: &[u8]) -> Result<Parts, Built> {
        let mut next = NO_PAIRS;
        let of_chart = |(refusal, mode, combination)| Built {
            refusal,
            mode,
            combination,
            written: 0,
        };
        let chart = charts::read(chart, &mut next).map_err(of_chart)?;
        let mut tables = Tables::empty();
        let claim = claims::read(claim, &mut tables).map_err(refused)?;
        if claim.propositions as usize != chart.flags {
            return Err(refused(COUNTS_DIFFER));
        }
        Ok(Parts {
            chart,
            next,
            claim,
            tables,
        })
    }

    fn states(&self) -> usize {
        self.claim.states as usize
    }

    /// Where no edge leaves, the claim has stopped: there the mark is 0.
    fn product(&self) -> Result<Graph, Built> {
        let edges = self.edges().ok_or(refused(TOO_MANY_EDGES))?;
        let mut accepting = vec![false; self.chart.modes * self.states()];
        for &(from, _) in &edges {
            let from = usize::from(from);
            accepting[from] = self.tables.marks[from % self.states()] == 1;
        }
        Ok(Graph {
            source: self.chart.start * self.states() + self.claim.start as usize,
            accepting,
            edges,
        })
    }

    /// The edges in rising order; nothing if they are too many.
    fn edges(&self) -> Option<Vec<(u16, u16)>> {
        let mut edges = Vec::with_capacity(MOST_EDGES);
        for mode in 0..self.chart.modes {
            let next = &self.next[self.chart.pairs_of(mode)];
            for state in 0..self.states() {
                let from = mode * self.states() + state;
                for (mode, states) in self.targets(next, state).into_iter().enumerate() {
                    let mut left = states;
                    while left != 0 {
                        if edges.len() == MOST_EDGES {
                            return None;
                        }
                        let to = mode * self.states() + left.trailing_zeros() as usize;
                        edges.push((from as u16, to as u16));
                        left &= left - 1;
                    }
                }
            }
        }
        Some(edges)
    }

    /// By next mode, bit d where some combination leads there and the claim's
    /// state to d.
    fn targets(&self, next: &[u8], state: usize) -> [u32; MOST_MODES] {
        let mut targets = [0; MOST_MODES];
        for (&mode, moves) in next.iter().zip(&self.tables.moves[state]) {
            targets[usize::from(mode) % MOST_MODES] |= moves;
        }
        targets
    }

    /// Writes a line for each vertex; the length of all.
    fn write_steps(
        &self,
        chart: &[u8],
        claim: &[u8],
        vertices: impl Iterator<Item = u16>,
        output: &mut [u8],
    ) -> usize {
        let names = chart[self.chart.names_at..].split(|&byte| byte == b'\n');
        let names: Vec<&[u8]> = names.take(self.chart.modes).collect();
        let mut writer = Writer { output, length: 0 };
        for vertex in vertices.map(usize::from) {
            let (mode, state) = (vertex / self.states(), vertex % self.states());
            writer.word(names[mode]);
            writer.word(b" ");
            let place = self.tables.name_places[state] as usize;
            if place == 0 {
                writer.number(state as u32, b'\n');
            } else {
                let length = self.tables.name_lengths[state] as usize;
                writer.word(&claim[place..][..length]);
                writer.word(b"\n");
            }
        }
        writer.length
    }
}

/// Writes a graph as a case file; its length.
fn write_case(graph: &Graph, workers: u32, output: &mut [u8]) -> usize {
    let mut writer = Writer { output, length: 0 };
    writer.word(COUNT_NAMES);
    writer.word(b"1 ");
    writer.number(graph.accepting.len() as u32, b' ');
    writer.number(graph.edges.len() as u32, b' ');
    writer.number(graph.source as u32, b' ');
    writer.number(workers, b'\n');
    writer.word(VERTEX_NAMES);
    for (vertex, &mark) in graph.accepting.iter().enumerate() {
        writer.number(vertex as u32, b' ');
        writer.number(u32::from(mark), b' ');
        writer.number(vertex as u32 % workers, b'\n');
    }
    writer.word(EDGE_NAMES);
    for &(from, to) in &graph.edges {
        writer.number(u32::from(from), b' ');
        writer.number(u32::from(to), b'\n');
    }
    writer.length
}
