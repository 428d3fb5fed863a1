//! The case file.

use std::fmt::Write;

use crate::refusal::Refusal;
use crate::text::{LONGEST_FILE, Lines, VERSION_WORD, has_other_version};

pub const MOST_VERTICES: usize = 500;
pub const MOST_EDGES: usize = 2_000;
pub const MOST_WORKERS: usize = 16;

/// The only version of case files.
pub const VERSION: usize = 1;

pub const COUNT_NAMES: &str = "version vertices edges source workers";
pub const VERTEX_NAMES: &str = "vertex accepting owner";
pub const EDGE_NAMES: &str = "from to";

/// An accepted case.
#[derive(Clone, Debug, PartialEq, Eq)]
pub struct Case {
    pub source: usize,
    pub workers: usize,
    pub accepting: Vec<bool>,
    pub owners: Vec<usize>,
    /// Ends of each edge, `(from, to)`, strictly rising.
    pub edges: Vec<(usize, usize)>,
}

impl Case {
    /// How many vertices there are.
    pub fn vertices(&self) -> usize {
        self.accepting.len()
    }

    /// A in the paper: every accepting vertex counts, reachable or not.
    pub fn accepting_count(&self) -> usize {
        self.accepting.iter().filter(|&&mark| mark).count()
    }

    /// P + m in the paper: acts are the numbers below this. Rest loops have no
    /// acts.
    pub fn act_count(&self) -> usize {
        self.workers + self.edges.len()
    }

    /// Whether a vertex has no outgoing edge.
    pub fn rests(&self, vertex: usize) -> bool {
        self.edges.iter().all(|&(from, _)| from != vertex)
    }
}

/// The numbers of line 2, in range.
struct Counts {
    vertices: usize,
    edges: usize,
    source: usize,
    workers: usize,
}

/// Reads a case file; the first fault from the front decides.
pub fn read(text: &[u8]) -> Result<Case, Refusal> {
    if text.len() > LONGEST_FILE {
        return Err(Refusal::FileTooLong);
    }
    if !text.starts_with(VERSION_WORD) {
        return Err(Refusal::NoVersionWord);
    }
    if has_other_version(text, &[VERSION]) {
        return Err(Refusal::OtherVersion);
    }
    let mut lines = Lines::of(text);
    let counts = read_counts(&mut lines)?;
    let (accepting, owners) = read_vertices(&mut lines, &counts)?;
    let edges = read_edges(&mut lines, &counts)?;
    if !lines.at_end() {
        return Err(Refusal::CaseLayout);
    }
    Ok(Case {
        source: counts.source,
        workers: counts.workers,
        accepting,
        owners,
        edges,
    })
}

fn read_names(lines: &mut Lines, names: &str) -> Result<(), Refusal> {
    if lines.next_line() == Some(names.as_bytes()) {
        Ok(())
    } else {
        Err(Refusal::CaseLayout)
    }
}

fn read_counts(lines: &mut Lines) -> Result<Counts, Refusal> {
    read_names(lines, COUNT_NAMES)?;
    // Another version was refused before.
    let [_version, vertices, edges, source, workers] =
        lines.next_numbers().ok_or(Refusal::CaseLayout)?;
    let in_range = (1..=MOST_VERTICES).contains(&vertices)
        && edges <= MOST_EDGES
        && source < vertices
        && (1..=MOST_WORKERS).contains(&workers);
    if !in_range {
        return Err(Refusal::CountOutOfRange);
    }
    Ok(Counts {
        vertices,
        edges,
        source,
        workers,
    })
}

/// Accepting marks and owners.
type Vertices = (Vec<bool>, Vec<usize>);

fn read_vertices(lines: &mut Lines, counts: &Counts) -> Result<Vertices, Refusal> {
    read_names(lines, VERTEX_NAMES)?;
    let (mut accepting, mut owners) = (Vec::new(), Vec::new());
    for expected in 0..counts.vertices {
        let [vertex, mark, owner] = lines.next_numbers().ok_or(Refusal::CaseLayout)?;
        if vertex != expected || mark > 1 || owner >= counts.workers {
            return Err(Refusal::BadVertexLine);
        }
        accepting.push(mark == 1);
        owners.push(owner);
    }
    Ok((accepting, owners))
}

fn read_edges(lines: &mut Lines, counts: &Counts) -> Result<Vec<(usize, usize)>, Refusal> {
    read_names(lines, EDGE_NAMES)?;
    let mut edges = Vec::new();
    for _ in 0..counts.edges {
        let [from, to] = lines.next_numbers().ok_or(Refusal::CaseLayout)?;
        if from >= counts.vertices || to >= counts.vertices {
            return Err(Refusal::EdgeEndOutOfRange);
        }
        if edges.last().is_some_and(|&before| before >= (from, to)) {
            return Err(Refusal::EdgesNotRising);
        }
        edges.push((from, to));
    }
    Ok(edges)
}

/// The text of a case. It may be one that a reader must refuse: nothing is
/// checked here.
pub fn text_of(case: &Case) -> Vec<u8> {
    let (vertices, edges) = (case.vertices(), case.edges.len());
    let mut text = format!(
        "{COUNT_NAMES}\n{VERSION} {vertices} {edges} {} {}\n",
        case.source, case.workers
    );
    text += &format!("{VERTEX_NAMES}\n");
    for (vertex, (&mark, owner)) in case.accepting.iter().zip(&case.owners).enumerate() {
        writeln!(text, "{vertex} {} {owner}", u8::from(mark)).expect("a string takes any text");
    }
    text += &format!("{EDGE_NAMES}\n");
    for (from, to) in &case.edges {
        writeln!(text, "{from} {to}").expect("a string takes any text");
    }
    text.into_bytes()
}
