//! A checker of answers to a graph, with every check of the library's.

use crate::cursor::Cursor;
use crate::reader::{LONGEST_FILE, OTHER_VERSION, TOO_LONG, VERSION_WORD, has_other_version};

const HIGHEST_COUNT: u32 = 500;
const HIGHEST_DISTANCE: u32 = 500;

const COUNT_NAMES: &[u8] = b"version verdict stem cycle reached\n";
const LASSO_NAMES: &[u8] = b"edge\n";
const EMPTY_NAMES: &[u8] = b"vertex distance\n";

/// Numbers of the refusals.
const LAYOUT: u32 = 12;
const FALSE: u32 = 13;

/// Marks a vertex that is not listed.
const NONE: i32 = i32::MAX;

/// What an answer is about.
#[derive(Clone)]
pub struct Graph {
    pub source: usize,
    pub accepting: Vec<bool>,
    /// From and to.
    pub edges: Vec<(u16, u16)>,
}

impl Graph {
    /// Gives each vertex that no edge leaves a loop.
    fn rest(&mut self) {
        let mut left = vec![false; self.accepting.len()];
        for &(from, _) in &self.edges {
            left[usize::from(from)] = true;
        }
        let resting = (0..left.len()).filter(|&vertex| !left[vertex]);
        self.edges
            .extend(resting.map(|vertex| (vertex as u16, vertex as u16)));
    }
}

/// What a passing answer shows.
#[derive(Debug, PartialEq, Eq)]
pub enum Shown {
    /// The edges of its walk.
    Lasso(Vec<u16>),
    Empty,
}

/// The newest version, which is about the graph with its rest loops.
const NEWEST: u8 = b'2';

/// The numbers of line 2, which suit the verdict.
enum Counts {
    Lasso { stem: usize, cycle: usize },
    Empty { reached: usize },
}

/// Checks an answer to a graph of a file: what it shows, or the number of its
/// refusal. The graph is left with its rest loops if the answer is about them.
pub fn check(graph: &mut Graph, text: &[u8]) -> Result<Shown, u32> {
    if text.len() > LONGEST_FILE {
        return Err(TOO_LONG);
    }
    if !text.starts_with(VERSION_WORD) {
        return Err(LAYOUT);
    }
    if has_other_version(text, NEWEST) {
        return Err(OTHER_VERSION);
    }
    let cursor = &mut Cursor { rest: text };
    let (version, counts) = read_counts(cursor).ok_or(LAYOUT)?;
    if version == u32::from(NEWEST - b'0') {
        graph.rest();
    }
    match counts {
        Counts::Lasso { stem, cycle } => {
            let walk = read_walk(cursor, graph, stem + cycle)?;
            shown(is_lasso(graph, &walk, stem), Shown::Lasso(walk))
        }
        Counts::Empty { reached } => {
            let distances = read_distances(cursor, graph, reached)?;
            shown(is_closed(graph, &distances), Shown::Empty)
        }
    }
}

fn shown(passes: bool, what: Shown) -> Result<Shown, u32> {
    if passes { Ok(what) } else { Err(FALSE) }
}

/// The version and the counts.
fn read_counts(cursor: &mut Cursor) -> Option<(u32, Counts)> {
    cursor.words(COUNT_NAMES)?;
    let version = cursor.number(b' ')?;
    let is_lasso = cursor.words(b"lasso ").is_some();
    if !is_lasso {
        cursor.words(b"empty ")?;
    }
    let mut count = |end| cursor.number(end).filter(|&count| count <= HIGHEST_COUNT);
    let (stem, cycle, reached) = (count(b' ')?, count(b' ')?, count(b'\n')?);
    let counts = match (is_lasso, stem as usize, cycle as usize, reached as usize) {
        (true, stem, cycle @ 1.., 0) => Counts::Lasso { stem, cycle },
        (false, 0, 0, reached @ 1..) => Counts::Empty { reached },
        _ => return None,
    };
    Some((version, counts))
}

fn read_walk(cursor: &mut Cursor, graph: &Graph, length: usize) -> Result<Vec<u16>, u32> {
    cursor.words(LASSO_NAMES).ok_or(LAYOUT)?;
    let mut walk = Vec::with_capacity(length);
    for _ in 0..length {
        let edge = cursor.number(b'\n').ok_or(LAYOUT)?;
        if edge as usize >= graph.edges.len() {
            return Err(FALSE);
        }
        walk.push(edge as u16);
    }
    at_end(cursor)?;
    Ok(walk)
}

/// By vertex, the number that it is listed with.
fn read_distances(cursor: &mut Cursor, graph: &Graph, reached: usize) -> Result<Vec<i32>, u32> {
    cursor.words(EMPTY_NAMES).ok_or(LAYOUT)?;
    let mut distances = vec![NONE; graph.accepting.len()];
    let mut least = 0;
    for _ in 0..reached {
        let vertex = cursor.number(b' ').ok_or(LAYOUT)? as usize;
        let negative = cursor.words(b"-").is_some();
        let size = cursor.number(b'\n').ok_or(LAYOUT)?;
        if vertex < least || vertex >= distances.len() {
            return Err(FALSE);
        }
        if size > HIGHEST_DISTANCE || (negative && size == 0) {
            return Err(LAYOUT);
        }
        distances[vertex] = if negative {
            -(size as i32)
        } else {
            size as i32
        };
        least = vertex + 1;
    }
    at_end(cursor)?;
    Ok(distances)
}

fn at_end(cursor: &Cursor) -> Result<(), u32> {
    if cursor.rest.is_empty() {
        Ok(())
    } else {
        Err(LAYOUT)
    }
}

/// Whether the edges are one walk from the source, which comes back to where
/// its stem ends and leaves an accepting vertex after that.
fn is_lasso(graph: &Graph, walk: &[u16], stem: usize) -> bool {
    let mut at = graph.source;
    let mut start = at;
    let mut accepting = false;
    for (place, &edge) in walk.iter().enumerate() {
        let (from, to) = graph.edges[usize::from(edge)];
        if usize::from(from) != at {
            return false;
        }
        if place == stem {
            start = at;
        }
        accepting |= place >= stem && graph.accepting[at];
        at = usize::from(to);
    }
    at == start && accepting
}

/// Whether the source is listed, and each edge from a listed vertex leads to
/// one whose number is low enough.
fn is_closed(graph: &Graph, distances: &[i32]) -> bool {
    let keeps = |&(from, to): &(u16, u16)| {
        let (from, to) = (usize::from(from), usize::from(to));
        let length = i32::from(graph.accepting[from]);
        distances[from] == NONE || distances[to] <= distances[from] - length
    };
    distances[graph.source] != NONE && graph.edges.iter().all(keeps)
}
