//! The checker of answer files.

use crate::answer::{self, ANSWER_NAMES, Answer, EMPTY_NAMES, LASSO_NAMES};
use crate::case::Case;
use crate::graph::Graph;
use crate::older;
use crate::refusal::Refusal;
use crate::text::{
    LONGEST_FILE, Lines, SignedNumber, VERSION_WORD, has_other_version, number, signed_number,
    version,
};

/// The versions of answers that are judged, each by its own meaning.
pub const VERSIONS: [usize; 2] = [older::VERSION, answer::VERSION];

const HIGHEST_COUNT: usize = 500;
const HIGHEST_DISTANCE: usize = 500;

/// Reads an answer to an accepted case and judges it by what its version means.
pub fn check(case: &Case, text: &[u8]) -> Result<Answer, Refusal> {
    judge(&meant(case, text), &VERSIONS, text)
}

/// The graph that an answer is about. Where it has no version, it is refused
/// whatever the graph.
pub fn meant<'a>(case: &'a Case, text: &[u8]) -> Graph<'a> {
    if version(text) == Some(answer::VERSION) {
        Graph::rested(case)
    } else {
        Graph::of_file(case)
    }
}

/// Reads an answer of one of these versions about a graph and judges it by the
/// passing rule.
pub fn judge(graph: &Graph, versions: &[usize], text: &[u8]) -> Result<Answer, Refusal> {
    let answer = read(graph, versions, text)?;
    if passes(graph, &answer) {
        Ok(answer)
    } else {
        Err(Refusal::AnswerWrong)
    }
}

/// The numbers of line 2, in range and suiting the verdict.
enum Counts {
    Lasso { stem: usize, cycle: usize },
    Empty { reached: usize },
}

/// Reads an answer; the first fault from the front decides.
pub fn read(graph: &Graph, versions: &[usize], text: &[u8]) -> Result<Answer, Refusal> {
    if text.len() > LONGEST_FILE {
        return Err(Refusal::FileTooLong);
    }
    if !text.starts_with(VERSION_WORD) {
        return Err(Refusal::AnswerLayout);
    }
    if has_other_version(text, versions) {
        return Err(Refusal::OtherVersion);
    }
    let mut lines = Lines::of(text);
    let answer = match read_counts(&mut lines)? {
        Counts::Lasso { stem, cycle } => read_lasso(graph, &mut lines, stem, cycle)?,
        Counts::Empty { reached } => read_empty(graph, &mut lines, reached)?,
    };
    if !lines.at_end() {
        return Err(Refusal::AnswerLayout);
    }
    Ok(answer)
}

fn read_names(lines: &mut Lines, names: &str) -> Result<(), Refusal> {
    if lines.next_line() == Some(names.as_bytes()) {
        Ok(())
    } else {
        Err(Refusal::AnswerLayout)
    }
}

fn read_counts(lines: &mut Lines) -> Result<Counts, Refusal> {
    read_names(lines, ANSWER_NAMES)?;
    // Every fault of this line has one number, so their order is not seen.
    counts_of_line(lines).ok_or(Refusal::AnswerLayout)
}

fn counts_of_line(lines: &mut Lines) -> Option<Counts> {
    let [version, verdict, stem, cycle, reached] = lines.next_fields()?;
    number(version)?;
    let count = |field| number(field).filter(|&count| count <= HIGHEST_COUNT);
    match (verdict, count(stem)?, count(cycle)?, count(reached)?) {
        (b"lasso", stem, cycle @ 1.., 0) => Some(Counts::Lasso { stem, cycle }),
        (b"empty", 0, 0, reached @ 1..) => Some(Counts::Empty { reached }),
        _ => None,
    }
}

fn read_lasso(
    graph: &Graph,
    lines: &mut Lines,
    stem: usize,
    cycle: usize,
) -> Result<Answer, Refusal> {
    read_names(lines, LASSO_NAMES)?;
    let mut edges = Vec::new();
    for _ in 0..stem + cycle {
        let [edge] = lines.next_numbers().ok_or(Refusal::AnswerLayout)?;
        if edge >= graph.edges.len() {
            return Err(Refusal::AnswerWrong);
        }
        edges.push(edge);
    }
    let cycle = edges.split_off(stem);
    Ok(Answer::Lasso { stem: edges, cycle })
}

fn read_empty(graph: &Graph, lines: &mut Lines, count: usize) -> Result<Answer, Refusal> {
    read_names(lines, EMPTY_NAMES)?;
    let mut reached: Vec<(usize, i32)> = Vec::new();
    for _ in 0..count {
        // Both fields must be well formed before either value is judged.
        let (vertex, distance) = vertex_line(lines).ok_or(Refusal::AnswerLayout)?;
        let rises = reached.last().is_none_or(|&(before, _)| before < vertex);
        if vertex >= graph.case.vertices() || !rises {
            return Err(Refusal::AnswerWrong);
        }
        let distance = distance_in_range(distance).ok_or(Refusal::AnswerLayout)?;
        reached.push((vertex, distance));
    }
    Ok(Answer::Empty { reached })
}

fn vertex_line(lines: &mut Lines) -> Option<(usize, SignedNumber)> {
    let [vertex, distance] = lines.next_fields()?;
    Some((number(vertex)?, signed_number(distance)?))
}

fn distance_in_range(number: SignedNumber) -> Option<i32> {
    let minus_zero = number.negative && number.size == 0;
    if minus_zero || number.size > HIGHEST_DISTANCE {
        return None;
    }
    let size = number.size as i32;
    Some(if number.negative { -size } else { size })
}

/// The passing rule.
pub fn passes(graph: &Graph, answer: &Answer) -> bool {
    match answer {
        Answer::Lasso { stem, cycle } => {
            is_lasso_shaped(graph, stem, cycle) && leaves_accepting(graph, cycle)
        }
        Answer::Empty { reached } => is_closed(graph, reached),
    }
}

/// Whether stem and cycle are one walk from the source and the cycle closes.
pub fn is_lasso_shaped(graph: &Graph, stem: &[usize], cycle: &[usize]) -> bool {
    let mut at = graph.case.source;
    for &edge in stem.iter().chain(cycle) {
        let (from, to) = graph.edges[edge];
        if from != at {
            return false;
        }
        at = to;
    }
    at == graph.edges[cycle[0]].0
}

/// Whether one of the edges leaves an accepting vertex.
pub fn leaves_accepting(graph: &Graph, edges: &[usize]) -> bool {
    edges
        .iter()
        .any(|&edge| graph.case.accepting[graph.edges[edge].0])
}

/// Whether the source is listed and no edge from a listed vertex leads out of
/// the list or to a number that is too high.
fn is_closed(graph: &Graph, reached: &[(usize, i32)]) -> bool {
    let listed = |vertex| {
        reached
            .iter()
            .find(|entry| entry.0 == vertex)
            .map(|entry| entry.1)
    };
    let keeps = |edge: usize| {
        let (from, to) = graph.edges[edge];
        let Some(start) = listed(from) else {
            return true;
        };
        listed(to).is_some_and(|end| end <= start + graph.length(edge))
    };
    listed(graph.case.source).is_some() && (0..graph.edges.len()).all(keeps)
}
