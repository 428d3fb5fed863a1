//! Random cases.

use std::collections::BTreeSet;

use reference::case::{Case, MOST_EDGES, MOST_VERTICES, MOST_WORKERS};

pub use reference::case::text_of;

use crate::rng::Rng;

/// How large a random case may be.
#[derive(Clone, Copy, Debug, PartialEq, Eq)]
pub enum Size {
    /// 1 to 8 vertices.
    Small,
    /// 9 to 40 vertices.
    Medium,
    /// 300 to 500 vertices.
    Large,
}

/// Which edges a random case may have.
#[derive(Clone, Copy)]
enum Edges {
    Any,
    /// Only to higher vertices, so that there is no cycle.
    Rising,
    /// A ring through all vertices and some chords.
    Ring,
    /// Rising ones and a single edge back.
    OneBack,
    /// Any from some of the vertices: the others rest.
    FewLeave,
}

/// A random case.
pub fn random_case(rng: &mut Rng, size: Size) -> Case {
    let vertices = match size {
        Size::Small => rng.between(1, 8),
        Size::Medium => rng.between(9, 40),
        Size::Large => rng.pick(&[300, 499, MOST_VERTICES]),
    };
    let few_workers = rng.pick(&[1, 2, 2, 3, 4]);
    let any_workers = rng.between(1, MOST_WORKERS);
    let workers = rng.pick(&[few_workers, few_workers, any_workers]);
    let mut case = Case {
        source: if rng.chance(1, 2) {
            0
        } else {
            rng.below(vertices)
        },
        workers,
        accepting: random_marks(rng, vertices),
        owners: (0..vertices).map(|_| rng.below(workers)).collect(),
        edges: random_edges(rng, vertices, size),
    };
    // Else nearly every case with a mark and a dead end would have a lasso.
    if rng.chance(1, 2) {
        for vertex in 0..vertices {
            case.accepting[vertex] &= !case.rests(vertex);
        }
    }
    case
}

/// Accepting marks of every density, from none through one to all.
fn random_marks(rng: &mut Rng, vertices: usize) -> Vec<bool> {
    let percent = rng.pick(&[0, 0, 10, 30, 50, 80, 100]);
    let mut marks: Vec<bool> = (0..vertices).map(|_| rng.chance(percent, 100)).collect();
    if rng.chance(3, 4) {
        marks[rng.below(vertices)] = true;
    }
    marks
}

fn random_edges(rng: &mut Rng, vertices: usize, size: Size) -> Vec<(usize, usize)> {
    let style = rng.pick(&[
        Edges::Any,
        Edges::Any,
        Edges::Rising,
        Edges::Ring,
        Edges::OneBack,
        Edges::FewLeave,
    ]);
    let leaves: Vec<bool> = (0..vertices).map(|_| rng.chance(1, 2)).collect();
    let wanted = wanted_edges(rng, vertices, size);
    let mut edges = BTreeSet::new();
    if let Edges::Ring = style {
        edges.extend((0..vertices).map(|vertex| (vertex, (vertex + 1) % vertices)));
    }
    // Draws that repeat an edge or break the style are lost.
    for _ in 0..2 * wanted {
        let (from, to) = (rng.below(vertices), rng.below(vertices));
        let fits = match style {
            Edges::Any | Edges::Ring => true,
            Edges::Rising | Edges::OneBack => from < to,
            Edges::FewLeave => leaves[from],
        };
        if fits && edges.len() < wanted.min(MOST_EDGES) {
            edges.insert((from, to));
        }
    }
    if let Edges::OneBack = style
        && edges.len() < MOST_EDGES
    {
        let to = rng.below(vertices);
        edges.insert((rng.between(to, vertices - 1), to));
    }
    edges.into_iter().collect()
}

/// How many edges to aim at; it is no promise.
fn wanted_edges(rng: &mut Rng, vertices: usize, size: Size) -> usize {
    match size {
        Size::Large => rng.pick(&[vertices, 2 * vertices, MOST_EDGES]),
        _ if rng.chance(1, 4) => rng.between(0, vertices * vertices),
        _ => rng.between(0, 2 * vertices),
    }
}

/// The most vertices, for one worker, and the first so many of all edges between
/// them: whatever comes after the last vertex that one leaves rests.
pub fn first_edges(count: usize, source: usize, accepting: impl Fn(usize) -> bool) -> Case {
    let edge = |place| (place / MOST_VERTICES, place % MOST_VERTICES);
    Case {
        source,
        workers: 1,
        accepting: (0..MOST_VERTICES).map(accepting).collect(),
        owners: vec![0; MOST_VERTICES],
        edges: (0..count).map(edge).collect(),
    }
}

/// Every graph on so many vertices with every source, each under every way to
/// share the vertices among workers.
pub fn every_case(vertices: usize) -> impl Iterator<Item = Case> {
    let pairs = vertices * vertices;
    let graphs = 1_usize << (pairs + vertices);
    let shared = every_sharing(vertices);
    let bit = |bits: usize, place: usize| bits >> place & 1 == 1;
    let edge = move |pair: usize| (pair / vertices, pair % vertices);
    (0..graphs * vertices).flat_map(move |number| {
        let (bits, source) = (number / vertices, number % vertices);
        let marks = (pairs..pairs + vertices).map(|place| bit(bits, place));
        let case = Case {
            source,
            workers: 1,
            accepting: marks.collect(),
            owners: vec![0; vertices],
            edges: (0..pairs)
                .filter(|&pair| bit(bits, pair))
                .map(edge)
                .collect(),
        };
        let with_owners = move |owners: Vec<usize>| Case {
            workers: 1 + owners.iter().max().expect("there is a vertex"),
            owners,
            ..case.clone()
        };
        shared.clone().into_iter().map(with_owners)
    })
}

/// Every way to share vertices among workers, who are numbered in the order of
/// their first vertices.
fn every_sharing(vertices: usize) -> Vec<Vec<usize>> {
    let mut shared = vec![vec![]];
    for _ in 0..vertices {
        let longer = |owners: Vec<usize>| {
            let next = owners.iter().max().map_or(0, |most| most + 1);
            (0..=next).map(move |owner| [owners.as_slice(), &[owner]].concat())
        };
        shared = shared.into_iter().flat_map(longer).collect();
    }
    shared
}

/// A copy with one value changed, nearly always to one that a reader must
/// refuse. Its text has the right layout, so that no fault of layout hides it.
pub fn with_wrong_value(rng: &mut Rng, case: &Case) -> Case {
    let mut case = case.clone();
    let (vertex, vertices) = (rng.below(case.vertices()), case.vertices());
    let edge = rng.below(case.edges.len().max(1));
    match rng.below(8) {
        0 => case.source = vertices + rng.below(2),
        1 => case.workers = rng.pick(&[0, MOST_WORKERS + 1]),
        2 => case.owners[vertex] = case.workers,
        _ if case.edges.is_empty() => case.edges.push((0, vertices)),
        3 => case.edges[edge].0 = vertices,
        4 => case.edges[edge].1 = vertices + rng.below(2),
        5 => case.edges.insert(edge, case.edges[edge]),
        6 => case.edges.swap(0, edge),
        _ => case.edges.reverse(),
    }
    case
}
