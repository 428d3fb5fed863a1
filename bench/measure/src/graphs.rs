//! Graphs at the limits: 500 vertices, and 2,000 edges unless said otherwise.

use std::collections::BTreeSet;

use inputs::rng::Rng;
use reference::case::{Case, MOST_EDGES, MOST_VERTICES};

const SEED: u64 = 2_026;
/// A complete graph on so many vertices has a few more than 2,000 edges, its
/// loops included.
const DENSE_CYCLIC: usize = 45;
/// So has the set of rising pairs of so many vertices.
const DENSE_RISING: usize = 64;
/// A ring of this length leaves as many vertices outside.
const LONG_RING: usize = MOST_VERTICES / 2;

type Edges = Vec<(usize, usize)>;

/// Edges, how many vertices can be reached by them, the first ones, and which
/// may accept: by whether no edge leaves them, and whether they can be reached.
struct Shape {
    name: &'static str,
    edges: Edges,
    reachable: usize,
    may_accept: fn(bool, bool) -> bool,
}

/// A case with a name for the table.
pub struct Example {
    pub name: &'static str,
    pub case: Case,
}

/// Every example, each with few and many workers.
pub fn examples() -> Vec<Example> {
    let mut rng = Rng::new(SEED);
    let mut examples = Vec::new();
    for shape in shapes(&mut rng) {
        for accepting in [1, 50, MOST_VERTICES] {
            let marks = marks(&mut rng, accepting, &shape);
            for workers in [1, 16] {
                let edges = shape.edges.clone();
                examples.push(example(shape.name, edges, marks.clone(), workers));
            }
        }
    }
    for workers in [1, 16] {
        examples.push(long_laps(workers));
    }
    examples
}

/// In an empty one no vertex that can be reached rests accepting; in the last one
/// only those that rest accept, so that the lasso is a rest loop.
fn shapes(rng: &mut Rng) -> [Shape; 5] {
    let shape = |name, edges, reachable, may_accept| Shape {
        name,
        edges,
        reachable,
        may_accept,
    };
    let dense = first_pairs(DENSE_CYCLIC, |_, _| true);
    let dense_rising = first_pairs(DENSE_RISING, |from, to| from < to);
    let fan = first_pairs(MOST_VERTICES, |_, _| true);
    let any: fn(bool, bool) -> bool = |_, _| true;
    let no_lasso: fn(bool, bool) -> bool = |rests, reached| !(rests && reached);
    [
        shape("sparse, lasso", ring_with_chords(rng), MOST_VERTICES, any),
        shape("sparse, empty", rising_line(rng), MOST_VERTICES, no_lasso),
        shape("dense, lasso", dense, DENSE_CYCLIC, any),
        shape("dense, empty", dense_rising, DENSE_RISING, no_lasso),
        shape("fan, lasso", fan, MOST_VERTICES, |rests, _| rests),
    ]
}

fn example(name: &'static str, edges: Edges, accepting: Vec<bool>, workers: usize) -> Example {
    let owners = (0..MOST_VERTICES).map(|vertex| vertex % workers).collect();
    Example {
        name,
        case: Case {
            source: 0,
            workers,
            accepting,
            owners,
            edges,
        },
    }
}

/// So many accepting vertices, as many of them as can be among those that can
/// be reached, and none of them the source; or all that may accept.
fn marks(rng: &mut Rng, accepting: usize, shape: &Shape) -> Vec<bool> {
    let may_accept = |vertex| {
        let rests = shape.edges.iter().all(|&(from, _)| from != vertex);
        (shape.may_accept)(rests, vertex < shape.reachable)
    };
    if accepting == MOST_VERTICES {
        return (0..MOST_VERTICES).map(may_accept).collect();
    }
    let in_reach = (1..shape.reachable).filter(|&v| may_accept(v)).count();
    let mut marks = vec![false; MOST_VERTICES];
    for marked in 0..accepting {
        let limit = if marked < in_reach {
            shape.reachable
        } else {
            MOST_VERTICES
        };
        let mut vertex = 0;
        while vertex == 0 || marks[vertex] || !may_accept(vertex) {
            vertex = rng.below(limit);
        }
        marks[vertex] = true;
    }
    marks
}

/// A ring through all vertices, filled up with edges of any kind.
fn ring_with_chords(rng: &mut Rng) -> Edges {
    let ring = (0..MOST_VERTICES).map(|vertex| (vertex, (vertex + 1) % MOST_VERTICES));
    filled_up(rng, ring.collect(), |_, _| true)
}

/// A line through all vertices, filled up with edges to higher vertices.
fn rising_line(rng: &mut Rng) -> Edges {
    let line = (1..MOST_VERTICES).map(|vertex| (vertex - 1, vertex));
    filled_up(rng, line.collect(), |from, to| from < to)
}

fn filled_up(
    rng: &mut Rng,
    mut edges: BTreeSet<(usize, usize)>,
    fits: fn(usize, usize) -> bool,
) -> Edges {
    while edges.len() < MOST_EDGES {
        let (from, to) = (rng.below(MOST_VERTICES), rng.below(MOST_VERTICES));
        if fits(from, to) {
            edges.insert((from, to));
        }
    }
    edges.into_iter().collect()
}

/// The first 2,000 fitting pairs of so many vertices.
fn first_pairs(vertices: usize, fits: fn(usize, usize) -> bool) -> Edges {
    let pairs = (0..vertices).flat_map(|from| (0..vertices).map(move |to| (from, to)));
    pairs
        .filter(|&(from, to)| fits(from, to))
        .take(MOST_EDGES)
        .collect()
}

/// The slowest kind: a long ring with one accepting vertex, while accepting
/// vertices outside put the floor hundreds of laps away. It has 250 edges.
fn long_laps(workers: usize) -> Example {
    let edges = (0..LONG_RING)
        .map(|vertex| (vertex, (vertex + 1) % LONG_RING))
        .collect();
    let marks = (0..MOST_VERTICES)
        .map(|vertex| vertex + 1 >= LONG_RING)
        .collect();
    example("long laps, lasso", edges, marks, workers)
}
