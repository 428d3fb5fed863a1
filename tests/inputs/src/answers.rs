//! Answers as another tool might give them: right or wrong, but seldom the
//! ones that the run itself would write.

use reference::answer::Answer;
use reference::case::Case;
use reference::graph::Graph;
use reference::older;
use reference::plain::Plain;

use crate::rng::Rng;

const LONGEST_WALK: usize = 60;

/// An "empty", and a lasso where there is a walk, about the graph that answers of
/// this version mean.
pub fn other_answers(rng: &mut Rng, case: &Case, version: usize) -> Vec<Answer> {
    let (graph, plain) = if version == older::VERSION {
        (Graph::of_file(case), Plain::of_file(case))
    } else {
        (Graph::rested(case), Plain::rested(case))
    };
    let numbered = numbered_empty(rng, &plain);
    walked_lasso(rng, &graph)
        .into_iter()
        .chain([numbered])
        .collect()
}

/// A walk from the source that is cut into stem and cycle, usually where the
/// cycle closes. It may repeat edges, and it may lack an accepting vertex.
pub fn walked_lasso(rng: &mut Rng, graph: &Graph) -> Option<Answer> {
    let mut walk = random_walk(rng, graph);
    if walk.is_empty() {
        return None;
    }
    let closings = closings(graph, &walk);
    let (start, end) = if closings.is_empty() || rng.chance(1, 8) {
        (rng.below(walk.len()), walk.len())
    } else {
        rng.pick(&closings)
    };
    walk.truncate(end);
    let cycle = walk.split_off(start);
    Some(Answer::Lasso { stem: walk, cycle })
}

fn random_walk(rng: &mut Rng, graph: &Graph) -> Vec<usize> {
    let mut walk = Vec::new();
    let mut vertex = graph.case.source;
    for _ in 0..rng.between(1, LONGEST_WALK) {
        let edges = graph.edges_from(vertex);
        if edges.is_empty() {
            break;
        }
        let edge = rng.pick(edges);
        walk.push(edge);
        vertex = graph.edges[edge].1;
    }
    walk
}

/// Pairs `(start, end)` of places where the walk's part between them closes.
fn closings(graph: &Graph, walk: &[usize]) -> Vec<(usize, usize)> {
    let mut closings = Vec::new();
    for start in 0..walk.len() {
        for end in start + 1..=walk.len() {
            if graph.edges[walk[end - 1]].1 == graph.edges[walk[start]].0 {
                closings.push((start, end));
            }
        }
    }
    closings
}

/// Numbers from random starts, at all vertices or at the source and some others,
/// reachable or not; right as far as the edges allow it, sometimes with one
/// number or vertex changed.
pub fn numbered_empty(rng: &mut Rng, plain: &Plain) -> Answer {
    let shift = rng.pick(&[0, 1, -1, 7, 499, 500, 501, -400, -499, -500]);
    let spread = rng.pick(&[1, 1, 2, 5]);
    let everywhere = rng.chance(1, 2);
    let starts: Vec<Option<i32>> = (0..plain.case.vertices())
        .map(|vertex| {
            let starts = everywhere || vertex == plain.case.source || rng.chance(1, 4);
            starts.then(|| shift + rng.below(spread) as i32)
        })
        .collect();
    // Where an accepting cycle leaves no right numbers, the starts must do.
    let numbers = plain.least_from(starts.clone()).unwrap_or(starts);
    let numbers = numbers.into_iter().enumerate();
    let mut reached: Vec<(usize, i32)> = numbers
        .filter_map(|(vertex, number)| Some((vertex, number?)))
        .collect();
    change_one(rng, &mut reached);
    Answer::Empty { reached }
}

fn change_one(rng: &mut Rng, reached: &mut Vec<(usize, i32)>) {
    let place = rng.below(reached.len());
    match rng.below(6) {
        0 => reached[place].1 += 1,
        1 => reached[place].1 -= 1,
        2 if reached.len() > 1 => {
            reached.remove(place);
        }
        _ => {}
    }
}

/// The vertices that can be reached, with numbers that are off their distances
/// by the same amount: another lawful answer, unless a number leaves the range.
pub fn shifted_empty(rng: &mut Rng, reached: &[(usize, i32)]) -> Answer {
    let lowest = reached.iter().map(|entry| entry.1).min().unwrap_or(0);
    let highest = reached.iter().map(|entry| entry.1).max().unwrap_or(0);
    let shift = rng.pick(&[
        1,
        -1,
        40,
        -500 - lowest,
        -501 - lowest,
        500 - highest,
        501 - highest,
    ]);
    let shifted = reached
        .iter()
        .map(|&(vertex, number)| (vertex, number + shift));
    Answer::Empty {
        reached: shifted.collect(),
    }
}
