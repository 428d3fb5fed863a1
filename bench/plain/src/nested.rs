//! A nested depth-first search, the usual way to look for a reachable cycle
//! through an accepting vertex on one machine. It gives the verdict only.

use crate::reader::{Case, read};
use crate::rest::Edges;

/// Reads a case and says whether it has a lasso; or the refusal's number.
pub fn run(text: &[u8]) -> Result<bool, u32> {
    Ok(has_lasso(&read(text)?))
}

/// A vertex on a search's path and the next edge to follow from it.
type Step = (usize, usize);

/// Whether a reachable cycle leaves an accepting vertex.
pub fn has_lasso(case: &Case) -> bool {
    let edges = Edges::rested(case);
    let mut seen = vec![false; case.vertices()];
    // One set for all inner searches: what an earlier one left without
    // success cannot lead a later one to success.
    let mut seen_inside = vec![false; case.vertices()];
    let mut path = Vec::with_capacity(case.vertices());
    let mut inner_path = Vec::with_capacity(case.vertices());
    seen[case.source] = true;
    path.push((case.source, edges.leaving(case.source).start));
    while let Some((vertex, edge)) = path.pop() {
        if edge < edges.leaving(vertex).end {
            path.push((vertex, edge + 1));
            let target = usize::from(edges.targets[edge]);
            if !seen[target] {
                seen[target] = true;
                path.push((target, edges.leaving(target).start));
            }
        } else if case.accepting[vertex]
            && leads_back(&edges, vertex, &mut seen_inside, &mut inner_path)
        {
            return true;
        }
    }
    false
}

/// The inner search: whether a walk of at least one edge leads back to `goal`.
fn leads_back(edges: &Edges, goal: usize, seen: &mut [bool], path: &mut Vec<Step>) -> bool {
    path.clear();
    path.push((goal, edges.leaving(goal).start));
    while let Some((vertex, edge)) = path.pop() {
        if edge == edges.leaving(vertex).end {
            continue;
        }
        path.push((vertex, edge + 1));
        let target = usize::from(edges.targets[edge]);
        if target == goal {
            return true;
        }
        if !seen[target] {
            seen[target] = true;
            path.push((target, edges.leaving(target).start));
        }
    }
    false
}
