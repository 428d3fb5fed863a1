//! Comparisons that do not depend on a seed: the kept runs, the limits, the
//! buffers, every small change to a file and every small graph.

use inputs::acts;
use inputs::damage::{VERSIONS, every_small_change, with_version};
use inputs::graphs::{every_case, text_of};
use inputs::kept::{K1, kept_runs};
use reference::case::{Case, MOST_EDGES, MOST_VERTICES, MOST_WORKERS};
use reference::graph::Graph;
use reference::text::LONGEST_FILE;

use crate::compare::{Comparison, Entry, LEAST, Lengths, Mismatch};
use crate::rests::{compare_list, compare_most_loops, compare_whole};

const OUTPUT_LENGTHS: [usize; 4] = [0, 8_191, 8_192, 9_000];
const WORK_LENGTHS: [usize; 4] = [0, 16_383, 16_384, 20_000];

/// All of them.
pub fn compare_all(comparison: &mut Comparison) -> Result<(), Mismatch> {
    compare_kept_runs(comparison)?;
    compare_buffer_lengths(comparison)?;
    compare_limits(comparison)?;
    compare_number_lengths(comparison)?;
    compare_long_files(comparison)?;
    compare_small_changes(comparison)?;
    compare_small_graphs(comparison)?;
    compare_most_loops(comparison)?;
    compare_long_runs(comparison)
}

/// Every kept run, and every kept answer, of any version, as an answer to every
/// kept case.
fn compare_kept_runs(comparison: &mut Comparison) -> Result<(), Mismatch> {
    for kept in kept_runs() {
        let entry = kept.acts.as_deref().map_or(Entry::Rounds, Entry::List);
        comparison.run(entry, kept.text.as_bytes(), LEAST)?;
        for other in kept_runs() {
            for version in VERSIONS {
                let answer = with_version(other.answer.as_bytes(), version);
                comparison.check(kept.text.as_bytes(), &answer)?;
            }
        }
    }
    Ok(())
}

/// Every pair of lengths with a result, a refused case, lists that are refused
/// and a list that runs out.
fn compare_buffer_lengths(comparison: &mut Comparison) -> Result<(), Mismatch> {
    let overlong = vec![b'x'; LONGEST_FILE + 1];
    for output in OUTPUT_LENGTHS {
        for work in WORK_LENGTHS {
            let lengths = Lengths { output, work };
            for text in [K1.as_bytes(), b"", b"version x\n2", &overlong] {
                comparison.run(Entry::Rounds, text, lengths)?;
                for acts in [
                    &[][..],
                    &[0],
                    &[0, 2, 1, 3, 0, 4, 1, 3],
                    &[0, 2, 1, 3, 0, 4, 1, 3, 5],
                    &[5],
                    &[u32::MAX, 0],
                ] {
                    comparison.run(Entry::List(acts), text, lengths)?;
                }
            }
        }
    }
    Ok(())
}

/// A case of so many vertices, edges and workers, all in one long line of
/// vertices with some edges to spare; past a limit, it must be refused.
fn case_of(vertices: usize, edges: usize, workers: usize) -> Case {
    let steps = 1..=edges.div_ceil(vertices);
    let pairs = (0..vertices).flat_map(|from| steps.clone().map(move |step| (from, from + step)));
    let mut ends: Vec<_> = pairs.map(|(from, to)| (from, to % vertices)).collect();
    ends.sort_unstable();
    ends.dedup();
    ends.truncate(edges);
    Case {
        source: 0,
        workers,
        accepting: (0..vertices).map(|vertex| vertex % 50 == 7).collect(),
        owners: (0..vertices).map(|vertex| vertex % workers).collect(),
        edges: ends,
    }
}

fn compare_limits(comparison: &mut Comparison) -> Result<(), Mismatch> {
    let greatest = (MOST_VERTICES, MOST_EDGES, MOST_WORKERS);
    for (more_vertices, more_edges, more_workers) in [(0, 0, 0), (1, 0, 0), (0, 1, 0), (0, 0, 1)] {
        let (vertices, edges, workers) = greatest;
        let case = case_of(
            vertices + more_vertices,
            edges + more_edges,
            workers + more_workers,
        );
        compare_whole(comparison, &case)?;
    }
    for vertices in [1, 2, MOST_VERTICES] {
        for source in [vertices - 1, vertices] {
            let case = Case {
                source,
                ..case_of(vertices, 0, MOST_WORKERS)
            };
            compare_whole(comparison, &case)?;
        }
    }
    let mut owner_too_large = case_of(3, 3, 2);
    owner_too_large.owners[2] = 2;
    compare_whole(comparison, &owner_too_large)?;
    Ok(())
}

/// Answers whose numbers stand where a number gets one digit more: every
/// distance down to the lowest, and a lasso's edges.
fn compare_number_lengths(comparison: &mut Comparison) -> Result<(), Mismatch> {
    // The last vertex rests, so it must not accept.
    let path = Case {
        accepting: (1..=MOST_VERTICES).map(|v| v < MOST_VERTICES).collect(),
        ..case_of(MOST_VERTICES, MOST_VERTICES - 1, 1)
    };
    compare_whole(comparison, &path)?;
    for cycle in [9, 10, 99, 100, 999, 1_000, MOST_EDGES - 1] {
        for stem in [0, 9, 10, 99, 100].into_iter().filter(|&stem| stem < cycle) {
            compare_whole(comparison, &lasso_by(stem, cycle))?;
        }
    }
    Ok(())
}

/// A case whose answer is one edge of this number as stem, from vertex 0 to the
/// last, and one as cycle: the loop there, the last edge of all.
fn lasso_by(stem: usize, cycle: usize) -> Case {
    let last = MOST_VERTICES - 1;
    let from_source = (last - stem..=last).map(|to| (0, to));
    let rising = (1..last).flat_map(|from| (from + 1..=last).map(move |to| (from, to)));
    let before_loop = from_source.chain(rising).take(cycle);
    Case {
        source: 0,
        workers: 1,
        accepting: (0..=last).map(|vertex| vertex == last).collect(),
        owners: vec![0; MOST_VERTICES],
        edges: before_loop.chain([(last, last)]).collect(),
    }
}

/// Files of the greatest length and one byte more, as case and as answer.
fn compare_long_files(comparison: &mut Comparison) -> Result<(), Mismatch> {
    let answer = "version verdict stem cycle reached\n2 lasso 1 2 0\nedge\n0\n1\n2\n";
    for start in [
        K1,
        answer,
        "version x\n3 ",
        "version x\n2 ",
        "version x\n1\n",
        "version ",
        "versio",
        "",
    ] {
        for filler in [b'x', b'\n', b' ', b'0'] {
            for length in [LONGEST_FILE, LONGEST_FILE + 1] {
                let mut file = start.as_bytes().to_vec();
                file.resize(length, filler);
                comparison.run(Entry::Rounds, &file, LEAST)?;
                comparison.run(Entry::List(&[0, u32::MAX]), &file, LEAST)?;
                comparison.check(&file, answer.as_bytes())?;
                comparison.check(&file, &file)?;
                comparison.check(K1.as_bytes(), &file)?;
            }
        }
    }
    Ok(())
}

fn compare_small_changes(comparison: &mut Comparison) -> Result<(), Mismatch> {
    for kept in kept_runs() {
        if !["K1", "K2", "K4", "D"].contains(&kept.name) {
            continue;
        }
        let (text, answer) = (kept.text.as_bytes(), kept.answer.as_bytes());
        for changed in every_small_change(text) {
            comparison.run(Entry::Rounds, &changed, LEAST)?;
            comparison.check(&changed, answer)?;
        }
        for answer in [answer, &with_version(answer, "1")] {
            for changed in every_small_change(answer) {
                comparison.check(text, &changed)?;
            }
        }
    }
    Ok(())
}

/// Every small graph by rounds and by lists that delay the messages of one
/// edge each, or of none: there offers meet in cells.
fn compare_small_graphs(comparison: &mut Comparison) -> Result<(), Mismatch> {
    for case in (1..=3).flat_map(every_case) {
        let text = text_of(&case);
        compare_whole(comparison, &case)?;
        let graph = Graph::of_file(&case);
        let cells = (0..case.edges.len()).filter(|&edge| graph.has_cell(edge));
        for last in cells.chain([case.edges.len()]) {
            for lowest_first in [true, false] {
                let list = acts::delaying(&case, last, lowest_first);
                compare_to_end(comparison, &case, &text, &list)?;
            }
        }
    }
    Ok(())
}

/// A list that ends the run with its last act, and the same without that act.
fn compare_to_end(
    comparison: &mut Comparison,
    case: &Case,
    text: &[u8],
    list: &[u32],
) -> Result<(), Mismatch> {
    comparison.tally.meetings += u64::from(acts::has_meeting(case, list));
    compare_list(comparison, case, text, list)?;
    comparison.run(Entry::List(&list[..list.len() - 1]), text, LEAST)?;
    Ok(())
}

/// Rings whose lone accepting vertex lowers little in each lap, while
/// accepting vertices that cannot be reached put the floor far down.
fn compare_long_runs(comparison: &mut Comparison) -> Result<(), Mismatch> {
    for (ring, others, workers) in [(60, 60, 1), (60, 60, 7), (150, 40, 16), (2, 498, 2)] {
        let vertices = ring + others;
        let case = Case {
            source: ring / 2,
            workers,
            accepting: (0..vertices)
                .map(|vertex| vertex == 0 || vertex >= ring)
                .collect(),
            owners: (0..vertices).map(|vertex| vertex % workers).collect(),
            edges: (0..ring)
                .map(|vertex| (vertex, (vertex + 1) % ring))
                .collect(),
        };
        compare_whole(comparison, &case)?;
    }
    Ok(())
}
