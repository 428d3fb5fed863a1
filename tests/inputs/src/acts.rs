//! Lists of acts.

use reference::case::Case;
use reference::run::Run;

use crate::rng::Rng;

/// Acts drawn from all that there are; many are idle.
pub fn any(rng: &mut Rng, case: &Case, length: usize) -> Vec<u32> {
    (0..length)
        .map(|_| rng.below(case.act_count()) as u32)
        .collect()
}

/// Whole rounds.
pub fn rounds(case: &Case, count: usize) -> Vec<u32> {
    let round = 0..case.act_count() as u32;
    (0..count).flat_map(|_| round.clone()).collect()
}

/// Acts that each do something, to the end of the run or to `limit`.
///
/// `turns_of_ten` says how often a turn goes before a delivery where both can
/// be done: with many turns and few deliveries, messages meet in the cells,
/// which never happens by rounds.
pub fn busy(rng: &mut Rng, case: &Case, limit: usize, turns_of_ten: usize) -> Vec<u32> {
    let mut run = Run::fresh(case);
    let mut acts = Vec::new();
    while run.finding.is_none() && acts.len() < limit {
        let turns: Vec<usize> = busy_workers(&run).collect();
        let deliveries: Vec<usize> = full_cells(&run).map(|edge| case.workers + edge).collect();
        let prefer_turn = rng.chance(turns_of_ten, 10);
        let turn = deliveries.is_empty() || (prefer_turn && !turns.is_empty());
        let act = rng.pick(if turn { &turns } else { &deliveries });
        run.act(act);
        acts.push(act as u32);
    }
    acts
}

/// Acts that each do something, to the end of the run: turns go before
/// deliveries, and a message of the edge `last` waits for all else, so that
/// offers meet in its cell. Otherwise the lowest act goes first, or the highest.
pub fn delaying(case: &Case, last: usize, lowest_first: bool) -> Vec<u32> {
    let mut run = Run::fresh(case);
    let mut acts = Vec::new();
    let last = case.workers + last;
    let rank = |&act: &usize| {
        let place = if lowest_first { act } else { usize::MAX - act };
        (act >= case.workers, act == last, place)
    };
    while run.finding.is_none() {
        let deliveries = full_cells(&run).map(|edge| case.workers + edge);
        let ready = busy_workers(&run).chain(deliveries);
        let act = ready.min_by_key(rank).expect("something waits");
        run.act(act);
        acts.push(act as u32);
    }
    acts
}

/// Whether an offer of the run by this list comes to a cell that is full.
pub fn has_meeting(case: &Case, acts: &[u32]) -> bool {
    let mut run = Run::fresh(case);
    acts.iter().any(|&act| {
        let before = run.cells.clone();
        run.act(act as usize);
        let mut both = before.iter().zip(&run.cells);
        both.any(|(before, after)| before.is_some() && after.is_some() && before != after)
    })
}

fn busy_workers(run: &Run) -> impl Iterator<Item = usize> {
    (0..run.case.workers).filter(|&worker| !run.queues[worker].is_empty())
}

fn full_cells(run: &Run) -> impl Iterator<Item = usize> {
    (0..run.case.edges.len()).filter(|&edge| run.cells[edge].is_some())
}

/// How many acts of the list there are up to the one that ends the run.
pub fn length_to_end(case: &Case, acts: &[u32]) -> Option<usize> {
    let mut run = Run::fresh(case);
    for (place, &act) in acts.iter().enumerate() {
        run.act(act as usize);
        if run.finding.is_some() {
            return Some(place + 1);
        }
    }
    None
}

/// The same list with one act out of range put in somewhere.
pub fn with_act_out_of_range(rng: &mut Rng, case: &Case, acts: &[u32]) -> Vec<u32> {
    let limit = case.act_count() as u32;
    let place = rng.below(acts.len() + 1);
    let mut acts = acts.to_vec();
    acts.insert(place, rng.pick(&[limit, limit + 1, 0x8000_0000, u32::MAX]));
    acts
}
