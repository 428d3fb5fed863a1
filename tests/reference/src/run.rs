//! The acts of the distributed search.

use std::collections::VecDeque;

use crate::case::Case;
use crate::graph::Graph;
use crate::refusal::Refusal;

/// How a run ended.
#[derive(Clone, Copy, Debug, PartialEq, Eq)]
pub enum Finding {
    /// This vertex has taken a distance below the floor.
    Lasso {
        breaker: usize,
    },
    Empty,
}

/// What a bus monitor counts. An offer that is put into a cell and a delivery
/// that empties one change it, and nothing else does.
#[derive(Clone, Copy, Debug, Default, PartialEq, Eq)]
pub struct Tallies {
    /// Offers put into a cell, those that joined a waiting message included.
    pub sent: u32,
    /// Messages taken out of a cell, whether the offer was then taken or not.
    pub delivered: u32,
    /// Offers put into a cell where a message waited.
    pub joined: u32,
}

/// The state between two acts.
#[derive(Clone, Debug)]
pub struct Run<'a> {
    pub case: &'a Case,
    /// Its edges, with the rest loops.
    pub graph: Graph<'a>,
    /// −A: a distance below it shows a lasso.
    pub floor: i32,
    pub distances: Vec<Option<i32>>,
    /// By vertex, the edge whose offer it took last.
    pub parents: Vec<Option<usize>>,
    /// By worker, the vertices that wait for a scan.
    pub queues: Vec<VecDeque<usize>>,
    /// By edge of the file, the offer that waits. An edge without a cell never
    /// has one; so a rest loop, whose ends have one owner, needs none.
    pub cells: Vec<Option<i32>>,
    /// Acts that did something.
    pub acts_counted: u64,
    pub tallies: Tallies,
    pub finding: Option<Finding>,
}

impl<'a> Run<'a> {
    /// A run before its first act.
    pub fn fresh(case: &'a Case) -> Self {
        Run::on(Graph::rested(case))
    }

    /// The same by the edges of this graph.
    pub fn on(graph: Graph<'a>) -> Self {
        let case = graph.case;
        let mut run = Run {
            case,
            graph,
            floor: -(case.accepting_count() as i32),
            distances: vec![None; case.vertices()],
            parents: vec![None; case.vertices()],
            queues: vec![VecDeque::new(); case.workers],
            cells: vec![None; case.edges.len()],
            acts_counted: 0,
            tallies: Tallies::default(),
            finding: None,
        };
        run.distances[case.source] = Some(0);
        run.queues[case.owners[case.source]].push_back(case.source);
        run
    }

    /// Does one act, unless the run has ended.
    pub fn act(&mut self, act: usize) {
        self.act_watched(act, |_| ());
    }

    /// The same; the watch is shown the state after every edge of a scan, and
    /// after the act unless it was idle.
    pub fn act_watched(&mut self, act: usize, watch: impl Fn(&Self)) {
        if self.finding.is_some() {
            return;
        }
        let did_something = match act.checked_sub(self.case.workers) {
            None => self.turn(act, &watch),
            Some(edge) => self.deliver(edge),
        };
        if did_something {
            self.acts_counted += 1;
            self.end_if_nothing_waits();
            watch(self);
        }
    }

    /// A worker's turn; false if it was idle.
    fn turn(&mut self, worker: usize, watch: impl Fn(&Self)) -> bool {
        let Some(vertex) = self.queues[worker].pop_front() else {
            return false;
        };
        let distance = self.distances[vertex].expect("a queued vertex has a distance");
        for edge in self.graph.edges_from(vertex).to_vec() {
            self.offer(edge, distance + self.graph.length(edge));
            watch(self);
            // The floor may break in the middle of a scan, which ends it.
            if self.finding.is_some() {
                break;
            }
        }
        true
    }

    /// Offers a distance along an edge: on the spot within one owner, through
    /// the edge's cell otherwise.
    pub fn offer(&mut self, edge: usize, offer: i32) {
        if self.graph.has_cell(edge) {
            self.put(edge, offer);
        } else {
            self.try_offer(edge, offer);
        }
    }

    /// Puts an offer into a cell; where one waits there, the lower remains.
    fn put(&mut self, edge: usize, offer: i32) {
        let waiting = self.cells[edge];
        self.cells[edge] = Some(waiting.map_or(offer, |waiting| waiting.min(offer)));
        self.tallies.sent += 1;
        self.tallies.joined += u32::from(waiting.is_some());
    }

    /// A delivery; false if it was idle.
    fn deliver(&mut self, edge: usize) -> bool {
        let Some(offer) = self.cells[edge].take() else {
            return false;
        };
        self.tallies.delivered += 1;
        self.try_offer(edge, offer);
        true
    }

    fn try_offer(&mut self, edge: usize, offer: i32) {
        let (_, target) = self.graph.edges[edge];
        if self.distances[target].is_some_and(|distance| distance <= offer) {
            return;
        }
        self.distances[target] = Some(offer);
        self.parents[target] = Some(edge);
        let queue = &mut self.queues[self.case.owners[target]];
        if !queue.contains(&target) {
            queue.push_back(target);
        }
        if offer < self.floor {
            self.finding = Some(Finding::Lasso { breaker: target });
        }
    }

    pub fn end_if_nothing_waits(&mut self) {
        if self.finding.is_none() && self.queues_empty() && self.cells.iter().all(Option::is_none) {
            self.finding = Some(Finding::Empty);
        }
    }

    pub fn queues_empty(&self) -> bool {
        self.queues.iter().all(VecDeque::is_empty)
    }

    /// What holds at any moment. Of the tallies: each offer that was put into a
    /// cell was delivered, joined another or still waits, and each vertex is
    /// scanned at most A + 1 times. Of the acts: the bound, in which m counts
    /// the rest loops.
    fn assert_counted(&self) {
        let Tallies {
            sent,
            delivered,
            joined,
        } = self.tallies;
        let full = self.cells.iter().filter(|cell| cell.is_some()).count();
        assert_eq!(sent as usize, delivered as usize + joined as usize + full);
        let times = self.case.accepting_count() + 1;
        assert!(sent as usize <= self.case.edges.len() * times);
        let most_acts = (self.case.vertices() + self.graph.edges.len()) * times;
        assert!(self.acts_counted as usize <= most_acts);
    }
}

/// Refuses a list with an act that is not below the count, wherever it stands.
pub fn judge_acts(count: usize, acts: &[u32]) -> Result<(), Refusal> {
    if acts.iter().any(|&act| act as usize >= count) {
        return Err(Refusal::ActOutOfRange);
    }
    Ok(())
}

/// The run by a list; it may run out of acts before it ends.
pub fn by_list<'a>(case: &'a Case, acts: &[u32]) -> Result<Run<'a>, Refusal> {
    judge_acts(case.act_count(), acts)?;
    let mut run = Run::fresh(case);
    for &act in acts {
        run.act_watched(act as usize, Run::assert_counted);
    }
    Ok(run)
}

/// The run by rounds, to its end.
pub fn by_rounds(case: &Case) -> Run<'_> {
    to_end_by_rounds(Run::fresh(case))
}

/// The same of a fresh run.
pub fn to_end_by_rounds(mut run: Run) -> Run {
    while run.finding.is_none() {
        for act in 0..run.case.act_count() {
            run.act_watched(act, |run| {
                run.assert_counted();
                assert_eq!(run.tallies.joined, 0, "a round delivers what it sends");
            });
        }
    }
    run
}
