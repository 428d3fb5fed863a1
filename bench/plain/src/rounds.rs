//! The run by rounds.
//!
//! By rounds every message is delivered in the round that sent it, so a round
//! needs to look only at edges of vertices that it has scanned, and every
//! cell is empty when the next round begins.

use crate::reader::{Case, read};
use crate::rest::Edges;
use crate::writer::Writer;

/// Marks a vertex without a distance and a cell without a message; above
/// every true distance.
const NONE: i32 = i32::MAX;
/// Marks the absence of a vertex or an edge.
const NOBODY: u16 = u16::MAX;

/// What a run to the end returns.
#[derive(Clone, Copy, Debug, PartialEq, Eq)]
pub struct Ended {
    /// 1 for a lasso, 2 for empty.
    pub verdict: u32,
    pub acts: u64,
    pub written: u32,
    /// Messages put into cells, and messages delivered; by rounds none joins
    /// another.
    pub sent: u32,
    pub delivered: u32,
}

/// Reads a case, runs it by rounds and writes the answer to the front of the
/// output, which must have room for it; or the number of the refusal.
pub fn run(text: &[u8], output: &mut [u8]) -> Result<Ended, u32> {
    let case = read(text)?;
    let mut run = Run::fresh(&case);
    let breaker = run.search();
    let mut writer = Writer { output, length: 0 };
    let verdict = match breaker {
        Some(breaker) => {
            run.write_lasso(breaker, &mut writer);
            1
        }
        None => {
            run.write_empty(&mut writer);
            2
        }
    };
    Ok(Ended {
        verdict,
        acts: run.acts,
        written: writer.length as u32,
        sent: run.sent,
        delivered: run.delivered,
    })
}

/// A worker's queue, linked through `Run::next`.
#[derive(Clone, Copy)]
struct Queue {
    head: u16,
    tail: u16,
}

struct Run<'a> {
    case: &'a Case,
    edges: Edges,
    floor: i32,
    distances: Vec<i32>,
    /// By vertex, the edge whose offer it took last, and where that starts.
    parents: Vec<(u16, u16)>,
    queues: Vec<Queue>,
    /// By vertex, the one behind it in its queue.
    next: Vec<u16>,
    queued: Vec<bool>,
    queued_count: usize,
    cells: Vec<i32>,
    sent: u32,
    delivered: u32,
    acts: u64,
}

impl<'a> Run<'a> {
    fn fresh(case: &'a Case) -> Self {
        let vertices = case.vertices();
        let edges = Edges::rested(case);
        let mut run = Run {
            case,
            cells: vec![NONE; edges.targets.len()],
            edges,
            floor: -(case.accepting.iter().filter(|&&mark| mark).count() as i32),
            distances: vec![NONE; vertices],
            parents: vec![(NOBODY, NOBODY); vertices],
            queues: vec![
                Queue {
                    head: NOBODY,
                    tail: NOBODY
                };
                case.workers
            ],
            next: vec![NOBODY; vertices],
            queued: vec![false; vertices],
            queued_count: 0,
            sent: 0,
            delivered: 0,
            acts: 0,
        };
        run.distances[case.source] = 0;
        run.join(case.source);
        run
    }

    /// Runs to the end; the vertex that broke the floor, if one did.
    fn search(&mut self) -> Option<usize> {
        let mut scanned = Vec::with_capacity(self.case.workers);
        while self.waits() {
            scanned.clear();
            for worker in 0..self.case.workers {
                if let Some(vertex) = self.leave(worker) {
                    self.acts += 1;
                    if let Some(breaker) = self.scan(vertex) {
                        return Some(breaker);
                    }
                    scanned.push(vertex);
                }
            }
            // Edges of the file are numbered by where they start, so rising
            // vertices give rising edges, the order of deliveries. A loop
            // sends nothing.
            scanned.sort_unstable();
            if let Some(breaker) = self.deliver_from(&scanned) {
                return Some(breaker);
            }
        }
        None
    }

    /// Whether the run goes on. Once a round is enough: when nothing waits any
    /// more, what is left of the round is idle.
    fn waits(&self) -> bool {
        self.queued_count > 0 || self.sent > self.delivered
    }

    /// Offers along every edge of a vertex; the vertex that broke the floor,
    /// if one did.
    fn scan(&mut self, vertex: usize) -> Option<usize> {
        let offer = self.distances[vertex] - i32::from(self.case.accepting[vertex]);
        let owner = self.case.owners[vertex];
        for edge in self.edges.leaving(vertex) {
            let target = usize::from(self.edges.targets[edge]);
            if self.case.owners[target] != owner {
                // No message waits here: a round scans a vertex at most once.
                self.cells[edge] = offer;
                self.sent += 1;
            } else if self.breaks_floor(vertex, edge, target, offer) {
                return Some(target);
            }
        }
        None
    }

    fn deliver_from(&mut self, scanned: &[usize]) -> Option<usize> {
        for &vertex in scanned {
            if self.sent == self.delivered {
                return None;
            }
            for edge in self.edges.leaving(vertex) {
                let offer = std::mem::replace(&mut self.cells[edge], NONE);
                if offer == NONE {
                    continue;
                }
                self.acts += 1;
                self.delivered += 1;
                let target = usize::from(self.edges.targets[edge]);
                if self.breaks_floor(vertex, edge, target, offer) {
                    return Some(target);
                }
            }
        }
        None
    }

    /// Tries an offer; whether it left a distance below the floor.
    fn breaks_floor(&mut self, from: usize, edge: usize, target: usize, offer: i32) -> bool {
        if self.distances[target] <= offer {
            return false;
        }
        self.distances[target] = offer;
        self.parents[target] = (edge as u16, from as u16);
        if !self.queued[target] {
            self.join(target);
        }
        offer < self.floor
    }

    /// Puts a vertex at the tail of its owner's queue.
    fn join(&mut self, vertex: usize) {
        let queue = &mut self.queues[usize::from(self.case.owners[vertex])];
        if queue.head == NOBODY {
            queue.head = vertex as u16;
        } else {
            self.next[usize::from(queue.tail)] = vertex as u16;
        }
        queue.tail = vertex as u16;
        self.next[vertex] = NOBODY;
        self.queued[vertex] = true;
        self.queued_count += 1;
    }

    /// Takes the head off a worker's queue.
    fn leave(&mut self, worker: usize) -> Option<usize> {
        let queue = &mut self.queues[worker];
        if queue.head == NOBODY {
            return None;
        }
        let vertex = usize::from(queue.head);
        queue.head = self.next[vertex];
        self.queued[vertex] = false;
        self.queued_count -= 1;
        Some(vertex)
    }

    fn write_lasso(&self, breaker: usize, writer: &mut Writer) {
        let mut start = breaker;
        for _ in 0..self.case.vertices() {
            start = usize::from(self.parents[start].1);
        }
        let mut cycle = Vec::new();
        let mut vertex = start;
        loop {
            let (edge, from) = self.parents[vertex];
            cycle.push(edge);
            vertex = usize::from(from);
            if vertex == start {
                break;
            }
        }
        let stem = self.stem(start);
        writer.word(b"version verdict stem cycle reached\n2 lasso ");
        writer.number(stem.len() as u32, b' ');
        writer.number(cycle.len() as u32, b' ');
        writer.word(b"0\nedge\n");
        for &edge in stem.iter().chain(cycle.iter().rev()) {
            writer.number(u32::from(edge), b'\n');
        }
    }

    /// The walk of fewest edges from the source, first in dictionary order:
    /// the one by which a search in breadth finds `end`, since it takes up
    /// vertices in the order of their own first walks.
    fn stem(&self, end: usize) -> Vec<u16> {
        let mut found_by = vec![(NOBODY, NOBODY); self.case.vertices()];
        let mut found = Vec::with_capacity(self.case.vertices());
        found.push(self.case.source as u16);
        let mut taken_up = 0;
        while taken_up < found.len() && end != self.case.source && found_by[end].0 == NOBODY {
            let vertex = found[taken_up];
            taken_up += 1;
            for edge in self.edges.leaving(usize::from(vertex)) {
                let target = self.edges.targets[edge];
                let new = usize::from(target) != self.case.source
                    && found_by[usize::from(target)].0 == NOBODY;
                if new {
                    found_by[usize::from(target)] = (edge as u16, vertex);
                    found.push(target);
                }
            }
        }
        let mut stem = Vec::new();
        let mut vertex = end;
        while vertex != self.case.source {
            let (edge, from) = found_by[vertex];
            stem.push(edge);
            vertex = usize::from(from);
        }
        stem.reverse();
        stem
    }

    fn write_empty(&self, writer: &mut Writer) {
        let reached = self
            .distances
            .iter()
            .filter(|&&distance| distance != NONE)
            .count();
        writer.word(b"version verdict stem cycle reached\n2 empty 0 0 ");
        writer.number(reached as u32, b'\n');
        writer.word(b"vertex distance\n");
        for (vertex, &distance) in self.distances.iter().enumerate() {
            if distance == NONE {
                continue;
            }
            writer.number(vertex as u32, b' ');
            if distance < 0 {
                writer.word(b"-");
            }
            writer.number(distance.unsigned_abs(), b'\n');
        }
    }
}
