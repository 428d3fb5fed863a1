//! The product of a chart and a claim, as source 003's Definition 1 has it, and
//! the listing of its steps.
//!
//! Automata are sets of moves, and the product is the set of pairs of moves
//! that go on one combination.

use std::collections::BTreeSet;

use crate::answer::Answer;
use crate::case::{Case, MOST_EDGES};
use crate::chart::Chart;
use crate::claim::{Claim, Edge};
use crate::graph::Graph;
use crate::refusal::Refusal;

/// A chart or a claim as an automaton. Its letters are combinations of flags.
#[derive(Clone, Debug, PartialEq, Eq)]
pub struct Automaton {
    pub flags: usize,
    pub start: usize,
    /// By state.
    pub accepting: Vec<bool>,
    /// By state, its name as stored.
    pub names: Vec<Option<Vec<u8>>>,
    /// Each a combination, the state that is left and one that is entered.
    pub moves: BTreeSet<(usize, usize, usize)>,
}

impl Automaton {
    /// A chart that is right; every mode is accepting.
    pub fn of_chart(chart: &Chart) -> Self {
        let moves_by = |combination| {
            let matching = move |rule: &&_| chart.matches(rule, combination);
            let rules = chart.rules.iter().filter(matching);
            rules.map(move |rule| (combination, rule.mode, rule.next))
        };
        Automaton {
            flags: chart.flags,
            start: chart.start,
            accepting: vec![true; chart.modes()],
            names: chart.names.iter().cloned().map(Some).collect(),
            moves: (0..1 << chart.flags).flat_map(moves_by).collect(),
        }
    }

    /// A claim that is taken, with its text.
    pub fn of_claim(claim: &Claim, text: &[u8]) -> Self {
        let mut moves = BTreeSet::new();
        for combination in 0..1 << claim.propositions {
            for (number, state) in claim.states.iter().enumerate() {
                let holding = |edge: &&Edge| edge.label.truth(combination as u32);
                let targets = state.edges.iter().filter(holding).map(|edge| edge.target);
                moves.extend(targets.map(|target| (combination, number, target as usize)));
            }
        }
        let states = claim.states.iter();
        Automaton {
            flags: claim.propositions as usize,
            start: claim.start as usize,
            accepting: states.clone().map(|state| state.accepting).collect(),
            names: states
                .map(|state| state.name.clone().map(|name| text[name].to_vec()))
                .collect(),
            moves,
        }
    }

    /// How many states there are.
    pub fn states(&self) -> usize {
        self.accepting.len()
    }

    /// A state's name, or its number where it has none.
    pub fn shown(&self, state: usize) -> Vec<u8> {
        let number = || state.to_string().into_bytes();
        self.names[state].clone().unwrap_or_else(number)
    }

    /// The moves on one combination.
    fn moves_on(&self, combination: usize) -> impl Iterator<Item = (usize, usize)> {
        let moves = self
            .moves
            .range((combination, 0, 0)..(combination + 1, 0, 0));
        moves.map(|&(_, from, to)| (from, to))
    }
}

/// A state of the product: a mode and a claim state.
pub type Pair = (usize, usize);

/// A chart and a claim, whose counts need not agree yet.
#[derive(Clone, Debug)]
pub struct Product {
    pub chart: Automaton,
    pub claim: Automaton,
}

impl Product {
    /// The product as a case for so many workers, if it may be one.
    pub fn case(&self, workers: usize) -> Result<Case, Refusal> {
        self.judge_counts()?;
        let case = self.any_case(workers);
        if case.edges.len() > MOST_EDGES {
            return Err(Refusal::TooManyEdges);
        }
        Ok(case)
    }

    pub fn judge_counts(&self) -> Result<(), Refusal> {
        if self.chart.flags != self.claim.flags {
            return Err(Refusal::CountsDiffer);
        }
        Ok(())
    }

    /// The case of the product, however many edges it has. Where no step leads
    /// on, the claim has stopped and not the aircraft: such a pair does not
    /// accept, so that no lasso rests there.
    pub fn any_case(&self, workers: usize) -> Case {
        let pairs = self.pairs();
        let steps = self.steps();
        let going_on: BTreeSet<Pair> = steps.iter().map(|&(from, _)| from).collect();
        let accepting = |pair: &Pair| self.accepts(*pair) && going_on.contains(pair);
        let numbered = |(from, to)| (self.vertex(from), self.vertex(to));
        let edges: BTreeSet<(usize, usize)> = steps.into_iter().map(numbered).collect();
        Case {
            source: self.vertex((self.chart.start, self.claim.start)),
            workers,
            accepting: pairs.iter().map(accepting).collect(),
            owners: (0..pairs.len()).map(|vertex| vertex % workers).collect(),
            edges: edges.into_iter().collect(),
        }
    }

    /// Whether a pair is accepting in the product, before it is known whether a
    /// step leads on.
    pub fn accepts(&self, (mode, state): Pair) -> bool {
        self.chart.accepting[mode] && self.claim.accepting[state]
    }

    /// Every pair, by its vertex.
    pub fn pairs(&self) -> Vec<Pair> {
        let states = 0..self.claim.states();
        let with_mode = |mode| states.clone().map(move |state| (mode, state));
        (0..self.chart.states()).flat_map(with_mode).collect()
    }

    fn vertex(&self, (mode, state): Pair) -> usize {
        mode * self.claim.states() + state
    }

    /// Where some combination lets both parts move: the pair that is left and
    /// the one that is entered.
    pub fn steps(&self) -> BTreeSet<(Pair, Pair)> {
        let mut steps = BTreeSet::new();
        for &(combination, mode, next) in &self.chart.moves {
            let moves = self.claim.moves_on(combination);
            steps.extend(moves.map(|(state, target)| ((mode, state), (next, target))));
        }
        steps
    }

    /// What is listed of a passing answer: a line for each edge of a lasso,
    /// stem first, by the vertex that it leaves.
    pub fn listing(&self, graph: &Graph, answer: &Answer) -> Vec<u8> {
        let Answer::Lasso { stem, cycle } = answer else {
            return Vec::new();
        };
        let pairs = self.pairs();
        let edges = stem.iter().chain(cycle);
        let left = edges.map(|&edge| pairs[graph.edges[edge].0]);
        left.flat_map(|pair| self.line(pair)).collect()
    }

    fn line(&self, (mode, state): Pair) -> Vec<u8> {
        let names = [self.chart.shown(mode), self.claim.shown(state)];
        [names.join(&b' '), b"\n".to_vec()].concat()
    }
}
