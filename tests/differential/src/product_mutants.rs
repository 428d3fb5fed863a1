//! The mutants that build cases and list steps with one fault each.

use reference::answer::Answer;
use reference::case::{Case, MOST_EDGES};
use reference::chart::{self, Chart};
use reference::claim::Claim;
use reference::entries::{Built, worker_count};
use reference::graph::Graph;
use reference::product::Product;
use reference::refusal::Refusal;

use crate::mutants::{Faulty, Mutant, product_mutant};

/// Every mutant of these.
pub fn product_mutants() -> Vec<Mutant> {
    vec![
        product_mutant("vertex by state and then mode", VertexByState),
        product_mutant("owner by mode", OwnerByMode),
        product_mutant("edges of the first combination only", FirstCombination),
        product_mutant("every vertex accepting", EveryVertexAccepting),
        product_mutant("mark kept where no edge leaves", MarkKept),
        product_mutant("mark lost where an edge does not lead on", MarkLost),
        product_mutant("2,001 edges taken", OneEdgeMore),
        product_mutant("21 before 20", EdgesBeforeCounts),
        product_mutant("5 before 11", WorkersBeforeOutput),
        product_mutant("claim judged before the chart", ClaimBeforeChart),
        product_mutant("case written before 21", WrittenBeforeJudged),
        product_mutant("vertex named that the edge enters", EnteredNamed),
        product_mutant("unnamed state shown by nothing", UnnamedShownByNothing),
    ]
}

struct VertexByState;
impl Faulty for VertexByState {
    fn product_case(&self, product: &Product, workers: usize) -> Result<Case, Refusal> {
        let mut case = product.case(workers)?;
        let pairs = product.pairs();
        let renumbered = |vertex: usize| {
            let (mode, state) = pairs[vertex];
            state * product.chart.states() + mode
        };
        case.source = renumbered(case.source);
        for (from, to) in &mut case.edges {
            (*from, *to) = (renumbered(*from), renumbered(*to));
        }
        case.edges.sort_unstable();
        for (vertex, mark) in case.accepting.clone().into_iter().enumerate() {
            case.accepting[renumbered(vertex)] = mark;
        }
        Ok(case)
    }
}

struct OwnerByMode;
impl Faulty for OwnerByMode {
    fn product_case(&self, product: &Product, workers: usize) -> Result<Case, Refusal> {
        let modes = product.pairs().into_iter().map(|(mode, _)| mode);
        Ok(Case {
            owners: modes.map(|mode| mode % workers).collect(),
            ..product.case(workers)?
        })
    }
}

struct FirstCombination;
impl Faulty for FirstCombination {
    fn product_case(&self, product: &Product, workers: usize) -> Result<Case, Refusal> {
        let mut product = product.clone();
        product
            .chart
            .moves
            .retain(|&(combination, ..)| combination == 0);
        product.case(workers)
    }
}

struct EveryVertexAccepting;
impl Faulty for EveryVertexAccepting {
    fn product_case(&self, product: &Product, workers: usize) -> Result<Case, Refusal> {
        let mut case = product.case(workers)?;
        case.accepting.fill(true);
        Ok(case)
    }
}

struct MarkKept;
impl Faulty for MarkKept {
    fn product_case(&self, product: &Product, workers: usize) -> Result<Case, Refusal> {
        let pairs = product.pairs().into_iter();
        Ok(Case {
            accepting: pairs.map(|pair| product.accepts(pair)).collect(),
            ..product.case(workers)?
        })
    }
}

/// Takes a vertex whose only edge is a loop for one that rests.
struct MarkLost;
impl Faulty for MarkLost {
    fn product_case(&self, product: &Product, workers: usize) -> Result<Case, Refusal> {
        let mut case = product.case(workers)?;
        for (vertex, mark) in case.accepting.iter_mut().enumerate() {
            let leads_on = |&(from, to): &(usize, usize)| from == vertex && to != vertex;
            *mark &= case.edges.iter().any(leads_on);
        }
        Ok(case)
    }
}

struct OneEdgeMore;
impl Faulty for OneEdgeMore {
    fn product_case(&self, product: &Product, workers: usize) -> Result<Case, Refusal> {
        product.judge_counts()?;
        let case = product.any_case(workers);
        if case.edges.len() > MOST_EDGES + 1 {
            return Err(Refusal::TooManyEdges);
        }
        Ok(case)
    }
}

struct EdgesBeforeCounts;
impl Faulty for EdgesBeforeCounts {
    fn product_case(&self, product: &Product, workers: usize) -> Result<Case, Refusal> {
        if product.any_case(workers).edges.len() > MOST_EDGES {
            return Err(Refusal::TooManyEdges);
        }
        product.case(workers)
    }
}

struct WorkersBeforeOutput;
impl Faulty for WorkersBeforeOutput {
    fn before_output(&self, workers: u32) -> Result<(), Refusal> {
        worker_count(workers).map(|_| ())
    }
}

struct ClaimBeforeChart;
impl Faulty for ClaimBeforeChart {
    fn both(
        &self,
        chart: Result<Chart, chart::Fault>,
        claim: Result<Claim, Refusal>,
    ) -> Result<(Chart, Claim), chart::Fault> {
        let claim = claim?;
        Ok((chart?, claim))
    }
}

struct WrittenBeforeJudged;
impl Faulty for WrittenBeforeJudged {
    fn leave_built(&self, built: Built, output: &mut [u8]) {
        if built.refusal == Refusal::TooManyEdges.number() {
            output[0] = !output[0];
        }
    }
}

struct EnteredNamed;
impl Faulty for EnteredNamed {
    fn listing(&self, product: &Product, graph: &Graph, answer: &Answer) -> Vec<u8> {
        let mut entered = graph.clone();
        for (from, to) in &mut entered.edges {
            *from = *to;
        }
        product.listing(&entered, answer)
    }
}

struct UnnamedShownByNothing;
impl Faulty for UnnamedShownByNothing {
    fn listing(&self, product: &Product, graph: &Graph, answer: &Answer) -> Vec<u8> {
        let mut product = product.clone();
        for name in &mut product.claim.names {
            name.get_or_insert_default();
        }
        product.listing(graph, answer)
    }
}
