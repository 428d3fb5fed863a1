//! The reference with one fault each: the comparison must find every one.
//!
//! A mutant takes over one hook of a run, a check, the reading of a claim, the
//! check of a chart or the making of a case or of steps from both, and leaves the
//! rest as the reference has it.

use std::borrow::Cow;

use reference::answer::{Answer, EMPTY_NAMES, cycle, fewest_edges_to};
use reference::case::{self, Case, text_of};
use reference::chart::{self, Chart};
use reference::checker::{self, VERSIONS, is_lasso_shaped, leaves_accepting};
use reference::claim::{Claim, LIMITS, read_tokens};
use reference::claim_tokens::{Fault, Limits, Token, tokens};
use reference::entries::{
    Built, Charted, Checked, ClaimRead, Outcome, Report, Tool, WORK_CELLS, check_with, run_with,
    worker_count, write_with,
};
use reference::graph::Graph;
use reference::product::{Automaton, Product};
use reference::refusal::Refusal;
use reference::run::{Finding, Run, Tallies, by_list, judge_acts};

use crate::Part;
use crate::chart_mutants::chart_mutants;
use crate::claim_mutants::claim_mutants;
use crate::product_mutants::product_mutants;
use crate::rest_mutants::rest_mutants;

/// A faulty tool: each hook is right unless a mutant takes it over.
pub trait Faulty {
    /// The case text that is read in place of the one given.
    fn case_text<'a>(&self, text: &'a [u8]) -> Cow<'a, [u8]> {
        text.into()
    }

    /// The list that is followed in place of the one given.
    fn list<'a>(&self, _case: &Case, acts: &'a [u32]) -> &'a [u32] {
        acts
    }

    /// Acts are the numbers below this.
    fn act_count(&self, case: &Case) -> usize {
        case.act_count()
    }

    /// The graph that a run is of.
    fn graph<'a>(&self, case: &'a Case) -> Graph<'a> {
        Graph::rested(case)
    }

    /// Changes a fresh run.
    fn begin(&self, _run: &mut Run) {}

    /// Does an act.
    fn act(&self, run: &mut Run, act: usize) {
        run.act(act);
    }

    /// The answer of a run.
    fn answer(&self, run: &Run) -> Option<Answer> {
        answer_at_any_rate(run)
    }

    /// Changes what a run leaves in its buffers; `before` is what was there.
    fn leave(&self, _outcome: Outcome, _before: &Buffers, _output: &mut [u8], _work: &mut [i32]) {}

    /// The tallies that come back from a list in place of those of the outcome.
    fn tallies(&self, _text: &[u8], _acts: &[u32], outcome: Outcome) -> Tallies {
        outcome.tallies
    }

    /// Reads and judges an answer.
    fn check(&self, case: &Case, answer: &[u8]) -> Result<Answer, Refusal> {
        checker::check(case, answer)
    }

    /// The text of a claim that is read in place of the one given.
    fn claim_text<'a>(&self, text: &'a [u8]) -> Cow<'a, [u8]> {
        text.into()
    }

    /// The limits that a claim is held to.
    fn claim_limits(&self) -> Limits {
        LIMITS
    }

    /// Changes the tokens of a refused claim, which is then read once more.
    fn forgive(&self, _tokens: &mut Vec<Token>) {}

    /// What comes of a claim.
    fn judge(&self, _tokens: &[Token], read: Result<Claim, Fault>) -> Result<Claim, Refusal> {
        read.map_err(|fault| fault.refusal)
    }

    /// The text of a chart that is read in place of the one given.
    fn chart_text<'a>(&self, text: &'a [u8]) -> Cow<'a, [u8]> {
        text.into()
    }

    /// The limits that a chart is held to.
    fn chart_limits(&self) -> chart::Limits {
        chart::LIMITS
    }

    /// Changes a chart before it is judged.
    fn forgive_chart(&self, _chart: &mut Chart) {}

    /// What comes of a chart whose layout is right.
    fn judge_chart(&self, chart: &Chart, in_range: bool) -> Option<chart::Fault> {
        if in_range {
            self.bad_pair(&mut chart.bad_pairs())
        } else {
            Some(chart::WRONG)
        }
    }

    /// The bad pair that is told, of all of them.
    fn bad_pair(&self, bad_pairs: &mut dyn Iterator<Item = chart::Fault>) -> Option<chart::Fault> {
        bad_pairs.next()
    }

    /// Refuses the building of a case before its output is looked at.
    fn before_output(&self, _workers: u32) -> Result<(), Refusal> {
        Ok(())
    }

    /// The chart and the claim that a case is made of.
    fn both(
        &self,
        chart: Result<Chart, chart::Fault>,
        claim: Result<Claim, Refusal>,
    ) -> Result<(Chart, Claim), chart::Fault> {
        Ok((chart?, claim?))
    }

    /// The case of a product.
    fn product_case(&self, product: &Product, workers: usize) -> Result<Case, Refusal> {
        product.case(workers)
    }

    /// What is listed of a passing answer.
    fn listing(&self, product: &Product, graph: &Graph, answer: &Answer) -> Vec<u8> {
        product.listing(graph, answer)
    }

    /// Changes what building and listing leave in the output.
    fn leave_built(&self, _built: Built, _output: &mut [u8]) {}
}

/// Copies of both buffers, made before a run.
pub struct Buffers {
    output: Vec<u8>,
    work: Vec<i32>,
}

/// A faulty run may see the floor broken where no parents close a cycle; it
/// then answers with none, for even a mutant must not panic.
fn answer_at_any_rate(run: &Run) -> Option<Answer> {
    match run.finding? {
        Finding::Lasso { breaker } if cycle(run, breaker).is_none() => Some(Answer::Lasso {
            stem: vec![],
            cycle: vec![],
        }),
        _ => Answer::of(run),
    }
}

/// A mutant with its name, and the part of the comparison that must catch it.
pub struct Mutant {
    pub name: &'static str,
    pub part: Part,
    fault: Box<dyn Faulty>,
}

impl Mutant {
    fn search(&self, case: &Case, acts: impl Iterator<Item = usize>) -> Report {
        let mut run = Run::on(self.fault.graph(case));
        self.fault.begin(&mut run);
        for act in acts {
            self.fault.act(&mut run, act);
            if run.finding.is_some() {
                break;
            }
        }
        Report {
            acts: run.acts_counted,
            tallies: run.tallies,
            answer: self.fault.answer(&run),
        }
    }

    fn run(
        &self,
        text: &[u8],
        output: &mut [u8],
        work: &mut [i32],
        search: impl FnOnce(&Case) -> Result<Report, Refusal>,
    ) -> Outcome {
        let before = Buffers {
            output: output.to_vec(),
            work: work.to_vec(),
        };
        let outcome = run_with(&self.fault.case_text(text), output, work, search);
        self.fault.leave(outcome, &before, output, work);
        outcome
    }

    fn claim(&self, text: &[u8]) -> Result<Claim, Refusal> {
        let text = self.fault.claim_text(text);
        let limits = self.fault.claim_limits();
        let mut tokens = tokens(&text);
        let read = read_tokens(&tokens, limits).or_else(|_| {
            self.fault.forgive(&mut tokens);
            read_tokens(&tokens, limits)
        });
        self.fault.judge(&tokens, read)
    }

    fn chart(&self, text: &[u8]) -> Result<Chart, chart::Fault> {
        let mut chart = chart::read(&self.fault.chart_text(text)).ok_or(chart::WRONG)?;
        self.fault.forgive_chart(&mut chart);
        let in_range = chart.in_range(self.fault.chart_limits());
        let fault = self.fault.judge_chart(&chart, in_range);
        fault.map_or(Ok(chart), Err)
    }

    fn product(&self, chart: &[u8], claim: &[u8]) -> Result<Product, chart::Fault> {
        let (chart, read) = self.fault.both(self.chart(chart), self.claim(claim))?;
        Ok(Product {
            chart: Automaton::of_chart(&chart),
            claim: Automaton::of_claim(&read, claim),
        })
    }

    fn write(
        &self,
        output: &mut [u8],
        make: impl FnOnce() -> Result<Vec<u8>, chart::Fault>,
    ) -> Built {
        let built = write_with(output, make);
        self.fault.leave_built(built, output);
        built
    }
}

impl Tool for Mutant {
    fn run_list(&self, text: &[u8], acts: &[u32], output: &mut [u8], work: &mut [i32]) -> Outcome {
        let outcome = self.run(text, output, work, |case| {
            let acts = self.fault.list(case, acts);
            judge_acts(self.fault.act_count(case), acts)?;
            Ok(self.search(case, acts.iter().map(|&act| act as usize)))
        });
        let tallies = self.fault.tallies(text, acts, outcome);
        Outcome { tallies, ..outcome }
    }

    fn run_rounds(&self, text: &[u8], output: &mut [u8], work: &mut [i32]) -> Outcome {
        self.run(text, output, work, |case| {
            Ok(self.search(case, (0..case.act_count()).cycle()))
        })
    }

    fn check_answer(&self, text: &[u8], answer: &[u8]) -> Checked {
        check_with(&self.fault.case_text(text), |case| {
            self.fault.check(case, answer)
        })
    }

    fn read_claim(&self, text: &[u8]) -> ClaimRead {
        ClaimRead::of(&self.claim(text))
    }

    fn claim_moves(&self, text: &[u8], state: u32, values: u32) -> u32 {
        let claim = self.claim(text);
        claim.map_or(0, |claim| claim.moves(state, values))
    }

    fn check_chart(&self, text: &[u8]) -> Charted {
        Charted::of(self.chart(text))
    }

    fn build_case(&self, chart: &[u8], claim: &[u8], workers: u32, output: &mut [u8]) -> Built {
        if let Err(refusal) = self.fault.before_output(workers) {
            return Built::refused(refusal.into());
        }
        self.write(output, || {
            let workers = worker_count(workers)?;
            let product = self.product(chart, claim)?;
            Ok(text_of(&self.fault.product_case(&product, workers)?))
        })
    }

    fn list_steps(&self, chart: &[u8], claim: &[u8], answer: &[u8], output: &mut [u8]) -> Built {
        self.write(output, || {
            let product = self.product(chart, claim)?;
            let case = self.fault.product_case(&product, 1)?;
            let passing = self.fault.check(&case, answer)?;
            let graph = checker::meant(&case, answer);
            Ok(self.fault.listing(&product, &graph, &passing))
        })
    }
}

/// A mutant that runs or checks cases.
pub fn mutant(name: &'static str, fault: impl Faulty + 'static) -> Mutant {
    Mutant {
        name,
        part: Part::Cases,
        fault: Box::new(fault),
    }
}

/// A mutant that reads claims.
pub fn claim_mutant(name: &'static str, fault: impl Faulty + 'static) -> Mutant {
    Mutant {
        part: Part::Claims,
        ..mutant(name, fault)
    }
}

/// A mutant that checks charts.
pub fn chart_mutant(name: &'static str, fault: impl Faulty + 'static) -> Mutant {
    Mutant {
        part: Part::Charts,
        ..mutant(name, fault)
    }
}

/// A mutant that makes cases and steps.
pub fn product_mutant(name: &'static str, fault: impl Faulty + 'static) -> Mutant {
    Mutant {
        part: Part::Products,
        ..mutant(name, fault)
    }
}

/// The tool without any fault: the comparison must not find anything.
pub fn faultless() -> Mutant {
    mutant("no fault", NoFault)
}

/// Every mutant.
pub fn mutants() -> Vec<Mutant> {
    let mut mutants = case_mutants();
    mutants.extend(rest_mutants());
    mutants.extend(claim_mutants());
    mutants.extend(chart_mutants());
    mutants.extend(product_mutants());
    mutants
}

/// The mutants that run and check cases, rest loops aside.
fn case_mutants() -> Vec<Mutant> {
    vec![
        mutant("floor at -A", FloorAtMinusA),
        mutant("ended while a message waits", EndedWhileMessageWaits),
        mutant("late higher offer overwrites", LateHigherOffer),
        mutant("stem from parent edges", StemFromParents),
        mutant("accepting on the stem counts", AcceptingOnStem),
        mutant("cells past 16,384 not zeroed", FarCellsKept),
        mutant("output changed on refusal 10", OutputChanged),
        mutant("byte past the answer changed", PastAnswerChanged),
        mutant("9 only up to the run's end", NineUpToEnd),
        mutant("-0 accepted", MinusZero),
        mutant("trailing bytes accepted", TrailingBytes),
        mutant(
            "waiting offer stays when a lower one comes",
            WaitingOfferStays,
        ),
        mutant("scan goes on below the floor", ScanGoesOn),
        mutant("distance read again within a scan", DistanceReadAgain),
        mutant("idle acts counted", IdleCounted),
        mutant("everything searched on the first act", AllAtOnce),
        mutant("only reachable accepting vertices in A", ReachableOnly),
        mutant("delivered vertex joins at the head", JoinsAtHead),
        mutant("stem last in dictionary order", StemLastInOrder),
        mutant("work kept on refusal 10", WorkKept),
        mutant("line without line feed accepted at the end", TornLine),
        mutant("passing rule judged before bytes too many", RuleBeforeEnd),
        mutant("joins not counted as sent", JoinsNotSent),
        mutant("idle deliveries counted as delivered", IdleDelivered),
        mutant("tallies returned with 9", TalliesWithNine),
        mutant("no tallies with 10", NoTalliesWithTen),
    ]
}

struct NoFault;
impl Faulty for NoFault {}

struct FloorAtMinusA;
impl Faulty for FloorAtMinusA {
    fn begin(&self, run: &mut Run) {
        run.floor += 1;
    }
}

struct EndedWhileMessageWaits;
impl Faulty for EndedWhileMessageWaits {
    fn act(&self, run: &mut Run, act: usize) {
        run.act(act);
        if run.finding.is_none() && run.queues_empty() {
            run.finding = Some(Finding::Empty);
        }
    }
}

/// Only early in a run, so that every run still ends.
struct LateHigherOffer;
impl Faulty for LateHigherOffer {
    fn act(&self, run: &mut Run, act: usize) {
        let edge = act.checked_sub(run.case.workers);
        if let Some((edge, offer)) = edge.and_then(|edge| Some((edge, run.cells[edge]?))) {
            let distance = &mut run.distances[run.case.edges[edge].1];
            if run.acts_counted < 50 && distance.is_some_and(|distance| distance < offer) {
                // Forgetting the lower distance makes the try take the offer.
                *distance = None;
            }
        }
        run.act(act);
    }
}

struct StemFromParents;
impl Faulty for StemFromParents {
    fn answer(&self, run: &Run) -> Option<Answer> {
        let Some(Answer::Lasso { cycle, .. }) = answer_at_any_rate(run) else {
            return answer_at_any_rate(run);
        };
        let mut stem = Vec::new();
        let mut vertex = run.graph.edges[cycle[0]].0;
        while vertex != run.case.source && stem.len() < run.case.vertices() {
            let edge = run.parents[vertex]?;
            stem.insert(0, edge);
            vertex = run.graph.edges[edge].0;
        }
        Some(Answer::Lasso { stem, cycle })
    }
}

struct AcceptingOnStem;
impl Faulty for AcceptingOnStem {
    fn check(&self, case: &Case, answer: &[u8]) -> Result<Answer, Refusal> {
        let graph = checker::meant(case, answer);
        match checker::read(&graph, &VERSIONS, answer)? {
            Answer::Lasso { stem, cycle }
                if is_lasso_shaped(&graph, &stem, &cycle) && leaves_accepting(&graph, &stem) =>
            {
                Ok(Answer::Lasso { stem, cycle })
            }
            _ => checker::check(case, answer),
        }
    }
}

struct FarCellsKept;
impl Faulty for FarCellsKept {
    fn leave(&self, _outcome: Outcome, before: &Buffers, _output: &mut [u8], work: &mut [i32]) {
        let near = WORK_CELLS.min(work.len());
        work[near..].copy_from_slice(&before.work[near..]);
    }
}

struct OutputChanged;
impl Faulty for OutputChanged {
    fn leave(&self, outcome: Outcome, before: &Buffers, output: &mut [u8], _work: &mut [i32]) {
        if outcome.refusal == Refusal::ActsRanOut.number() {
            output[0] = !before.output[0];
        }
    }
}

struct PastAnswerChanged;
impl Faulty for PastAnswerChanged {
    fn leave(&self, outcome: Outcome, before: &Buffers, output: &mut [u8], _work: &mut [i32]) {
        if outcome.refusal == 0 {
            let past = outcome.written as usize;
            output[past] = !before.output[past];
        }
    }
}

struct NineUpToEnd;
impl Faulty for NineUpToEnd {
    fn list<'a>(&self, case: &Case, acts: &'a [u32]) -> &'a [u32] {
        let front = in_range(case, acts);
        let ended = by_list(case, front).is_ok_and(|run| run.finding.is_some());
        if ended { front } else { acts }
    }
}

/// The acts before the first that is out of range.
fn in_range<'a>(case: &Case, acts: &'a [u32]) -> &'a [u32] {
    let out = acts
        .iter()
        .position(|&act| act as usize >= case.act_count());
    &acts[..out.unwrap_or(acts.len())]
}

struct MinusZero;
impl Faulty for MinusZero {
    fn check(&self, case: &Case, answer: &[u8]) -> Result<Answer, Refusal> {
        let answer = String::from_utf8_lossy(answer);
        let Some((head, lines)) = answer.split_once(EMPTY_NAMES) else {
            return checker::check(case, answer.as_bytes());
        };
        let kind_lines = lines.replace(" -0\n", " 0\n");
        checker::check(case, [head, EMPTY_NAMES, &kind_lines].concat().as_bytes())
    }
}

struct TrailingBytes;
impl Faulty for TrailingBytes {
    fn case_text<'a>(&self, text: &'a [u8]) -> Cow<'a, [u8]> {
        let ends = (0..text.len()).filter(|&place| text[place] == b'\n');
        let whole = ends
            .map(|end| &text[..=end])
            .find(|part| case::read(part).is_ok());
        whole.unwrap_or(text).into()
    }
}

struct WaitingOfferStays;
impl Faulty for WaitingOfferStays {
    fn act(&self, run: &mut Run, act: usize) {
        let waiting = run.cells.clone();
        run.act(act);
        if act < run.case.workers {
            for (cell, waiting) in run.cells.iter_mut().zip(waiting) {
                *cell = waiting.or(*cell);
            }
        }
    }
}

struct ScanGoesOn;
impl Faulty for ScanGoesOn {
    fn act(&self, run: &mut Run, act: usize) {
        let head = run.queues.get(act).and_then(|queue| queue.front().copied());
        let distance = head.and_then(|head| run.distances[head]);
        run.act(act);
        let (Some(head), Some(distance)) = (head, distance) else {
            return;
        };
        if let Some(Finding::Lasso { breaker }) = run.finding {
            // The parent of the vertex that broke the floor is the last edge
            // that the scan came to.
            let last = run.parents[breaker];
            for edge in run.graph.edges_from(head).to_vec() {
                if Some(edge) > last {
                    run.offer(edge, distance + run.graph.length(edge));
                }
            }
        }
    }
}

struct DistanceReadAgain;
impl Faulty for DistanceReadAgain {
    fn act(&self, run: &mut Run, act: usize) {
        let Some(vertex) = run.queues.get_mut(act).and_then(|queue| queue.pop_front()) else {
            run.act(act);
            return;
        };
        for edge in run.graph.edges_from(vertex).to_vec() {
            let distance = run.distances[vertex].unwrap_or_default();
            run.offer(edge, distance + run.graph.length(edge));
            if run.finding.is_some() {
                break;
            }
        }
        run.acts_counted += 1;
        run.end_if_nothing_waits();
    }
}

struct IdleCounted;
impl Faulty for IdleCounted {
    fn act(&self, run: &mut Run, act: usize) {
        let counted = run.acts_counted;
        run.act(act);
        run.acts_counted = counted + 1;
    }
}

/// The first act that does something does the whole search; there is nothing
/// left for later ones.
struct AllAtOnce;
impl Faulty for AllAtOnce {
    fn act(&self, run: &mut Run, act: usize) {
        run.act(act);
        if run.acts_counted == 0 {
            return;
        }
        for act in (0..run.case.act_count()).cycle() {
            if run.finding.is_some() {
                break;
            }
            run.act(act);
        }
        run.acts_counted = 1;
    }
}

struct ReachableOnly;
impl Faulty for ReachableOnly {
    fn begin(&self, run: &mut Run) {
        let (case, graph) = (run.case, &run.graph);
        let unreachable = |&vertex: &usize| fewest_edges_to(graph, vertex)[case.source].is_none();
        let accepting = (0..case.vertices()).filter(|&vertex| case.accepting[vertex]);
        run.floor += accepting.filter(unreachable).count() as i32;
    }
}

struct JoinsAtHead;
impl Faulty for JoinsAtHead {
    fn act(&self, run: &mut Run, act: usize) {
        let Some(edge) = act.checked_sub(run.case.workers) else {
            run.act(act);
            return;
        };
        let owner = run.case.owners[run.case.edges[edge].1];
        let length = run.queues[owner].len();
        run.act(act);
        if run.queues[owner].len() > length {
            run.queues[owner].rotate_right(1);
        }
    }
}

struct StemLastInOrder;
impl Faulty for StemLastInOrder {
    fn answer(&self, run: &Run) -> Option<Answer> {
        let Some(Answer::Lasso { cycle, .. }) = answer_at_any_rate(run) else {
            return answer_at_any_rate(run);
        };
        let edges_left = fewest_edges_to(&run.graph, run.graph.edges[cycle[0]].0);
        let mut stem = Vec::new();
        let mut vertex = run.case.source;
        for left in (0..edges_left[vertex]?).rev() {
            let nearer = |edge: &&usize| edges_left[run.graph.edges[**edge].1] == Some(left);
            let edge = *run.graph.edges_from(vertex).iter().rfind(nearer)?;
            stem.push(edge);
            vertex = run.graph.edges[edge].1;
        }
        Some(Answer::Lasso { stem, cycle })
    }
}

struct WorkKept;
impl Faulty for WorkKept {
    fn leave(&self, outcome: Outcome, before: &Buffers, _output: &mut [u8], work: &mut [i32]) {
        if outcome.refusal == Refusal::ActsRanOut.number() {
            work.copy_from_slice(&before.work);
        }
    }
}

struct TornLine;
impl Faulty for TornLine {
    fn case_text<'a>(&self, text: &'a [u8]) -> Cow<'a, [u8]> {
        let ended = [text, b"\n"].concat();
        if case::read(&ended).is_ok() {
            ended.into()
        } else {
            text.into()
        }
    }
}

/// Judges the walk of a lasso before it looks for bytes after the last line.
struct RuleBeforeEnd;
impl Faulty for RuleBeforeEnd {
    fn check(&self, case: &Case, answer: &[u8]) -> Result<Answer, Refusal> {
        let graph = checker::meant(case, answer);
        let ends = (0..answer.len()).filter(|&place| answer[place] == b'\n');
        let whole = ends
            .map(|end| &answer[..=end])
            .find(|part| checker::read(&graph, &VERSIONS, part).is_ok());
        checker::check(case, whole.unwrap_or(answer))?;
        checker::check(case, answer)
    }
}

struct JoinsNotSent;
impl Faulty for JoinsNotSent {
    fn act(&self, run: &mut Run, act: usize) {
        let before = run.tallies.joined;
        run.act(act);
        run.tallies.sent -= run.tallies.joined - before;
    }
}

struct IdleDelivered;
impl Faulty for IdleDelivered {
    fn act(&self, run: &mut Run, act: usize) {
        let edge = act.checked_sub(run.case.workers);
        let idle = edge.is_some_and(|edge| run.cells[edge].is_none());
        run.act(act);
        run.tallies.delivered += u32::from(idle);
    }
}

/// Does the acts before the one out of range, and forgets to hide that.
struct TalliesWithNine;
impl Faulty for TalliesWithNine {
    fn tallies(&self, text: &[u8], acts: &[u32], outcome: Outcome) -> Tallies {
        if outcome.refusal != Refusal::ActOutOfRange.number() {
            return outcome.tallies;
        }
        case::read(text)
            .and_then(|case| Ok(by_list(&case, in_range(&case, acts))?.tallies))
            .expect("9 comes only of acts, and those out of range are left out")
    }
}

struct NoTalliesWithTen;
impl Faulty for NoTalliesWithTen {
    fn tallies(&self, _text: &[u8], _acts: &[u32], outcome: Outcome) -> Tallies {
        if outcome.refusal == Refusal::ActsRanOut.number() {
            Tallies::default()
        } else {
            outcome.tallies
        }
    }
}
