//! The reference's products against the readings that were settled, one by one,
//! and against what charts and claims do on the same combinations.

use std::collections::BTreeSet;

use inputs::answers::other_answers;
use inputs::chart_rows;
use inputs::charts::{random_cover, text_of};
use inputs::claim_changes::changed;
use inputs::claim_rows;
use inputs::claims::{Drawn, random_claim_on};
use inputs::damage::{damaged, every_small_change};
use inputs::product_rows::{READINGS, rows};
use inputs::products::{
    Call, EXAMPLE_ANSWER, EXAMPLE_CASE, EXAMPLE_CHART, EXAMPLE_CLAIM, Making, greatest_products,
    many_times_round, random_product,
};
use inputs::readings;
use inputs::rng::Rng;
use reference::answer::Answer;
use reference::case::{self, Case};
use reference::chart::{Chart, Rule};
use reference::checker;
use reference::claim::{self, Claim};
use reference::entries::{Built, OUTPUT_BYTES, Reference, Tool, WORK_CELLS};
use reference::plain::Plain;
use reference::refusal::Refusal;
use reference::run::by_rounds;

const ROUNDS: u64 = 600;
const OUTPUT: usize = 65_536;
const FILLED: u8 = 7;

/// What a call returns, and what it leaves in the output.
fn made(call: &Call) -> (Built, Vec<u8>) {
    let mut output = vec![FILLED; call.output];
    let (chart, claim) = (&call.chart, &call.claim);
    let built = match &call.making {
        Making::Case(workers) => Reference.build_case(chart, claim, *workers, &mut output),
        Making::Steps(answer) => Reference.list_steps(chart, claim, answer, &mut output),
    };
    let rest = &output[built.written as usize..];
    assert!(rest.iter().all(|&byte| byte == FILLED));
    output.truncate(built.written as usize);
    (built, output)
}

fn holds(reading: usize) {
    for (call, want) in rows(reading) {
        let (built, text) = made(&call);
        let pair = (built.refusal, built.mode, built.combination);
        let got = if pair == (0, 0, 0) {
            Ok(text)
        } else {
            Err(pair)
        };
        assert!(built.refusal == 0 || built.written == 0);
        assert_eq!(got, want, "{}", shown(&call));
    }
}

fn shown(call: &Call) -> String {
    let front = |text: &[u8]| text[..text.len().min(2_000)].escape_ascii().to_string();
    let making = match &call.making {
        Making::Case(workers) => format!("{workers} workers"),
        Making::Steps(answer) => front(answer),
    };
    format!("{}\n{}\n{making}", front(&call.chart), front(&call.claim))
}

readings! {
    reading_1_pairs_and_marks 1
    reading_2_starts 2
    reading_3_edges_by_some_combination 3
    reading_4_propositions_are_flags 4
    reading_5_owners 5
    reading_6_output_and_workers_go_first 6
    reading_7_order_of_refusals 7
    reading_8_how_many_edges 8
    reading_9_answers_are_judged_as_by_the_checker 9
    reading_10_lines_by_what_the_edge_leaves 10
    reading_11_names 11
    reading_12_claims_that_stop_and_versions 12
}

fn call(chart: &[u8], claim: &[u8], making: Making) -> Call {
    Call {
        chart: chart.to_vec(),
        claim: claim.to_vec(),
        making,
        output: OUTPUT,
    }
}

/// The case of a chart and a claim that may have one.
fn case_of(chart: &[u8], claim: &[u8], workers: u32) -> Option<Case> {
    let (built, text) = made(&call(chart, claim, Making::Case(workers)));
    (built.refusal == 0).then(|| case::read(&text).expect("what is built is a case"))
}

#[test]
fn the_example_goes_on_through_run_and_listing() {
    let (mut output, mut work) = (vec![0; OUTPUT_BYTES], vec![0; WORK_CELLS]);
    let run = Reference.run_rounds(EXAMPLE_CASE.as_bytes(), &mut output, &mut work);
    assert_eq!((run.refusal, run.verdict, run.acts), (0, 1, 9));
    assert_eq!(&output[..run.written as usize], EXAMPLE_ANSWER.as_bytes());
}

/// A chart and a claim on few flags, and what the claim says.
fn small_products() -> impl Iterator<Item = (Chart, Drawn, Vec<u8>)> {
    (0..ROUNDS).filter_map(|round| {
        let rng = &mut Rng::for_round(1, round);
        let chart = random_cover(rng);
        let (drawn, claim) = random_claim_on(rng, chart.flags);
        let small = chart.flags <= 3 && chart.modes() <= 5 && drawn.states.len() <= 4;
        small.then_some((chart, drawn, claim))
    })
}

/// The mode that follows, by the customer's formula.
fn next_mode(chart: &Chart, mode: usize, combination: usize) -> usize {
    let matches = |rule: &&Rule| rule.mode == mode && combination & rule.care == rule.value;
    let rule = chart.rules.iter().find(matches);
    rule.expect("the chart is right").next
}

/// Courses of this many combinations: from a start, every walk that chart and
/// claim go side by side, in vertices.
fn joint_walks(chart: &Chart, drawn: &Drawn, start: (usize, usize), left: usize) -> Walks {
    let (mode, state) = start;
    let vertex = mode * drawn.states.len() + state;
    if left == 0 {
        return Walks::from([vec![vertex]]);
    }
    let mut walks = Walks::new();
    for combination in 0..1 << chart.flags {
        let next = next_mode(chart, mode, combination);
        let edges = drawn.states[state].edges.iter();
        for (_, target) in edges.filter(|(label, _)| label.truth(combination as u32)) {
            let rest = joint_walks(chart, drawn, (next, *target), left - 1);
            walks.extend(rest.iter().map(|rest| [&[vertex], &rest[..]].concat()));
        }
    }
    walks
}

type Walks = BTreeSet<Vec<usize>>;

/// The walks of a case from a vertex.
fn walks(case: &Case, start: usize, left: usize) -> Walks {
    if left == 0 {
        return Walks::from([vec![start]]);
    }
    let leaving = case.edges.iter().filter(|&&(from, _)| from == start);
    leaving
        .flat_map(|&(_, next)| walks(case, next, left - 1))
        .map(|rest| [&[start], &rest[..]].concat())
        .collect()
}

#[test]
fn walks_are_those_of_chart_and_claim_on_one_course_of_flags() {
    let mut tried = 0;
    for (chart, drawn, claim) in small_products() {
        let Some(case) = case_of(&text_of(&chart), &claim, 3) else {
            continue;
        };
        let source = (chart.start, drawn.start);
        for left in 0..=3 {
            let want = joint_walks(&chart, &drawn, source, left);
            assert_eq!(walks(&case, case.source, left), want);
        }
        for (vertex, &mark) in case.accepting.iter().enumerate() {
            let states = drawn.states.len();
            let pair = (vertex / states, vertex % states);
            let goes_on = !entered_from(&chart, &drawn, pair).is_empty();
            assert_eq!(mark, drawn.states[pair.1].accepting && goes_on);
        }
        tried += 1;
    }
    assert!(tried > 100, "{tried} products");
}

/// Whether a claim can go on for ever with a course of the chart that comes back
/// to a mode and a state, and is accepting in between: by the pairs that can be
/// reached, and from each accepting one those that can be reached again.
#[test]
fn a_lasso_is_a_mission_that_the_claim_describes() {
    for (chart, drawn, claim) in small_products() {
        let Some(case) = case_of(&text_of(&chart), &claim, 1) else {
            continue;
        };
        let reached = reached_from(&chart, &drawn, BTreeSet::from([(chart.start, drawn.start)]));
        let goes_round = reached.iter().any(|&(mode, state)| {
            let after = entered_from(&chart, &drawn, (mode, state));
            drawn.states[state].accepting
                && reached_from(&chart, &drawn, after).contains(&(mode, state))
        });
        assert_eq!(Plain::rested(&case).has_lasso(), goes_round);
    }
}

type Pairs = BTreeSet<(usize, usize)>;

fn entered_from(chart: &Chart, drawn: &Drawn, (mode, state): (usize, usize)) -> Pairs {
    let mut entered = Pairs::new();
    for combination in 0..1 << chart.flags {
        let next = next_mode(chart, mode, combination);
        let edges = drawn.states[state].edges.iter();
        let holding = edges.filter(|(label, _)| label.truth(combination as u32));
        entered.extend(holding.map(|(_, target)| (next, *target)));
    }
    entered
}

fn reached_from(chart: &Chart, drawn: &Drawn, mut reached: Pairs) -> Pairs {
    loop {
        let entered = |&pair: &_| entered_from(chart, drawn, pair);
        let more: Pairs = reached.iter().flat_map(entered).collect();
        if more.is_subset(&reached) {
            return reached;
        }
        reached.extend(more);
    }
}

#[test]
fn what_is_built_is_read_back_as_the_product() {
    let random = (0..ROUNDS).map(|round| random_product(&mut Rng::for_round(2, round)));
    let mut greatest = (0, 0);
    for (chart, claim) in greatest_products().into_iter().chain(random) {
        let workers = 1 + chart.rules.len() % 16;
        let making = Making::Case(workers as u32);
        let (built, text) = made(&call(&text_of(&chart), &claim, making));
        if built.refusal != 0 {
            assert!(matches!(built.refusal, 20 | 21));
            continue;
        }
        let case = case::read(&text).expect("what is built is a case");
        let claim = claim::read(&claim).expect("what is built has a claim");
        assert_eq!(case, product_of(&chart, &claim, workers));
        assert_eq!(case::text_of(&case), text);
        greatest = greatest.max((case.vertices(), case.edges.len()));
    }
    assert_eq!(greatest, (480, 2_000));
}

/// The product once more: vertex by vertex, by the customer's formula and by
/// the moves of a claim.
fn product_of(chart: &Chart, claim: &Claim, workers: usize) -> Case {
    let states = claim.states.len();
    let vertices = chart.modes() * states;
    let moves = |vertex: usize, combination: usize| {
        let next = next_mode(chart, vertex / states, combination);
        let moves = claim.moves((vertex % states) as u32, combination as u32);
        (0..states)
            .filter(move |state| moves >> state & 1 == 1)
            .map(move |state| next * states + state)
    };
    let mut edges = Vec::new();
    for from in 0..vertices {
        let all = (0..1 << chart.flags).flat_map(|combination| moves(from, combination));
        let entered: BTreeSet<usize> = all.collect();
        edges.extend(entered.into_iter().map(|to| (from, to)));
    }
    let goes_on = |vertex| edges.iter().any(|&(from, _)| from == vertex);
    Case {
        source: chart.start * states + claim.start as usize,
        workers,
        accepting: (0..vertices)
            .map(|vertex| claim.states[vertex % states].accepting && goes_on(vertex))
            .collect(),
        owners: (0..vertices).map(|vertex| vertex % workers).collect(),
        edges,
    }
}

/// By the rows of charts and of claims: the chart's refusal and pair, else the
/// claim's refusal.
#[test]
fn charts_and_claims_are_refused_as_they_are_alone() {
    for (chart, charted) in (1..=chart_rows::READINGS).flat_map(chart_rows::rows) {
        for claim in [EXAMPLE_CLAIM.as_bytes(), b""] {
            let (built, _) = made(&call(&chart, claim, Making::Steps(vec![])));
            let pair = (built.refusal, built.mode, built.combination);
            let want = (charted.refusal, charted.mode, charted.combination);
            assert!(
                charted.refusal == 0 || pair == want,
                "{pair:?} for {want:?}"
            );
        }
    }
    for (claim, refusal) in (1..=claim_rows::READINGS).flat_map(claim_rows::rows) {
        let chart = EXAMPLE_CHART.as_bytes();
        let (built, _) = made(&call(chart, &claim, Making::Case(1)));
        assert!(refusal == 0 || built.refusal == refusal);
        assert!(refusal != 0 || matches!(built.refusal, 0 | 20));
    }
}

#[test]
fn no_other_file_near_it_is_the_same_case() {
    let built = case::read(EXAMPLE_CASE.as_bytes());
    for changed in every_small_change(EXAMPLE_CASE.as_bytes()) {
        assert!(changed == EXAMPLE_CASE.as_bytes() || case::read(&changed) != built);
    }
}

/// Answers of our own, long ones and walks: what the checker passes is listed,
/// a line for each edge, and what it refuses is refused alike.
#[test]
fn listings_follow_the_checker() {
    for round in 0..ROUNDS {
        let rng = &mut Rng::for_round(3, round);
        let (chart, claim) = random_product(rng);
        let chart_text = text_of(&chart);
        let Some(case) = case_of(&chart_text, &claim, 1) else {
            continue;
        };
        let own = Answer::of(&by_rounds(&case)).expect("the run has ended");
        let longer = match &own {
            Answer::Lasso { stem, cycle } => many_times_round(stem, cycle),
            empty => empty.clone(),
        };
        for version in checker::VERSIONS {
            let others = other_answers(rng, &case, version);
            for answer in others.iter().chain([&own, &longer]) {
                let text = answer.text_as(version).into_bytes();
                let passed = checker::check(&case, &text);
                let lines = passed.map(|answer| lines(&chart, &claim, &case, &answer));
                let (built, listed) = made(&call(&chart_text, &claim, Making::Steps(text)));
                let refusal = lines.as_ref().err().copied().map(Refusal::number);
                assert_eq!(built.refusal, refusal.unwrap_or(0));
                assert_eq!(listed, lines.unwrap_or_default());
            }
        }
    }
}

/// What is listed of a passing answer. None has a rest loop, since a pair that
/// rests does not accept.
fn lines(chart: &Chart, claim: &[u8], case: &Case, answer: &Answer) -> Vec<u8> {
    let left = edges_of(answer).into_iter().map(|edge| case.edges[edge].0);
    left.flat_map(|vertex| line(chart, claim, vertex)).collect()
}

fn edges_of(answer: &Answer) -> Vec<usize> {
    match answer {
        Answer::Lasso { stem, cycle } => [&stem[..], cycle].concat(),
        Answer::Empty { .. } => vec![],
    }
}

/// The line of a vertex, by what the reading of the claim returns.
fn line(chart: &Chart, claim: &[u8], vertex: usize) -> Vec<u8> {
    let read = Reference.read_claim(claim);
    let (mode, state) = (vertex / read.states as usize, vertex % read.states as usize);
    let (at, length) = (
        read.name_at[state] as usize,
        read.name_length[state] as usize,
    );
    let number = state.to_string();
    let name = if at == 0 {
        number.as_bytes()
    } else {
        &claim[at..at + length]
    };
    [&chart.names[mode][..], b" ", name, b"\n"].concat()
}

#[test]
fn the_longest_listing_fits() {
    let longest = rows(11).iter().map(|(call, _)| made(call).1.len()).max();
    assert_eq!(longest, Some(50_000));
}

#[test]
fn no_other_refusal_and_no_pair_without_a_bad_one() {
    for round in 0..ROUNDS {
        let rng = &mut Rng::for_round(4, round);
        let (chart, mut claim) = random_product(rng);
        let mut chart = text_of(&chart);
        let whole = rng.below(3);
        if whole != 0 {
            chart = damaged(rng, &chart);
        }
        if whole != 1 {
            claim = changed(rng, &claim);
        }
        let answer = damaged(rng, EXAMPLE_ANSWER.as_bytes());
        let making = [Making::Case(rng.below(18) as u32), Making::Steps(answer)];
        let known: [&[u32]; 2] = [&[0, 5], &[0, 1, 3, 12, 13]];
        for (making, known) in making.into_iter().zip(known) {
            let (built, _) = made(&call(&chart, &claim, making));
            assert!(known.contains(&built.refusal) || (14..=21).contains(&built.refusal));
            let no_pair = (built.mode, built.combination) == (0, 0);
            assert!(matches!(built.refusal, 18 | 19) || no_pair);
        }
    }
}
