//! Plain cases built and steps listed against the reference: the same refusals
//! and bad pairs, and the same bytes in the output.

use inputs::answers::other_answers;
use inputs::chart_rows;
use inputs::charts::{text_of, with_changed_rule};
use inputs::claim_changes::changed;
use inputs::damage::{VERSIONS, damaged, every_small_change, with_version};
use inputs::graphs::{Size, random_case};
use inputs::product_rows::{READINGS, rows};
use inputs::products::{
    Call, EXAMPLE_ANSWER, EXAMPLE_CHART, EXAMPLE_CLAIM, Making, every_small_product,
    greatest_products, many_times_round, random_product,
};
use inputs::rng::Rng;
use plain::answers::{self, Graph, Shown};
use plain::product;
use reference::answer::Answer;
use reference::case::{self, Case};
use reference::checker;
use reference::entries::{Reference, Report, Tool};
use reference::run::by_rounds;

const SEED: u64 = 11;

/// What untouched bytes of an output are.
const GUARD: u8 = 7;

/// The case file, if one is built.
fn assert_same(call: &Call) -> Option<Vec<u8>> {
    let (mut got_output, mut output) = (vec![GUARD; call.output], vec![GUARD; call.output]);
    let (chart, claim) = (&call.chart, &call.claim);
    let (got, want) = match &call.making {
        Making::Case(workers) => (
            product::build_case(chart, claim, *workers, &mut got_output),
            Reference.build_case(chart, claim, *workers, &mut output),
        ),
        Making::Steps(answer) => (
            product::list_steps(chart, claim, answer, &mut got_output),
            Reference.list_steps(chart, claim, answer, &mut output),
        ),
    };
    let got = [got.refusal, got.mode, got.combination, got.written];
    let wanted = [want.refusal, want.mode, want.combination, want.written];
    assert_eq!(got, wanted, "{call:?}");
    assert!(got_output == output, "{call:?}");
    output.truncate(want.written as usize);
    (want.refusal == 0).then_some(output)
}

/// The case for so many workers, and answers of many kinds to it.
fn assert_same_pair(rng: &mut Rng, chart: &[u8], claim: &[u8], workers: u32) {
    let call = |making| Call {
        chart: chart.to_vec(),
        claim: claim.to_vec(),
        making,
        output: product::LEAST_OUTPUT,
    };
    assert_same(&call(Making::Steps(EXAMPLE_ANSWER.into())));
    let Some(text) = assert_same(&call(Making::Case(workers))) else {
        return;
    };
    let case = case::read(&text).expect("what is built is accepted");
    for text in some_answers(rng, &case) {
        assert_same(&call(Making::Steps(damaged(rng, &text))));
        assert_same(&call(Making::Steps(text)));
    }
}

/// The one by rounds, a longer one if it is a lasso, and others that may be
/// wrong, each in some version, which may be none.
fn some_answers(rng: &mut Rng, case: &Case) -> Vec<Vec<u8>> {
    let found = Report::of(&by_rounds(case)).answer;
    let longer = match &found {
        Some(Answer::Lasso { stem, cycle }) => Some(many_times_round(stem, cycle)),
        _ => None,
    };
    let mut answers: Vec<Answer> = found.into_iter().chain(longer).collect();
    for version in checker::VERSIONS {
        answers.extend(other_answers(rng, case, version));
    }
    let mut in_some_version = |answer: Answer| {
        let odd = rng.pick(VERSIONS);
        let version = rng.pick(&["1", "1", "2", "2", odd]);
        answer.text_as(version).into_bytes()
    };
    answers.into_iter().map(&mut in_some_version).collect()
}

#[test]
fn same_on_every_settled_reading() {
    for (call, _) in (1..=READINGS).flat_map(rows) {
        assert_same(&call);
    }
}

/// Charts are read otherwise here than by the plain check of them.
#[test]
fn same_on_every_settled_reading_of_charts() {
    for (chart, _) in (1..=chart_rows::READINGS).flat_map(chart_rows::rows) {
        assert_same(&Call {
            chart,
            claim: Vec::new(),
            making: Making::Case(1),
            output: product::LEAST_OUTPUT,
        });
    }
}

#[test]
fn same_on_small_and_greatest_pairs() {
    let rng = &mut Rng::new(SEED);
    let pairs = every_small_product().step_by(5).chain(greatest_products());
    for (number, (chart, claim)) in pairs.enumerate() {
        assert_same_pair(rng, &text_of(&chart), &claim, 1 + number as u32 % 16);
    }
}

#[test]
fn same_on_every_small_change() {
    let (chart, claim) = (EXAMPLE_CHART.as_bytes(), EXAMPLE_CLAIM.as_bytes());
    let call = |chart: &[u8], claim: &[u8], making| Call {
        chart: chart.to_vec(),
        claim: claim.to_vec(),
        making,
        output: product::LEAST_OUTPUT,
    };
    for chart in every_small_change(chart) {
        assert_same(&call(&chart, claim, Making::Case(3)));
    }
    for claim in every_small_change(claim) {
        assert_same(&call(chart, &claim, Making::Case(3)));
    }
    let empty = "version verdict stem cycle reached\n2 empty 0 0 2\nvertex distance\n0 0\n1 -1\n";
    for answer in [EXAMPLE_ANSWER, empty] {
        for answer in [answer.into(), with_version(answer.as_bytes(), "1")] {
            for answer in every_small_change(&answer) {
                assert_same(&call(chart, claim, Making::Steps(answer)));
            }
        }
    }
}

#[test]
fn same_on_random_pairs_and_changed_ones() {
    for round in 0..1_000 {
        let rng = &mut Rng::for_round(SEED + 1, round);
        let (chart, claim) = random_product(rng);
        let workers = rng.below(18) as u32;
        assert_same_pair(rng, &text_of(&chart), &claim, workers);
        let other = text_of(&with_changed_rule(rng, &chart));
        assert_same_pair(rng, &other, &claim, workers);
        let changed = changed(rng, &claim);
        assert_same_pair(rng, &other, &changed, workers);
    }
}

/// The plain checker alone, on graphs of any kind.
#[test]
fn same_checks_of_answers() {
    for round in 0..10_000 {
        let rng = &mut Rng::for_round(SEED + 2, round);
        let case = random_case(rng, Size::Small);
        let edges = case.edges.iter();
        let graph = Graph {
            source: case.source,
            accepting: case.accepting.clone(),
            edges: edges.map(|&(from, to)| (from as u16, to as u16)).collect(),
        };
        for text in some_answers(rng, &case) {
            for text in [damaged(rng, &text), text] {
                let want = checker::check(&case, &text);
                let want = want.map(shown).map_err(|refusal| refusal.number());
                let got = answers::check(&mut graph.clone(), &text);
                assert_eq!(got, want, "{}", text.escape_ascii());
            }
        }
    }
}

fn shown(answer: Answer) -> Shown {
    match answer {
        Answer::Empty { .. } => Shown::Empty,
        Answer::Lasso { stem, cycle } => {
            let walk = stem.into_iter().chain(cycle);
            Shown::Lasso(walk.map(|edge| edge as u16).collect())
        }
    }
}
