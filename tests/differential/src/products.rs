//! Comparisons on charts with claims: fixed calls, and those that a seed
//! chooses. Each case that is built goes on through the run by rounds, the
//! checker and the listing.

use inputs::answers::other_answers;
use inputs::chart_rows;
use inputs::charts::{text_of, with_changed_rule};
use inputs::claim_changes::{self, changed};
use inputs::claim_rows;
use inputs::damage::{VERSIONS, damaged, every_change_by, every_small_change, with_version};
use inputs::product_rows::{READINGS, rows};
use inputs::products::{
    Call, EXAMPLE_ANSWER, EXAMPLE_CHART, EXAMPLE_CLAIM, Making, every_small_product,
    greatest_products, many_times_round, random_product,
};
use inputs::rng::Rng;
use reference::answer::Answer;
use reference::case::{self, Case, MOST_WORKERS};
use reference::checker;
use reference::entries::BUILT_BYTES;

use crate::compare::{Comparison, Mismatch};
use crate::rests;

/// A chart and a claim.
struct Parts {
    chart: Vec<u8>,
    claim: Vec<u8>,
}

impl Parts {
    fn call(&self, making: Making) -> Call {
        Call {
            chart: self.chart.clone(),
            claim: self.claim.clone(),
            making,
            output: BUILT_BYTES,
        }
    }
}

/// All that no seed chooses.
pub fn compare_all(comparison: &mut Comparison) -> Result<(), Mismatch> {
    for (call, _) in (1..=READINGS).flat_map(rows) {
        comparison.make(&call)?;
    }
    compare_rows_of_parts(comparison)?;
    for (number, (chart, claim)) in every_small_product().enumerate() {
        let chart = text_of(&chart);
        compare_whole(comparison, &Parts { chart, claim }, 1 + number as u32 % 3)?;
    }
    for (chart, claim) in greatest_products() {
        let chart = text_of(&chart);
        compare_whole(comparison, &Parts { chart, claim }, MOST_WORKERS as u32)?;
    }
    compare_small_changes(comparison)
}

/// The rows of every reading of charts and of claims, each with the other part
/// of the example.
fn compare_rows_of_parts(comparison: &mut Comparison) -> Result<(), Mismatch> {
    let charts = (1..=chart_rows::READINGS).flat_map(chart_rows::rows);
    let with_chart = charts.map(|(chart, _)| (chart, EXAMPLE_CLAIM.into()));
    let claims = (1..=claim_rows::READINGS).flat_map(claim_rows::rows);
    let with_claim = claims.map(|(claim, _)| (EXAMPLE_CHART.into(), claim));
    for (chart, claim) in with_chart.chain(with_claim) {
        let parts = Parts { chart, claim };
        comparison.make(&parts.call(Making::Case(2)))?;
        comparison.make(&parts.call(Making::Steps(EXAMPLE_ANSWER.into())))?;
    }
    Ok(())
}

/// Every small change of the example's chart, claim and answer.
fn compare_small_changes(comparison: &mut Comparison) -> Result<(), Mismatch> {
    let (chart, claim) = (EXAMPLE_CHART.as_bytes(), EXAMPLE_CLAIM.as_bytes());
    let answer = EXAMPLE_ANSWER.as_bytes();
    let charts = every_small_change(chart).into_iter();
    let with_chart = charts.map(|chart| (chart, claim.to_vec()));
    let claims = every_change_by(claim, claim_changes::ODD_BYTES).into_iter();
    let with_claim = claims.map(|claim| (chart.to_vec(), claim));
    for (chart, claim) in with_chart.chain(with_claim) {
        let parts = Parts { chart, claim };
        comparison.make(&parts.call(Making::Case(2)))?;
        comparison.make(&parts.call(Making::Steps(answer.to_vec())))?;
    }
    let (chart, claim) = (chart.to_vec(), claim.to_vec());
    let parts = Parts { chart, claim };
    for answer in every_small_change(answer) {
        comparison.make(&parts.call(Making::Steps(answer)))?;
    }
    for version in VERSIONS {
        let answer = with_version(answer, version);
        comparison.make(&parts.call(Making::Steps(answer)))?;
    }
    Ok(())
}

/// A case, its run by rounds, the check of the run's answer and its listing,
/// which must pass. Returns the case and the answer, unless it is refused.
fn compare_whole(
    comparison: &mut Comparison,
    parts: &Parts,
    workers: u32,
) -> Result<Option<(Case, Vec<u8>)>, Mismatch> {
    let (built, text) = comparison.make(&parts.call(Making::Case(workers)))?;
    if built.refusal != 0 {
        return Ok(None);
    }
    let case = case::read(&text).expect("what is built is accepted");
    let answer = rests::compare_whole(comparison, &case)?;
    let of_version_1 = with_version(&answer, "1");
    let (first, _) = comparison.make(&parts.call(Making::Steps(of_version_1)))?;
    let (listed, _) = comparison.make(&parts.call(Making::Steps(answer.clone())))?;
    // No vertex that rests accepts, so both versions show the same.
    assert_eq!((first, listed.refusal), (listed, 0), "its own answer");
    Ok(Some((case, answer)))
}

/// One round: a random chart and claim, answers to their case, and damage to
/// any of the three.
pub fn compare_round(comparison: &mut Comparison, rng: &mut Rng) -> Result<(), Mismatch> {
    let (chart, claim) = random_product(rng);
    let parts = Parts {
        chart: text_of(&chart),
        claim,
    };
    let any = parts.call(Making::Case(random_workers(rng)));
    let output = random_output(rng);
    comparison.make(&Call { output, ..any })?;
    let workers = rng.between(1, MOST_WORKERS) as u32;
    let answer = match compare_whole(comparison, &parts, workers)? {
        Some((case, answer)) => {
            compare_answers(comparison, rng, &parts, &case, &answer)?;
            answer
        }
        None => EXAMPLE_ANSWER.into(),
    };
    let with_changed_rule = text_of(&with_changed_rule(rng, &chart));
    let damaged_chart = damaged(rng, &parts.chart);
    let broken = Parts {
        chart: rng.pick(&[&with_changed_rule, &damaged_chart]).clone(),
        claim: changed(rng, &parts.claim),
    };
    compare_broken(comparison, rng, &parts, &broken, &answer)
}

fn random_workers(rng: &mut Rng) -> u32 {
    let past = rng.pick(&[0, 17, 32, 257, u32::MAX]);
    let in_range = rng.between(1, MOST_WORKERS) as u32;
    rng.pick(&[in_range, in_range, in_range, past])
}

fn random_output(rng: &mut Rng) -> usize {
    rng.pick(&[0, 8_192, 65_535, 65_536, 65_537, 70_000, 100_000])
}

/// Answers as another tool might give them, and the run's own gone round many
/// times.
fn compare_answers(
    comparison: &mut Comparison,
    rng: &mut Rng,
    parts: &Parts,
    case: &Case,
    own: &[u8],
) -> Result<(), Mismatch> {
    let mut answers = Vec::new();
    for version in checker::VERSIONS {
        answers.extend(other_answers(rng, case, version));
    }
    if let Ok(Answer::Lasso { stem, cycle }) = checker::check(case, own) {
        answers.push(many_times_round(&stem, &cycle));
    }
    for answer in answers {
        let odd = rng.pick(VERSIONS);
        let version = rng.pick(&["1", "1", "2", "2", odd]);
        let call = parts.call(Making::Steps(answer.text_as(version).into_bytes()));
        comparison.make(&call)?;
    }
    let output = random_output(rng);
    let call = parts.call(Making::Steps(damaged(rng, own)));
    comparison.make(&Call { output, ..call })?;
    Ok(())
}

/// One part broken, and both.
fn compare_broken(
    comparison: &mut Comparison,
    rng: &mut Rng,
    right: &Parts,
    broken: &Parts,
    answer: &[u8],
) -> Result<(), Mismatch> {
    for (chart, claim) in [
        (&broken.chart, &right.claim),
        (&right.chart, &broken.claim),
        (&broken.chart, &broken.claim),
    ] {
        let parts = Parts {
            chart: chart.clone(),
            claim: claim.clone(),
        };
        let making = if rng.chance(1, 2) {
            Making::Case(random_workers(rng))
        } else {
            Making::Steps(answer.to_vec())
        };
        comparison.make(&parts.call(making))?;
    }
    Ok(())
}
