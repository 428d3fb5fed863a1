//! Comparisons on charts: fixed texts, and those that a seed chooses.

use inputs::chart_rows::{READINGS, rows};
use inputs::charts::{
    RIGHT, every_chart, greatest_chart, random_cover, text_of, with_changed_rule,
};
use inputs::damage::{damaged, every_small_change};
use inputs::rng::Rng;
use reference::chart::LIMITS;

use crate::compare::{Comparison, Mismatch};

/// All that no seed chooses.
pub fn compare_all(comparison: &mut Comparison) -> Result<(), Mismatch> {
    for (text, _) in (1..=READINGS).flat_map(rows) {
        comparison.chart(&text)?;
    }
    for text in RIGHT.map(str::as_bytes) {
        comparison.chart(text)?;
        for changed in every_small_change(text) {
            comparison.chart(&changed)?;
        }
    }
    compare_few_rules(comparison)?;
    compare_greatest(comparison)
}

/// Every chart with at most so many rules.
fn compare_few_rules(comparison: &mut Comparison) -> Result<(), Mismatch> {
    for (modes, flags, most_rules) in [(1, 1, 4), (2, 1, 4), (1, 2, 4), (2, 2, 2), (1, 3, 2)] {
        for chart in every_chart(modes, flags, most_rules) {
            comparison.chart(&text_of(&chart))?;
        }
    }
    Ok(())
}

/// The greatest charts, whole and with one of some rules, from the first to the
/// last, left out or standing in place of the next one too.
fn compare_greatest(comparison: &mut Comparison) -> Result<(), Mismatch> {
    for modes in [2, 32] {
        let chart = greatest_chart(modes);
        comparison.chart(&text_of(&chart))?;
        for place in (0..LIMITS.rules).step_by(73) {
            let mut changed = chart.clone();
            changed.rules[(place + 1) % LIMITS.rules] = chart.rules[place];
            comparison.chart(&text_of(&changed))?;
            changed.rules = chart.rules.clone();
            changed.rules.remove(place);
            comparison.chart(&text_of(&changed))?;
        }
    }
    Ok(())
}

/// One round: a random cover, copies with rules changed, and damaged texts.
pub fn compare_round(comparison: &mut Comparison, rng: &mut Rng) -> Result<(), Mismatch> {
    let cover = random_cover(rng);
    let text = text_of(&cover);
    comparison.chart(&text)?;
    let mut chart = cover.clone();
    for _ in 0..2 {
        comparison.chart(&text_of(&with_changed_rule(rng, &cover)))?;
        comparison.chart(&damaged(rng, &text))?;
        chart = with_changed_rule(rng, &chart);
        comparison.chart(&text_of(&chart))?;
    }
    Ok(())
}
