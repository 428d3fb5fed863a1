//! The plain reader of charts against the reference: the same refusals, and
//! the same first bad pairs.

use inputs::chart_rows::{READINGS, rows};
use inputs::charts::{
    RIGHT, every_chart, greatest_chart, random_cover, text_of, with_changed_rule,
};
use inputs::damage::{damaged, every_small_change};
use inputs::rng::Rng;
use plain::charts;
use reference::chart::{Chart, LIMITS};
use reference::entries::{Charted, Reference, Tool};

const SEED: u64 = 9;

fn assert_same(text: &[u8]) {
    let Charted {
        refusal,
        mode,
        combination,
    } = Reference.check_chart(text);
    let want = (refusal, mode, combination);
    assert_eq!(charts::check(text), want, "{}", text.escape_ascii());
}

fn assert_same_chart(chart: &Chart) {
    assert_same(&text_of(chart));
}

#[test]
fn same_on_every_settled_reading() {
    for (text, _) in (1..=READINGS).flat_map(rows) {
        assert_same(&text);
    }
}

#[test]
fn same_on_right_charts_and_every_small_change() {
    for text in RIGHT.map(str::as_bytes) {
        assert_same(text);
        for text in every_small_change(text) {
            assert_same(&text);
        }
    }
}

#[test]
fn same_on_every_chart_of_few_rules() {
    for (modes, flags, most_rules) in [(1, 1, 4), (2, 1, 4), (1, 2, 4), (2, 2, 2), (1, 3, 2)] {
        for chart in every_chart(modes, flags, most_rules) {
            assert_same_chart(&chart);
        }
    }
}

/// Each rule left out, in every place, and in one place too many.
#[test]
fn same_on_the_greatest_charts() {
    for modes in [2, 32] {
        let greatest = greatest_chart(modes);
        assert_same_chart(&greatest);
        for rule in &greatest.rules {
            let mut chart = greatest.clone();
            chart.rules.retain(|other| other != rule);
            assert_same_chart(&chart);
            chart.rules = vec![*rule; LIMITS.rules];
            assert_same_chart(&chart);
            chart.rules.push(*rule);
            assert_same_chart(&chart);
        }
    }
}

#[test]
fn same_on_random_charts_and_changed_ones() {
    for round in 0..4_000 {
        let mut rng = Rng::for_round(SEED, round);
        let mut chart = random_cover(&mut rng);
        for _ in 0..4 {
            assert_same_chart(&chart);
            assert_same(&damaged(&mut rng, &text_of(&chart)));
            chart = with_changed_rule(&mut rng, &chart);
        }
    }
}
