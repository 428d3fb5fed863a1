//! The reference's check of charts against the readings that were settled, one
//! by one, and against charts whose meaning is known.

use inputs::chart_rows::{READINGS, rows};
use inputs::charts::{
    RIGHT, every_chart, greatest_chart, random_cover, random_rule, text_of, with_changed_rule,
};
use inputs::damage::damaged;
use inputs::readings;
use inputs::rng::Rng;
use reference::chart::{self, Chart, LIMITS, Rule};
use reference::entries::{Charted, Reference, Tool};

const ROUNDS: u64 = 1_000;

const WRONG: Charted = Charted {
    refusal: 17,
    mode: 0,
    combination: 0,
};

fn holds(reading: usize) {
    for (text, want) in rows(reading) {
        assert_eq!(Reference.check_chart(&text), want, "{}", shown(&text));
    }
}

/// A text, or the front of a long one.
fn shown(text: &[u8]) -> String {
    text[..text.len().min(2_000)].escape_ascii().to_string()
}

readings! {
    reading_1_titles 1
    reading_2_lines_and_fields 2
    reading_3_numbers 3
    reading_4_version 4
    reading_5_modes_start_and_flags 5
    reading_6_names 6
    reading_7_ranges_of_rules 7
    reading_8_how_many_rules 8
    reading_9_end 9
    reading_10_what_a_rule_matches 10
    reading_11_the_first_bad_pair 11
    reading_12_seventeen_goes_first 12
    reading_13_length 13
}

fn checked(chart: &Chart) -> Charted {
    Reference.check_chart(&text_of(chart))
}

/// The refusal, at the first pair that a rule matches: there every flag that it
/// does not care for is 0.
fn at_first_pair(refusal: u32, rule: Rule) -> Charted {
    Charted {
        refusal,
        mode: rule.mode as u32,
        combination: rule.value as u32,
    }
}

#[test]
fn right_charts_are_taken() {
    for text in RIGHT {
        assert_eq!(Reference.check_chart(text.as_bytes()), Charted::default());
    }
    for modes in [2, 4, 8, 16, 32] {
        assert_eq!(checked(&greatest_chart(modes)), Charted::default());
    }
}

#[test]
fn charts_are_read_as_they_were_drawn() {
    for round in 0..ROUNDS {
        let drawn = random_cover(&mut Rng::for_round(1, round));
        assert_eq!(chart::read(&text_of(&drawn)), Some(drawn));
    }
}

#[test]
fn a_cover_is_taken() {
    for round in 0..ROUNDS {
        let cover = random_cover(&mut Rng::for_round(1, round));
        assert_eq!(checked(&cover), Charted::default(), "{cover:?}");
    }
}

#[test]
fn a_cover_without_one_of_its_rules_has_a_gap() {
    for round in 0..ROUNDS {
        let rng = &mut Rng::for_round(1, round);
        let mut chart = random_cover(rng);
        let rule = chart.rules.remove(rng.below(chart.rules.len()));
        assert_eq!(checked(&chart), at_first_pair(18, rule), "{chart:?}");
    }
}

#[test]
fn a_cover_with_one_more_rule_has_an_overlap() {
    for round in 0..ROUNDS {
        let rng = &mut Rng::for_round(1, round);
        let mut chart = random_cover(rng);
        let copied = rng.pick(&chart.rules);
        let rule = [copied, random_rule(rng, &chart)][rng.below(2)];
        chart.rules.insert(rng.below(chart.rules.len() + 1), rule);
        let too_many = chart.rules.len() > LIMITS.rules;
        let want = if too_many {
            WRONG
        } else {
            at_first_pair(19, rule)
        };
        assert_eq!(checked(&chart), want, "{chart:?}");
    }
}

/// What a chart in range gets by the customer's own formula: a rule matches
/// when the flags picked out by care equal value.
fn by_formula(chart: &Chart) -> Charted {
    for mode in 0..chart.modes() {
        for combination in 0..1 << chart.flags {
            let matching =
                |rule: &&Rule| rule.mode == mode && combination & rule.care == rule.value;
            let refusal = match chart.rules.iter().filter(matching).count() {
                0 => 18,
                1 => continue,
                _ => 19,
            };
            return Charted {
                refusal,
                mode: mode as u32,
                combination: combination as u32,
            };
        }
    }
    Charted::default()
}

#[test]
fn every_chart_of_few_rules_is_as_the_formula_says() {
    let charts = [(1, 1, 4), (2, 1, 4), (1, 2, 4), (2, 2, 2), (1, 3, 2)];
    for (modes, flags, most_rules) in charts {
        for chart in every_chart(modes, flags, most_rules) {
            assert_eq!(checked(&chart), by_formula(&chart), "{chart:?}");
        }
    }
}

#[test]
fn changed_covers_are_as_the_formula_says() {
    for round in 0..ROUNDS {
        let rng = &mut Rng::for_round(1, round);
        let mut chart = random_cover(rng);
        for _ in 0..rng.between(1, 4) {
            chart = with_changed_rule(rng, &chart);
        }
        let modes = chart.modes();
        let in_range = chart.rules.len() <= 512
            && chart.rules.iter().all(|rule| {
                let Rule { care, value, .. } = *rule;
                let known = rule.mode < modes && rule.next < modes;
                known && care < 1 << chart.flags && value & care == value
            });
        let want = if in_range { by_formula(&chart) } else { WRONG };
        assert_eq!(checked(&chart), want, "{chart:?}");
    }
}

#[test]
fn no_other_refusal_and_no_pair_without_a_bad_one() {
    for round in 0..ROUNDS {
        let rng = &mut Rng::for_round(1, round);
        let text = text_of(&random_cover(rng));
        let charted = Reference.check_chart(&damaged(rng, &text));
        let no_pair = (charted.mode, charted.combination) == (0, 0);
        assert!(matches!(charted.refusal, 18 | 19) || no_pair);
        assert!(matches!(charted.refusal, 0 | 17..=19));
    }
}
