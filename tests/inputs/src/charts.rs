//! Charts: small right ones, the greatest, every one of few rules, and random
//! covers; and changes to the rules of a chart.

use reference::chart::{COUNT_NAMES, Chart, LIMITS, MODE_NAMES, RULE_NAMES, Rule};

use crate::rng::Rng;

/// The least chart that is right.
const LEAST: &str = "version modes start flags
1 1 0 1
name
a
mode care value next
0 0 0 0
";

/// Both flags matter, rules are out of order, and modes have one name.
const SAME_NAMES: &str = "version modes start flags
1 2 1 2
name
Hold
Hold
mode care value next
1 3 2 0
0 0 0 1
1 1 1 1
1 3 0 1
";

/// The longest name, and numbers of more than one digit.
const LONG_NAME: &str = "version modes start flags
1 1 0 4
name
Az09Az09Az09Az09
mode care value next
0 12 8 0
0 12 12 0
0 8 0 0
";

/// Right charts that are short enough to be changed at every place.
pub const RIGHT: [&str; 3] = [LEAST, SAME_NAMES, LONG_NAME];

/// The file of a chart.
pub fn text_of(chart: &Chart) -> Vec<u8> {
    let (version, modes, start, flags) = (chart.version, chart.modes(), chart.start, chart.flags);
    let counts = format!("{version} {modes} {start} {flags}");
    let mut text = format!("{COUNT_NAMES}\n{counts}\n{MODE_NAMES}\n").into_bytes();
    for name in &chart.names {
        text.extend_from_slice(name);
        text.push(b'\n');
    }
    text.extend_from_slice(format!("{RULE_NAMES}\n").as_bytes());
    for rule in &chart.rules {
        let (mode, care, value, next) = (rule.mode, rule.care, rule.value, rule.next);
        text.extend_from_slice(format!("{mode} {care} {value} {next}\n").as_bytes());
    }
    text
}

/// A chart without rules.
pub fn chart_of(modes: usize, start: usize, flags: usize) -> Chart {
    Chart {
        version: 1,
        start,
        flags,
        names: (0..modes)
            .map(|mode| format!("m{mode}").into_bytes())
            .collect(),
        rules: Vec::new(),
    }
}

/// A chart of these counts in which each mode has one rule, for whatever flags.
pub fn with_whole_rules(modes: usize, start: usize, flags: usize) -> Chart {
    let rule = |mode| Rule {
        mode,
        care: 0,
        value: 0,
        next: mode,
    };
    Chart {
        rules: (0..modes).map(rule).collect(),
        ..chart_of(modes, start, flags)
    }
}

/// A right chart with so many modes, 8 flags, 512 rules, which are shared
/// evenly, and names of 16 bytes. Modes are a power of two.
pub fn greatest_chart(modes: usize) -> Chart {
    let step = 256 * modes / LIMITS.rules;
    let rule = |mode, value| Rule {
        mode,
        care: 256 - step,
        value,
        next: modes - 1 - mode,
    };
    let values = (0..256).step_by(step);
    Chart {
        names: vec![b"ABCXYZabcxyz0189".to_vec(); modes],
        rules: (0..modes)
            .flat_map(|mode| values.clone().map(move |value| rule(mode, value)))
            .collect(),
        ..chart_of(modes, modes - 1, 8)
    }
}

/// Every rule that may stand in a chart, each with one next mode.
fn every_rule(modes: usize, flags: usize) -> Vec<Rule> {
    let mut rules = Vec::new();
    for mode in 0..modes {
        for care in 0..1 << flags {
            rules.extend(
                (0..=care)
                    .filter(|value| value & care == *value)
                    .map(|value| Rule {
                        mode,
                        care,
                        value,
                        next: modes - 1 - mode,
                    }),
            );
        }
    }
    rules
}

/// Every chart with at most so many rules, in every order.
pub fn every_chart(modes: usize, flags: usize, most_rules: usize) -> Vec<Chart> {
    let every_rule = every_rule(modes, flags);
    let mut lists: Vec<Vec<Rule>> = vec![Vec::new()];
    let mut longest = lists.clone();
    for _ in 0..most_rules {
        let longer = |list: &Vec<Rule>| {
            let list = list.clone();
            every_rule
                .iter()
                .map(move |&rule| [&list[..], &[rule]].concat())
        };
        longest = longest.iter().flat_map(longer).collect();
        lists.extend_from_slice(&longest);
    }
    let with_rules = |rules| Chart {
        rules,
        ..chart_of(modes, 0, flags)
    };
    lists.into_iter().map(with_rules).collect()
}

/// A random chart in which every pair has exactly one rule: of each mode's
/// whole set of combinations, parts are split by a flag again and again.
pub fn random_cover(rng: &mut Rng) -> Chart {
    let modes = rng.pick(&[1, 1, 1, 2, 2, 3, 5, 8, 16, 32]);
    let flags = rng.pick(&[1, 2, 2, 3, 3, 4, 5, 6, 7, 8]);
    let mut chart = chart_of(modes, rng.below(modes), flags);
    for name in &mut chart.names {
        *name = random_name(rng);
    }
    chart.rules = (0..modes).map(|mode| whole(rng, mode, modes)).collect();
    let most_splits = LIMITS.rules - modes;
    for _ in 0..rng.pick(&[0, 1, 3, 8, 8, 30, 30, most_splits]) {
        split(rng, &mut chart);
    }
    shuffle(rng, &mut chart.rules);
    chart
}

fn random_name(rng: &mut Rng) -> Vec<u8> {
    let length = rng.between(LIMITS.shortest_name, LIMITS.longest_name);
    (0..length).map(|_| rng.pick(b"AMZamz059")).collect()
}

/// The rule that matches every combination of a mode.
fn whole(rng: &mut Rng, mode: usize, modes: usize) -> Rule {
    Rule {
        mode,
        care: 0,
        value: 0,
        next: rng.below(modes),
    }
}

/// Splits a rule by a flag that it does not care for, if there is one.
fn split(rng: &mut Rng, chart: &mut Chart) {
    let bits: Vec<usize> = (0..chart.flags).map(|flag| 1 << flag).collect();
    let every_flag = bits.iter().sum();
    let places = 0..chart.rules.len();
    let open: Vec<usize> = places
        .filter(|&place| chart.rules[place].care != every_flag)
        .collect();
    if open.is_empty() {
        return;
    }
    let modes = chart.modes();
    let rule = &mut chart.rules[rng.pick(&open)];
    let free: Vec<usize> = bits
        .into_iter()
        .filter(|bit| rule.care & bit == 0)
        .collect();
    let bit = rng.pick(&free);
    rule.care |= bit;
    let other = Rule {
        value: rule.value | bit,
        next: rng.below(modes),
        ..*rule
    };
    chart.rules.push(other);
}

fn shuffle<T>(rng: &mut Rng, items: &mut [T]) {
    for place in (1..items.len()).rev() {
        items.swap(place, rng.below(place + 1));
    }
}

/// A random rule that may stand in a chart.
pub fn random_rule(rng: &mut Rng, chart: &Chart) -> Rule {
    let care = rng.below(1 << chart.flags);
    Rule {
        mode: rng.below(chart.modes()),
        care,
        value: rng.below(1 << chart.flags) & care,
        next: rng.below(chart.modes()),
    }
}

/// A copy of a chart with one rule left out, added or changed; the change may
/// take it out of range.
pub fn with_changed_rule(rng: &mut Rng, chart: &Chart) -> Chart {
    let mut chart = chart.clone();
    let place = rng.below(chart.rules.len() + 1);
    if place == chart.rules.len() || rng.chance(1, 4) {
        let rule = random_rule(rng, &chart);
        chart.rules.insert(place, rule);
        return chart;
    }
    let bit = 1 << rng.below(chart.flags + 1);
    let mode = rng.below(chart.modes() + 1);
    let rule = &mut chart.rules[place];
    match rng.below(8) {
        0 => {
            chart.rules.remove(place);
        }
        1 => {
            let copied = *rule;
            chart.rules.push(copied);
        }
        2..=3 => rule.care ^= bit,
        4..=5 => rule.value ^= bit & rng.pick(&[rule.care, usize::MAX]),
        6 => rule.mode = mode,
        _ => rule.next = mode,
    }
    chart
}
