//! Charts with 8 flags, most of them with the most rules.

use inputs::charts::{greatest_chart, text_of, with_whole_rules};
use inputs::rng::Rng;
use reference::chart::{Chart, LIMITS, Rule};

use crate::readers::Text;

const SEED: u64 = 512;

/// Right charts of several kinds, one with bad pairs at its end and one that is
/// refused at its last line.
pub fn examples() -> Vec<Text> {
    let greatest = greatest_chart(LIMITS.modes);
    let mut gap = greatest.clone();
    gap.rules.pop();
    let mut longer = greatest.clone();
    longer.rules.push(greatest.rules[0]);
    let examples = [
        ("2 modes of 256 rules", greatest_chart(2)),
        ("32 modes of 16 rules", greatest),
        ("32 modes of 16 rules, mixed", mixed()),
        (
            "32 modes of one rule",
            with_whole_rules(LIMITS.modes, 0, LIMITS.flags),
        ),
        ("the second one, a rule left out", gap),
        ("the second one, a rule too many", longer),
    ];
    let example = |(name, chart): (_, Chart)| Text {
        name,
        text: text_of(&chart),
    };
    examples.map(example).into()
}

/// Each mode cares for four flags of its own, and rules stand in no order.
fn mixed() -> Chart {
    let mut rng = Rng::new(SEED);
    let mut chart = greatest_chart(LIMITS.modes);
    chart.rules.clear();
    for mode in 0..LIMITS.modes {
        let care = four_flags(&mut rng);
        for value in (0..=care).filter(|value| value & care == *value) {
            let next = rng.below(LIMITS.modes);
            let place = rng.below(chart.rules.len() + 1);
            let rule = Rule {
                mode,
                care,
                value,
                next,
            };
            chart.rules.insert(place, rule);
        }
    }
    chart
}

fn four_flags(rng: &mut Rng) -> usize {
    let mut care: usize = 0;
    while care.count_ones() < 4 {
        care |= 1 << rng.below(LIMITS.flags);
    }
    care
}
