//! The mutants that check charts with one fault each.

use std::borrow::Cow;

use reference::chart::{Chart, Fault, LIMITS, Limits, WRONG, read};
use reference::refusal::Refusal;

use crate::mutants::{Faulty, Mutant, chart_mutant};

/// Every mutant of these.
pub fn chart_mutants() -> Vec<Mutant> {
    vec![
        chart_mutant("gap told as overlap", GapAsOverlap),
        chart_mutant("last bad pair told", LastBadPair),
        chart_mutant("pairs by combination and then mode", CombinationFirst),
        chart_mutant("513 rules taken", OneRuleMore),
        chart_mutant("empty name taken", EmptyName),
        chart_mutant("value bit outside care taken", ValueOutsideCare),
        chart_mutant("care bit outside the flags taken", CareOutsideFlags),
        chart_mutant("equal rules counted once", EqualRulesOnce),
        chart_mutant("torn last rule taken", TornRule),
        chart_mutant("17 only where no pair is bad", PairsFirst),
    ]
}

struct GapAsOverlap;
impl Faulty for GapAsOverlap {
    fn bad_pair(&self, bad_pairs: &mut dyn Iterator<Item = Fault>) -> Option<Fault> {
        bad_pairs.next().map(|fault| Fault {
            refusal: Refusal::TwoRules,
            ..fault
        })
    }
}

struct LastBadPair;
impl Faulty for LastBadPair {
    fn bad_pair(&self, bad_pairs: &mut dyn Iterator<Item = Fault>) -> Option<Fault> {
        bad_pairs.last()
    }
}

struct CombinationFirst;
impl Faulty for CombinationFirst {
    fn bad_pair(&self, bad_pairs: &mut dyn Iterator<Item = Fault>) -> Option<Fault> {
        bad_pairs.min_by_key(|pair| (pair.combination, pair.mode))
    }
}

struct OneRuleMore;
impl Faulty for OneRuleMore {
    fn chart_limits(&self) -> Limits {
        Limits {
            rules: LIMITS.rules + 1,
            ..LIMITS
        }
    }
}

struct EmptyName;
impl Faulty for EmptyName {
    fn chart_limits(&self) -> Limits {
        Limits {
            shortest_name: 0,
            ..LIMITS
        }
    }
}

struct ValueOutsideCare;
impl Faulty for ValueOutsideCare {
    fn forgive_chart(&self, chart: &mut Chart) {
        for rule in &mut chart.rules {
            rule.value &= rule.care;
        }
    }
}

struct CareOutsideFlags;
impl Faulty for CareOutsideFlags {
    fn forgive_chart(&self, chart: &mut Chart) {
        let outside = usize::MAX.checked_shl(chart.flags as u32).unwrap_or(0);
        for rule in &mut chart.rules {
            rule.value &= !(rule.care & outside);
            rule.care &= !outside;
        }
    }
}

struct EqualRulesOnce;
impl Faulty for EqualRulesOnce {
    fn judge_chart(&self, chart: &Chart, in_range: bool) -> Option<Fault> {
        let mut once = chart.clone();
        once.rules.clear();
        for rule in &chart.rules {
            if !once.rules.contains(rule) {
                once.rules.push(*rule);
            }
        }
        if in_range {
            once.bad_pairs().next()
        } else {
            Some(WRONG)
        }
    }
}

struct TornRule;
impl Faulty for TornRule {
    fn chart_text<'a>(&self, text: &'a [u8]) -> Cow<'a, [u8]> {
        let ended = [text, b"\n"].concat();
        if read(&ended).is_some_and(|chart| !chart.rules.is_empty()) {
            ended.into()
        } else {
            text.into()
        }
    }
}

/// Judges the pairs by the rules that are in range before it looks at others.
struct PairsFirst;
impl Faulty for PairsFirst {
    fn judge_chart(&self, chart: &Chart, in_range: bool) -> Option<Fault> {
        let mut right = chart.clone();
        right.rules.retain(|rule| chart.may_have(rule));
        if !right.in_range(LIMITS) {
            return Some(WRONG);
        }
        let wrong = (!in_range).then_some(WRONG);
        right.bad_pairs().next().or(wrong)
    }
}
