//! The chart of modes.
//!
//! Rules and combinations are looked at flag by flag, as sets of flags, and not
//! as numbers.

use crate::refusal::Refusal;
use crate::text::{LONGEST_FILE, Lines};

/// What a chart is held to.
#[derive(Clone, Copy, Debug)]
pub struct Limits {
    pub modes: usize,
    pub flags: usize,
    pub rules: usize,
    pub shortest_name: usize,
    pub longest_name: usize,
}

pub const LIMITS: Limits = Limits {
    modes: 32,
    flags: 8,
    rules: 512,
    shortest_name: 1,
    longest_name: 16,
};

pub const COUNT_NAMES: &str = "version modes start flags";
pub const MODE_NAMES: &str = "name";
pub const RULE_NAMES: &str = "mode care value next";

/// What a text says that is laid out as a chart; nothing is in range yet.
#[derive(Clone, Debug, PartialEq, Eq)]
pub struct Chart {
    pub version: usize,
    pub start: usize,
    pub flags: usize,
    /// The name of each mode.
    pub names: Vec<Vec<u8>>,
    pub rules: Vec<Rule>,
}

#[derive(Clone, Copy, Debug, PartialEq, Eq)]
pub struct Rule {
    pub mode: usize,
    pub care: usize,
    pub value: usize,
    pub next: usize,
}

/// Why a chart, or what is made of it, is refused. Only a bad pair has a mode
/// and a combination.
#[derive(Clone, Copy, Debug, PartialEq, Eq)]
pub struct Fault {
    pub refusal: Refusal,
    pub mode: usize,
    pub combination: usize,
}

impl Fault {
    pub const fn without_pair(refusal: Refusal) -> Self {
        Fault {
            refusal,
            mode: 0,
            combination: 0,
        }
    }
}

impl From<Refusal> for Fault {
    fn from(refusal: Refusal) -> Self {
        Fault::without_pair(refusal)
    }
}

pub const WRONG: Fault = Fault::without_pair(Refusal::ChartWrong);

/// Checks a chart: layout and ranges go first, then the first bad pair decides.
pub fn check(text: &[u8]) -> Result<Chart, Fault> {
    let chart = read(text).filter(|chart| chart.in_range(LIMITS));
    let chart = chart.ok_or(WRONG)?;
    let first_bad_pair = chart.bad_pairs().next();
    first_bad_pair.map_or(Ok(chart), Err)
}

/// What a text says, if it is laid out as a chart.
pub fn read(text: &[u8]) -> Option<Chart> {
    if text.len() > LONGEST_FILE {
        return None;
    }
    let mut lines = Lines::of(text);
    read_names(&mut lines, COUNT_NAMES)?;
    let [version, modes, start, flags] = lines.next_numbers()?;
    read_names(&mut lines, MODE_NAMES)?;
    let name = |_| lines.next_line().map(<[u8]>::to_vec);
    let names: Option<Vec<_>> = (0..modes).map(name).collect();
    let names = names?;
    read_names(&mut lines, RULE_NAMES)?;
    Some(Chart {
        version,
        start,
        flags,
        names,
        rules: read_rules(&mut lines)?,
    })
}

fn read_names(lines: &mut Lines, names: &str) -> Option<()> {
    (lines.next_line()? == names.as_bytes()).then_some(())
}

/// Rules stand up to the end: whatever else is left there is a bad rule.
fn read_rules(lines: &mut Lines) -> Option<Vec<Rule>> {
    let mut rules = Vec::new();
    while !lines.at_end() {
        let [mode, care, value, next] = lines.next_numbers()?;
        rules.push(Rule {
            mode,
            care,
            value,
            next,
        });
    }
    Some(rules)
}

impl Chart {
    /// How many modes there are.
    pub fn modes(&self) -> usize {
        self.names.len()
    }

    /// Whether the numbers and names are as they may be.
    pub fn in_range(&self, limits: Limits) -> bool {
        let right_name = |name: &Vec<u8>| {
            (limits.shortest_name..=limits.longest_name).contains(&name.len())
                && name.iter().all(u8::is_ascii_alphanumeric)
        };
        self.version == 1
            && (1..=limits.modes).contains(&self.modes())
            && self.start < self.modes()
            && (1..=limits.flags).contains(&self.flags)
            && self.names.iter().all(right_name)
            && self.rules.len() <= limits.rules
            && self.rules.iter().all(|rule| self.may_have(rule))
    }

    /// Whether a rule is in range: it cares for flags that there are, and its
    /// value has none that it does not care for.
    pub fn may_have(&self, rule: &Rule) -> bool {
        let mut flags = 0..usize::BITS as usize;
        rule.mode < self.modes()
            && rule.next < self.modes()
            && flags.all(|flag| {
                (!has(rule.care, flag) || flag < self.flags)
                    && (!has(rule.value, flag) || has(rule.care, flag))
            })
    }

    /// Every pair that has no rule or more than one, by mode and then
    /// combination.
    pub fn bad_pairs(&self) -> impl Iterator<Item = Fault> {
        (0..self.modes()).flat_map(move |mode| {
            let of_mode = self.rules.iter().filter(|rule| rule.mode == mode);
            let rules: Vec<&Rule> = of_mode.collect();
            (0..1 << self.flags).filter_map(move |combination| {
                let matching = rules.iter().filter(|rule| self.matches(rule, combination));
                let refusal = match matching.count() {
                    0 => Refusal::NoRule,
                    1 => return None,
                    _ => Refusal::TwoRules,
                };
                Some(Fault {
                    refusal,
                    mode,
                    combination,
                })
            })
        })
    }

    /// Whether each flag that a rule cares for is as its value says.
    pub fn matches(&self, rule: &Rule, combination: usize) -> bool {
        let mut cared_for = (0..self.flags).filter(|&flag| has(rule.care, flag));
        cared_for.all(|flag| has(combination, flag) == has(rule.value, flag))
    }
}

/// Whether a flag is among those that a number stands for: flag i is the bit
/// worth 2^i.
fn has(number: usize, flag: usize) -> bool {
    number / (1 << flag) % 2 == 1
}
