//! A reader of charts with every check of the library's, in one pass: into a
//! table of how many rules each pair has, and, if asked for, one of the next
//! mode of each pair.

use std::ops::Range;

use crate::cursor::Cursor;
use crate::reader::LONGEST_FILE;

pub const MOST_MODES: usize = 32;
const MOST_FLAGS: usize = 8;
const MOST_PAIRS: usize = MOST_MODES << MOST_FLAGS;
const MOST_RULES: usize = 512;
const LONGEST_NAME: usize = 16;

const COUNT_NAMES: &[u8] = b"version modes start flags\n";
const MODE_NAMES: &[u8] = b"name\n";
const RULE_NAMES: &[u8] = b"mode care value next\n";

/// Numbers of the refusals.
const WRONG: u32 = 17;
const NO_RULE: u32 = 18;
const TWO_RULES: u32 = 19;

/// The counts of a chart, and the place of the first mode's name in its text.
pub struct Chart {
    pub modes: usize,
    pub start: usize,
    pub flags: usize,
    pub names_at: usize,
}

impl Chart {
    fn combinations(&self) -> usize {
        1 << self.flags
    }

    /// The places of a mode's pairs in a table.
    pub fn pairs_of(&self, mode: usize) -> Range<usize> {
        mode * self.combinations()..(mode + 1) * self.combinations()
    }
}

/// A rule of some mode.
struct Rule {
    care: u8,
    value: u8,
    next: u8,
}

impl Rule {
    fn matches(&self, combination: usize) -> bool {
        combination as u8 & self.care == self.value
    }
}

/// A number for each pair, by mode and then combination.
pub type Pairs = [u8; MOST_PAIRS];

pub const NO_PAIRS: Pairs = [0; MOST_PAIRS];

/// A refusal, and mode and combination of the first bad pair or zeros.
pub type Fault = (u32, u32, u32);

/// Checks a chart: the refusal or 0, then mode and combination of the first bad
/// pair or zeros.
pub fn check(text: &[u8]) -> Fault {
    let mut counts = NO_PAIRS;
    let read = read_text(text, |pairs, rule| {
        for (combination, count) in counts[pairs].iter_mut().enumerate() {
            *count = count.saturating_add(u8::from(rule.matches(combination)));
        }
    });
    judged(read, &counts).err().unwrap_or_default()
}

/// Reads a chart and the next mode of each pair: where the last rule leads that
/// matches.
pub fn read(text: &[u8], next: &mut Pairs) -> Result<Chart, Fault> {
    let mut counts = NO_PAIRS;
    let read = read_text(text, |pairs, rule| {
        let cells = counts[pairs.clone()].iter_mut().zip(&mut next[pairs]);
        for (combination, (count, cell)) in cells.enumerate() {
            let matches = rule.matches(combination);
            *count = count.saturating_add(u8::from(matches));
            *cell = if matches { rule.next } else { *cell };
        }
    });
    judged(read, &counts)
}

/// What a text is, by the chart read of it and how many rules, up to 255, each
/// pair has.
fn judged(read: Option<Chart>, counts: &Pairs) -> Result<Chart, Fault> {
    let chart = read.ok_or((WRONG, 0, 0))?;
    first_bad_pair(&chart, counts).map_or(Ok(chart), Err)
}

/// The first pair that has not just one rule.
fn first_bad_pair(chart: &Chart, rules: &Pairs) -> Option<Fault> {
    let combinations = chart.combinations();
    let rules = &rules[..chart.modes * combinations];
    let bad = rules.iter().position(|&rules| rules != 1)?;
    let refusal = if rules[bad] == 0 { NO_RULE } else { TWO_RULES };
    let (mode, combination) = (bad / combinations, bad % combinations);
    Some((refusal, mode as u32, combination as u32))
}

/// Reads a chart, and hands on each rule with the places of its mode's pairs;
/// nothing if its text is wrong.
fn read_text(text: &[u8], each: impl FnMut(Range<usize>, Rule)) -> Option<Chart> {
    if text.len() > LONGEST_FILE {
        return None;
    }
    let cursor = &mut Cursor { rest: text };
    let mut chart = read_counts(cursor)?;
    cursor.words(MODE_NAMES)?;
    chart.names_at = text.len() - cursor.rest.len();
    for _ in 0..chart.modes {
        read_name(cursor)?;
    }
    cursor.words(RULE_NAMES)?;
    read_rules(cursor, &chart, each)?;
    Some(chart)
}

fn read_counts(cursor: &mut Cursor) -> Option<Chart> {
    cursor.words(COUNT_NAMES)?;
    let version = cursor.number(b' ')?;
    let modes = cursor.number(b' ')? as usize;
    let start = cursor.number(b' ')? as usize;
    let flags = cursor.number(b'\n')? as usize;
    let in_range = version == 1
        && (1..=MOST_MODES).contains(&modes)
        && start < modes
        && (1..=MOST_FLAGS).contains(&flags);
    in_range.then_some(Chart {
        modes,
        start,
        flags,
        names_at: 0,
    })
}

/// Reads the line of a name.
fn read_name(cursor: &mut Cursor) -> Option<()> {
    let fits = |byte: &&u8| byte.is_ascii_alphanumeric();
    let length = cursor.rest.iter().take_while(fits).count();
    if !(1..=LONGEST_NAME).contains(&length) {
        return None;
    }
    cursor.rest = cursor.rest[length..].strip_prefix(b"\n")?;
    Some(())
}

/// Reads the rules, to the text's end.
fn read_rules(
    cursor: &mut Cursor,
    chart: &Chart,
    mut each: impl FnMut(Range<usize>, Rule),
) -> Option<()> {
    let mut rules = 0;
    while !cursor.rest.is_empty() {
        let mode = cursor.number(b' ')? as usize;
        let care = cursor.number(b' ')?;
        let value = cursor.number(b' ')?;
        let next = cursor.number(b'\n')? as usize;
        let right = rules < MOST_RULES
            && mode < chart.modes
            && (care as usize) < chart.combinations()
            && value & !care == 0
            && next < chart.modes;
        if !right {
            return None;
        }
        let rule = Rule {
            care: care as u8,
            value: value as u8,
            next: next as u8,
        };
        each(chart.pairs_of(mode), rule);
        rules += 1;
    }
    Some(())
}
