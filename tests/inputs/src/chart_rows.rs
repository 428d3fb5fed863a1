//! Texts for each reading that was settled of the customer's request on
//! charts, with what their check returns.

use reference::entries::Charted;

use crate::charts::{chart_of, greatest_chart, text_of, with_whole_rules};

/// How many readings there are.
pub const READINGS: usize = 13;

/// Texts, each with what its check returns.
pub type Rows = Vec<(Vec<u8>, Charted)>;

/// The limits stand here once more, and not as the reference has them, so that
/// the rows show a wrong one there.
const MOST_MODES: usize = 32;
const MOST_FLAGS: usize = 8;
const LONGEST_NAME: usize = 16;
const LONGEST_FILE: usize = 65_536;

/// The lines of a right chart: the first flag chooses in mode 1.
const LINES: [&str; 9] = [
    "version modes start flags",
    "1 2 0 2",
    "name",
    "Hold",
    "climb2",
    "mode care value next",
    "0 0 0 1",
    "1 1 0 1",
    "1 1 1 0",
];

// Places of lines.
const COUNTS: usize = 1;
const FIRST_NAME: usize = 3;
const LAST_NAME: usize = 4;
const FIRST_RULE: usize = 6;
const SECOND_RULE: usize = 7;
const LAST_RULE: usize = 8;

const TAKEN: Charted = Charted {
    refusal: 0,
    mode: 0,
    combination: 0,
};
const WRONG: Charted = Charted {
    refusal: 17,
    ..TAKEN
};

fn no_rule(mode: u32, combination: u32) -> Charted {
    Charted {
        refusal: 18,
        mode,
        combination,
    }
}

fn two_rules(mode: u32, combination: u32) -> Charted {
    Charted {
        refusal: 19,
        mode,
        combination,
    }
}

/// The rows of one reading, by its number.
pub fn rows(reading: usize) -> Rows {
    match reading {
        1 => titles(),
        2 => [lines(), fields()].concat(),
        3 => numbers(),
        4 => versions(),
        5 => counts(),
        6 => names(),
        7 => [cares_and_values(), modes_of_rules()].concat(),
        8 => counts_of_rules(),
        9 => ends(),
        10 => matches(),
        11 => [first_bad_pairs(), bad_pairs_of_the_last_mode()].concat(),
        12 => wrong_goes_first(),
        13 => lengths(),
        _ => panic!("no reading {reading}"),
    }
}

/// The text of lines, each with its line feed.
fn text(lines: &[&[u8]]) -> Vec<u8> {
    lines
        .iter()
        .flat_map(|line| [line, &b"\n"[..]].concat())
        .collect()
}

fn right() -> Vec<u8> {
    text(&LINES.map(str::as_bytes))
}

/// The right chart with another line in this place.
fn with_line(place: usize, line: &[u8]) -> Vec<u8> {
    let mut lines = LINES.map(str::as_bytes);
    lines[place] = line;
    text(&lines)
}

/// The right chart with each of these lines in this place is wrong.
fn wrong_lines(place: usize, lines: &[&str]) -> Rows {
    let row = |line: &&str| (with_line(place, line.as_bytes()), WRONG);
    lines.iter().map(row).collect()
}

/// A chart of two modes and two flags with these rules, one in each line.
fn with_rules(rules: &str) -> Vec<u8> {
    let front = text(&LINES.map(str::as_bytes)[..FIRST_RULE]);
    let rules: Vec<&[u8]> = rules.split(", ").map(str::as_bytes).collect();
    [front, text(&rules)].concat()
}

/// A line with the first gap between its fields widened, and made a tab.
fn with_odd_gap(line: &str) -> [String; 2] {
    ["  ", "\t"].map(|gap| line.replacen(' ', gap, 1))
}

fn titles() -> Rows {
    let mut rows = vec![(right(), TAKEN)];
    for (place, others) in [
        (0, ["version modes flags start", "version vertices edges"]),
        (2, ["names", "vertex accepting owner"]),
        (5, ["mode value care next", "from to"]),
    ] {
        let title = LINES[place];
        rows.extend(wrong_lines(place, &others));
        rows.extend(wrong_lines(place, &[&title[1..], &title[..3]]));
        for frame in [" {}", "{} ", "{}s", "{}\r", "{}\0", "{}\t"] {
            rows.extend(wrong_lines(place, &[&frame.replace("{}", title)]));
        }
        rows.extend(wrong_lines(place, &[&title.to_uppercase()]));
        if title.contains(' ') {
            let [wide, tab] = with_odd_gap(title);
            rows.extend(wrong_lines(place, &[&wide, &tab]));
        }
    }
    rows
}

/// Lines left out, doubled, swapped with the one before, and ended in other
/// ways.
fn lines() -> Rows {
    let lines = LINES.map(str::as_bytes);
    let mut rows = Rows::new();
    for place in 0..LINES.len() {
        let (missing, doubled) = match place {
            FIRST_RULE => (no_rule(0, 0), two_rules(0, 0)),
            SECOND_RULE => (no_rule(1, 0), two_rules(1, 0)),
            LAST_RULE => (no_rule(1, 1), two_rules(1, 1)),
            _ => (WRONG, WRONG),
        };
        let (before, with_after) = (&lines[..place], &lines[place..]);
        rows.push((text(&[before, &with_after[1..]].concat()), missing));
        rows.push((
            text(&[before, &with_after[..1], with_after].concat()),
            doubled,
        ));
        if place > 0 {
            let mut swapped = lines;
            swapped.swap(place - 1, place);
            let free = [LAST_NAME, SECOND_RULE, LAST_RULE].contains(&place);
            rows.push((text(&swapped), if free { TAKEN } else { WRONG }));
        }
        rows.extend(wrong_lines(place, &["", " ", "\r", "#"]));
    }
    for end in ["\r\n", "\r", "\n\n", " \n", "\0"] {
        let text = String::from_utf8(right()).expect("the right chart is plain");
        rows.push((text.replace('\n', end).into(), WRONG));
    }
    rows
}

fn fields() -> Rows {
    let mut rows = Rows::new();
    for place in [COUNTS, FIRST_RULE, LAST_RULE] {
        let line = LINES[place];
        let [wide, tab] = with_odd_gap(line);
        rows.extend(wrong_lines(place, &[&wide, &tab, &line[2..], &line[..5]]));
        for frame in [" {}", "{} ", "{} 0", "{}\r", "{}\0", "{},", "{} \u{661}"] {
            rows.extend(wrong_lines(place, &[&frame.replace("{}", line)]));
        }
    }
    rows
}

/// Every number of line 2 and of a rule in spellings that are none, also such
/// as would become the right number if digits were cut off.
fn numbers() -> Rows {
    let mut rows = Rows::new();
    for place in [COUNTS, FIRST_RULE, LAST_RULE] {
        for field in 0..4 {
            let fields: Vec<&str> = LINES[place].split(' ').collect();
            let number: u128 = fields[field].parse().expect("a number");
            let wrapped = [1 << 8, 1 << 16, 1 << 32, 1 << 64].map(|turn: u128| turn + number);
            let mut odd: Vec<String> = wrapped.map(|number| number.to_string()).into();
            for frame in "0{} 00000000{} 000000000{} +{} -{} {}x {}.0 x{}".split(' ') {
                odd.push(frame.replace("{}", fields[field]));
            }
            odd.extend(["", "999999999", "1000000000", "/", ":", "x"].map(str::to_owned));
            for odd in odd {
                let mut fields = fields.clone();
                fields[field] = &odd;
                rows.extend(wrong_lines(place, &[&fields.join(" ")]));
            }
        }
    }
    rows
}

fn versions() -> Rows {
    let mut rows = vec![(b"version x\n2".to_vec(), WRONG)];
    for version in "0 2 3 10 11 01 -1 257 999999999 4294967297".split(' ') {
        rows.extend(wrong_lines(COUNTS, &[&format!("{version} 2 0 2")]));
    }
    rows
}

fn counts() -> Rows {
    let row = |modes: usize, start: usize, flags: usize| {
        let in_range =
            (1..=MOST_MODES).contains(&modes) && start < modes && (1..=MOST_FLAGS).contains(&flags);
        let want = if in_range { TAKEN } else { WRONG };
        (text_of(&with_whole_rules(modes, start, flags)), want)
    };
    let mut rows = Rows::new();
    for modes in [0_usize, 1, 2, 3, 16, 31, 32, 33, 34, 64, 256, 257] {
        for start in [0, modes.saturating_sub(1), modes, modes + 1] {
            rows.push(row(modes, start, 1));
        }
        rows.push(row(modes, 32, 1));
    }
    for flags in (0..=17).chain([31, 32, 33, 63, 64, 65, 256, 257, 264]) {
        rows.push(row(1, 0, flags));
        rows.push(row(32, 31, flags));
    }
    // More names or fewer than modes.
    rows.extend(wrong_lines(
        COUNTS,
        &["1 1 0 2", "1 3 0 2", "1 0 0 2", "1 32 0 2"],
    ));
    rows
}

fn names() -> Rows {
    let mut rows = Rows::new();
    for place in [FIRST_NAME, LAST_NAME] {
        for length in [0, 1, 2, 15, 16, 17, 18, 32, 33, 256, 257, 272] {
            let in_range = (1..=LONGEST_NAME).contains(&length);
            let want = if in_range { TAKEN } else { WRONG };
            rows.push((with_line(place, &vec![b'n'; length]), want));
        }
        for byte in 0..=255 {
            let taken = matches!(byte, b'A'..=b'Z' | b'a'..=b'z' | b'0'..=b'9');
            let want = if taken { TAKEN } else { WRONG };
            for name in [
                &[byte][..],
                &[byte, b'a'],
                &[b'a', byte],
                &[b'Z', byte, b'9'],
            ] {
                rows.push((with_line(place, name), want));
            }
        }
        for name in [
            "Hold",
            "climb2",
            "0",
            "007",
            "name",
            "version",
            "0123456789abcdeF",
        ] {
            rows.push((with_line(place, name.as_bytes()), TAKEN));
        }
        rows.extend(wrong_lines(
            place,
            &["a b", " a", "a ", "a\r", "_", "a-b", "\u{e9}"],
        ));
    }
    rows
}

/// A chart of one mode with one rule, which is the same but for these numbers.
fn alone(flags: usize, care: usize, value: usize) -> Vec<u8> {
    let mut chart = with_whole_rules(1, 0, flags);
    chart.rules[0].care = care;
    chart.rules[0].value = value;
    text_of(&chart)
}

fn cares_and_values() -> Rows {
    let mut rows = Rows::new();
    // The first combination that care and value leave without a rule.
    let first_left = [
        (1, 0, 1),
        (1, 1, 0),
        (2, 0, 2),
        (2, 2, 0),
        (3, 0, 1),
        (3, 3, 0),
    ];
    for (care, value, first) in first_left {
        rows.push((alone(2, care, value), no_rule(0, first)));
        rows.push((alone(8, care, value), no_rule(0, first)));
    }
    for flags in 1..=MOST_FLAGS {
        let bit = 1 << flags;
        rows.push((alone(flags, bit / 2, 0), no_rule(0, bit as u32 / 2)));
        rows.push((alone(flags, bit - 1, bit - 1), no_rule(0, 0)));
        for (care, value) in [
            (bit, 0),
            (bit, bit),
            (2 * bit - 1, 0),
            (bit + 1, 1),
            (256, 0),
        ] {
            rows.push((alone(flags, care, value), WRONG));
        }
        for care in [0, bit / 2 - 1, bit - 1] {
            let bits = (0..12).map(|flag| 1 << flag);
            for outside in bits.filter(|bit| care & bit == 0) {
                rows.push((alone(flags, care, outside), WRONG));
                rows.push((alone(flags, care, care | outside), WRONG));
            }
        }
    }
    rows
}

fn modes_of_rules() -> Rows {
    let mut rows = Rows::new();
    for place in FIRST_RULE..=LAST_RULE {
        for wrong in [
            "2 0 0 0", "0 0 0 2", "32 0 0 0", "0 0 0 32", "0 4 0 0", "0 1 2 0",
        ] {
            rows.extend(wrong_lines(place, &[wrong]));
        }
    }
    for modes in [1, 31, 32] {
        let mut chart = with_whole_rules(modes, 0, 1);
        chart.rules[0].next = modes - 1;
        rows.push((text_of(&chart), TAKEN));
        chart.rules[0].next = modes;
        rows.push((text_of(&chart), WRONG));
        chart.rules[0].mode = modes;
        chart.rules[0].next = 0;
        rows.push((text_of(&chart), WRONG));
    }
    rows
}

fn counts_of_rules() -> Rows {
    let mut rows = Rows::new();
    for modes in [2, 4, 8, 16, 32] {
        let chart = greatest_chart(modes);
        let last = chart.rules[511];
        let of = |count: usize| {
            let mut chart = chart.clone();
            chart.rules.resize(count, last);
            text_of(&chart)
        };
        let (last_mode, last_value) = (last.mode as u32, last.value as u32);
        rows.push((of(512), TAKEN));
        rows.push((of(511), no_rule(last_mode, last_value)));
        rows.extend([513, 514, 768, 1_023, 1_024, 1_025].map(|count| (of(count), WRONG)));
        // As many rules as there may be, one of them twice.
        let mut doubled = chart.clone();
        doubled.rules[0] = last;
        rows.push((text_of(&doubled), no_rule(0, 0)));
        doubled.rules[0] = chart.rules[0];
        doubled.rules[511] = chart.rules[0];
        rows.push((text_of(&doubled), two_rules(0, 0)));
    }
    let mut same = with_whole_rules(1, 0, 1);
    for (count, want) in [
        (0, no_rule(0, 0)),
        (2, two_rules(0, 0)),
        (512, two_rules(0, 0)),
    ] {
        same.rules.resize(count, with_whole_rules(1, 0, 1).rules[0]);
        rows.push((text_of(&same), want));
    }
    same.rules.resize(513, same.rules[0]);
    rows.push((text_of(&same), WRONG));
    rows
}

fn ends() -> Rows {
    let front = text(&LINES.map(str::as_bytes)[..FIRST_RULE]);
    let mut rows = vec![
        (Vec::new(), WRONG),
        (front.clone(), no_rule(0, 0)),
        (front[..front.len() - 1].to_vec(), WRONG),
        (text_of(&chart_of(32, 0, 8)), no_rule(0, 0)),
        ([right(), right()].concat(), WRONG),
    ];
    for rest in [
        "\n", " ", "0", "\0", "\r\n", "\r", "x", "\n\n", "0 0 0 0", "0 0 0 1", "0 0", "#\n",
    ] {
        rows.push(([&right(), rest.as_bytes()].concat(), WRONG));
        rows.push(([&front, rest.as_bytes()].concat(), WRONG));
    }
    for rest in [
        "0 0 0 0\n\n",
        "0 0 0 0\n0",
        "\n0 0 0 0\n",
        "0 0 0 0\r\n",
        "0 0 0 0 \n",
        "0 0 0\n",
    ] {
        rows.push(([&right(), rest.as_bytes()].concat(), WRONG));
    }
    // Each cut: only after a rule, or before all of them, is there a chart.
    let right = right();
    for length in 0..right.len() {
        let want = match right.len() - length {
            8 => no_rule(1, 1),
            16 => no_rule(1, 0),
            24 => no_rule(0, 0),
            _ => WRONG,
        };
        rows.push((right[..length].to_vec(), want));
    }
    rows
}

/// What a rule matches, by charts of two modes and two flags.
fn matches() -> Rows {
    let rows = [
        ("0 0 0 0, 1 0 0 0", TAKEN),
        ("1 0 0 0, 0 0 0 0", TAKEN),
        ("0 1 0 0, 0 1 1 1, 1 2 0 0, 1 2 2 1", TAKEN),
        ("0 3 0 0, 0 3 1 0, 0 3 2 0, 0 3 3 0, 1 0 0 0", TAKEN),
        (
            "0 3 3 0, 0 1 0 0, 0 3 1 0, 1 2 2 1, 1 3 0 0, 1 3 1 1",
            TAKEN,
        ),
        ("0 1 0 0, 1 0 0 0", no_rule(0, 1)),
        ("0 1 1 0, 1 0 0 0", no_rule(0, 0)),
        ("0 2 0 0, 1 0 0 0", no_rule(0, 2)),
        ("0 0 0 0, 1 2 2 0", no_rule(1, 0)),
        ("0 0 0 0, 1 1 0 0, 1 3 1 0", no_rule(1, 3)),
        ("0 0 0 0, 1 1 0 0, 1 3 3 0", no_rule(1, 1)),
        ("0 0 0 0, 1 2 2 0, 1 3 1 0", no_rule(1, 0)),
        ("0 0 0 0", no_rule(1, 0)),
        ("1 0 0 0", no_rule(0, 0)),
        ("0 0 0 0, 0 0 0 0, 1 0 0 0", two_rules(0, 0)),
        ("0 0 0 0, 0 0 0 1, 1 0 0 0", two_rules(0, 0)),
        ("0 0 0 0, 0 3 3 0, 1 0 0 0", two_rules(0, 3)),
        ("0 0 0 0, 1 0 0 0, 1 2 2 0", two_rules(1, 2)),
        ("0 0 0 0, 1 1 0 0, 1 1 1 0, 1 2 2 0", two_rules(1, 2)),
        ("0 0 0 0, 1 1 0 0, 1 1 1 0, 1 3 1 0", two_rules(1, 1)),
        ("0 1 0 0, 0 2 0 0, 0 3 3 0, 1 0 0 0", two_rules(0, 0)),
        ("0 0 0 0, 0 0 0 0, 0 0 0 0, 1 0 0 0", two_rules(0, 0)),
    ];
    rows.map(|(rules, want)| (with_rules(rules), want)).into()
}

/// Charts with bad pairs of both kinds, or with several of one.
fn first_bad_pairs() -> Rows {
    let rows = [
        // A gap, and then an overlap: in one mode, and in the next.
        ("0 3 1 0, 0 3 2 0, 0 3 3 0, 0 3 3 0, 1 0 0 0", no_rule(0, 0)),
        ("0 1 0 0, 0 3 2 1, 1 0 0 0", no_rule(0, 1)),
        ("0 2 0 0, 0 3 3 0, 1 0 0 0, 1 0 0 0", no_rule(0, 2)),
        ("1 0 0 0, 1 0 0 0", no_rule(0, 0)),
        ("1 0 0 0, 1 0 0 0, 0 2 0 0, 0 3 2 0", no_rule(0, 3)),
        // An overlap, and then a gap.
        ("0 1 0 0, 0 3 0 0, 1 0 0 0", two_rules(0, 0)),
        ("0 2 0 0, 0 3 1 0, 1 0 0 0", two_rules(0, 1)),
        ("0 0 0 0, 0 3 3 0", two_rules(0, 3)),
        ("0 3 3 0, 0 0 0 0, 1 3 0 0", two_rules(0, 3)),
        ("0 0 0 0, 1 2 0 0, 1 1 1 1", two_rules(1, 1)),
        // By mode and then combination, not the other way.
        ("0 2 0 0, 0 3 2 0", no_rule(0, 3)),
        ("0 0 0 0, 0 3 3 0, 1 0 0 0, 1 3 0 0", two_rules(0, 3)),
        ("1 3 0 0, 1 0 0 0, 0 3 2 0, 0 0 0 0", two_rules(0, 2)),
        // The first of several.
        ("0 3 2 0, 1 0 0 0", no_rule(0, 0)),
        ("0 3 0 0, 1 3 0 0", no_rule(0, 1)),
        ("0 0 0 0, 0 2 2 0, 1 0 0 0, 1 0 0 0", two_rules(0, 2)),
    ];
    rows.map(|(rules, want)| (with_rules(rules), want)).into()
}

/// Charts of many modes and flags in which only the last mode has bad pairs.
fn bad_pairs_of_the_last_mode() -> Rows {
    let mut rows = Rows::new();
    for modes in [31, 32] {
        let last = modes - 1;
        let mut chart = with_whole_rules(modes, 0, 8);
        chart.rules[last].care = 255;
        chart.rules[last].value = 254;
        rows.push((text_of(&chart), no_rule(last as u32, 0)));
        chart.rules.push(with_whole_rules(modes, 0, 8).rules[last]);
        rows.push((text_of(&chart), two_rules(last as u32, 254)));
        chart.rules.rotate_right(1);
        rows.push((text_of(&chart), two_rules(last as u32, 254)));
    }
    rows
}

/// Bad pairs, and a fault of layout or range somewhere after them.
fn wrong_goes_first() -> Rows {
    let mut rows = Rows::new();
    for front in [
        "0 0 0 0",
        "0 3 1 0",
        "0 0 0 0, 0 0 0 0",
        "1 0 0 0",
        "1 1 1 1, 1 1 1 1",
    ] {
        for wrong in [
            "2 0 0 0", "0 0 0 2", "0 4 4 0", "0 1 2 0", "0 0 1 0", "00 0 0 0", "", "0 0 0",
        ] {
            rows.push((with_rules(&format!("{front}, {wrong}")), WRONG));
            rows.push((with_rules(&format!("{wrong}, {front}")), WRONG));
        }
        let torn = with_rules(front);
        rows.push((torn[..torn.len() - 1].to_vec(), WRONG));
        for (place, line) in [
            (COUNTS, "2 2 0 2"),
            (COUNTS, "1 2 2 2"),
            (FIRST_NAME, "a b"),
        ] {
            let text = String::from_utf8(with_rules(front)).expect("a plain chart");
            let changed = text.replacen(LINES[place], line, 1);
            rows.push((changed.into(), WRONG));
        }
    }
    rows
}

/// No right chart is so long that its length would matter.
fn lengths() -> Rows {
    let mut rows = Rows::new();
    for length in [
        LONGEST_FILE - 1,
        LONGEST_FILE,
        LONGEST_FILE + 1,
        2 * LONGEST_FILE,
    ] {
        for filler in ["0 0 0 1\n", "\n", " ", "0", "\0"] {
            let mut text = right();
            text.extend(filler.bytes().cycle().take(length - text.len()));
            rows.push((text, WRONG));
        }
        rows.push((
            with_line(LAST_NAME, &vec![b'n'; length - right().len() + 6]),
            WRONG,
        ));
        rows.push((vec![b'x'; length], WRONG));
    }
    rows
}
