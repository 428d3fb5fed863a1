//! Claims of the greatest length, or a few bytes less, each mostly of one kind
//! of piece. All have 15 states and 8 propositions.

use inputs::rng::Rng;
use reference::claim::{LIMITS, MOST_STATES};

use crate::readers::Text;

const SEED: u64 = 16_384;
const PROPOSITIONS: usize = LIMITS.propositions as usize;
const OPENING: &str = "HOA: v1\n";
const HEADER: &str = "States: 15\n\
    Start: 0\n\
    AP: 8 \"a\" \"b\" \"c\" \"d\" \"e\" \"f\" \"g\" \"h\"\n\
    acc-name: Buchi\n\
    Acceptance: 1 Inf(0)\n\
    properties: trans-labels explicit-labels state-acc\n";
const BODY: &str = "--BODY--\n";
const END: &str = "--END--\n";

/// One claim of each kind, and one that is refused at its end.
pub fn examples() -> Vec<Text> {
    let mut rng = Rng::new(SEED);
    let brackets = with_edges(|| format!("[{}] {}\n", any(&mut rng, 2), target(&mut rng)));
    let torn = brackets[..brackets.len() - END.len()].to_string();
    let products = with_edges(|| format!("[{}] {}\n", product(&mut rng), target(&mut rng)));
    let short = with_edges(|| "[t]0".to_owned());
    let letters = with_edges(|| "[f|f|f|f]0".to_owned());
    let examples = [
        ("labels with brackets", brackets),
        ("labels of all propositions", products),
        ("edges [t]0", short),
        ("edges [f|f|f|f]0", letters),
        ("skipped headers", with_items(skipped_item)),
        ("headers of one letter", with_items(|_| "y: ".to_owned())),
        ("blanks", with_blanks()),
        ("the first one, torn at its end", torn),
    ];
    let example = |(name, text): (_, String)| Text {
        name,
        text: text.into_bytes(),
    };
    examples.map(example).into()
}

/// The lines of all states, with as many edges as there is room for.
fn with_edges(mut edge: impl FnMut() -> String) -> String {
    let mut text = [OPENING, HEADER, BODY].concat();
    let lines = text.len();
    let room = LIMITS.bytes - lines - END.len();
    let mut next = edge();
    for state in 0..MOST_STATES {
        text += &first_of_line(state);
        let end = lines + room * (state + 1) / MOST_STATES;
        while text.len() + next.len() <= end {
            text += &next;
            next = edge();
        }
    }
    text + END
}

fn first_of_line(state: usize) -> String {
    let mark = ["", " {0}"][state % 2];
    format!("State: {state} \"state {state}\"{mark}\n")
}

fn short_lines() -> String {
    let line = |state| format!("{}[t] {state}\n", first_of_line(state));
    (0..MOST_STATES).map(line).collect()
}

/// As many items in front of the header as there is room for.
fn with_items(item: fn(usize) -> String) -> String {
    let rest = [HEADER, BODY, &short_lines(), END].concat();
    let mut text = OPENING.to_owned();
    for number in 0.. {
        let item = item(number);
        if text.len() + item.len() + rest.len() > LIMITS.bytes {
            break;
        }
        text += &item;
    }
    text + &rest
}

fn skipped_item(number: usize) -> String {
    match number % 3 {
        0 => {
            format!("name: \"G(\\\"a\\\" -> F(b & X c)), part {number} of the mission's claims\"\n")
        }
        1 => "properties: trans-labels explicit-labels state-acc deterministic\n".to_owned(),
        _ => format!("tool: \"ltl2tgba\" \"2.12\" {number}\n"),
    }
}

/// A claim with the same number of blanks before each of its lines.
fn with_blanks() -> String {
    let text = [OPENING, HEADER, BODY, &short_lines(), END].concat();
    let blanks = (LIMITS.bytes - text.len()) / text.lines().count();
    let indented = |line| format!("{:blanks$}{line}\n", "");
    text.lines().map(indented).collect()
}

fn target(rng: &mut Rng) -> usize {
    rng.below(MOST_STATES)
}

/// Two or three parts, brackets within them at most so deep.
fn any(rng: &mut Rng, depth: usize) -> String {
    joined(rng, " | ", |rng| joined(rng, "&", |rng| atom(rng, depth)))
}

fn joined(rng: &mut Rng, sign: &str, mut part: impl FnMut(&mut Rng) -> String) -> String {
    let count = 2 + rng.below(2);
    let parts: Vec<String> = (0..count).map(|_| part(rng)).collect();
    parts.join(sign)
}

fn atom(rng: &mut Rng, depth: usize) -> String {
    let sign = rng.pick(&["", "!"]);
    if depth > 0 && rng.chance(1, 4) {
        format!("{sign}({})", any(rng, depth - 1))
    } else {
        format!("{sign}{}", rng.below(PROPOSITIONS))
    }
}

/// Every proposition or its negation.
fn product(rng: &mut Rng) -> String {
    let atom = |number| format!("{}{number}", rng.pick(&["", "!"]));
    let atoms: Vec<String> = (0..PROPOSITIONS).map(atom).collect();
    atoms.join("&")
}
