//! Charts and claims that go together, and answers to the cases of them. All
//! but the example have 32 modes, 15 states and 8 flags.

use inputs::charts::{chart_of, text_of};
use plain::product::{LEAST_OUTPUT, build_case};
use reference::answer::Answer;
use reference::case::{self, Case};
use reference::chart::{LIMITS, Rule};
use reference::claim::MOST_STATES;
use reference::entries::Report;
use reference::run::by_rounds;

/// The longest stem and the longest cycle of an answer.
const MOST_WALKED: usize = 500;
/// So many modes and so many states go round; together they are back where
/// they were after 100 steps, and so after 500.
const RING_MODES: usize = 25;
const RING_STATES: usize = 4;
/// As many rules as a mode can have if all have as many.
const RULES: usize = 16;
/// Whether it is true depends on six flags, not on the last two.
const LABEL: &str = "0&!1 | 2&!(3 | 4&5)";

/// A chart and a claim with a name for the table.
pub struct Pair {
    pub name: &'static str,
    pub chart: Vec<u8>,
    pub claim: Vec<u8>,
}

/// A pair and an answer to its case.
pub struct Answered {
    pub pair: Pair,
    pub answer: Vec<u8>,
}

/// Pairs with few edges, with many, and with too many: told at the last mode,
/// and told at the first.
pub fn pairs() -> Vec<Pair> {
    let third_in_the_last = |mode, rule| match (mode, rule) {
        (31, 0) => 1,
        _ => one_of_two(mode, rule),
    };
    let any = |mode, rule| (mode + rule) % LIMITS.modes;
    let pair = |name, chart: String, claim: String| Pair {
        name,
        chart: chart.into_bytes(),
        claim: claim.into_bytes(),
    };
    vec![
        example("examples/photo.chart"),
        pair("480 edges", chart(1, ring_mode), claim(one_edge, true)),
        pair(
            "1,984 edges",
            chart(RULES, one_of_two),
            claim(few_edges, true),
        ),
        pair(
            "2,015 edges",
            chart(RULES, third_in_the_last),
            claim(few_edges, true),
        ),
        pair(
            "115,200 edges",
            chart(RULES, any),
            claim(|_| all_edges("t"), true),
        ),
        pair(
            "115,200 edges, long labels",
            chart(RULES, any),
            claim(|_| all_edges(LABEL), true),
        ),
    ]
}

/// The longest listing, one that is false at its last edge, and an "empty".
pub fn answered() -> Vec<Answered> {
    let pair = |name, marked| Pair {
        name,
        chart: chart(RULES, one_of_two).into_bytes(),
        claim: claim(few_edges, marked).into_bytes(),
    };
    let (longest, empty) = (
        pair("a lasso of 1,000 edges", true),
        pair("an empty", false),
    );
    let walk = rounds_of_the_ring(&case_of(&longest));
    let mut untrue = walk.clone();
    untrue[2 * MOST_WALKED - 1] += 1;
    let found = Report::of(&by_rounds(&case_of(&empty))).answer;
    let found = found.expect("a run by rounds ends");
    vec![
        Answered {
            pair: example("examples/photo-gusts.answer"),
            answer: include_bytes!("../../../examples/photo-gusts.answer").into(),
        },
        answered_by(longest, lasso(&walk)),
        answered_by(
            pair("the same, false at its last edge", true),
            lasso(&untrue),
        ),
        answered_by(empty, found),
    ]
}

fn answered_by(pair: Pair, answer: Answer) -> Answered {
    Answered {
        pair,
        answer: answer.text().into_bytes(),
    }
}

fn example(name: &'static str) -> Pair {
    Pair {
        name,
        chart: include_bytes!("../../../examples/photo.chart").into(),
        claim: include_bytes!("../../../examples/claim-gusts-no-photo.hoa").into(),
    }
}

/// A chart in which each mode has so many rules, by the last flags.
fn chart(rules: usize, next: impl Fn(usize, usize) -> usize) -> String {
    let mut chart = chart_of(LIMITS.modes, 0, LIMITS.flags);
    let step = (1 << LIMITS.flags) / rules;
    for mode in 0..LIMITS.modes {
        chart.names[mode] = format!("Mode{mode:0>12}").into_bytes();
        chart.rules.extend((0..rules).map(|rule| Rule {
            mode,
            care: (1 << LIMITS.flags) - step,
            value: rule * step,
            next: next(mode, rule),
        }));
    }
    String::from_utf8(text_of(&chart)).expect("a chart is plain text")
}

fn ring_mode(mode: usize, _rule: usize) -> usize {
    if mode < RING_MODES {
        (mode + 1) % RING_MODES
    } else {
        0
    }
}

/// Where the last flag is off, the ring goes on.
fn one_of_two(mode: usize, rule: usize) -> usize {
    if rule < RULES / 2 {
        ring_mode(mode, rule)
    } else {
        (mode + 9) % LIMITS.modes
    }
}

/// A claim with these edges, every other state accepting or none.
fn claim(edges: impl Fn(usize) -> String, marked: bool) -> String {
    let mut text = "HOA: v1\nStates: 15\nStart: 0\n\
        AP: 8 \"a\" \"b\" \"c\" \"d\" \"e\" \"f\" \"g\" \"h\"\n\
        acc-name: Buchi\nAcceptance: 1 Inf(0)\n--BODY--\n"
        .to_owned();
    for state in 0..MOST_STATES {
        let name = format!("after {state} events without landing");
        let mark = if marked && state % 2 == 0 { "{0}" } else { "" };
        text += &format!("State: {state} \"{name:.<32}\" {mark}\n{}", edges(state));
    }
    text + "--END--\n"
}

fn one_edge(state: usize) -> String {
    let target = if state < RING_STATES {
        (state + 1) % RING_STATES
    } else {
        0
    };
    format!("[t] {target}\n")
}

/// Two, and three from state 0. Whether a label is true does not depend on the
/// last flag.
fn few_edges(state: usize) -> String {
    let third = if state == 0 { "[!6] 14\n" } else { "" };
    let stay = format!("[{LABEL}] {state}\n");
    [&one_edge(state), &stay, third].concat()
}

/// One to each state, all with this label.
fn all_edges(label: &str) -> String {
    let edge = |target| format!("[{label}] {target}\n");
    (0..MOST_STATES).map(edge).collect()
}

fn case_of(pair: &Pair) -> Case {
    let mut output = vec![0; LEAST_OUTPUT];
    let built = build_case(&pair.chart, &pair.claim, 1, &mut output);
    case::read(&output[..built.written as usize]).expect("what is built is accepted")
}

/// The longest walk round the ring, by edge numbers.
fn rounds_of_the_ring(case: &Case) -> Vec<usize> {
    let vertex = |step| step % RING_MODES * MOST_STATES + step % RING_STATES;
    let edge = |step| (vertex(step), vertex(step + 1));
    let number = |step| case.edges.binary_search(&edge(step));
    (0..2 * MOST_WALKED)
        .map(|step| number(step).expect("the ring is there"))
        .collect()
}

fn lasso(walk: &[usize]) -> Answer {
    let (stem, cycle) = walk.split_at(MOST_WALKED);
    Answer::Lasso {
        stem: stem.into(),
        cycle: cycle.into(),
    }
}
