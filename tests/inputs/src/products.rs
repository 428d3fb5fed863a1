//! Charts and claims that go together: an example, some whose product has a
//! known number of edges, the greatest, every small one, and random ones.

use reference::answer::Answer;
use reference::case::MOST_EDGES;
use reference::chart::{Chart, LIMITS, Rule};

use crate::charts::{chart_of, greatest_chart, random_cover};
use crate::claims::{greatest_claim, random_claim, random_claim_on};
use crate::rng::Rng;

/// Edges that an answer has at most in its stem, and in its cycle.
const MOST_LISTED: usize = 500;

/// A call of one of the entries that take a chart and a claim.
#[derive(Clone, Debug)]
pub struct Call {
    pub chart: Vec<u8>,
    pub claim: Vec<u8>,
    pub making: Making,
    /// The output's length.
    pub output: usize,
}

/// What a call makes: the case file for so many workers, or the steps of an
/// answer.
#[derive(Clone, Debug)]
pub enum Making {
    Case(u32),
    Steps(Vec<u8>),
}

pub const EXAMPLE_CHART: &str = "version modes start flags
1 2 0 2
name
Hold
Climb
mode care value next
0 1 1 1
0 1 0 0
1 1 1 1
1 1 0 0
";

pub const EXAMPLE_CLAIM: &str = r#"HOA: v1
States: 2
Start: 0
AP: 2 "climb" "landed"
Acceptance: 1 Inf(0)
--BODY--
State: 0 "watch"
[t] 0
[!1] 1
State: 1 {0}
[!1] 1
--END--
"#;

/// For two workers.
pub const EXAMPLE_CASE: &str = "version vertices edges source workers
1 4 12 0 2
vertex accepting owner
0 0 0
1 1 1
2 0 0
3 1 1
from to
0 0
0 1
0 2
0 3
1 1
1 3
2 0
2 1
2 2
2 3
3 1
3 3
";

/// By rounds, in nine acts.
pub const EXAMPLE_ANSWER: &str = "version verdict stem cycle reached
2 lasso 1 1 0
edge
1
4
";

pub const EXAMPLE_STEPS: &str = "Hold watch\nHold 1\n";

/// A right chart with so many pairs of a mode and one of its next modes: each
/// mode goes to itself and to some of those after it, as the first flags say.
/// Pairs are at most 16 for each mode.
pub fn counted_chart(modes: usize, flags: usize, pairs: usize) -> Chart {
    let mut chart = chart_of(modes, 0, flags);
    for mode in 0..modes {
        let next_modes = pairs / modes + usize::from(mode < pairs % modes);
        let values = next_modes.next_power_of_two();
        chart.rules.extend((0..values).map(|value| Rule {
            mode,
            care: values - 1,
            value,
            next: (mode + value.min(next_modes - 1)) % modes,
        }));
    }
    chart
}

/// A claim of so many states and propositions with so many edges, from each
/// state to itself and to some of those after it, whatever the flags.
pub fn counted_claim(states: usize, propositions: usize, edges: usize) -> Vec<u8> {
    claim_with(states, propositions, edges, |target| {
        format!("[t] {target}")
    })
}

/// The same with each edge spelled twice, once with the first flag and once
/// without it.
pub fn split_claim(states: usize, propositions: usize, edges: usize) -> Vec<u8> {
    claim_with(states, propositions, edges, |target| {
        format!("[0] {target} [!0] {target}")
    })
}

fn claim_with(
    states: usize,
    propositions: usize,
    edges: usize,
    spelled: impl Fn(usize) -> String,
) -> Vec<u8> {
    let line = |state: usize| {
        let targets = edges / states + usize::from(state < edges % states);
        let edges = (0..targets).map(|ahead| spelled((state + ahead) % states));
        let mark = if state % 2 == 1 { "{0}" } else { "" };
        format!("{mark} {}", edges.collect::<Vec<_>>().join(" "))
    };
    let lines: Vec<String> = (0..states).map(line).collect();
    claim_of(0, propositions, &lines)
}

/// The claim whose states have these lines after their numbers.
pub fn claim_of<Line: AsRef<str>>(start: usize, propositions: usize, lines: &[Line]) -> Vec<u8> {
    let names = " \"p\"".repeat(propositions);
    let states = lines.len();
    let mut text = format!("HOA: v1 States: {states} Start: {start} AP: {propositions}{names}\n");
    text += "Acceptance: 1 Inf(0)\n--BODY--\n";
    for (number, line) in lines.iter().enumerate() {
        text += &format!("State: {number} {}\n", line.as_ref());
    }
    (text + "--END--\n").into_bytes()
}

/// Charts and claims of the most modes, states, flags, rules and edges. Of the
/// last two the edges are too many.
pub fn greatest_products() -> Vec<(Chart, Vec<u8>)> {
    let counted = |pairs| counted_chart(LIMITS.modes, LIMITS.flags, pairs);
    let claim = greatest_claim().into_bytes();
    vec![
        (greatest_chart(2), claim.clone()),
        (greatest_chart(LIMITS.modes), claim.clone()),
        (greatest_chart(LIMITS.modes), counted_claim(15, 8, 60)),
        (counted(40), counted_claim(15, 8, 50)),
        (counted(69), counted_claim(15, 8, 29)),
        (counted(LIMITS.rules), claim),
    ]
}

/// Every chart of two modes and one flag with every claim of two states, of
/// which the second is accepting: from each state to each there is no edge, one
/// with the flag, one without it, or one in any case. Every start comes up.
pub fn every_small_product() -> impl Iterator<Item = (Chart, Vec<u8>)> {
    (0..1 << 12).map(|number: usize| {
        let bit = |place: usize| number >> place & 1;
        let mut chart = chart_of(2, bit(0) ^ bit(5), 1);
        chart.rules.extend((0..4).map(|pair| Rule {
            mode: pair / 2,
            care: 1,
            value: pair % 2,
            next: bit(pair),
        }));
        let line = |state: usize| {
            let label =
                |target: usize| ["f", "0", "!0", "t"][number >> (4 + 4 * state + 2 * target) & 3];
            let mark = ["", "{0}"][state];
            format!("{mark} [{}] 0 [{}] 1", label(0), label(1))
        };
        (chart, claim_of(bit(2) ^ bit(7), 1, &[line(0), line(1)]))
    })
}

/// A random right chart, and a claim that mostly goes with it.
pub fn random_product(rng: &mut Rng) -> (Chart, Vec<u8>) {
    if rng.chance(1, 200) {
        return around_most_edges(rng);
    }
    let mut chart = random_cover(rng);
    // Charts of many pairs take long and show little more.
    while chart.modes() << chart.flags > 256 && rng.chance(15, 16) {
        chart = random_cover(rng);
    }
    let (_, claim) = if rng.chance(1, 10) {
        random_claim(rng)
    } else {
        random_claim_on(rng, chart.flags)
    };
    (chart, claim)
}

/// A product of some 2,000 edges.
fn around_most_edges(rng: &mut Rng) -> (Chart, Vec<u8>) {
    let modes = rng.between(10, LIMITS.modes);
    let flags = rng.between(2, 4);
    let pairs = rng.between(modes, 4 * modes);
    let moves = MOST_EDGES / pairs + rng.below(2);
    let chart = counted_chart(modes, flags, pairs);
    (chart, counted_claim(15, flags, moves))
}

/// A lasso that goes round its cycle as often as the counts of an answer allow,
/// in the stem already.
pub fn many_times_round(stem: &[usize], cycle: &[usize]) -> Answer {
    let times = |room: usize| cycle.repeat(room / cycle.len());
    Answer::Lasso {
        stem: [stem, &times(MOST_LISTED - stem.len())].concat(),
        cycle: times(MOST_LISTED),
    }
}
