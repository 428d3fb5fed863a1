//! Right claims: some as public tools write them, and random ones.

use reference::claim::LIMITS;
use reference::claim_label::Label;

use crate::rng::Rng;

/// As Spot's ltl2tgba writes "infinitely often a".
const GF_A: &str = r#"HOA: v1
name: "GFa"
States: 2
Start: 1
AP: 1 "a"
acc-name: Buchi
Acceptance: 1 Inf(0)
properties: trans-labels explicit-labels state-acc complete
properties: deterministic very-weak
--BODY--
State: 0 {0}
[0] 0
[!0] 1
State: 1
[0] 0
[!0] 1
--END--
"#;

/// As Owl writes a response: the header in its order, names of states with
/// quotes in them, and a skipped header of its own.
const RESPONSE: &str = r#"HOA: v1
tool: "owl ltl2nba" "21.0"
owlArgs: "ltl2nba" "-f" "G(\"request\" -> F \"grant\")"
name: "Automaton for ((F (\"grant\")) | (G (!\"request\")))"
States: 3
Start: 0
acc-name: Buchi
Acceptance: 1 Inf(0)
properties: trans-labels explicit-labels no-univ-branch
AP: 2 "\"request\"" "grant\\"
--BODY--
State: 0 "G(\"r\" -> F g)" {0}
[!0 | 1] 0
[0 & !1] 2
State: 2 "[F g, \\]"
[(1)] 0
[!1] 2
[t] 1
State: 1 ""
--END--
"#;

/// Tabs, carriage returns, dense tokens, lines in falling order, marks of
/// each kind, and constants as labels.
const DENSE: &str = "HOA:v1\r\n\
    \tStart:2States:4AP:3\"p\"\"p\"\"\"\r\n\
    \tAcceptance:1Inf(0)\r\n\
    --BODY--\r\n\
    State:3{}[t]3[f]0\r\n\
    State:2\"wait\"{0 0}[!(0|1)&2|!!0]1[0&1|2]3\x0b\x0c\r\n\
    State:1[(((0)))]1\r\n\
    State:0\t{0}\t--END--\r\n";

/// The least claim that is taken.
const LEAST: &str = "HOA:v1 States:1Start:0Acceptance:1Inf(0)--BODY--State:0--END--";

/// Right claims that are short enough to be changed at every place.
pub const RIGHT: [&str; 4] = [GF_A, RESPONSE, DENSE, LEAST];

/// A right claim with as many states and propositions as are taken, names of
/// the greatest length, and labels of the greatest depth.
pub fn greatest_claim() -> String {
    let names = "\"p\" ".repeat(8);
    let mut text =
        format!("HOA: v1 States: 15 Start: 14 AP: 8 {names} Acceptance: 1 Inf(0) --BODY--\n");
    for state in 0..15 {
        let mark = ["{0}", "", "{}"][state % 3];
        text += &format!("State: {state} \"{state:n<32}\" {mark}\n");
        for step in 0..3 {
            let (one, two, three) = (
                (state + step) % 8,
                (state + 3) % 8,
                (5 * state + 2 * step) % 8,
            );
            let label = "!(".repeat(8) + &format!("{one} & {two} | {three}") + &")".repeat(8);
            text += &format!("[{label}] {}\n", (state + 4 * step) % 15);
        }
    }
    text + "--END--\n"
}

/// What a random claim says.
pub struct Drawn {
    pub start: usize,
    pub propositions: usize,
    pub states: Vec<DrawnState>,
}

pub struct DrawnState {
    /// As stored.
    pub name: Option<Vec<u8>>,
    pub accepting: bool,
    pub edges: Vec<(Label, usize)>,
}

type Tokens = Vec<Vec<u8>>;

/// The tokens of a text without strings, which has blanks between them.
fn spelled(text: &str) -> Tokens {
    text.split(' ')
        .map(|token| token.as_bytes().to_vec())
        .collect()
}

/// A random claim and a text that says it.
pub fn random_claim(rng: &mut Rng) -> (Drawn, Vec<u8>) {
    let propositions = rng.pick(&[0, 1, 1, 2, 2, 3, 5, 8]);
    random_claim_on(rng, propositions)
}

/// The same with so many propositions.
pub fn random_claim_on(rng: &mut Rng, propositions: usize) -> (Drawn, Vec<u8>) {
    let mut drawn = Drawn {
        start: 0,
        propositions,
        states: Vec::new(),
    };
    let count = rng.pick(&[1, 1, 2, 2, 2, 3, 4, 15]);
    drawn.start = rng.below(count);
    let mut lines = Vec::new();
    for number in 0..count {
        let (state, rest) = random_line(rng, drawn.propositions, count);
        drawn.states.push(state);
        lines.push([spelled(&format!("State: {number}")), rest].concat());
    }
    let mut items = random_items(rng, &drawn);
    shuffle(rng, &mut items);
    shuffle(rng, &mut lines);
    let (items, lines) = (items.concat(), lines.concat());
    let tokens = [
        spelled("HOA: v1"),
        items,
        spelled("--BODY--"),
        lines,
        spelled("--END--"),
    ]
    .concat();
    let text = laid_out(rng, &tokens);
    (drawn, text)
}

fn shuffle<T>(rng: &mut Rng, items: &mut [T]) {
    for place in (1..items.len()).rev() {
        items.swap(place, rng.below(place + 1));
    }
}

/// The header items, and some that are skipped.
fn random_items(rng: &mut Rng, drawn: &Drawn) -> Vec<Tokens> {
    let mut items = vec![
        spelled(&format!("States: {}", drawn.states.len())),
        spelled(&format!("Start: {}", drawn.start)),
        spelled("Acceptance: 1 Inf ( 0 )"),
    ];
    if drawn.propositions > 0 || rng.chance(1, 2) {
        let mut item = spelled(&format!("AP: {}", drawn.propositions));
        item.extend((0..drawn.propositions).map(|_| quoted(&random_string(rng, 6, b"\n/*a"))));
        items.push(item);
    }
    for _ in 0..rng.below(4) {
        let mut item = spelled(rng.pick(&[
            "name:",
            "tool:",
            "x:",
            "acc-name: Buchi",
            "properties: a-b c",
            "z-9_: 0 t",
        ]));
        item.extend((0..rng.below(3)).map(|_| quoted(&random_string(rng, 20, b"\nb{[@"))));
        items.push(item);
    }
    items
}

/// What stands after a state's number.
fn random_line(rng: &mut Rng, propositions: usize, states: usize) -> (DrawnState, Tokens) {
    let mut tokens = Tokens::new();
    let longest = rng.pick(&[0, 5, 32]);
    let name = rng
        .chance(1, 2)
        .then(|| random_string(rng, longest, b"an 0:"));
    tokens.extend(name.as_deref().map(quoted));
    let mark = rng.pick(&["", "", "{ }", "{ 0 }", "{ 0 }", "{ 0 0 }"]);
    if !mark.is_empty() {
        tokens.extend(spelled(mark));
    }
    let mut edges = Vec::new();
    for _ in 0..rng.below(4) {
        let mut pen = LabelPen::new(rng, propositions);
        let label = pen.any(0);
        let spelled_label = pen.tokens;
        let target = rng.below(states);
        tokens.extend([spelled("["), spelled_label, spelled(&format!("] {target}"))].concat());
        edges.push((label, target));
    }
    let accepting = mark.contains('0');
    (
        DrawnState {
            name,
            accepting,
            edges,
        },
        tokens,
    )
}

/// Bytes as a string may store them, at most so many, with escapes.
fn random_string(rng: &mut Rng, longest: usize, plain: &[u8]) -> Vec<u8> {
    let length = rng.below(longest + 1);
    let mut stored = Vec::new();
    while stored.len() < length {
        if rng.chance(1, 6) && stored.len() + 1 < length {
            stored.extend([b'\\', rng.pick(b"\"\\n\xff")]);
        } else {
            stored.push(rng.pick(plain));
        }
    }
    stored
}

fn quoted(stored: &[u8]) -> Vec<u8> {
    [b"\"", stored, b"\""].concat()
}

/// Draws a label and spells it.
struct LabelPen<'a> {
    rng: &'a mut Rng,
    propositions: usize,
    /// In how many of 8 places there is a bracket or a negation.
    steepness: usize,
    /// How many atoms may still become more than one token.
    left: usize,
    tokens: Tokens,
}

impl<'a> LabelPen<'a> {
    fn new(rng: &'a mut Rng, propositions: usize) -> Self {
        let steepness = rng.pick(&[1, 2, 4, 7]);
        LabelPen {
            rng,
            propositions,
            steepness,
            left: 30,
            tokens: Tokens::new(),
        }
    }

    fn write(&mut self, token: &str) {
        self.tokens.extend(spelled(token));
    }

    fn any(&mut self, depth: usize) -> Label {
        let mut labels = vec![self.all(depth)];
        while self.left > 0 && self.rng.chance(1, 4) {
            self.write("|");
            labels.push(self.all(depth));
        }
        Label::Any(labels)
    }

    fn all(&mut self, depth: usize) -> Label {
        let mut labels = vec![self.atom(depth)];
        while self.left > 0 && self.rng.chance(1, 4) {
            self.write("&");
            labels.push(self.atom(depth));
        }
        Label::All(labels)
    }

    fn atom(&mut self, depth: usize) -> Label {
        let nests = self.left > 0 && depth < LIMITS.depth && self.rng.chance(self.steepness, 8);
        self.left = self.left.saturating_sub(1);
        if !nests {
            return self.leaf();
        }
        if self.rng.chance(1, 2) {
            self.write("!");
            return Label::Not(Box::new(self.atom(depth + 1)));
        }
        self.write("(");
        let label = self.any(depth + 1);
        self.write(")");
        label
    }

    fn leaf(&mut self) -> Label {
        if self.propositions == 0 || self.rng.chance(1, 8) {
            let constant = self.rng.chance(1, 2);
            self.write(if constant { "t" } else { "f" });
            return Label::Constant(constant);
        }
        let number = self.rng.below(self.propositions);
        self.write(&number.to_string());
        Label::Proposition(number as u32)
    }
}

/// The tokens with blanks of one style between them, or with none where they
/// do not run together.
fn laid_out(rng: &mut Rng, tokens: &[Vec<u8>]) -> Vec<u8> {
    let style = rng.pick(&[" ", "\n", "", "", " \t\n\x0b\x0c\r"]);
    let mut text = Vec::new();
    let mut before: &[u8] = b"";
    for token in tokens {
        let least = usize::from(run_together(before, token));
        let count = if style.len() < 2 {
            style.len()
        } else {
            rng.below(3)
        };
        for _ in 0..count.max(least) {
            text.push(if style.is_empty() {
                b' '
            } else {
                rng.pick(style.as_bytes())
            });
        }
        text.extend_from_slice(token);
        before = token;
    }
    text
}

/// Whether two tokens would be others without a blank between them.
fn run_together(before: &[u8], after: &[u8]) -> bool {
    let goes_on = |byte: &u8| byte.is_ascii_alphanumeric() || b"_-".contains(byte);
    match before {
        [b'0'..=b'9', ..] => after[0].is_ascii_digit(),
        [b'A'..=b'Z' | b'a'..=b'z', .., b':'] => false,
        [b'A'..=b'Z' | b'a'..=b'z', ..] => goes_on(&after[0]),
        _ => false,
    }
}
