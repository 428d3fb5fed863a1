//! One call of a tool beside the same call of the reference.

use std::fmt::{self, Debug, Display, Formatter};
use std::sync::LazyLock;

use inputs::products::{Call, Making};
use reference::answer;
use reference::claim::{self, Claim};
use reference::entries::{
    Built, Checked, ClaimRead, OUTPUT_BYTES, Outcome, Reference, Tool, WORK_CELLS, check_with,
};
use reference::older;
use reference::refusal::Refusal;
use reference::text::version;

/// Items of the larger vector before the lent part, and after it.
const GUARD: usize = 64;
/// Items that a buffer has at most, guards included.
const LONGEST_BUFFER: usize = 1 << 18;

/// How the run is called.
#[derive(Clone, Copy)]
pub enum Entry<'a> {
    Rounds,
    List(&'a [u32]),
}

/// Lengths of the two lent buffers.
#[derive(Clone, Copy, Debug)]
pub struct Lengths {
    pub output: usize,
    pub work: usize,
}

/// The least lengths that are not refused.
pub const LEAST: Lengths = Lengths {
    output: OUTPUT_BYTES,
    work: WORK_CELLS,
};

/// Which moves of a claim are asked for.
#[derive(Clone, Copy)]
pub enum Asked {
    Every,
    /// All of a small claim, else some.
    Few,
}

/// How many moves in range are asked for where not all are.
const MOST_ASKED: u32 = 32;
/// States and flag values of which one or both are out of range in every claim.
const NOWHERE: [(u32, u32); 6] = [
    (15, 0),
    (16, 0),
    (1 << 24, 0),
    (0, 256),
    (0, 1 << 31),
    (u32::MAX, u32::MAX),
];

/// A call on which tool and reference differ.
pub struct Mismatch {
    /// One line: the call and the first difference.
    pub summary: String,
    /// The inputs, whole.
    pub inputs: String,
}

/// A buffer that is lent as the middle part of a larger vector, so that a
/// write outside the lent part can be seen.
struct Lent<T> {
    items: Vec<T>,
}

impl<T: Copy + PartialEq + Debug> Lent<T> {
    fn new(length: usize, pattern: &[T]) -> Self {
        Lent {
            items: pattern[..length + 2 * GUARD].to_vec(),
        }
    }

    fn part(&mut self) -> &mut [T] {
        let end = self.items.len() - GUARD;
        &mut self.items[GUARD..end]
    }

    /// The first difference; guards count like the rest.
    fn difference(&self, expected: &Self, name: &str) -> Option<String> {
        if self.items == expected.items {
            return None;
        }
        let mut both = self.items.iter().zip(&expected.items);
        let place = both.position(|(got, want)| got != want)?;
        let (got, want) = (self.items[place], expected.items[place]);
        let place = place as i64 - GUARD as i64;
        Some(format!("{name}[{place}] should be {want:?} and is {got:?}"))
    }
}

/// The pattern that fills the output before a call. Its length shares no
/// factor with powers of two, so that shifted copies differ.
static OUTPUT_PATTERN: LazyLock<Vec<u8>> = LazyLock::new(|| {
    let places = 0..LONGEST_BUFFER;
    places.map(|place| (place % 251) as u8 ^ 0xa5).collect()
});

/// The pattern that fills the work buffer before a call: never 0.
static WORK_PATTERN: LazyLock<Vec<i32>> =
    LazyLock::new(|| (0..LONGEST_BUFFER as i32).map(|place| !place).collect());

/// What a run leaves.
struct Left {
    outcome: Outcome,
    output: Lent<u8>,
    work: Lent<i32>,
}

fn run(tool: &dyn Tool, entry: Entry, text: &[u8], lengths: Lengths) -> Left {
    let mut output = Lent::new(lengths.output, &OUTPUT_PATTERN);
    let mut work = Lent::new(lengths.work, &WORK_PATTERN);
    let outcome = match entry {
        Entry::Rounds => tool.run_rounds(text, output.part(), work.part()),
        Entry::List(acts) => tool.run_list(text, acts, output.part(), work.part()),
    };
    Left {
        outcome,
        output,
        work,
    }
}

fn difference(got: &Left, want: &Left) -> Option<String> {
    if got.outcome != want.outcome {
        return Some(format!(
            "should return {:?} and returns {:?}",
            want.outcome, got.outcome
        ));
    }
    let output = got.output.difference(&want.output, "output");
    output.or_else(|| got.work.difference(&want.work, "work"))
}

/// What a tool returns of a call that makes a text, and the output that it
/// leaves.
fn made(tool: &dyn Tool, call: &Call) -> (Built, Lent<u8>) {
    let mut output = Lent::new(call.output, &OUTPUT_PATTERN);
    let (chart, claim) = (&call.chart, &call.claim);
    let built = match &call.making {
        Making::Case(workers) => tool.build_case(chart, claim, *workers, output.part()),
        Making::Steps(answer) => tool.list_steps(chart, claim, answer, output.part()),
    };
    (built, output)
}

/// One more than the greatest refusal.
const REFUSALS: usize = 22;

/// How many calls came out in each way: place 0 counts results and passes,
/// the others the refusals of that number.
#[derive(Default)]
pub struct Tally {
    runs: [u64; REFUSALS],
    checks: [u64; REFUSALS],
    claims: [u64; REFUSALS],
    charts: [u64; REFUSALS],
    built: [u64; REFUSALS],
    listed: [u64; REFUSALS],
    /// Calls for the moves of a claim.
    moves: u64,
    /// Lists by which offers meet in a cell.
    pub meetings: u64,
    /// Runs by rounds where no vertex rests, where one does, and of these the
    /// ones that show a rest loop.
    pub rests: [u64; 3],
}

impl Tally {
    pub fn calls(&self) -> u64 {
        let counts = self.by_refusal().into_iter().flat_map(|(_, counts)| counts);
        counts.sum::<u64>() + self.moves
    }

    fn by_refusal(&self) -> [(&str, &[u64; REFUSALS]); 6] {
        [
            ("runs", &self.runs),
            ("checks", &self.checks),
            ("claims", &self.claims),
            ("charts", &self.charts),
            ("cases built", &self.built),
            ("steps listed", &self.listed),
        ]
    }
}

impl Display for Tally {
    fn fmt(&self, formatter: &mut Formatter) -> fmt::Result {
        for (name, counts) in self.by_refusal() {
            write!(formatter, "{name} by refusal:")?;
            for (refusal, count) in counts.iter().enumerate().filter(|(_, count)| **count > 0) {
                write!(formatter, " {refusal}: {count}")?;
            }
            writeln!(formatter)?;
        }
        if self.moves > 0 {
            writeln!(formatter, "moves of claims: {}", self.moves)?;
        }
        if self.meetings > 0 {
            writeln!(formatter, "lists by which offers meet: {}", self.meetings)?;
        }
        let [none, some, shown] = self.rests;
        if none + some > 0 {
            write!(formatter, "runs by rounds where no vertex rests: {none}, ")?;
            writeln!(formatter, "where one does: {some}, by a rest loop: {shown}")?;
        }
        Ok(())
    }
}

/// A tool under comparison.
pub struct Comparison<'a> {
    tool: &'a dyn Tool,
    pub tally: Tally,
}

impl<'a> Comparison<'a> {
    pub fn new(tool: &'a dyn Tool) -> Self {
        Comparison {
            tool,
            tally: Tally::default(),
        }
    }

    /// Compares a run; returns what both return, and the answer.
    pub fn run(
        &mut self,
        entry: Entry,
        text: &[u8],
        lengths: Lengths,
    ) -> Result<(Outcome, Vec<u8>), Mismatch> {
        let mut want = run(&Reference, entry, text, lengths);
        self.tally.runs[want.outcome.refusal as usize] += 1;
        let got = run(self.tool, entry, text, lengths);
        if let Some(difference) = difference(&got, &want) {
            let name = if let Entry::Rounds = entry {
                "run_rounds"
            } else {
                "run_list"
            };
            return Err(Mismatch {
                summary: format!("{name} {difference}"),
                inputs: run_inputs(entry, text, lengths),
            });
        }
        let answer = want.output.part()[..want.outcome.written as usize].to_vec();
        if want.outcome.refusal == 0 {
            expect_before(text, &answer, refused(Refusal::OtherVersion))?;
        }
        Ok((want.outcome, answer))
    }

    /// Compares a check; returns what both return.
    pub fn check(&mut self, text: &[u8], answer: &[u8]) -> Result<Checked, Mismatch> {
        let want = Reference.check_answer(text, answer);
        self.tally.checks[want.refusal as usize] += 1;
        let got = self.tool.check_answer(text, answer);
        if got != want {
            return Err(Mismatch {
                summary: format!("check_answer should return {want:?} and returns {got:?}"),
                inputs: check_inputs(text, answer),
            });
        }
        if version(answer) != Some(answer::VERSION) {
            expect_before(text, answer, want)?;
        }
        Ok(want)
    }

    /// Compares the check of an answer that a run has given: it must pass
    /// with the run's verdict.
    pub fn check_own(&mut self, text: &[u8], answer: &[u8], verdict: u32) -> Result<(), Mismatch> {
        let checked = self.check(text, answer)?;
        if checked
            == (Checked {
                refusal: 0,
                verdict,
            })
        {
            return Ok(());
        }
        Err(Mismatch {
            summary: format!(
                "check_answer should pass the run's own answer and returns {checked:?}"
            ),
            inputs: check_inputs(text, answer),
        })
    }

    /// Compares the reading of a claim, and its moves as far as they are asked
    /// for.
    pub fn claim(&mut self, text: &[u8], asked: Asked) -> Result<(), Mismatch> {
        let claim = claim::read(text);
        let want = ClaimRead::of(&claim);
        self.tally.claims[want.refusal as usize] += 1;
        let got = self.tool.read_claim(text);
        if let Some(difference) = claim_difference(&got, &want) {
            return Err(Mismatch {
                summary: format!("read_claim {difference}"),
                inputs: format!("claim:\n{}", shown(text)),
            });
        }
        for (state, values) in questions(&want, asked) {
            self.moves(text, &claim, state, values)?;
        }
        Ok(())
    }

    fn moves(
        &mut self,
        text: &[u8],
        claim: &Result<Claim, Refusal>,
        state: u32,
        values: u32,
    ) -> Result<(), Mismatch> {
        let want = claim.as_ref().map_or(0, |claim| claim.moves(state, values));
        self.tally.moves += 1;
        let got = self.tool.claim_moves(text, state, values);
        if got == want {
            return Ok(());
        }
        Err(Mismatch {
            summary: format!("claim_moves should return {want:#b} and returns {got:#b}"),
            inputs: format!("state {state}, values {values}, claim:\n{}", shown(text)),
        })
    }

    /// Compares the check of a chart.
    pub fn chart(&mut self, text: &[u8]) -> Result<(), Mismatch> {
        let want = Reference.check_chart(text);
        self.tally.charts[want.refusal as usize] += 1;
        let got = self.tool.check_chart(text);
        if got == want {
            return Ok(());
        }
        Err(Mismatch {
            summary: format!("check_chart should return {want:?} and returns {got:?}"),
            inputs: format!("chart:\n{}", shown(text)),
        })
    }

    /// Compares the building of a case or the listing of steps; returns what
    /// both return, and the text.
    pub fn make(&mut self, call: &Call) -> Result<(Built, Vec<u8>), Mismatch> {
        let (want, mut output) = made(&Reference, call);
        let (name, counts) = match call.making {
            Making::Case(_) => ("build_case", &mut self.tally.built),
            Making::Steps(_) => ("list_steps", &mut self.tally.listed),
        };
        counts[want.refusal as usize] += 1;
        let (got, got_output) = made(self.tool, call);
        let difference = if got == want {
            got_output.difference(&output, "output")
        } else {
            Some(format!("should return {want:?} and returns {got:?}"))
        };
        if let Some(difference) = difference {
            return Err(Mismatch {
                summary: format!("{name} {difference}"),
                inputs: call_inputs(call),
            });
        }
        let text = output.part()[..want.written as usize].to_vec();
        Ok((want, text))
    }
}

fn refused(refusal: Refusal) -> Checked {
    Checked {
        refusal: refusal.number(),
        verdict: 0,
    }
}

/// Whether the checker before rest loops gives this: what is given now where the
/// answer is not of version 2, and a refusal of what runs write now.
fn expect_before(text: &[u8], answer: &[u8], want: Checked) -> Result<(), Mismatch> {
    let got = check_with(text, |case| older::check(case, answer));
    if got == want {
        return Ok(());
    }
    Err(Mismatch {
        summary: format!("the older checker should return {want:?} and returns {got:?}"),
        inputs: check_inputs(text, answer),
    })
}

/// The refusals where they differ, else all numbers.
fn claim_difference(got: &ClaimRead, want: &ClaimRead) -> Option<String> {
    if got.refusal != want.refusal {
        let (want, got) = (want.refusal, got.refusal);
        return Some(format!("should return refusal {want} and returns {got}"));
    }
    (got != want).then(|| format!("should return {want:?} and returns {got:?}"))
}

/// States and flag values to ask for the moves of: those in range, or some of
/// them, and some out of range.
fn questions(read: &ClaimRead, asked: Asked) -> Vec<(u32, u32)> {
    if read.refusal != 0 {
        return vec![(0, 0)];
    }
    let (states, values) = (read.states, 1 << read.propositions);
    let pairs = states * values;
    // An odd step, so that no flag has the same value in all of them.
    let (step, nowhere) = match asked {
        Asked::Every => (1, &NOWHERE[..]),
        Asked::Few => (pairs.div_ceil(MOST_ASKED) | 1, &[][..]),
    };
    let in_range = (0..pairs).step_by(step as usize);
    let mut questions: Vec<_> = in_range
        .map(|pair| (pair / values, pair % values))
        .collect();
    questions.extend([(states, 0), (0, values)]);
    questions.extend(nowhere);
    questions
}

pub fn run_inputs(entry: Entry, text: &[u8], lengths: Lengths) -> String {
    let acts = match entry {
        Entry::Rounds => "by rounds".to_owned(),
        Entry::List(acts) => format!("acts: {acts:?}"),
    };
    format!("{lengths:?}\n{acts}\ncase:\n{}", shown(text))
}

fn check_inputs(text: &[u8], answer: &[u8]) -> String {
    format!("case:\n{}\nanswer:\n{}", shown(text), shown(answer))
}

fn call_inputs(call: &Call) -> String {
    let (chart, claim) = (shown(&call.chart), shown(&call.claim));
    let making = match &call.making {
        Making::Case(workers) => format!("{workers} workers"),
        Making::Steps(answer) => format!("answer:\n{}", shown(answer)),
    };
    let output = call.output;
    format!("output of {output} bytes\nchart:\n{chart}\nclaim:\n{claim}\n{making}")
}

/// A text with its odd bytes made visible, line by line.
fn shown(text: &[u8]) -> String {
    text.escape_ascii().to_string().replace("\\n", "\\n\n")
}
