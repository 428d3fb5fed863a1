//! The labels of a claim's edges: as a tree, and read from tokens.

use crate::claim_tokens::{Fault, Kind, Reader};

/// A label; which brackets it was written with is not kept.
#[derive(Clone, Debug, PartialEq, Eq)]
pub enum Label {
    Constant(bool),
    Proposition(u32),
    Not(Box<Label>),
    All(Vec<Label>),
    Any(Vec<Label>),
}

impl Label {
    /// Whether it holds: proposition i is the bit worth 2 to the power i.
    pub fn truth(&self, values: u32) -> bool {
        match self {
            Label::Constant(constant) => *constant,
            Label::Proposition(number) => values >> number & 1 == 1,
            Label::Not(label) => !label.truth(values),
            Label::All(labels) => labels.iter().all(|label| label.truth(values)),
            Label::Any(labels) => labels.iter().any(|label| label.truth(values)),
        }
    }
}

/// Reads a label and the `]` after it; the `[` is taken already.
pub fn read_label(reader: &mut Reader, propositions: u32) -> Result<Label, Fault> {
    let label = read_any(reader, propositions, 0)?;
    reader.expect(Kind::Symbol(b']'))?;
    Ok(label)
}

/// One or more parts with `|` between them. `depth` counts the brackets and
/// negations around this place.
fn read_any(reader: &mut Reader, propositions: u32, depth: usize) -> Result<Label, Fault> {
    let mut labels = vec![read_all(reader, propositions, depth)?];
    while reader.take_if(Kind::Symbol(b'|')) {
        labels.push(read_all(reader, propositions, depth)?);
    }
    Ok(Label::Any(labels))
}

/// One or more atoms with `&` between them.
fn read_all(reader: &mut Reader, propositions: u32, depth: usize) -> Result<Label, Fault> {
    let mut labels = vec![read_atom(reader, propositions, depth)?];
    while reader.take_if(Kind::Symbol(b'&')) {
        labels.push(read_atom(reader, propositions, depth)?);
    }
    Ok(Label::All(labels))
}

fn read_atom(reader: &mut Reader, propositions: u32, depth: usize) -> Result<Label, Fault> {
    let may_nest = depth < reader.limits.depth;
    match reader.take() {
        Kind::Name(b"t") => Ok(Label::Constant(true)),
        Kind::Name(b"f") => Ok(Label::Constant(false)),
        Kind::Number(number) if number < propositions => Ok(Label::Proposition(number)),
        Kind::Symbol(b'!') if may_nest => {
            let label = read_atom(reader, propositions, depth + 1)?;
            Ok(Label::Not(Box::new(label)))
        }
        Kind::Symbol(b'(') if may_nest => {
            let label = read_any(reader, propositions, depth + 1)?;
            reader.expect(Kind::Symbol(b')'))?;
            Ok(label)
        }
        Kind::Alias => reader.not_taken(),
        _ => reader.wrong(),
    }
}
