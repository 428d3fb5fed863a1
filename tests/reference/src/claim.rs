//! The claim: an automaton in the Hanoi Omega-Automata format, version 1.

use std::ops::Range;

use crate::claim_label::{Label, read_label};
use crate::claim_tokens::{Fault, Kind, Limits, Reader, Token, tokens};
use crate::refusal::Refusal;

pub const MOST_STATES: usize = 15;

pub const LIMITS: Limits = Limits {
    bytes: 16_384,
    states: MOST_STATES as u32,
    propositions: 8,
    name_bytes: 32,
    depth: 16,
};

/// A taken claim.
#[derive(Clone, Debug, PartialEq, Eq)]
pub struct Claim {
    pub start: u32,
    pub propositions: u32,
    pub states: Vec<State>,
}

#[derive(Clone, Debug, PartialEq, Eq)]
pub struct State {
    pub accepting: bool,
    /// The place of its name's bytes in the text.
    pub name: Option<Range<usize>>,
    pub edges: Vec<Edge>,
}

#[derive(Clone, Debug, PartialEq, Eq)]
pub struct Edge {
    pub label: Label,
    pub target: u32,
}

impl Claim {
    /// Bit d for each state d to which an edge leads whose label holds; none
    /// for a state or for flag values out of range.
    pub fn moves(&self, state: u32, values: u32) -> u32 {
        let state = self.states.get(state as usize);
        let Some(state) = state.filter(|_| values < 1 << self.propositions) else {
            return 0;
        };
        let holding = state.edges.iter().filter(|edge| edge.label.truth(values));
        holding.fold(0, |moves, edge| moves | 1 << edge.target)
    }
}

/// Reads a claim.
pub fn read(text: &[u8]) -> Result<Claim, Refusal> {
    read_tokens(&tokens(text), LIMITS).map_err(|fault| fault.refusal)
}

/// Reads a claim from its tokens; the first fault from the front decides.
pub fn read_tokens(tokens: &[Token], limits: Limits) -> Result<Claim, Fault> {
    let mut reader = Reader::of(tokens, limits);
    read_opening(&mut reader)?;
    let header = read_header(&mut reader)?;
    let states = read_body(&mut reader, &header)?;
    Ok(Claim {
        start: header.start,
        propositions: header.propositions,
        states,
    })
}

/// Here alone the length does not matter.
fn read_opening(reader: &mut Reader) -> Result<(), Fault> {
    for kind in [Kind::Header(b"HOA"), Kind::Name(b"v1")] {
        if reader.take() != kind {
            return reader.fault(Refusal::NotAClaim);
        }
    }
    Ok(())
}

/// What the headers that are read have said so far.
#[derive(Default)]
struct Items {
    states: Option<u32>,
    start: Option<u32>,
    propositions: Option<u32>,
    acceptance: bool,
}

/// A whole header.
struct Header {
    states: u32,
    start: u32,
    propositions: u32,
}

impl Items {
    fn whole(&self) -> Option<Header> {
        Some(Header {
            states: self.states.filter(|_| self.acceptance)?,
            start: self.start?,
            propositions: self.propositions.unwrap_or(0),
        })
    }
}

fn read_header(reader: &mut Reader) -> Result<Header, Fault> {
    let mut items = Items::default();
    loop {
        match (reader.take(), items.whole()) {
            (Kind::Header(name), _) => read_item(reader, name, &mut items)?,
            (Kind::BodyMark, Some(header)) => return Ok(header),
            _ => return reader.wrong(),
        }
    }
}

/// Reads what stands after a header name.
fn read_item(reader: &mut Reader, name: &[u8], items: &mut Items) -> Result<(), Fault> {
    match name {
        b"States" if items.states.is_none() => {
            items.states = Some(read_count(reader, items.start)?);
        }
        b"Start" if items.start.is_none() => {
            items.start = Some(read_start(reader, items.states)?);
        }
        b"AP" if items.propositions.is_none() => {
            items.propositions = Some(read_propositions(reader)?);
        }
        b"Acceptance" if !items.acceptance => {
            read_acceptance(reader)?;
            items.acceptance = true;
        }
        b"HOA" | b"States" | b"AP" | b"Acceptance" => return reader.wrong(),
        [b'A'..=b'Z', ..] => return reader.not_taken(),
        [b'a'..=b'z', ..] => skip_values(reader),
        _ => return reader.wrong(),
    }
    Ok(())
}

fn read_count(reader: &mut Reader, start: Option<u32>) -> Result<u32, Fault> {
    let most = reader.limits.states;
    reader.number(|count| (1..=most).contains(&count) && start.is_none_or(|start| start < count))
}

fn read_start(reader: &mut Reader, states: Option<u32>) -> Result<u32, Fault> {
    let states = states.unwrap_or(reader.limits.states);
    let start = reader.number(|start| start < states)?;
    if reader.take_if(Kind::Symbol(b'&')) {
        return reader.not_taken();
    }
    Ok(start)
}

fn read_propositions(reader: &mut Reader) -> Result<u32, Fault> {
    let most = reader.limits.propositions;
    let count = reader.number(|count| count <= most)?;
    for _ in 0..count {
        let Kind::Text(_) = reader.take() else {
            return reader.wrong();
        };
    }
    Ok(count)
}

/// Reads `1 Inf ( 0 )`, and sees to it that no sign makes it longer.
fn read_acceptance(reader: &mut Reader) -> Result<(), Fault> {
    match reader.take() {
        Kind::Number(1) => {}
        Kind::Number(_) => return reader.not_taken(),
        _ => return reader.wrong(),
    }
    match reader.take() {
        Kind::Name(b"Inf") => {}
        Kind::Name(_) | Kind::Symbol(b'(') => return reader.not_taken(),
        _ => return reader.wrong(),
    }
    reader.expect(Kind::Symbol(b'('))?;
    match reader.take() {
        Kind::Number(0) => {}
        Kind::Number(_) | Kind::Symbol(b'!') => return reader.not_taken(),
        _ => return reader.wrong(),
    }
    reader.expect(Kind::Symbol(b')'))?;
    if reader.take_if(Kind::Symbol(b'&')) || reader.take_if(Kind::Symbol(b'|')) {
        return reader.not_taken();
    }
    Ok(())
}

fn skip_values(reader: &mut Reader) {
    while let Kind::Name(_) | Kind::Number(_) | Kind::Text(_) = reader.due().kind {
        reader.take();
    }
}

/// Reads the lines of all states, in any order, to the text's end.
fn read_body(reader: &mut Reader, header: &Header) -> Result<Vec<State>, Fault> {
    let mut states: Vec<Option<State>> = vec![None; header.states as usize];
    loop {
        let all_listed = states.iter().all(Option::is_some);
        match reader.take() {
            Kind::Header(b"State") if !all_listed => read_line(reader, header, &mut states)?,
            Kind::EndMark if all_listed => break,
            _ => return reader.wrong(),
        }
    }
    let fits = reader.due().told <= reader.limits.bytes;
    match reader.take() {
        Kind::Nothing if fits => Ok(states.into_iter().flatten().collect()),
        _ => reader.wrong(),
    }
}

fn read_line(
    reader: &mut Reader,
    header: &Header,
    states: &mut [Option<State>],
) -> Result<(), Fault> {
    if reader.take_if(Kind::Symbol(b'[')) {
        return reader.not_taken();
    }
    let unlisted = |number| states.get(number as usize) == Some(&None);
    let number = reader.number(unlisted)?;
    let state = State {
        name: read_name(reader)?,
        accepting: read_mark(reader)?,
        edges: read_edges(reader, header)?,
    };
    states[number as usize] = Some(state);
    Ok(())
}

fn read_name(reader: &mut Reader) -> Result<Option<Range<usize>>, Fault> {
    let token = reader.due();
    let Kind::Text(stored) = token.kind else {
        return Ok(None);
    };
    reader.take();
    if stored.len() > reader.limits.name_bytes || stored.contains(&b'\n') {
        return reader.wrong();
    }
    Ok(Some(token.start + 1..token.end - 1))
}

/// Reads `{`, zeros and `}`, if they stand here.
fn read_mark(reader: &mut Reader) -> Result<bool, Fault> {
    let mut accepting = false;
    if !reader.take_if(Kind::Symbol(b'{')) {
        return Ok(accepting);
    }
    while !reader.take_if(Kind::Symbol(b'}')) {
        reader.expect(Kind::Number(0))?;
        accepting = true;
    }
    Ok(accepting)
}

fn read_edges(reader: &mut Reader, header: &Header) -> Result<Vec<Edge>, Fault> {
    let mut edges = Vec::new();
    while reader.take_if(Kind::Symbol(b'[')) {
        let label = read_label(reader, header.propositions)?;
        let target = reader.number(|target| target < header.states)?;
        if reader.take_if(Kind::Symbol(b'{')) {
            return reader.not_taken();
        }
        edges.push(Edge { label, target });
    }
    Ok(edges)
}
