//! A reader of case files with every check of the library's, in one pass.

pub const MOST_VERTICES: usize = 500;
pub const MOST_EDGES: usize = 2_000;
pub const MOST_WORKERS: usize = 16;
pub(crate) const LONGEST_FILE: usize = 65_536;
const MOST_DIGITS: usize = 9;

pub(crate) const COUNT_NAMES: &[u8] = b"version vertices edges source workers\n";
pub(crate) const VERTEX_NAMES: &[u8] = b"vertex accepting owner\n";
pub(crate) const EDGE_NAMES: &[u8] = b"from to\n";
pub(crate) const VERSION_WORD: &[u8] = b"version ";
/// The only version of a case.
const VERSION: u8 = b'1';

/// Numbers of the refusals.
pub(crate) const TOO_LONG: u32 = 1;
const NO_VERSION_WORD: u32 = 2;
pub(crate) const OTHER_VERSION: u32 = 3;
const LAYOUT: u32 = 4;
pub(crate) const COUNT: u32 = 5;
const VERTEX_LINE: u32 = 6;
const EDGE_END: u32 = 7;
const EDGE_ORDER: u32 = 8;

/// An accepted case, with a table that leads from a vertex to its edges.
pub struct Case {
    pub source: usize,
    pub workers: usize,
    pub accepting: Vec<bool>,
    pub owners: Vec<u8>,
    pub targets: Vec<u16>,
    /// By vertex, the number of its first edge; one more entry ends the table.
    pub first_edges: Vec<u16>,
}

impl Case {
    pub fn vertices(&self) -> usize {
        self.accepting.len()
    }
}

/// The text not read yet.
struct Cursor<'a> {
    rest: &'a [u8],
}

impl<'a> Cursor<'a> {
    fn words(&mut self, words: &[u8]) -> Result<(), u32> {
        self.rest = self.rest.strip_prefix(words).ok_or(LAYOUT)?;
        Ok(())
    }

    /// A number and the one byte that must end it.
    fn number(&mut self, end: u8) -> Result<u32, u32> {
        let mut value = 0;
        let mut digits = 0;
        for &byte in self.rest {
            let digit = byte.wrapping_sub(b'0');
            if digit > 9 || digits == MOST_DIGITS {
                break;
            }
            value = value * 10 + u32::from(digit);
            digits += 1;
        }
        let leading_zero = digits > 1 && self.rest[0] == b'0';
        if digits == 0 || leading_zero || self.rest.get(digits) != Some(&end) {
            return Err(LAYOUT);
        }
        self.rest = &self.rest[digits + 1..];
        Ok(value)
    }
}

/// The case in a text, or the number of its refusal.
pub fn read(text: &[u8]) -> Result<Case, u32> {
    if text.len() > LONGEST_FILE {
        return Err(TOO_LONG);
    }
    if !text.starts_with(VERSION_WORD) {
        return Err(NO_VERSION_WORD);
    }
    if has_other_version(text, VERSION) {
        return Err(OTHER_VERSION);
    }
    let mut cursor = Cursor { rest: text };
    cursor.words(COUNT_NAMES)?;
    cursor.number(b' ')?;
    let vertices = cursor.number(b' ')? as usize;
    let edges = cursor.number(b' ')? as usize;
    let source = cursor.number(b' ')? as usize;
    let workers = cursor.number(b'\n')? as usize;
    let in_range = (1..=MOST_VERTICES).contains(&vertices)
        && edges <= MOST_EDGES
        && source < vertices
        && (1..=MOST_WORKERS).contains(&workers);
    if !in_range {
        return Err(COUNT);
    }
    let mut case = Case {
        source,
        workers,
        accepting: Vec::with_capacity(vertices),
        owners: Vec::with_capacity(vertices),
        targets: Vec::with_capacity(edges),
        first_edges: Vec::with_capacity(vertices + 1),
    };
    read_vertices(&mut cursor, &mut case, vertices)?;
    read_edges(&mut cursor, &mut case, edges)?;
    if cursor.rest.is_empty() {
        Ok(case)
    } else {
        Err(LAYOUT)
    }
}

/// Whether line 2's first field is a number that is not one from 1 to the
/// newest, a digit.
pub(crate) fn has_other_version(text: &[u8], newest: u8) -> bool {
    let Some(first_end) = text.iter().position(|&byte| byte == b'\n') else {
        return false;
    };
    let rest = &text[first_end + 1..];
    let length = rest.iter().position(|&byte| byte == b' ' || byte == b'\n');
    match &rest[..length.unwrap_or(rest.len())] {
        [] | [b'0', _, ..] => false,
        [digit] if (b'1'..=newest).contains(digit) => false,
        field => field.len() <= MOST_DIGITS && field.iter().all(u8::is_ascii_digit),
    }
}

fn read_vertices(cursor: &mut Cursor, case: &mut Case, vertices: usize) -> Result<(), u32> {
    cursor.words(VERTEX_NAMES)?;
    for expected in 0..vertices {
        let vertex = cursor.number(b' ')? as usize;
        let mark = cursor.number(b' ')?;
        let owner = cursor.number(b'\n')? as usize;
        if vertex != expected || mark > 1 || owner >= case.workers {
            return Err(VERTEX_LINE);
        }
        case.accepting.push(mark == 1);
        case.owners.push(owner as u8);
    }
    Ok(())
}

/// Reads the edges and fills the table of first edges as their starts rise.
fn read_edges(cursor: &mut Cursor, case: &mut Case, edges: usize) -> Result<(), u32> {
    cursor.words(EDGE_NAMES)?;
    let vertices = case.vertices();
    let mut before = None;
    for edge in 0..edges {
        let from = cursor.number(b' ')? as usize;
        let to = cursor.number(b'\n')? as usize;
        if from >= vertices || to >= vertices {
            return Err(EDGE_END);
        }
        if before >= Some((from, to)) {
            return Err(EDGE_ORDER);
        }
        before = Some((from, to));
        if case.first_edges.len() <= from {
            case.first_edges.resize(from + 1, edge as u16);
        }
        case.targets.push(to as u16);
    }
    case.first_edges.resize(vertices + 1, edges as u16);
    Ok(())
}
