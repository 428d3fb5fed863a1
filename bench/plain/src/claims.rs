//! A reader of claims in the Hanoi format with every check of the library's,
//! in one pass, into the same tables.

use std::ops::Range;

pub const MOST_STATES: usize = 15;
pub const LONGEST_CLAIM: usize = 16_384;
/// Flag values of so many propositions.
pub const VALUES: usize = 1 << MOST_PROPOSITIONS;
const MOST_PROPOSITIONS: usize = 8;
const LONGEST_NAME: usize = 32;
const DEEPEST: usize = 16;
const NUMBER_END: u64 = 1 << 31;

/// Numbers of the refusals.
const NOT_A_CLAIM: u32 = 14;
const WRONG: u32 = 15;
const NOT_TAKEN: u32 = 16;

/// The counts of a claim that is taken.
#[derive(Clone, Copy, Debug, PartialEq, Eq)]
pub struct Counts {
    pub states: u32,
    pub start: u32,
    pub propositions: u32,
}

/// What a claim says of each state; of use only if it is taken.
pub struct Tables {
    /// 1 for a state that is accepting.
    pub marks: [u32; MOST_STATES],
    /// Place and length of a state's name, 0 and 0 for one that has none.
    pub name_places: [u32; MOST_STATES],
    pub name_lengths: [u32; MOST_STATES],
    /// Bit d for each state d to which an edge leads.
    pub leads: [u32; MOST_STATES],
    /// By flag values, bit d where the label of an edge to d holds.
    pub moves: [[u32; VALUES]; MOST_STATES],
}

impl Tables {
    pub fn empty() -> Tables {
        Tables {
            marks: [0; MOST_STATES],
            name_places: [0; MOST_STATES],
            name_lengths: [0; MOST_STATES],
            leads: [0; MOST_STATES],
            moves: [[0; VALUES]; MOST_STATES],
        }
    }
}

/// A set of flag values, 64 to a word.
type Values = [u64; VALUES / 64];

const NO_VALUES: Values = [0; VALUES / 64];
const ALL_VALUES: Values = [!0; VALUES / 64];

/// By proposition, the flag values in which it holds.
const FLAGGED: [Values; MOST_PROPOSITIONS] = [
    [0xAAAA_AAAA_AAAA_AAAA; 4],
    [0xCCCC_CCCC_CCCC_CCCC; 4],
    [0xF0F0_F0F0_F0F0_F0F0; 4],
    [0xFF00_FF00_FF00_FF00; 4],
    [0xFFFF_0000_FFFF_0000; 4],
    [0xFFFF_FFFF_0000_0000; 4],
    [0, !0, 0, !0],
    [0, 0, !0, !0],
];

/// By four bits, each in a cell of its own.
const SPREAD: [[u32; 4]; 16] = {
    let mut spread = [[0; 4]; 16];
    let mut bits = 0;
    while bits < 64 {
        spread[bits / 4][bits % 4] = (bits as u32 / 4) >> (bits % 4) & 1;
        bits += 1;
    }
    spread
};

/// What a byte begins or belongs to.
const BLANK: u8 = 1;
const DIGIT: u8 = 2;
const LETTER: u8 = 4;
const NAME_BYTE: u8 = 8;

const KINDS: [u8; 256] = {
    let mut kinds = [0; 256];
    let mut byte = 0;
    while byte < 256 {
        kinds[byte] = match byte as u8 {
            b' ' | 9..=13 => BLANK,
            b'0'..=b'9' => DIGIT | NAME_BYTE,
            b'A'..=b'Z' | b'a'..=b'z' | b'_' => LETTER | NAME_BYTE,
            b'-' => NAME_BYTE,
            _ => 0,
        };
        byte += 1;
    }
    kinds
};

fn is(byte: u8, kind: u8) -> bool {
    KINDS[usize::from(byte)] & kind != 0
}

/// The part of the text that is looked at, and how far it is read.
struct Cursor<'a> {
    text: &'a [u8],
    at: usize,
    /// Whether the text goes on past that part.
    longer: bool,
}

impl Cursor<'_> {
    /// The byte after the blanks, 0 at the end: no token begins with that.
    #[inline(always)]
    fn due(&mut self) -> u8 {
        while let Some(&byte) = self.text.get(self.at) {
            if !is(byte, BLANK) {
                return byte;
            }
            self.at += 1;
        }
        0
    }

    /// The refusal for a token that is not taken here.
    #[cold]
    fn wrong(&self) -> u32 {
        if self.text[self.at..].starts_with(b"/*") {
            NOT_TAKEN
        } else {
            WRONG
        }
    }

    /// What a name or a number comes to, told by the byte after it.
    #[inline(always)]
    fn told<T>(&self, value: T) -> Result<T, u32> {
        if self.at == self.text.len() && self.longer {
            Err(WRONG)
        } else {
            Ok(value)
        }
    }

    /// The number that is due.
    #[inline(always)]
    fn number(&mut self) -> Result<u32, u32> {
        let first = self.due();
        if !is(first, DIGIT) {
            return Err(self.wrong());
        }
        let mut value = u64::from(first - b'0');
        self.at += 1;
        while let Some(&byte) = self.text.get(self.at) {
            let digit = byte.wrapping_sub(b'0');
            if digit > 9 {
                break;
            }
            let more = value * 10 + u64::from(digit);
            if value == 0 || more >= NUMBER_END {
                return Err(WRONG);
            }
            value = more;
            self.at += 1;
        }
        self.told(value as u32)
    }

    /// The name whose first byte is here.
    #[inline(always)]
    fn name(&mut self) -> Result<Range<usize>, u32> {
        let start = self.at;
        self.at += 1;
        while let Some(&byte) = self.text.get(self.at) {
            if !is(byte, NAME_BYTE) {
                break;
            }
            self.at += 1;
        }
        self.told(start..self.at)
    }

    /// Whether a colon is here, which makes a header of the name before it.
    fn colon(&mut self) -> bool {
        let colon = self.text.get(self.at) == Some(&b':');
        self.at += usize::from(colon);
        colon
    }

    /// The string whose first quote is here, as stored.
    #[inline(always)]
    fn string(&mut self) -> Result<Range<usize>, u32> {
        let start = self.at + 1;
        let mut at = start;
        while let Some(&byte) = self.text.get(at) {
            match byte {
                b'"' => {
                    self.at = at + 1;
                    return Ok(start..at);
                }
                b'\\' => at += 2,
                _ => at += 1,
            }
        }
        Err(WRONG)
    }

    fn expect(&mut self, symbol: u8) -> Result<(), u32> {
        if self.due() != symbol {
            return Err(self.wrong());
        }
        self.at += 1;
        Ok(())
    }

    /// Whether these words stand here; if so, they are read.
    fn words(&mut self, words: &[u8]) -> bool {
        let stand = self.text[self.at..].starts_with(words);
        if stand {
            self.at += words.len();
        }
        stand
    }
}

/// Reads a claim into the tables: its counts, or the number of its refusal.
pub fn read(text: &[u8], tables: &mut Tables) -> Result<Counts, u32> {
    let opening = read_opening(text).ok_or(NOT_A_CLAIM)?;
    let looked_at = text.len().min(LONGEST_CLAIM);
    if opening > looked_at {
        return Err(WRONG);
    }
    let mut cursor = Cursor {
        text: &text[..looked_at],
        at: opening,
        longer: text.len() > looked_at,
    };
    let counts = read_header(&mut cursor)?;
    *tables = Tables::empty();
    read_body(&mut cursor, &counts, tables)?;
    Ok(counts)
}

/// The place past `HOA:` and v1, which are looked for in the whole text.
fn read_opening(text: &[u8]) -> Option<usize> {
    let mut cursor = Cursor {
        text,
        at: 0,
        longer: false,
    };
    for words in [b"HOA:".as_slice(), b"v1"] {
        cursor.due();
        if !cursor.words(words) {
            return None;
        }
    }
    let goes_on = |&byte: &u8| byte == b':' || is(byte, NAME_BYTE);
    (!text.get(cursor.at).is_some_and(goes_on)).then_some(cursor.at)
}

/// What stands before the token that is due in the header.
#[derive(Clone, Copy, PartialEq, Eq)]
enum Before {
    Start,
    Acceptance,
    /// A skipped header and what belongs to it.
    Skipped,
    Other,
}

fn read_header(cursor: &mut Cursor) -> Result<Counts, u32> {
    let mut states = None;
    let mut start = None;
    let mut propositions = None;
    let mut acceptance = false;
    let mut before = Before::Other;
    loop {
        match cursor.due() {
            byte if is(byte, LETTER) => {
                let name = cursor.name()?;
                if !cursor.colon() {
                    if before == Before::Skipped {
                        continue;
                    }
                    return Err(WRONG);
                }
                before = match &cursor.text[name] {
                    b"States" if states.is_none() => {
                        states = Some(read_count(cursor, start)?);
                        Before::Other
                    }
                    b"Start" if start.is_none() => {
                        start = Some(below(cursor, states.unwrap_or(MOST_STATES as u32))?);
                        Before::Start
                    }
                    b"AP" if propositions.is_none() => {
                        propositions = Some(read_propositions(cursor)?);
                        Before::Other
                    }
                    b"Acceptance" if !acceptance => {
                        read_acceptance(cursor)?;
                        acceptance = true;
                        Before::Acceptance
                    }
                    b"HOA" | b"States" | b"AP" | b"Acceptance" => return Err(WRONG),
                    _ if byte.is_ascii_uppercase() => return Err(NOT_TAKEN),
                    _ if byte == b'_' => return Err(WRONG),
                    _ => Before::Skipped,
                };
            }
            b'"' if before == Before::Skipped => {
                cursor.string()?;
            }
            b'&' if matches!(before, Before::Start | Before::Acceptance) => return Err(NOT_TAKEN),
            b'|' if before == Before::Acceptance => return Err(NOT_TAKEN),
            byte if is(byte, DIGIT) && before == Before::Skipped => {
                cursor.number()?;
            }
            b'-' if cursor.words(b"--BODY--") => break,
            _ => return Err(cursor.wrong()),
        }
    }
    match (states, start) {
        (Some(states), Some(start)) if acceptance => Ok(Counts {
            states,
            start,
            propositions: propositions.unwrap_or(0),
        }),
        _ => Err(WRONG),
    }
}

/// The number that is due, which must be below this one.
fn below(cursor: &mut Cursor, end: u32) -> Result<u32, u32> {
    let number = cursor.number()?;
    if number < end { Ok(number) } else { Err(WRONG) }
}

fn read_count(cursor: &mut Cursor, start: Option<u32>) -> Result<u32, u32> {
    let count = below(cursor, MOST_STATES as u32 + 1)?;
    if count > start.unwrap_or(0) {
        Ok(count)
    } else {
        Err(WRONG)
    }
}

fn read_propositions(cursor: &mut Cursor) -> Result<u32, u32> {
    let count = below(cursor, MOST_PROPOSITIONS as u32 + 1)?;
    for _ in 0..count {
        if cursor.due() != b'"' {
            return Err(cursor.wrong());
        }
        cursor.string()?;
    }
    Ok(count)
}

/// Reads `1 Inf ( 0 )`.
fn read_acceptance(cursor: &mut Cursor) -> Result<(), u32> {
    if cursor.number()? != 1 {
        return Err(NOT_TAKEN);
    }
    match cursor.due() {
        byte if is(byte, LETTER) => {
            let name = cursor.name()?;
            if cursor.colon() {
                return Err(WRONG);
            }
            if &cursor.text[name] != b"Inf" {
                return Err(NOT_TAKEN);
            }
        }
        b'(' => return Err(NOT_TAKEN),
        _ => return Err(cursor.wrong()),
    }
    cursor.expect(b'(')?;
    if cursor.due() == b'!' || cursor.number()? != 0 {
        return Err(NOT_TAKEN);
    }
    cursor.expect(b')')
}

/// Reads the lines of all states, in any order, to the text's end.
fn read_body(cursor: &mut Cursor, counts: &Counts, tables: &mut Tables) -> Result<(), u32> {
    let all = (1 << counts.states) - 1;
    let mut listed = 0;
    while listed != all {
        cursor.due();
        if !cursor.words(b"State:") {
            return Err(cursor.wrong());
        }
        if cursor.due() == b'[' {
            return Err(NOT_TAKEN);
        }
        let state = below(cursor, counts.states)?;
        if listed >> state & 1 == 1 {
            return Err(WRONG);
        }
        listed |= 1 << state;
        read_line(cursor, counts, state as usize, tables)?;
    }
    cursor.due();
    if !cursor.words(b"--END--") {
        return Err(cursor.wrong());
    }
    cursor.due();
    if cursor.at < cursor.text.len() {
        return Err(cursor.wrong());
    }
    cursor.told(())
}

/// Reads what stands after a state's number.
fn read_line(
    cursor: &mut Cursor,
    counts: &Counts,
    state: usize,
    tables: &mut Tables,
) -> Result<(), u32> {
    if cursor.due() == b'"' {
        let name = cursor.string()?;
        if name.len() > LONGEST_NAME || cursor.text[name.clone()].contains(&b'\n') {
            return Err(WRONG);
        }
        tables.name_places[state] = name.start as u32;
        tables.name_lengths[state] = name.len() as u32;
    }
    if cursor.due() == b'{' {
        cursor.at += 1;
        while cursor.due() != b'}' {
            below(cursor, 1)?;
            tables.marks[state] = 1;
        }
        cursor.at += 1;
    }
    // Edges to one state come to one set of flag values, put down at the end.
    let mut sets = [NO_VALUES; MOST_STATES];
    let mut levels = [const { Level::open(0) }; DEEPEST];
    let mut leads = 0;
    while cursor.due() == b'[' {
        cursor.at += 1;
        let values = read_label(cursor, counts.propositions, &mut levels)?;
        let target = below(cursor, counts.states)?;
        if cursor.due() == b'{' {
            return Err(NOT_TAKEN);
        }
        leads |= 1 << target;
        sets[target as usize] = or(sets[target as usize], values);
    }
    tables.leads[state] = leads;
    for (target, set) in sets.iter().enumerate() {
        if leads >> target & 1 == 1 {
            add_moves(&mut tables.moves[state], *set, target);
        }
    }
    Ok(())
}

/// Adds a target to the cells of these flag values.
fn add_moves(cells: &mut [u32; VALUES], values: Values, target: usize) {
    for (cells, mut word) in cells.chunks_exact_mut(64).zip(values) {
        for cells in cells.chunks_exact_mut(4) {
            let spread = &SPREAD[(word & 15) as usize];
            for (cell, bit) in cells.iter_mut().zip(spread) {
                *cell |= bit << target;
            }
            word >>= 4;
        }
    }
}

fn or(one: Values, other: Values) -> Values {
    std::array::from_fn(|word| one[word] | other[word])
}

fn and(one: Values, other: Values) -> Values {
    std::array::from_fn(|word| one[word] & other[word])
}

/// A label under way, within one pair of brackets.
#[derive(Clone, Copy)]
struct Level {
    /// Of the parts before the last `|`.
    any: Values,
    /// Of the atoms after it.
    all: Values,
    /// The brackets and negations around it, and around its next atom.
    around: usize,
    deep: usize,
    /// All ones if the negations before its next atom flip that.
    flip: u64,
}

impl Level {
    const fn open(around: usize) -> Level {
        Level {
            any: NO_VALUES,
            all: ALL_VALUES,
            around,
            deep: around,
            flip: 0,
        }
    }

    fn values(&self) -> Values {
        or(self.any, self.all)
    }

    fn take(&mut self, atom: Values) {
        self.all = and(self.all, atom.map(|word| word ^ self.flip));
        self.deep = self.around;
        self.flip = 0;
    }
}

/// Room for the levels around the one under way.
type Levels = [Level; DEEPEST];

/// Reads a label and the `]` after it: the flag values in which it holds.
fn read_label(cursor: &mut Cursor, propositions: u32, outer: &mut Levels) -> Result<Values, u32> {
    let mut brackets = 0;
    let mut level = Level::open(0);
    loop {
        let atom = match cursor.due() {
            byte @ (b'!' | b'(') => {
                if level.deep == DEEPEST {
                    return Err(WRONG);
                }
                cursor.at += 1;
                level.deep += 1;
                if byte == b'!' {
                    level.flip = !level.flip;
                } else {
                    outer[brackets] = level;
                    brackets += 1;
                    level = Level::open(level.deep);
                }
                continue;
            }
            byte if is(byte, DIGIT) => FLAGGED[below(cursor, propositions)? as usize],
            byte @ (b't' | b'f') => {
                let name = cursor.name()?;
                if name.len() > 1 || cursor.colon() {
                    return Err(WRONG);
                }
                if byte == b't' { ALL_VALUES } else { NO_VALUES }
            }
            b'@' => {
                let alias = cursor.text.get(cursor.at + 1);
                let named = alias.is_some_and(|&byte| is(byte, NAME_BYTE));
                return Err(if named { NOT_TAKEN } else { WRONG });
            }
            _ => return Err(cursor.wrong()),
        };
        level.take(atom);
        while cursor.due() == b')' && brackets > 0 {
            cursor.at += 1;
            brackets -= 1;
            let inner = level.values();
            level = outer[brackets];
            level.take(inner);
        }
        match cursor.due() {
            b'&' => {}
            b'|' => {
                level.any = level.values();
                level.all = ALL_VALUES;
            }
            b']' if brackets == 0 => {
                cursor.at += 1;
                return Ok(level.values());
            }
            _ => return Err(cursor.wrong()),
        }
        cursor.at += 1;
    }
}
