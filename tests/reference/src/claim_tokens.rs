//! The tokens of a claim, each with the byte that tells it, and the reader
//! that takes them from the front.

use crate::refusal::Refusal;

/// What a token is.
#[derive(Clone, Copy, Debug, PartialEq, Eq)]
pub enum Kind<'a> {
    Name(&'a [u8]),
    /// A name and a colon at once; here without the colon.
    Header(&'a [u8]),
    Number(u32),
    /// The bytes between the quotes, as stored.
    Text(&'a [u8]),
    /// One of `[ ] ( ) { } ! & |`.
    Symbol(u8),
    BodyMark,
    EndMark,
    /// An `@` and one name byte; nothing after them matters.
    Alias,
    /// `/*`; nothing after it matters.
    Comment,
    /// What no claim has anywhere outside a string.
    Stray,
    /// The end of the text.
    Nothing,
}

/// A token in its place.
#[derive(Clone, Copy, Debug, PartialEq, Eq)]
pub struct Token<'a> {
    pub kind: Kind<'a>,
    pub start: usize,
    pub end: usize,
    /// The number of the byte that tells it, counted from 1.
    pub told: usize,
}

/// The tokens of a whole text; the last one, and only that, is its end.
pub fn tokens(text: &[u8]) -> Vec<Token<'_>> {
    let mut tokens = Vec::new();
    let mut at = 0;
    loop {
        let token = token_at(text, at + length_of(&text[at..], is_blank));
        at = token.end;
        tokens.push(token);
        if token.kind == Kind::Nothing {
            return tokens;
        }
    }
}

fn is_blank(byte: &u8) -> bool {
    matches!(byte, b' ' | b'\t' | b'\n' | 0x0b | 0x0c | b'\r')
}

fn is_name_byte(byte: &u8) -> bool {
    byte.is_ascii_alphanumeric() || matches!(byte, b'_' | b'-')
}

/// How many bytes there are in front that all belong.
fn length_of(text: &[u8], belongs: fn(&u8) -> bool) -> usize {
    let end = text.iter().position(|byte| !belongs(byte));
    end.unwrap_or(text.len())
}

fn token_at(text: &[u8], start: usize) -> Token<'_> {
    let (kind, length) = longest_match(&text[start..]);
    let end = start + length;
    let told = match kind {
        Kind::Name(_) | Kind::Number(_) | Kind::Stray => text.len().min(end + 1),
        _ => end,
    };
    Token {
        kind,
        start,
        end,
        told,
    }
}

/// The token in front of a text that does not begin with a blank.
fn longest_match(text: &[u8]) -> (Kind<'_>, usize) {
    match text {
        [] => (Kind::Nothing, 0),
        [b'A'..=b'Z' | b'a'..=b'z' | b'_', ..] => name(text),
        [b'0'..=b'9', ..] => number(text),
        [b'"', ..] => string(text),
        [b'/', b'*', ..] => (Kind::Comment, 2),
        [b'@', next, ..] if is_name_byte(next) => (Kind::Alias, 2),
        [symbol, ..] if b"[](){}!&|".contains(symbol) => (Kind::Symbol(*symbol), 1),
        _ if text.starts_with(b"--BODY--") => (Kind::BodyMark, 8),
        _ if text.starts_with(b"--END--") => (Kind::EndMark, 7),
        _ => (Kind::Stray, 1),
    }
}

fn name(text: &[u8]) -> (Kind<'_>, usize) {
    let length = length_of(text, is_name_byte);
    let name = &text[..length];
    if text.get(length) == Some(&b':') {
        (Kind::Header(name), length + 1)
    } else {
        (Kind::Name(name), length)
    }
}

fn number(text: &[u8]) -> (Kind<'_>, usize) {
    let length = length_of(text, u8::is_ascii_digit);
    let digits = &text[..length];
    let leading_zero = length > 1 && digits[0] == b'0';
    let append = |value: i32, digit: &u8| {
        let digit = i32::from(digit - b'0');
        value.checked_mul(10)?.checked_add(digit)
    };
    // The greatest number of the format is the greatest i32.
    match digits.iter().try_fold(0, append) {
        Some(value) if !leading_zero => (Kind::Number(value as u32), length),
        _ => (Kind::Stray, length),
    }
}

fn string(text: &[u8]) -> (Kind<'_>, usize) {
    let mut at = 1;
    while at < text.len() {
        match text[at] {
            b'"' => return (Kind::Text(&text[1..at]), at + 1),
            b'\\' => at += 2,
            _ => at += 1,
        }
    }
    (Kind::Stray, text.len())
}

/// The most that is taken of each.
#[derive(Clone, Copy, Debug)]
pub struct Limits {
    pub bytes: usize,
    pub states: u32,
    pub propositions: u32,
    pub name_bytes: usize,
    pub depth: usize,
}

/// The first token with which no taken claim goes on.
#[derive(Clone, Copy, Debug, PartialEq, Eq)]
pub struct Fault {
    pub refusal: Refusal,
    /// Its number among the tokens.
    pub at: usize,
}

/// Takes tokens from the front. Nobody takes more after a fault, so nobody
/// takes more than the text's end.
pub struct Reader<'a> {
    tokens: &'a [Token<'a>],
    taken: usize,
    pub limits: Limits,
}

impl<'a> Reader<'a> {
    pub fn of(tokens: &'a [Token<'a>], limits: Limits) -> Self {
        Reader {
            tokens,
            taken: 0,
            limits,
        }
    }

    /// The token that is due, not yet taken.
    pub fn due(&self) -> Token<'a> {
        self.tokens[self.taken]
    }

    pub fn take(&mut self) -> Kind<'a> {
        let token = self.due();
        self.taken += 1;
        token.kind
    }

    /// Takes the next token if it is this one.
    pub fn take_if(&mut self, kind: Kind) -> bool {
        let same = self.due().kind == kind;
        self.taken += usize::from(same);
        same
    }

    /// Takes the one token that may stand here.
    pub fn expect(&mut self, kind: Kind) -> Result<(), Fault> {
        if self.take() == kind {
            Ok(())
        } else {
            self.wrong()
        }
    }

    /// Takes a number that is allowed here.
    pub fn number(&mut self, allowed: impl FnOnce(u32) -> bool) -> Result<u32, Fault> {
        match self.take() {
            Kind::Number(number) if allowed(number) => Ok(number),
            _ => self.wrong(),
        }
    }

    /// Refuses the token taken last, which the format does not have here, or
    /// which is above a limit or out of range. A comment it has everywhere.
    pub fn wrong<T>(&self) -> Result<T, Fault> {
        if self.last().kind == Kind::Comment {
            self.not_taken()
        } else {
            self.fault(Refusal::ClaimWrong)
        }
    }

    /// Refuses the token taken last, which the format has here and which is
    /// named under 16. If it is told too late, the length was told before.
    pub fn not_taken<T>(&self) -> Result<T, Fault> {
        if self.last().told > self.limits.bytes {
            self.fault(Refusal::ClaimWrong)
        } else {
            self.fault(Refusal::ClaimNotTaken)
        }
    }

    /// Refuses the token taken last by this refusal, wherever it stands.
    pub fn fault<T>(&self, refusal: Refusal) -> Result<T, Fault> {
        let at = self.taken - 1;
        Err(Fault { refusal, at })
    }

    fn last(&self) -> Token<'a> {
        self.tokens[self.taken - 1]
    }
}
