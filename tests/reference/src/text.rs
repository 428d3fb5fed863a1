//! Lines, fields and numbers, as every kind of file but the claim uses them.

/// No file may be longer than this many bytes.
pub const LONGEST_FILE: usize = 65_536;

/// Cases, answers and charts begin with this.
pub const VERSION_WORD: &[u8] = b"version ";

const MOST_DIGITS: usize = 9;

/// The part of a text that has not been read yet, taken line by line.
pub struct Lines<'a> {
    rest: &'a [u8],
}

impl<'a> Lines<'a> {
    pub fn of(text: &'a [u8]) -> Self {
        Lines { rest: text }
    }

    /// The next line without its line feed, or nothing if no line feed is
    /// left: a line that none ends is not a line.
    pub fn next_line(&mut self) -> Option<&'a [u8]> {
        let end = self.rest.iter().position(|&byte| byte == b'\n')?;
        let line = &self.rest[..end];
        self.rest = &self.rest[end + 1..];
        Some(line)
    }

    /// The next line, split at single spaces into exactly `N` fields.
    pub fn next_fields<const N: usize>(&mut self) -> Option<[&'a [u8]; N]> {
        let line = self.next_line()?;
        let fields: Vec<&[u8]> = line.split(|&byte| byte == b' ').collect();
        fields.try_into().ok()
    }

    /// The next line, if it consists of exactly `N` numbers.
    pub fn next_numbers<const N: usize>(&mut self) -> Option<[usize; N]> {
        let fields: [&[u8]; N] = self.next_fields()?;
        let numbers: Option<Vec<usize>> = fields.iter().map(|field| number(field)).collect();
        numbers?.try_into().ok()
    }

    /// Whether nothing at all is left, not even a part of a line.
    pub fn at_end(&self) -> bool {
        self.rest.is_empty()
    }
}

/// The value of a field that is a number: 1 to 9 digits, no leading zeros.
pub fn number(field: &[u8]) -> Option<usize> {
    let few_enough = (1..=MOST_DIGITS).contains(&field.len());
    let all_digits = field.iter().all(u8::is_ascii_digit);
    let leading_zero = field.len() > 1 && field[0] == b'0';
    if !few_enough || !all_digits || leading_zero {
        return None;
    }
    let append = |value: usize, digit: &u8| value * 10 + usize::from(digit - b'0');
    Some(field.iter().fold(0, append))
}

/// A number that may have a minus sign before it. Sign and size stay apart
/// because `-0` is well formed but has no allowed value.
#[derive(Clone, Copy, Debug, PartialEq, Eq)]
pub struct SignedNumber {
    pub negative: bool,
    pub size: usize,
}

/// A field that is a number, perhaps with a minus sign.
pub fn signed_number(field: &[u8]) -> Option<SignedNumber> {
    let unsigned = field.strip_prefix(b"-");
    let size = number(unsigned.unwrap_or(field))?;
    Some(SignedNumber {
        negative: unsigned.is_some(),
        size,
    })
}

/// The number that line 2's first field is, if it is one. Only the field itself
/// counts: lines 1 and 2 may be broken in any other way.
pub fn version(text: &[u8]) -> Option<usize> {
    let mut lines = text.splitn(2, |&byte| byte == b'\n');
    let second_line_on = lines.nth(1).unwrap_or_default();
    let mut fields = second_line_on.split(|&byte| byte == b' ' || byte == b'\n');
    fields.next().and_then(number)
}

/// Whether a text's version is a number, and none of these.
pub fn has_other_version(text: &[u8], known: &[usize]) -> bool {
    version(text).is_some_and(|version| !known.contains(&version))
}
