//! Reads words and numbers from the front of a text.

const MOST_DIGITS: usize = 9;

/// The text not read yet.
pub(crate) struct Cursor<'a> {
    pub rest: &'a [u8],
}

impl Cursor<'_> {
    #[inline]
    pub fn words(&mut self, words: &[u8]) -> Option<()> {
        self.rest = self.rest.strip_prefix(words)?;
        Some(())
    }

    /// A number and the one byte that must end it.
    #[inline]
    pub fn number(&mut self, end: u8) -> Option<u32> {
        let mut value = 0;
        for (digits, &byte) in self.rest.iter().enumerate() {
            if byte == end && digits > 0 {
                self.rest = &self.rest[digits + 1..];
                return Some(value);
            }
            let digit = byte.wrapping_sub(b'0');
            let leading_zero = digits > 0 && value == 0;
            if digit > 9 || leading_zero || digits == MOST_DIGITS {
                return None;
            }
            value = value * 10 + u32::from(digit);
        }
        None
    }
}
