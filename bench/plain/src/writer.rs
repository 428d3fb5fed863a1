//! Writes words and numbers to the front of an output.

pub(crate) struct Writer<'a> {
    pub output: &'a mut [u8],
    pub length: usize,
}

impl Writer<'_> {
    #[inline]
    pub fn word(&mut self, word: &[u8]) {
        self.output[self.length..][..word.len()].copy_from_slice(word);
        self.length += word.len();
    }

    /// A number and the byte that ends it.
    #[inline]
    pub fn number(&mut self, mut number: u32, end: u8) {
        let mut digits = [0; 10];
        let mut first = digits.len();
        loop {
            first -= 1;
            digits[first] = b'0' + (number % 10) as u8;
            number /= 10;
            if number == 0 {
                break;
            }
        }
        self.word(&digits[first..]);
        self.word(&[end]);
    }
}
