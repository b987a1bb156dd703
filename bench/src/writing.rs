//! An answer's text, written by a peer's host.

pub struct Writing<'a> {
    out: &'a mut [u8],
    len: usize,
}

impl<'a> Writing<'a> {
    pub fn new(out: &'a mut [u8]) -> Writing<'a> {
        Writing { out, len: 0 }
    }

    pub fn len(&self) -> usize {
        self.len
    }

    #[inline]
    pub fn byte(&mut self, byte: u8) {
        self.out[self.len] = byte;
        self.len += 1;
    }

    #[inline]
    pub fn bytes(&mut self, bytes: &[u8]) {
        self.out[self.len..self.len + bytes.len()].copy_from_slice(bytes);
        self.len += bytes.len();
    }

    /// The digits are found from the last one on.
    #[inline]
    pub fn number(&mut self, number: i64) {
        if number < 0 {
            self.byte(b'-');
        }
        let mut digits = [0; 20];
        let mut first = digits.len();
        let mut rest = number.unsigned_abs();
        loop {
            first -= 1;
            digits[first] = b'0' + (rest % 10) as u8;
            rest /= 10;
            if rest == 0 {
                break;
            }
        }
        self.bytes(&digits[first..]);
    }

    /// A row line; each value is a number or a name.
    pub fn row<'b>(&mut self, holds_numbers: &[bool], number: impl Fn(usize) -> i64, name: impl Fn(usize) -> &'b [u8]) {
        self.bytes(b"(row");
        for (place, &holds_numbers) in holds_numbers.iter().enumerate() {
            self.byte(b' ');
            if holds_numbers {
                self.number(number(place));
            } else {
                self.bytes(name(place));
            }
        }
        self.bytes(b")\n");
    }

    /// The last line, with the rows given, withheld and unmatched.
    pub fn end(&mut self, counts: [u64; 3]) {
        self.bytes(b"(end");
        for count in counts {
            self.byte(b' ');
            self.number(count as i64);
        }
        self.bytes(b")\n");
    }
}
