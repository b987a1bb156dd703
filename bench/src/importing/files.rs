//! The files that are measured: comma-separated lists of several shapes, each of three sizes.

/// What a file looks like.
#[derive(Clone, Copy, Debug, PartialEq, Eq)]
pub enum Shape {
    /// A name and a number, CRLF.
    Narrow,
    /// Sixteen columns, names and numbers, line feeds.
    Wide,
    /// Four columns, every field in quotes, CRLF.
    Quoted,
    /// Names of 24 bytes and numbers of 19 digits.
    Long,
    /// One record of all the fields.
    One,
    /// One field of one byte a record: nearly all that is written is not of the file.
    Tiny,
}

pub const SHAPES: [Shape; 6] = [Shape::Narrow, Shape::Wide, Shape::Quoted, Shape::Long, Shape::One, Shape::Tiny];
pub const SIZES: [(&str, usize); 3] = [("60K", 60_000), ("1M", 1_000_000), ("64M", 64_000_000)];

impl Shape {
    pub fn word(self) -> &'static str {
        match self {
            Shape::Narrow => "narrow",
            Shape::Wide => "wide",
            Shape::Quoted => "quoted",
            Shape::Long => "long",
            Shape::One => "one",
            Shape::Tiny => "tiny",
        }
    }

    fn columns(self) -> usize {
        match self {
            Shape::Narrow => 2,
            Shape::Wide => 16,
            Shape::Quoted | Shape::Long => 4,
            Shape::One => usize::MAX,
            Shape::Tiny => 1,
        }
    }

    fn ending(self) -> &'static str {
        match self {
            Shape::Narrow | Shape::Quoted => "\r\n",
            _ => "\n",
        }
    }

    fn field(self, column: usize, sequence: &mut Sequence, file: &mut String) {
        let quote = if self == Shape::Quoted { "\"" } else { "" };
        file.push_str(quote);
        match (self, column % 2) {
            (Shape::Tiny, _) => file.push(sequence.letter()),
            (Shape::Long, 0) => (0..24).for_each(|_| file.push(sequence.letter())),
            (Shape::Long, _) => file.push_str(&(1_000_000_000_000_000_000 + sequence.next() % 8_000_000_000_000_000_000).to_string()),
            (_, 0) => (0..3 + sequence.next() % 6).for_each(|_| file.push(sequence.letter())),
            _ => file.push_str(&(sequence.next() % 100_000).to_string()),
        }
        file.push_str(quote);
    }

    /// A file of about so many bytes, whole records only.
    pub fn file(self, bytes: usize) -> Vec<u8> {
        let mut sequence = Sequence(7);
        let mut file = String::with_capacity(bytes + 1_000);
        let mut column = 0;
        while file.len() < bytes || column != 0 {
            self.field(column, &mut sequence, &mut file);
            column += 1;
            if column == self.columns() || self == Shape::One && file.len() >= bytes {
                file.push_str(self.ending());
                column = 0;
            } else {
                file.push(',');
            }
        }
        file.into_bytes()
    }
}

/// A repeatable sequence of numbers.
struct Sequence(u64);

impl Sequence {
    fn next(&mut self) -> u64 {
        self.0 = self.0.wrapping_mul(6_364_136_223_846_793_005).wrapping_add(1_442_695_040_888_963_407);
        self.0 >> 33
    }

    fn letter(&mut self) -> char {
        char::from(b'a' + (self.next() % 26) as u8)
    }
}
