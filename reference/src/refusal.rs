//! 01, "Asking": "A refusal hands back its number and a part of the document or of the query"; of the file in 02, Q-1.

use crate::text::Span;

/// The text that holds the part.
#[derive(Clone, Copy, Debug, PartialEq, Eq)]
pub enum Source {
    Document,
    Query,
    /// The comma-separated file that is imported (02, Q-1).
    File,
}

/// A number of 01 or 02 and a part, in bytes from 0.
#[derive(Clone, Copy, Debug, PartialEq, Eq)]
pub struct Refusal {
    pub number: u32,
    pub source: Source,
    pub start: usize,
    pub len: usize,
}

/// A refusal whose part stands in the document (01, numbers 1 to 9; 02, 25, 28 and 31).
pub fn of_document(number: u32, part: Span) -> Refusal {
    Refusal { number, source: Source::Document, start: part.start, len: part.len }
}

/// A refusal whose part stands in the query (01, numbers 10 to 18; 02, 27 and 31), or in a why line (02, 11, 23, 24 and 26).
pub fn of_query(number: u32, part: Span) -> Refusal {
    Refusal { number, source: Source::Query, start: part.start, len: part.len }
}

/// A refusal of a file (02, numbers 19 to 21); every one has an empty part.
pub fn of_file(number: u32, start: usize) -> Refusal {
    Refusal { number, source: Source::File, start, len: 0 }
}

/// 01: "leftmost offending item".
pub fn leftmost(offending: &[Span]) -> Option<Span> {
    offending.iter().copied().min_by_key(|part| part.start)
}
