//! The gate's two exported functions, as a host calls them.

use crate::documents::CLOCK;

#[link(name = "gate", kind = "static")]
extern "C" {
    fn gate_check(doc: *const u8, doc_len: usize, figures: *mut u64) -> u64;
    fn gate_ask(
        doc: *const u8,
        doc_len: usize,
        query: *const u8,
        query_len: usize,
        year: u64,
        day: u64,
        hour: u64,
        out: *mut u8,
        out_len: usize,
        figures: *mut u64,
    ) -> u64;
}

/// 0 if the document is accepted, else the number of the refusal; and the five figures.
pub fn check(doc: &[u8]) -> (u64, [u64; 5]) {
    let mut figures = [0; 5];
    // Sound: the slice and the array are lent for the call alone, with their lengths.
    let number = unsafe { gate_check(doc.as_ptr(), doc.len(), figures.as_mut_ptr()) };
    (number, figures)
}

/// 0 if the query is answered, else the number of the refusal; and the five figures.
pub fn ask(doc: &[u8], query: &[u8], out: &mut [u8]) -> (u64, [u64; 5]) {
    let mut figures = [0; 5];
    let (year, day, hour) = CLOCK;
    // Sound: the slices and the array are lent for the call alone, with their lengths.
    let number = unsafe {
        gate_ask(
            doc.as_ptr(),
            doc.len(),
            query.as_ptr(),
            query.len(),
            year,
            day,
            hour,
            out.as_mut_ptr(),
            out.len(),
            figures.as_mut_ptr(),
        )
    };
    (number, figures)
}
