//! The gate's calls on a loaded document, by loaded.c. All that the bench knows of them stands here.

use crate::documents::CLOCK;

extern "C" {
    fn bench_document_bytes() -> usize;
    fn bench_load(loaded: *mut u64, doc: *const u8, doc_len: usize, figures: *mut u64) -> u64;
    fn bench_ask_loaded(
        loaded: *const u64,
        doc: *const u8,
        doc_len: usize,
        query: *const u8,
        query_len: usize,
        year: u64,
        day: u64,
        hour: u64,
        out: *mut u8,
        out_len: usize,
        figures: *mut u64,
    ) -> u64;
    fn bench_measure_loaded(
        loaded: *const u64,
        doc: *const u8,
        doc_len: usize,
        query: *const u8,
        query_len: usize,
        year: u64,
        day: u64,
        hour: u64,
        figures: *mut u64,
    ) -> u64;
}

/// A loaded document: a struct gate_document, whose fields are words.
pub struct Loaded(Vec<u64>);

impl Loaded {
    /// Room for a document, none being loaded yet.
    pub fn new() -> Loaded {
        // Sound: a number is handed back.
        Loaded(vec![0; unsafe { bench_document_bytes() }.div_ceil(8)])
    }

    /// 0 if the document is accepted, else the number of the refusal; and the five figures.
    pub fn load(&mut self, doc: &[u8]) -> (u64, [u64; 5]) {
        let mut figures = [0; 5];
        // Sound, here and below: slices and arrays are lent for the call alone, with their lengths.
        let number = unsafe { bench_load(self.0.as_mut_ptr(), doc.as_ptr(), doc.len(), figures.as_mut_ptr()) };
        (number, figures)
    }

    /// 0 if the query is answered, else the number of the refusal; and the five figures. The document is the one that was loaded.
    pub fn ask(&self, doc: &[u8], query: &[u8], out: &mut [u8]) -> (u64, [u64; 5]) {
        let mut figures = [0; 5];
        let (year, day, hour) = CLOCK;
        let number = unsafe {
            bench_ask_loaded(
                self.0.as_ptr(),
                doc.as_ptr(),
                doc.len(),
                query.as_ptr(),
                query.len(),
                year,
                day,
                hour,
                out.as_mut_ptr(),
                out.len(),
                figures.as_mut_ptr(),
            )
        };
        (number, figures)
    }

    /// 0 with the answer's length as the first figure, else the number of the refusal.
    pub fn measure(&self, doc: &[u8], query: &[u8]) -> (u64, [u64; 5]) {
        let mut figures = [0; 5];
        let (year, day, hour) = CLOCK;
        let (loaded, into) = (self.0.as_ptr(), figures.as_mut_ptr());
        let number =
            unsafe { bench_measure_loaded(loaded, doc.as_ptr(), doc.len(), query.as_ptr(), query.len(), year, day, hour, into) };
        (number, figures)
    }
}
