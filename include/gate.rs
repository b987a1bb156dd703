//! The gate for hosts in Rust: slices in, results out. A host takes this file as it stands, as a module of its own:
//!     #[path = "include/gate.rs"]
//!     mod gate;
//! and links the library: `-L target/staticlib -l static=gate`. What gate.h asks of a caller, slices and borrows keep; a document that
//! is asked more than once is best loaded once (`Loaded`).

// A host may need only some of it.
#![allow(dead_code)]

mod exported {
    // As include/gate.h has them. The library stands in no crate, so rustc is told of it: -l static=gate.
    extern "C" {
        pub fn gate_check(doc: *const u8, doc_len: usize, figures: *mut u64) -> u64;
        pub fn gate_ask(
            doc: *const u8,
            doc_len: usize,
            query: *const u8,
            query_len: usize,
            year: u64,
            day: u64,
            hour: u64,
            out: *mut u8,
            out_len: usize,
            figures: *mut u64,
        ) -> u64;
        pub fn gate_measure(
            doc: *const u8,
            doc_len: usize,
            query: *const u8,
            query_len: usize,
            year: u64,
            day: u64,
            hour: u64,
            figures: *mut u64,
        ) -> u64;
        pub fn gate_why(
            doc: *const u8,
            doc_len: usize,
            line: *const u8,
            line_len: usize,
            out: *mut u8,
            figures: *mut u64,
        ) -> u64;
        pub fn gate_document_version() -> u64;
        pub fn gate_load_arrays(
            doc: *const u8,
            doc_len: usize,
            purposes: *mut u64,
            roles: *mut u64,
            attributes: *mut u64,
            users: *mut u64,
            conds: *mut u64,
            grants: *mut u64,
            labels: *mut u64,
            sets: *mut u64,
            tables: *mut u64,
            rows: *mut u64,
            cells: *mut u64,
            figures: *mut u64,
        ) -> u64;
        pub fn gate_ask_arrays(
            doc: *const u8,
            doc_len: usize,
            purposes: *const u64,
            roles: *const u64,
            attributes: *const u64,
            users: *const u64,
            conds: *const u64,
            grants: *const u64,
            sets: *const u64,
            tables: *const u64,
            rows: *const u64,
            cells: *const u64,
            query: *const u8,
            query_len: usize,
            clock: *const u64,
            out: *mut u8,
            out_len: usize,
            figures: *mut u64,
        ) -> u64;
        pub fn gate_measure_arrays(
            doc: *const u8,
            doc_len: usize,
            purposes: *const u64,
            roles: *const u64,
            attributes: *const u64,
            users: *const u64,
            conds: *const u64,
            grants: *const u64,
            sets: *const u64,
            tables: *const u64,
            rows: *const u64,
            cells: *const u64,
            query: *const u8,
            query_len: usize,
            clock: *const u64,
            figures: *mut u64,
        ) -> u64;
        pub fn gate_why_arrays(
            doc: *const u8,
            doc_len: usize,
            purposes: *const u64,
            labels: *const u64,
            sets: *const u64,
            tables: *const u64,
            rows: *const u64,
            cells: *const u64,
            line: *const u8,
            line_len: usize,
            out: *mut u8,
            figures: *mut u64,
        ) -> u64;
        pub fn gate_import(
            file: *const u8,
            file_len: usize,
            table: *const u8,
            table_len: usize,
            label: *const u8,
            label_len: usize,
            out: *mut u8,
            out_len: usize,
            figures: *mut u64,
        ) -> u64;
        pub fn gate_measure_import(
            file: *const u8,
            file_len: usize,
            table: *const u8,
            table_len: usize,
            label: *const u8,
            label_len: usize,
            figures: *mut u64,
        ) -> u64;
    }
}

/// No reserve is larger.
pub const RESERVE_BYTES: usize = 60_021;

/// How long the buffer for the line of a reason is: no line is longer.
pub const WHY_BYTES: usize = 39;

/// The host's clock: year 1 to 9999, day 1 to 365 or in a leap year 366, hour 0 to 23. Another is refused with 10.
#[derive(Clone, Copy)]
pub struct Clock {
    pub year: u64,
    pub day: u64,
    pub hour: u64,
}

/// An accepted document: its lines, and how long the longest answer among tables is, each with all its columns once and all its rows,
/// which no answer exceeds whose query has a column bracket that repeats no column.
pub struct Checked {
    pub lines: usize,
    pub reserve: usize,
}

/// An answer: how many of the buffer's first bytes it fills, the grant that authorised it, and the three counts.
#[derive(PartialEq)]
pub struct Answer {
    pub len: usize,
    pub grant: usize,
    pub passed: usize,
    pub withheld: usize,
    pub unmatched: usize,
}

/// The text that holds the part of a refusal; that of a why line stands in `Query`.
#[derive(Clone, Copy, PartialEq)]
pub enum Source {
    Document,
    Query,
    File,
}

/// A refusal: its number, and the place of its part.
#[derive(PartialEq)]
pub struct Refusal {
    pub number: u64,
    pub source: Source,
    pub start: usize,
    pub len: usize,
}

/// The refusal that the figures give.
fn refusal(number: u64, figures: [u64; 5]) -> Refusal {
    Refusal {
        number,
        source: match figures[0] {
            1 => Source::Document,
            2 => Source::Query,
            _ => Source::File,
        },
        start: figures[1] as usize,
        len: figures[2] as usize,
    }
}

/// Checks a document. A refusal has a number from 1 to 9, 25, 28 or 31.
pub fn check(doc: &[u8]) -> Result<Checked, Refusal> {
    let mut figures = [0; 5];
    // SAFETY: a slice's pointer is valid for its length and never null, and `figures` are five numbers of our own.
    let number = unsafe { exported::gate_check(doc.as_ptr(), doc.len(), figures.as_mut_ptr()) };
    if number != 0 {
        return Err(refusal(number, figures));
    }
    Ok(Checked { lines: figures[0] as usize, reserve: figures[1] as usize })
}

/// Asks a document. A refusal has a number from 1 to 18, 25, 27, 28 or 31 and leaves `out`; an answer leaves the bytes behind it.
pub fn ask(doc: &[u8], query: &[u8], clock: Clock, out: &mut [u8]) -> Result<Answer, Refusal> {
    let mut figures = [0; 5];
    // SAFETY: as above; and `out` is lent mutably, so it overlaps neither text.
    let number = unsafe {
        exported::gate_ask(
            doc.as_ptr(),
            doc.len(),
            query.as_ptr(),
            query.len(),
            clock.year,
            clock.day,
            clock.hour,
            out.as_mut_ptr(),
            out.len(),
            figures.as_mut_ptr(),
        )
    };
    if number != 0 {
        return Err(refusal(number, figures));
    }
    let [len, grant, passed, withheld, unmatched] = figures.map(|n| n as usize);
    Ok(Answer { len, grant, passed, withheld, unmatched })
}

/// Measures the answer: its length, or the refusal that `ask` gives with every buffer, never 18.
pub fn measure(doc: &[u8], query: &[u8], clock: Clock) -> Result<usize, Refusal> {
    let mut figures = [0; 5];
    // SAFETY: as in `check`.
    let number = unsafe {
        exported::gate_measure(
            doc.as_ptr(),
            doc.len(),
            query.as_ptr(),
            query.len(),
            clock.year,
            clock.day,
            clock.hour,
            figures.as_mut_ptr(),
        )
    };
    if number != 0 {
        return Err(refusal(number, figures));
    }
    Ok(figures[0] as usize)
}

/// Says why a cell is open or closed, for the line `(why P T ROW COL)`, and gives the length of the reason's line, which fills the first
/// bytes of `out`. A refusal has a number from 1 to 9, 25, 28 or 31 of the document, else 11, 23, 24 or 26, and leaves `out`.
pub fn why(doc: &[u8], line: &[u8], out: &mut [u8; WHY_BYTES]) -> Result<usize, Refusal> {
    let mut figures = [0; 5];
    // SAFETY: as in `ask`; and `out` has the length that gate.h says.
    let number = unsafe {
        exported::gate_why(doc.as_ptr(), doc.len(), line.as_ptr(), line.len(), out.as_mut_ptr(), figures.as_mut_ptr())
    };
    if number != 0 {
        return Err(refusal(number, figures));
    }
    Ok(figures[0] as usize)
}

/// The version of the struct below, as include/gate.h has it.
const DOCUMENT_VERSION: u64 = 7_700_003;

/// As `struct gate_document` in include/gate.h.
#[repr(C)]
struct Document {
    cells: [u64; 10],
    purposes: [u64; 1792],
    roles: [u64; 1216],
    attributes: [u64; 96],
    users: [u64; 1536],
    conds: [u64; 384],
    grants: [u64; 256],
    labels: [u64; 64],
    sets: [u64; 512],
    tables: [u64; 440],
    rows: [u64; 36864],
}

/// A document with its text, checked once and asked often. The two are made together and only read afterwards, so that no text is
/// asked with another's struct.
pub struct Loaded {
    text: Box<[u8]>,
    document: Box<Document>,
}

impl Loaded {
    /// Checks a document and holds it. A refusal has a number from 1 to 9, 25, 28 or 31, and hands the text back.
    pub fn new(text: impl Into<Box<[u8]>>) -> Result<(Loaded, Checked), (Box<[u8]>, Refusal)> {
        // A library of another version has other arrays. With one of this version no call over the struct is refused for its version.
        // SAFETY: it takes and gives numbers only.
        assert_eq!(unsafe { exported::gate_document_version() }, DOCUMENT_VERSION, "gate.rs and libgate.a are of different versions");
        let text = text.into();
        let layout = std::alloc::Layout::new::<Document>();
        // SAFETY: the layout is not of size 0, and a `Document` of zeros is one, being numbers only. It is made where it stays: it has
        // 345 KB, which not every stack has room for.
        let mut document: Box<Document> = unsafe {
            let made = std::alloc::alloc_zeroed(layout);
            if made.is_null() {
                std::alloc::handle_alloc_error(layout);
            }
            Box::from_raw(made.cast())
        };
        let mut figures = [0; 5];
        let to = &mut *document;
        // SAFETY: as in `check`; the arrays have the lengths that gate.h says, and are borrowed one by one.
        let number = unsafe {
            exported::gate_load_arrays(
                text.as_ptr(),
                text.len(),
                to.purposes.as_mut_ptr(),
                to.roles.as_mut_ptr(),
                to.attributes.as_mut_ptr(),
                to.users.as_mut_ptr(),
                to.conds.as_mut_ptr(),
                to.grants.as_mut_ptr(),
                to.labels.as_mut_ptr(),
                to.sets.as_mut_ptr(),
                to.tables.as_mut_ptr(),
                to.rows.as_mut_ptr(),
                to.cells.as_mut_ptr(),
                figures.as_mut_ptr(),
            )
        };
        if number != 0 {
            return Err((text, refusal(number, figures)));
        }
        let checked = Checked { lines: figures[0] as usize, reserve: figures[1] as usize };
        Ok((Loaded { text, document }, checked))
    }

    /// The text that was loaded.
    pub fn text(&self) -> &[u8] {
        &self.text
    }

    /// Asks the document: what `ask` gives with its text.
    pub fn ask(&self, query: &[u8], clock: Clock, out: &mut [u8]) -> Result<Answer, Refusal> {
        let mut figures = [0; 5];
        let time = [clock.year, clock.day, clock.hour];
        let from = &*self.document;
        // SAFETY: as in `ask`; and the arrays are those that the text was loaded into.
        let number = unsafe {
            exported::gate_ask_arrays(
                self.text.as_ptr(),
                self.text.len(),
                from.purposes.as_ptr(),
                from.roles.as_ptr(),
                from.attributes.as_ptr(),
                from.users.as_ptr(),
                from.conds.as_ptr(),
                from.grants.as_ptr(),
                from.sets.as_ptr(),
                from.tables.as_ptr(),
                from.rows.as_ptr(),
                from.cells.as_ptr(),
                query.as_ptr(),
                query.len(),
                time.as_ptr(),
                out.as_mut_ptr(),
                out.len(),
                figures.as_mut_ptr(),
            )
        };
        if number != 0 {
            return Err(refusal(number, figures));
        }
        let [len, grant, passed, withheld, unmatched] = figures.map(|n| n as usize);
        Ok(Answer { len, grant, passed, withheld, unmatched })
    }

    /// Measures the answer: what `measure` gives with its text.
    pub fn measure(&self, query: &[u8], clock: Clock) -> Result<usize, Refusal> {
        let mut figures = [0; 5];
        let time = [clock.year, clock.day, clock.hour];
        let from = &*self.document;
        // SAFETY: as above.
        let number = unsafe {
            exported::gate_measure_arrays(
                self.text.as_ptr(),
                self.text.len(),
                from.purposes.as_ptr(),
                from.roles.as_ptr(),
                from.attributes.as_ptr(),
                from.users.as_ptr(),
                from.conds.as_ptr(),
                from.grants.as_ptr(),
                from.sets.as_ptr(),
                from.tables.as_ptr(),
                from.rows.as_ptr(),
                from.cells.as_ptr(),
                query.as_ptr(),
                query.len(),
                time.as_ptr(),
                figures.as_mut_ptr(),
            )
        };
        if number != 0 {
            return Err(refusal(number, figures));
        }
        Ok(figures[0] as usize)
    }

    /// Says why a cell is open or closed: what `why` gives with its text.
    pub fn why(&self, line: &[u8], out: &mut [u8; WHY_BYTES]) -> Result<usize, Refusal> {
        let mut figures = [0; 5];
        let from = &*self.document;
        // SAFETY: as in `why`; and the arrays are those that the text was loaded into.
        let number = unsafe {
            exported::gate_why_arrays(
                self.text.as_ptr(),
                self.text.len(),
                from.purposes.as_ptr(),
                from.labels.as_ptr(),
                from.sets.as_ptr(),
                from.tables.as_ptr(),
                from.rows.as_ptr(),
                from.cells.as_ptr(),
                line.as_ptr(),
                line.len(),
                out.as_mut_ptr(),
                figures.as_mut_ptr(),
            )
        };
        if number != 0 {
            return Err(refusal(number, figures));
        }
        Ok(figures[0] as usize)
    }
}

/// Writes the row lines of a comma-separated file, for a table and with a label, and gives their length. A refusal has a
/// number from 19 to 21 and leaves `out`; lines leave the bytes behind them.
pub fn import(file: &[u8], table: &[u8], label: &[u8], out: &mut [u8]) -> Result<usize, Refusal> {
    let mut figures = [0; 5];
    // SAFETY: as in `ask`.
    let number = unsafe {
        exported::gate_import(
            file.as_ptr(),
            file.len(),
            table.as_ptr(),
            table.len(),
            label.as_ptr(),
            label.len(),
            out.as_mut_ptr(),
            out.len(),
            figures.as_mut_ptr(),
        )
    };
    if number != 0 {
        return Err(refusal(number, figures));
    }
    Ok(figures[0] as usize)
}

/// Measures those lines: their length, or the refusal that `import` gives with every buffer.
pub fn measure_import(file: &[u8], table: &[u8], label: &[u8]) -> Result<usize, Refusal> {
    let mut figures = [0; 5];
    // SAFETY: as in `check`.
    let number = unsafe {
        exported::gate_measure_import(
            file.as_ptr(),
            file.len(),
            table.as_ptr(),
            table.len(),
            label.as_ptr(),
            label.len(),
            figures.as_mut_ptr(),
        )
    };
    if number != 0 {
        return Err(refusal(number, figures));
    }
    Ok(figures[0] as usize)
}

/// The part of a refusal, from whichever text holds it, the why line being the query of `why`; of a file none is handed back. Cut at the
/// text's end, so that with texts other than those asked it doesn't panic.
pub fn part<'a>(doc: &'a [u8], query: &'a [u8], r: &Refusal) -> &'a [u8] {
    let text = match r.source {
        Source::Document => doc,
        Source::Query => query,
        Source::File => b"",
    };
    let rest = &text[r.start.min(text.len())..];
    &rest[..r.len.min(rest.len())]
}
