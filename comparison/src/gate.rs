//! The gate's C exports, and the second implementation beside them, both as one kind of result.

use reference::{Clock, Source};

/// What hosts in Rust take: its loaded documents are asked beside the texts.
#[cfg(not(feature = "stub"))]
#[path = "../../include/gate.rs"]
mod host;

#[cfg(not(feature = "stub"))]
extern "C" {
    fn gate_check(doc: *const u8, doc_len: usize, figures: *mut u64) -> u64;
    #[allow(clippy::too_many_arguments)]
    fn gate_ask(
        doc: *const u8,
        doc_len: usize,
        query: *const u8,
        query_len: usize,
        year: u64,
        day: u64,
        hour: u64,
        out: *mut u8,
        out_len: usize,
        figures: *mut u64,
    ) -> u64;
    fn gate_measure(
        doc: *const u8,
        doc_len: usize,
        query: *const u8,
        query_len: usize,
        year: u64,
        day: u64,
        hour: u64,
        figures: *mut u64,
    ) -> u64;
    #[allow(clippy::too_many_arguments)]
    fn gate_import(
        file: *const u8,
        file_len: usize,
        table: *const u8,
        table_len: usize,
        label: *const u8,
        label_len: usize,
        out: *mut u8,
        out_len: usize,
        figures: *mut u64,
    ) -> u64;
    fn gate_measure_import(
        file: *const u8,
        file_len: usize,
        table: *const u8,
        table_len: usize,
        label: *const u8,
        label_len: usize,
        figures: *mut u64,
    ) -> u64;
    fn gate_why(doc: *const u8, doc_len: usize, line: *const u8, line_len: usize, out: *mut u8, figures: *mut u64) -> u64;
}

#[cfg(feature = "stub")]
use crate::stub::{gate_ask, gate_check, gate_import, gate_measure, gate_measure_import, gate_why};

/// A number of 01 or 02 with its part: the source is 1 for the document, 2 for the query, 3 for the file.
#[derive(Clone, Copy, Debug, PartialEq, Eq)]
pub struct Refused {
    pub number: u64,
    pub source: u64,
    pub start: u64,
    pub length: u64,
}

/// What checking gives.
#[derive(Clone, Copy, Debug, PartialEq, Eq)]
pub enum Checked {
    Accepted { lines: u64, reserve: u64 },
    Refused(Refused),
}

/// What asking gives, the bytes apart.
#[derive(Clone, Copy, Debug, PartialEq, Eq)]
pub enum Asked {
    Answered { length: u64, grant: u64, passed: u64, withheld: u64, unmatched: u64 },
    Refused(Refused),
}

/// A file with the names of the table and the label that its rows are for (02, Q-1).
#[derive(Clone, Debug, PartialEq, Eq)]
pub struct Import {
    pub file: Vec<u8>,
    pub table: Vec<u8>,
    pub label: Vec<u8>,
}

/// The lines' length, or a refusal.
pub type Imported = Result<u64, Refused>;

/// The line that a why line prints (02, Q-7), its line feed included, or a refusal.
pub type Explained = Result<Vec<u8>, Refused>;

/// The longest such line: `(closed deny D)` with a name of 24 bytes.
pub const LONGEST_WHY: usize = 39;

/// Bytes that the figures hold before a call, so that each is seen to be written.
const UNWRITTEN: u64 = 0x5a5a_5a5a_5a5a_5a5a;

/// Five figures between two that nobody may touch.
struct Figures([u64; 7]);

impl Figures {
    fn new() -> Figures {
        Figures([UNWRITTEN; 7])
    }

    fn lent(&mut self) -> *mut u64 {
        self.0[1..].as_mut_ptr()
    }

    fn read(&self) -> Result<[u64; 5], String> {
        let [before, a, b, c, d, e, after] = self.0;
        if before != UNWRITTEN || after != UNWRITTEN {
            return Err(format!("wrote beside the five figures: {:?}", self.0));
        }
        Ok([a, b, c, d, e])
    }
}

fn refused(number: u64, figures: [u64; 5]) -> Result<Refused, String> {
    let [source, start, length, d, e] = figures;
    // A date of no day may stand in the document or in the query (02, Q-14).
    let fits = match number {
        1..=9 | 25 | 28 => source == 1,
        10..=18 | 22..=24 | 26 | 27 => source == 2,
        31 => source == 1 || source == 2,
        19..=21 => source == 3,
        _ => false,
    };
    if d != 0 || e != 0 || !fits {
        return Err(format!("refusal {number} with figures {figures:?}"));
    }
    Ok(Refused { number, source, start, length })
}

/// What an importing call gives: a length and nothing else, or a refusal of the file.
fn imported(number: u64, figures: [u64; 5]) -> Result<Imported, String> {
    match (number, figures) {
        (0, [length, 0, 0, 0, 0]) => Ok(Ok(length)),
        (19..=21, _) => Ok(Err(refused(number, figures)?)),
        _ => Err(format!("imported: {number} with figures {figures:?}")),
    }
}

/// The gate's importing.
pub fn import(import: &Import, out: &mut [u8]) -> Result<Imported, String> {
    let Import { file, table, label } = import;
    let mut figures = Figures::new();
    // As in `ask`.
    let number = unsafe {
        gate_import(
            file.as_ptr(),
            file.len(),
            table.as_ptr(),
            table.len(),
            label.as_ptr(),
            label.len(),
            out.as_mut_ptr(),
            out.len(),
            figures.lent(),
        )
    };
    imported(number, figures.read()?)
}

/// The gate's measuring of the same.
pub fn measure_import(import: &Import) -> Result<Imported, String> {
    let Import { file, table, label } = import;
    let mut figures = Figures::new();
    // As in `check`.
    let number = unsafe {
        gate_measure_import(file.as_ptr(), file.len(), table.as_ptr(), table.len(), label.as_ptr(), label.len(), figures.lent())
    };
    imported(number, figures.read()?)
}

/// The gate's checking.
pub fn check(doc: &[u8]) -> Result<Checked, String> {
    let mut figures = Figures::new();
    // The pointers are of slices that live through the call; the figures have room for five.
    let number = unsafe { gate_check(doc.as_ptr(), doc.len(), figures.lent()) };
    let figures = figures.read()?;
    if number == 0 {
        let [lines, reserve, c, d, e] = figures;
        if (c, d, e) != (0, 0, 0) {
            return Err(format!("accepted with figures {figures:?}"));
        }
        Ok(Checked::Accepted { lines, reserve })
    } else {
        Ok(Checked::Refused(refused(number, figures)?))
    }
}

/// A refusal as hosts in Rust get it.
#[cfg(not(feature = "stub"))]
fn of_host(refusal: host::Refusal) -> Refused {
    let source = match refusal.source {
        host::Source::Document => 1,
        host::Source::Query => 2,
        host::Source::File => 3,
    };
    Refused { number: refusal.number, source, start: refusal.start as u64, length: refusal.len as u64 }
}

/// What the gate's asking of a loaded document gives, as that of its text.
#[cfg(not(feature = "stub"))]
fn ask_loaded(doc: &[u8], query: &[u8], clock: Clock, out: &mut [u8]) -> Asked {
    let clock = host::Clock { year: clock.year, day: clock.day, hour: clock.hour };
    let (loaded, _) = match host::Loaded::new(doc) {
        Ok(loaded) => loaded,
        Err((_, r)) => return Asked::Refused(of_host(r)),
    };
    match loaded.ask(query, clock, out) {
        Ok(a) => Asked::Answered {
            length: a.len as u64,
            grant: a.grant as u64,
            passed: a.passed as u64,
            withheld: a.withheld as u64,
            unmatched: a.unmatched as u64,
        },
        Err(r) => Asked::Refused(of_host(r)),
    }
}

/// The gate's asking, of the text and of the loaded document, which have to give the same in figures and bytes.
#[cfg(not(feature = "stub"))]
pub fn ask(doc: &[u8], query: &[u8], clock: Clock, out: &mut [u8]) -> Result<Asked, String> {
    let mut other = out.to_vec();
    let asked = ask_text(doc, query, clock, out)?;
    let loaded = ask_loaded(doc, query, clock, &mut other);
    if loaded != asked || other != out {
        return Err(format!("loaded: {loaded:?}, from the text: {asked:?}; the same bytes: {}", other == out));
    }
    Ok(asked)
}

#[cfg(feature = "stub")]
pub use ask_text as ask;

/// The gate's asking of a text.
pub fn ask_text(doc: &[u8], query: &[u8], clock: Clock, out: &mut [u8]) -> Result<Asked, String> {
    let mut figures = Figures::new();
    // As in `check`; the buffer is lent for this call alone.
    let number = unsafe {
        gate_ask(
            doc.as_ptr(),
            doc.len(),
            query.as_ptr(),
            query.len(),
            clock.year,
            clock.day,
            clock.hour,
            out.as_mut_ptr(),
            out.len(),
            figures.lent(),
        )
    };
    let figures = figures.read()?;
    if number == 0 {
        let [length, grant, passed, withheld, unmatched] = figures;
        Ok(Asked::Answered { length, grant, passed, withheld, unmatched })
    } else {
        Ok(Asked::Refused(refused(number, figures)?))
    }
}

/// The gate's measuring (02, Q-4): the length of the answer, or the refusal.
pub fn measure(doc: &[u8], query: &[u8], clock: Clock) -> Result<Result<u64, Refused>, String> {
    let mut figures = Figures::new();
    // As in `check`.
    let number = unsafe {
        gate_measure(doc.as_ptr(), doc.len(), query.as_ptr(), query.len(), clock.year, clock.day, clock.hour, figures.lent())
    };
    let figures = figures.read()?;
    if number != 0 {
        return Ok(Err(refused(number, figures)?));
    }
    match figures {
        [length, 0, 0, 0, 0] => Ok(Ok(length)),
        _ => Err(format!("measured with figures {figures:?}")),
    }
}

/// A buffer for a why line's answer, between bytes that nobody may touch.
const WHY_BUFFER: [u8; LONGEST_WHY + 32] = [0xa5; LONGEST_WHY + 32];

/// What stands in that buffer after a call: the line alone, or nothing where it is refused.
fn explained(given: Result<usize, Refused>, buffer: &[u8]) -> Result<Explained, String> {
    let length = given.unwrap_or(0);
    if length > LONGEST_WHY {
        return Err(format!("a line of {length} bytes"));
    }
    let (from, to) = (16, 16 + length);
    if buffer[..from] != WHY_BUFFER[..from] || buffer[to..] != WHY_BUFFER[to..] {
        return Err("bytes written beside a why line's answer".to_string());
    }
    Ok(given.map(|_| buffer[from..to].to_vec()))
}

/// The gate's explaining of a text (02, Q-7).
pub fn why_text(doc: &[u8], line: &[u8]) -> Result<Explained, String> {
    let mut figures = Figures::new();
    let mut buffer = WHY_BUFFER;
    // As in `check`; from byte 16 on the buffer has more than the 39 bytes that it has to have.
    let number = unsafe { gate_why(doc.as_ptr(), doc.len(), line.as_ptr(), line.len(), buffer[16..].as_mut_ptr(), figures.lent()) };
    let given = match (number, figures.read()?) {
        (0, [length, 0, 0, 0, 0]) => Ok(length as usize),
        (0, figures) => return Err(format!("explained with figures {figures:?}")),
        (_, figures) => Err(refused(number, figures)?),
    };
    explained(given, &buffer)
}

/// The gate's explaining, of the text and of the loaded document, which have to give the same.
#[cfg(not(feature = "stub"))]
pub fn why(doc: &[u8], line: &[u8]) -> Result<Explained, String> {
    let of_text = why_text(doc, line)?;
    let mut buffer = WHY_BUFFER;
    let given = match host::Loaded::new(doc) {
        Ok((loaded, _)) => match <&mut [u8; LONGEST_WHY]>::try_from(&mut buffer[16..16 + LONGEST_WHY]) {
            Ok(out) => loaded.why(line, out).map_err(of_host),
            Err(_) => return Err("no room for a why line's answer".to_string()),
        },
        Err((_, refusal)) => Err(of_host(refusal)),
    };
    let of_loaded = explained(given, &buffer)?;
    if of_loaded != of_text {
        return Err(format!("loaded: {of_loaded:?}, from the text: {of_text:?}"));
    }
    Ok(of_text)
}

#[cfg(feature = "stub")]
pub use why_text as why;

/// Whose claim the pairs test: the gate's, or a mutant's to see that the test has teeth.
#[derive(Clone, Copy, Debug, PartialEq, Eq)]
pub enum Subject {
    Gate,
    Mutant,
}

impl Subject {
    pub fn ask(self, doc: &[u8], query: &[u8], clock: Clock, out: &mut [u8]) -> Result<Asked, String> {
        match self {
            Subject::Gate => ask(doc, query, clock, out),
            Subject::Mutant => Ok(Second::Mutant.ask(doc, query, clock, out)),
        }
    }

    pub fn why(self, doc: &[u8], line: &[u8]) -> Result<Explained, String> {
        match self {
            Subject::Gate => why(doc, line),
            Subject::Mutant => Ok(Second::Mutant.why(doc, line)),
        }
    }
}

/// What the gate is compared with.
#[derive(Clone, Copy, Debug, PartialEq, Eq)]
pub enum Second {
    Reference,
    Mutant,
}

impl Second {
    pub fn check(self, doc: &[u8]) -> Checked {
        match self {
            Second::Reference => match reference::check(doc) {
                Ok(accepted) => Checked::Accepted { lines: accepted.lines as u64, reserve: accepted.reserve as u64 },
                Err(refusal) => Checked::Refused(of_reference(refusal)),
            },
            Second::Mutant => match mutant::check(doc) {
                Ok(accepted) => Checked::Accepted { lines: accepted.lines as u64, reserve: accepted.reserve as u64 },
                Err(refusal) => Checked::Refused(of_mutant(refusal)),
            },
        }
    }

    pub fn ask(self, doc: &[u8], query: &[u8], clock: Clock, out: &mut [u8]) -> Asked {
        match self {
            Second::Reference => match reference::ask(doc, query, clock, out) {
                Ok(answer) => Asked::Answered {
                    length: answer.len as u64,
                    grant: answer.grant as u64,
                    passed: answer.passed as u64,
                    withheld: answer.withheld as u64,
                    unmatched: answer.unmatched as u64,
                },
                Err(refusal) => Asked::Refused(of_reference(refusal)),
            },
            Second::Mutant => {
                let clock = mutant::Clock { year: clock.year, day: clock.day, hour: clock.hour };
                match mutant::ask(doc, query, clock, out) {
                    Ok(answer) => Asked::Answered {
                        length: answer.len as u64,
                        grant: answer.grant as u64,
                        passed: answer.passed as u64,
                        withheld: answer.withheld as u64,
                        unmatched: answer.unmatched as u64,
                    },
                    Err(refusal) => Asked::Refused(of_mutant(refusal)),
                }
            }
        }
    }
}

impl Second {
    pub fn import(self, import: &Import, out: &mut [u8]) -> Imported {
        let Import { file, table, label } = import;
        match self {
            Second::Reference => reference::import(file, table, label, out).map(|length| length as u64).map_err(of_reference),
            Second::Mutant => mutant::import(file, table, label, out).map(|length| length as u64).map_err(of_mutant),
        }
    }

    pub fn measure_import(self, import: &Import) -> Imported {
        let Import { file, table, label } = import;
        match self {
            Second::Reference => reference::measure_import(file, table, label).map(|length| length as u64).map_err(of_reference),
            Second::Mutant => mutant::measure_import(file, table, label).map(|length| length as u64).map_err(of_mutant),
        }
    }
}

impl Second {
    pub fn why(self, doc: &[u8], line: &[u8]) -> Explained {
        match self {
            Second::Reference => reference::why(doc, line).map_err(of_reference),
            Second::Mutant => mutant::why(doc, line).map_err(of_mutant),
        }
    }
}

/// What the second implementation measures; a mutant has no measuring of its own.
pub fn measured(second: Second, doc: &[u8], query: &[u8], clock: Clock) -> Option<Result<u64, Refused>> {
    match second {
        Second::Reference => Some(reference::measure(doc, query, clock).map(|length| length as u64).map_err(of_reference)),
        Second::Mutant => None,
    }
}

fn of_reference(refusal: reference::Refusal) -> Refused {
    let source = match refusal.source {
        Source::Document => 1,
        Source::Query => 2,
        Source::File => 3,
    };
    Refused { number: u64::from(refusal.number), source, start: refusal.start as u64, length: refusal.len as u64 }
}

fn of_mutant(refusal: mutant::Refusal) -> Refused {
    let source = match refusal.source {
        mutant::Source::Document => 1,
        mutant::Source::Query => 2,
        mutant::Source::File => 3,
    };
    Refused { number: u64::from(refusal.number), source, start: refusal.start as u64, length: refusal.len as u64 }
}
