//! 01, "Sample session": the asking program, over any input and output; the importing program of 02, Q-1; and the explaining tool of Q-7.

use std::io::{self, BufRead, Write};

use crate::ask::ask;
use crate::check::check;
use crate::clock::{read_clock_line, Clock};
use crate::import::import;
use crate::refusal::{Refusal, Source};
use crate::why::why;

/// 01: "Its answer buffer is 60,021 bytes."
pub const BUFFER: usize = 60_021;

/// The importing program lends what a document may have (01, "Bounds"): longer lines fit none.
pub const IMPORT_BUFFER: usize = 60_000;
/// The longest file that the importing program takes.
pub const LONGEST_FILE: usize = 262_144;

/// 01: "its standard input is a line `(clock YEAR DAY HOUR)`, then queries".
pub fn run(doc: &[u8], mut input: impl BufRead, mut output: impl Write) -> io::Result<()> {
    // "for a refused document one such line with `document`, and stops".
    if let Err(refusal) = check(doc) {
        print_refusal(&mut output, refusal)?;
        return output.flush();
    }
    let Some(first) = read_one_line(&mut input)? else { return output.flush() };
    // "A first line not of that form gives every query 10": year 0 is out of range.
    let clock = read_clock_line(&first).unwrap_or(Clock { year: 0, day: 0, hour: 0 });
    let mut buffer = vec![0; BUFFER];
    while let Some(query) = read_one_line(&mut input)? {
        match ask(doc, &query, clock, &mut buffer) {
            Ok(answer) => output.write_all(&buffer[..answer.len])?,
            Err(refusal) => print_refusal(&mut output, refusal)?,
        }
        output.flush()?;
    }
    Ok(())
}

/// 02, Q-7: "A tool, run as the asking program is but without a clock line, takes a document and lines `(why P T ROW COL)`".
pub fn run_why(doc: &[u8], mut input: impl BufRead, mut output: impl Write) -> io::Result<()> {
    if let Err(refusal) = check(doc) {
        print_refusal(&mut output, refusal)?;
        return output.flush();
    }
    while let Some(line) = read_one_line(&mut input)? {
        match why(doc, &line) {
            Ok(printed) => output.write_all(&printed)?,
            Err(refusal) => print_refusal(&mut output, refusal)?,
        }
        output.flush()?;
    }
    Ok(())
}

/// 02, Q-1: "desks want them as row lines".
pub fn run_import(file: &[u8], table: &[u8], label: &[u8], mut output: impl Write) -> io::Result<()> {
    let mut buffer = vec![0; IMPORT_BUFFER];
    match import(file, table, label, &mut buffer) {
        Ok(length) => output.write_all(&buffer[..length])?,
        Err(refusal) => print_refusal(&mut output, refusal)?,
    }
    output.flush()
}

/// "The last line may lack its line feed."
fn read_one_line(input: &mut impl BufRead) -> io::Result<Option<Vec<u8>>> {
    let mut line = Vec::new();
    if input.read_until(b'\n', &mut line)? == 0 {
        return Ok(None);
    }
    if line.last() == Some(&b'\n') {
        line.pop();
    }
    Ok(Some(line))
}

/// "`(refused NUMBER query START LENGTH)`, START in bytes from 0, LENGTH in bytes".
fn print_refusal(output: &mut impl Write, refusal: Refusal) -> io::Result<()> {
    let source = match refusal.source {
        Source::Document => "document",
        Source::Query => "query",
        Source::File => "file",
    };
    writeln!(output, "(refused {} {} {} {})", refusal.number, source, refusal.start, refusal.len)
}
