//! The reference's import.rs with blunders: 17 to 28.

use crate::on;
use crate::refusal::{of_file, Refusal};
use crate::text::{is_name, is_value};

/// A record of the file: where it starts, and the values of its fields.
#[derive(Clone, Debug, PartialEq, Eq)]
struct Record {
    start: usize,
    fields: Vec<Vec<u8>>,
}

/// What breaks the RFC inside a record; which of them it is doesn't matter to 02.
struct Broken;

/// How a field ended.
#[derive(Clone, Copy, PartialEq, Eq)]
enum End {
    Comma,
    Record,
}

/// 02, Q-1: "writes one row line a record"; the lines' length. "A refusal leaves the buffer untouched."
pub fn import(file: &[u8], table: &[u8], label: &[u8], out: &mut [u8]) -> Result<usize, Refusal> {
    let lines = lines_of(file, table, label)?;
    match out.get_mut(..lines.len()) {
        Some(first) => first.copy_from_slice(&lines),
        // "21 lent buffer too short .. empty at the file's start".
        None => {
            if on(27) {
                let length = out.len();
                out.copy_from_slice(&lines[..length]);
            }
            return Err(of_file(21, 0));
        }
    }
    Ok(lines.len())
}

/// The length that `import` needs, or the refusal that no buffer prevents.
pub fn measure_import(file: &[u8], table: &[u8], label: &[u8]) -> Result<usize, Refusal> {
    Ok(lines_of(file, table, label)?.len())
}

/// "19 malformed record, 20 field not a name or number, or given table or label not a name .. in that order".
fn lines_of(file: &[u8], table: &[u8], label: &[u8]) -> Result<Vec<u8>, Refusal> {
    let names = is_name(table) && (is_name(label) || on(25));
    if on(22) && !names {
        return Err(of_file(20, 0));
    }
    let unfit = |record: &&Record| record.fields.iter().any(|field| !is_value(field));
    let (records, malformed) = read_file(file);
    if let (true, Some(record)) = (on(21) && names, records.iter().find(unfit)) {
        return Err(of_file(20, record.start));
    }
    if let Some(start) = malformed {
        return Err(of_file(19, start));
    }
    let field_fault = records.iter().find(unfit).map(|record| of_file(20, record.start));
    if let (true, Some(refusal)) = (on(23), field_fault) {
        return Err(refusal);
    }
    if !names && !(on(24) && records.is_empty()) {
        return Err(of_file(20, 0));
    }
    if let Some(refusal) = field_fault {
        return Err(refusal);
    }
    let records = if on(28) { records.get(1..).unwrap_or(&[]) } else { &records[..] };
    Ok(records.iter().flat_map(|record| row_line(table, label, &record.fields)).collect())
}

/// 01: "for row tables `(row T L v ..)`", each form "ending in a line feed".
fn row_line(table: &[u8], label: &[u8], fields: &[Vec<u8>]) -> Vec<u8> {
    let mut line = b"(row ".to_vec();
    line.extend(table);
    line.push(b' ');
    line.extend(label);
    for field in fields {
        line.push(b' ');
        line.extend(field);
    }
    line.extend(b")\n");
    line
}

/// The records, or where the first malformed one starts: "its field count differs from the first's, or its quotes or a lone
/// carriage return break the RFC".
fn read_file(file: &[u8]) -> (Vec<Record>, Option<usize>) {
    let mut records: Vec<Record> = Vec::new();
    let mut start = 0;
    // "An empty file has no records", and a line ending at the very end starts none (RFC 4180, 2.2).
    while start < file.len() {
        let Ok((fields, next)) = read_record(file, start) else { return (records, Some(start)) };
        let blank = fields.len() == 1 && next - start <= 2 && file[next - 1] == b'\n' && fields[0].is_empty();
        match records.first() {
            _ if on(18) && blank => {}
            Some(first) if first.fields.len() != fields.len() => return (records, Some(start)),
            _ => records.push(Record { start, fields }),
        }
        start = next;
    }
    if on(26) && file.ends_with(b"\n") {
        records.push(Record { start, fields: vec![Vec::new()] });
    }
    (records, None)
}

/// RFC 4180: `record = field *(COMMA field)`; and where the next one starts.
fn read_record(file: &[u8], start: usize) -> Result<(Vec<Vec<u8>>, usize), Broken> {
    let mut fields = Vec::new();
    let mut here = start;
    loop {
        let (field, end, next) = read_field(file, here)?;
        fields.push(field);
        here = next;
        if end == End::Record {
            return Ok((fields, here));
        }
    }
}

/// RFC 4180: `field = (escaped / non-escaped)`, then a comma, a line ending or the file's end.
fn read_field(file: &[u8], at: usize) -> Result<(Vec<u8>, End, usize), Broken> {
    let (field, after) = if file.get(at) == Some(&b'"') { read_escaped(file, at)? } else { read_plain(file, at) };
    match &file[after..] {
        [b',', ..] => Ok((field, End::Comma, after + 1)),
        [b'\n', ..] => Ok((field, End::Record, after + 1)),
        [b'\r', b'\n', ..] => Ok((field, End::Record, after + 2)),
        [b'\r', ..] if on(17) => Ok((field, End::Record, after + 1)),
        [] => Ok((field, End::Record, after)),
        // A lone carriage return, a quote inside a plain field, or anything behind a closing quote.
        _ => Err(Broken),
    }
}

/// RFC 4180: `non-escaped = *TEXTDATA`, with every byte taken that is no comma, quote or end of line.
fn read_plain(file: &[u8], at: usize) -> (Vec<u8>, usize) {
    let length = file[at..].iter().take_while(|byte| !b",\"\r\n".contains(byte) || on(19) && **byte == b'"').count();
    (file[at..at + length].to_vec(), at + length)
}

/// RFC 4180: `escaped = DQUOTE *(TEXTDATA / COMMA / CR / LF / 2DQUOTE) DQUOTE`; the quote stands at `at`.
fn read_escaped(file: &[u8], at: usize) -> Result<(Vec<u8>, usize), Broken> {
    let mut value = Vec::new();
    let mut here = at + 1;
    loop {
        match &file[here..] {
            [b'"', b'"', ..] if !on(20) => {
                value.push(b'"');
                here += 2;
            }
            [b'"', ..] => return Ok((value, here + 1)),
            [byte, ..] => {
                value.push(*byte);
                here += 1;
            }
            // A quote that nothing closes.
            [] => return Err(Broken),
        }
    }
}
