//! The exports over the reference, to try the harness without the gate (feature `stub`).

use reference::{Clock, Refusal, Source};
use std::slice;

unsafe fn refuse(refusal: Refusal, figures: *mut u64) -> u64 {
    let figures = slice::from_raw_parts_mut(figures, 5);
    let source = match refusal.source {
        Source::Document => 1,
        Source::Query => 2,
        Source::File => 3,
    };
    figures.copy_from_slice(&[source, refusal.start as u64, refusal.len as u64, 0, 0]);
    u64::from(refusal.number)
}

/// # Safety
/// As the C export: a document of that length, room for five figures.
pub unsafe fn gate_check(doc: *const u8, doc_len: usize, figures: *mut u64) -> u64 {
    match reference::check(slice::from_raw_parts(doc, doc_len)) {
        Ok(accepted) => {
            slice::from_raw_parts_mut(figures, 5).copy_from_slice(&[accepted.lines as u64, accepted.reserve as u64, 0, 0, 0]);
            0
        }
        Err(refusal) => refuse(refusal, figures),
    }
}

/// # Safety
/// As the C export: texts and a buffer of those lengths, room for five figures.
#[allow(clippy::too_many_arguments)]
pub unsafe fn gate_ask(
    doc: *const u8,
    doc_len: usize,
    query: *const u8,
    query_len: usize,
    year: u64,
    day: u64,
    hour: u64,
    out: *mut u8,
    out_len: usize,
    figures: *mut u64,
) -> u64 {
    let doc = slice::from_raw_parts(doc, doc_len);
    let query = slice::from_raw_parts(query, query_len);
    let out = slice::from_raw_parts_mut(out, out_len);
    match reference::ask(doc, query, Clock { year, day, hour }, out) {
        Ok(a) => {
            let given = [a.len, a.grant, a.passed, a.withheld, a.unmatched].map(|figure| figure as u64);
            slice::from_raw_parts_mut(figures, 5).copy_from_slice(&given);
            0
        }
        Err(refusal) => refuse(refusal, figures),
    }
}

/// # Safety
/// As the C export: texts of those lengths, room for five figures.
#[allow(clippy::too_many_arguments)]
pub unsafe fn gate_measure(
    doc: *const u8,
    doc_len: usize,
    query: *const u8,
    query_len: usize,
    year: u64,
    day: u64,
    hour: u64,
    figures: *mut u64,
) -> u64 {
    let doc = slice::from_raw_parts(doc, doc_len);
    let query = slice::from_raw_parts(query, query_len);
    match reference::measure(doc, query, Clock { year, day, hour }) {
        Ok(length) => {
            slice::from_raw_parts_mut(figures, 5).copy_from_slice(&[length as u64, 0, 0, 0, 0]);
            0
        }
        Err(refusal) => refuse(refusal, figures),
    }
}

unsafe fn store(imported: Result<usize, Refusal>, figures: *mut u64) -> u64 {
    match imported {
        Ok(length) => {
            slice::from_raw_parts_mut(figures, 5).copy_from_slice(&[length as u64, 0, 0, 0, 0]);
            0
        }
        Err(refusal) => refuse(refusal, figures),
    }
}

/// # Safety
/// As the C export: texts and a buffer of those lengths, room for five figures.
#[allow(clippy::too_many_arguments)]
pub unsafe fn gate_import(
    file: *const u8,
    file_len: usize,
    table: *const u8,
    table_len: usize,
    label: *const u8,
    label_len: usize,
    out: *mut u8,
    out_len: usize,
    figures: *mut u64,
) -> u64 {
    let [file, table, label] = [(file, file_len), (table, table_len), (label, label_len)].map(|(text, len)| slice::from_raw_parts(text, len));
    store(reference::import(file, table, label, slice::from_raw_parts_mut(out, out_len)), figures)
}

/// # Safety
/// As the C export: texts of those lengths, room for five figures.
pub unsafe fn gate_measure_import(
    file: *const u8,
    file_len: usize,
    table: *const u8,
    table_len: usize,
    label: *const u8,
    label_len: usize,
    figures: *mut u64,
) -> u64 {
    let [file, table, label] = [(file, file_len), (table, table_len), (label, label_len)].map(|(text, len)| slice::from_raw_parts(text, len));
    store(reference::measure_import(file, table, label), figures)
}

/// # Safety
/// As the C export: texts of those lengths, room for 39 bytes and for five figures.
pub unsafe fn gate_why(doc: *const u8, doc_len: usize, line: *const u8, line_len: usize, out: *mut u8, figures: *mut u64) -> u64 {
    let printed = reference::why(slice::from_raw_parts(doc, doc_len), slice::from_raw_parts(line, line_len));
    if let Ok(printed) = &printed {
        slice::from_raw_parts_mut(out, printed.len()).copy_from_slice(printed);
    }
    store(printed.map(|printed| printed.len()), figures)
}
