//! 01, "Checking a document": the first failing line, and on it the lowest number.

use crate::answer::reserve;
use crate::forms::{read_line, Form};
use crate::policy::Policy;
use crate::refusal::{leftmost, of_document, Refusal};
use crate::rules;
use crate::text::Span;

/// 01: "document 60,000 bytes".
pub const LONGEST_DOCUMENT: usize = 60_000;

/// 01: "Acceptance gives the number of lines and a reserve".
#[derive(Clone, Copy, Debug, PartialEq, Eq)]
pub struct Accepted {
    pub lines: usize,
    pub reserve: usize,
}

/// 01, "Checking a document".
pub fn check(doc: &[u8]) -> Result<Accepted, Refusal> {
    read_document(doc).map(|(policy, lines)| Accepted { lines, reserve: reserve(&policy) })
}

/// The policy of an accepted document and its number of lines, or the refusal: 1 to 9, 25, 28 or 31.
pub fn read_document(doc: &[u8]) -> Result<(Policy<'_>, usize), Refusal> {
    // 01: "A text over 60,000 bytes is 1", its part "empty at the start".
    if doc.len() > LONGEST_DOCUMENT {
        return Err(of_document(1, Span { start: 0, len: 0 }));
    }
    let mut policy = Policy::default();
    let mut lines = 0;
    let mut start = 0;
    while start < doc.len() {
        let rest = &doc[start..];
        let end = rest.iter().position(|&byte| byte == b'\n');
        let line = &rest[..end.unwrap_or(rest.len())];
        let whole = Span { start, len: line.len() };
        // 01, 2: "line unfinished, blank, number out of range, too deep".
        let form = match end {
            Some(_) => read_line(line, start),
            None => None,
        };
        let Some(form) = form else { return Err(of_document(2, whole)) };
        if let Some((number, part)) = fault(&policy, &form, whole) {
            return Err(of_document(number, part));
        }
        if policy.record(form).is_none() {
            // Not reached: the rules found every name known, and the tree not full.
            return Err(of_document(5, whole));
        }
        lines += 1;
        start += line.len() + 1;
    }
    Ok((policy, lines))
}

/// 01: "the lowest number"; "the whole line .. for 2, 3, 6, 7, 9; the leftmost offending item for 4, 5, 8". 02, Q-12: 28 "after 8";
/// 31 "after 28 in a document"; Q-11: 25 "after 9, at the whole line".
fn fault(policy: &Policy, form: &Form, whole: Span) -> Option<(u32, Span)> {
    if rules::bound_exceeded(policy, form) {
        return Some((3, whole));
    }
    if let Some(part) = leftmost(&rules::names_taken(policy, form)) {
        return Some((4, part));
    }
    if let Some(part) = leftmost(&rules::names_unknown(policy, form)) {
        return Some((5, part));
    }
    if rules::second_root(policy, form) {
        return Some((6, whole));
    }
    if rules::wrong_values(policy, form) {
        return Some((7, whole));
    }
    if let Some(part) = leftmost(&rules::wrong_types(policy, form)) {
        return Some((8, part));
    }
    if let Some(part) = leftmost(&rules::ranges_reversed(policy, form)) {
        return Some((28, part));
    }
    if let Some(part) = leftmost(&rules::no_such_dates(policy, form)) {
        return Some((31, part));
    }
    if rules::late_attribute(policy, form) {
        return Some((9, whole));
    }
    if rules::misplaced_label(policy, form) {
        return Some((25, whole));
    }
    None
}
