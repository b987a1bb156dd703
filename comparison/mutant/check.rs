//! A copy of the reference's `check`, with blunders 11 to 15, 32, 37 to 39, 58, 61, 68, 69, 103 to 113 and 115.

use crate::answer::reserve;
use crate::dates;
use crate::forms::{read_line, Form, RowItem, Value};
use crate::on;
use crate::policy::{row_label, Labelling, Policy};
use crate::refusal::{leftmost, of_document, Refusal};
use crate::rules;
use crate::text::{Name, Span};

/// 01: "document 60,000 bytes".
pub const LONGEST_DOCUMENT: usize = 60_000;

/// 01: "Acceptance gives the number of lines and a reserve".
#[derive(Clone, Copy, Debug, PartialEq, Eq)]
pub struct Accepted {
    pub lines: usize,
    pub reserve: usize,
}

/// 01, "Checking a document".
pub fn check(doc: &[u8]) -> Result<Accepted, Refusal> {
    read_document(doc).map(|(policy, lines)| Accepted { lines, reserve: reserve(&policy) })
}

/// The policy of an accepted document and its number of lines, or the refusal: 1 to 9, 25, 28 or 31.
pub fn read_document(doc: &[u8]) -> Result<(Policy<'_>, usize), Refusal> {
    // 01: "A text over 60,000 bytes is 1", its part "empty at the start".
    if doc.len() > LONGEST_DOCUMENT {
        return Err(of_document(1, Span { start: 0, len: 0 }));
    }
    let mut policy = Policy::default();
    let mut lines = 0;
    let mut start = 0;
    while start < doc.len() {
        let rest = &doc[start..];
        let end = rest.iter().position(|&byte| byte == b'\n');
        let line = &rest[..end.unwrap_or(rest.len())];
        let whole = Span { start, len: line.len() };
        // 01, 2: "line unfinished, blank, number out of range, too deep".
        let form = match end {
            Some(_) => read_line(line, start),
            None => None,
        };
        let Some(form) = form else { return Err(of_document(2, whole)) };
        if let Some((number, part)) = fault(&policy, &form, whole) {
            return Err(of_document(number, part));
        }
        if on(39) && behind_a_row(&policy, &form) {
            lines += 1;
            start += line.len() + 1;
            continue;
        }
        if policy.record(form).is_none() {
            // Not reached: the rules found every name known, and the tree not full.
            return Err(of_document(5, whole));
        }
        lines += 1;
        start += line.len() + 1;
    }
    Ok((policy, lines))
}

/// 01: "the lowest number"; "the whole line .. for 2, 3, 6, 7, 9; the leftmost offending item for 4, 5, 8". 02, Q-12: 28 "after 8";
/// 31 "after 28 in a document"; Q-11: 25 "after 9, at the whole line".
fn fault(policy: &Policy, form: &Form, whole: Span) -> Option<(u32, Span)> {
    if on(14) {
        if let Some(part) = leftmost(&rules::names_taken(policy, form)) {
            return Some((4, part));
        }
    }
    if rules::bound_exceeded(policy, form) {
        return Some((3, whole));
    }
    if on(11) {
        if let Some(part) = leftmost(&rules::names_unknown(policy, form)) {
            return Some((5, part));
        }
    }
    let again = taken_again(policy, form);
    let second = if again { Vec::new() } else if on(32) { taken_by_bytes(policy, form) } else { rules::names_taken(policy, form) };
    if let Some(part) = leftmost(&second) {
        return Some((4, part));
    }
    if on(13) && rules::wrong_values(policy, form) {
        return Some((7, whole));
    }
    if on(15) && rules::late_attribute(policy, form) {
        return Some((9, whole));
    }
    if on(107) && misplaced(policy, form) {
        return Some((25, whole));
    }
    if on(115) && unlabelled_row(policy, form) {
        return Some((7, whole));
    }
    if let Some(part) = leftmost(&unknown(policy, form)) {
        return Some((5, part));
    }
    if rules::second_root(policy, form) {
        return Some((6, whole));
    }
    if rules::wrong_values(policy, form) {
        return Some((7, whole));
    }
    let reversed = leftmost(&rules::ranges_reversed(policy, form)).filter(|part| !on(61) || first_range(form) == Some(*part));
    if let (Some(part), true) = (reversed, on(58)) {
        return Some((28, part));
    }
    let no_date = leftmost(&dates::of_row(form));
    if let (Some(part), true) = (no_date, on(69)) {
        return Some((31, part));
    }
    if on(12) {
        if let Some(part) = rules::wrong_types(policy, form).into_iter().max_by_key(|part| part.start) {
            return Some((8, part));
        }
    }
    if let Some(part) = leftmost(&rules::wrong_types(policy, form)) {
        return Some((8, part));
    }
    if let (Some(part), true) = (no_date, on(68)) {
        return Some((31, part));
    }
    if let Some(part) = reversed {
        return Some((28, part));
    }
    if let Some(part) = no_date {
        return Some((31, part));
    }
    if rules::late_attribute(policy, form) {
        return Some((9, whole));
    }
    if misplaced(policy, form) {
        return Some((25, if on(108) { table_of(form).unwrap_or(whole) } else { whole }));
    }
    None
}

/// Where the table of a `weak` or `strong` line stands.
fn table_of(form: &Form) -> Option<Span> {
    match form {
        Form::Inherited { table, .. } => Some(table.span),
        _ => None,
    }
}

/// 02, Q-11, 25: "a strong or weak line given twice, after a row or for a table of another scheme", with blunders 103 to 106 and 109 to 111.
fn misplaced(policy: &Policy, form: &Form) -> bool {
    let Form::Inherited { strength, table, label } = form else { return false };
    let Some(place) = policy.table(table.text) else { return false };
    let table = &policy.tables[place];
    let given = table.inherited(*strength);
    let again = given.is_some() && !on(104) && !(on(105) && given == policy.label(label.text));
    let beside = on(110) && (table.weak.is_some() || table.strong.is_some()) || on(111) && table.public;
    let behind_row = !on(103) && policy.rows.iter().any(|row| row.table == place || on(109));
    table.labelling != Labelling::Nest && !on(106) || again || beside || behind_row
}

/// Whether a row is one of a nest table.
fn of_nest(policy: &Policy, form: &Form) -> bool {
    let Form::Row { table, .. } = form else { return false };
    policy.table(table.text).is_some_and(|place| policy.tables[place].labelling == Labelling::Nest)
}

/// Blunder 115: a nest row whose first item is no name.
fn unlabelled_row(policy: &Policy, form: &Form) -> bool {
    let Form::Row { items, .. } = form else { return false };
    of_nest(policy, form) && items.first().is_none_or(|first| row_label(first).is_none())
}

/// 01, 5, with blunders 112 and 113.
fn unknown(policy: &Policy, form: &Form) -> Vec<Span> {
    let unknown = rules::names_unknown(policy, form);
    let Form::Row { items, .. } = form else { return unknown };
    let Some(RowItem::Plain(first)) = items.first() else { return unknown };
    let others: Vec<Span> = unknown.iter().copied().filter(|part| *part != first.span).collect();
    match of_nest(policy, form) {
        true if on(112) || on(113) && !others.is_empty() => others,
        _ => unknown,
    }
}

/// Blunder 61: where the first range of a row stands.
fn first_range(form: &Form) -> Option<Span> {
    let Form::Row { items, .. } = form else { return None };
    items.iter().find_map(|item| match item {
        RowItem::Plain(given) | RowItem::Labelled(given, _) => matches!(given.value, Value::Range(..)).then_some(given.span),
    })
}

/// Blunders 37 and 38: a second `public` line that isn't 4.
fn taken_again(policy: &Policy, form: &Form) -> bool {
    let Form::Public { table } = form else { return false };
    let Some(place) = policy.table(table.text) else { return false };
    on(37) || on(38) && policy.tables[place].labelling != Labelling::None
}

/// Blunder 39: a `public` line whose table has a row already.
fn behind_a_row(policy: &Policy, form: &Form) -> bool {
    let Form::Public { table } = form else { return false };
    let Some(place) = policy.table(table.text) else { return false };
    policy.rows.iter().any(|row| row.table == place)
}

/// Blunder 32: a purpose, role or table whose name is taken in another case alone is not taken.
fn taken_by_bytes(policy: &Policy, form: &Form) -> Vec<Span> {
    let (name, known): (_, Vec<Name>) = match form {
        Form::Purpose { name, .. } => (name, policy.purposes.clone()),
        Form::Role { name, .. } => (name, policy.roles.iter().map(|role| role.name).collect()),
        Form::Table { name, .. } => (name, policy.tables.iter().map(|table| table.name).collect()),
        _ => return rules::names_taken(policy, form),
    };
    let in_another_case = |known: &Name| *known == name.text && known.written() != name.text.written();
    let taken = rules::names_taken(policy, form);
    taken.into_iter().filter(|part| *part != name.span || !known.iter().any(in_another_case)).collect()
}
