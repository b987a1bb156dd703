//! A copy of the reference's `why`, with blunders 118 to 139.

use crate::check::read_document;
use crate::forms::{is_keyword, word, Word};
use crate::on;
use crate::policy::{Labelling, Policy, Row};
use crate::refusal::{of_query, Refusal};
use crate::text::{read_form, Kind, Name, Span};

/// `(why P T ROW COL)`, "ROW any number".
struct Why<'a> {
    purpose: Word<'a>,
    table: Word<'a>,
    row: i64,
    row_span: Span,
    column: Word<'a>,
}

/// "any other line is 11" gives none.
fn read_why(line: &[u8]) -> Option<Why<'_>> {
    let items = read_form(line, 0)?;
    let [keyword, purpose, table, row, column] = &items[..] else { return None };
    let Kind::Number(number) = row.kind else { return None };
    if !is_keyword(keyword, "why") || on(136) && !line.starts_with(b"(why ") || on(134) && number < 0 {
        return None;
    }
    Some(Why { purpose: word(purpose)?, table: word(table)?, row: number, row_span: row.span, column: word(column)? })
}

/// Whether two names are the same, for blunder 137 by their bytes.
fn is_column(one: Name, other: Name) -> bool {
    if on(137) {
        one.written() == other.written()
    } else {
        one == other
    }
}

/// "It prints `(open)`, or `(closed deny D)` .. or `(closed allow)`", or `(closed none)`: the line, its line feed included.
pub fn why(doc: &[u8], line: &[u8]) -> Result<Vec<u8>, Refusal> {
    let (policy, _) = read_document(doc)?;
    let Some(asked) = read_why(line) else { return Err(of_query(11, Span { start: 0, len: line.len() })) };

    let purpose = policy.purpose(asked.purpose.text);
    let table = policy.table(asked.table.text);
    let column = table.and_then(|table| policy.tables[table].columns.iter().position(|column| is_column(column.name, asked.column.text)));
    let counts = |row: &&Row| Some(row.table) == table || on(132);
    let mut rows = policy.rows.iter().filter(counts);
    let row = usize::try_from(asked.row).ok().and_then(|place| rows.nth(if on(133) { place.checked_sub(1)? } else { place }));
    let row = row.filter(|row| Some(row.table) == table);
    let is_nest = table.is_some_and(|table| policy.tables[table].labelling == Labelling::Nest);
    if on(126) && table.is_some() && row.is_none() {
        return Err(of_query(24, asked.row_span));
    }
    if on(128) && is_nest || on(127) && is_nest && purpose.is_some() && column.is_some() {
        return Err(of_query(26, asked.table.span));
    }

    // "23 purpose, table or column unknown .. at the leftmost such item".
    let (Some(purpose), Some(table), Some(column)) = (purpose, table, column) else {
        let looked_up = [(asked.purpose, purpose), (asked.table, table), (asked.column, column)];
        let unknown: Vec<Span> = looked_up.into_iter().filter(|(_, found)| found.is_none()).map(|(word, _)| word.span).collect();
        let told = if on(135) { unknown.last() } else { unknown.first() };
        return Err(of_query(23, *told.unwrap_or(&asked.purpose.span)));
    };

    // "24 no such row, in that order"; "counting T's rows from 0".
    let Some(row) = row else { return Err(of_query(24, asked.row_span)) };

    // "26 the explaining tool on a nest table, after 24, at T".
    if is_nest && !on(139) {
        return Err(of_query(26, asked.table.span));
    }
    Ok(explained(&policy, table, row, column, purpose))
}

/// "The label meant is the table's, column's, row's or cell's by scheme."
fn explained(policy: &Policy, table: usize, row: &Row, column: usize, purpose: usize) -> Vec<u8> {
    let table = &policy.tables[table];
    let label = match table.labelling {
        // "A public `none` table prints `(open)`; an undeclared one prints `(closed none)`."
        Labelling::None if table.public => return b"(open)\n".to_vec(),
        _ if on(131) && table.public => return b"(open)\n".to_vec(),
        Labelling::None if on(130) => return b"(closed allow)\n".to_vec(),
        Labelling::None => return b"(closed none)\n".to_vec(),
        Labelling::Table(label) => Some(label),
        Labelling::Column => table.columns[if on(125) { 0 } else { column }].label,
        Labelling::Row => row.label,
        Labelling::Cell | Labelling::Nest => row.cells[if on(124) { 0 } else { column }].label,
    };
    label.map_or(b"(closed none)\n".to_vec(), |label| of_label(policy, label, purpose))
}

/// "`(closed deny D)` with the first denied purpose in the label's order that is ancestor or descendant, or `(closed allow)` if no
/// denied one is and no allowed one is an ancestor."
fn of_label(policy: &Policy, label: usize, purpose: usize) -> Vec<u8> {
    let (tree, names) = (&policy.tree, &policy.denied_names[label]);
    let label = &policy.labels[label];
    let shuts = |&denied: &usize| match () {
        () if on(138) && denied >= 64 => false,
        () if on(118) => tree.descends(purpose, denied),
        () if on(119) => tree.descends(denied, purpose),
        () => tree.descends(purpose, denied) || tree.descends(denied, purpose),
    };
    let allowed = label.allowed.iter().any(|&allowed| tree.descends(purpose, allowed));
    if on(129) && !allowed {
        return b"(closed allow)\n".to_vec();
    }
    let shutting: Vec<usize> = (0..label.denied.len()).filter(|&place| shuts(&label.denied[place])).collect();
    let told = match () {
        () if on(121) => shutting.last().copied(),
        () if on(122) => shutting.iter().copied().min_by_key(|&place| label.denied[place]),
        () => shutting.first().copied(),
    };
    if let Some(place) = told {
        let place = if on(120) { 0 } else { place };
        // "The explaining tool prints D as its label line wrote it."
        let name = if on(123) { policy.purposes[label.denied[place]] } else { names[place] };
        return [b"(closed deny ", name.written(), b")\n"].concat();
    }
    if allowed {
        b"(open)\n".to_vec()
    } else {
        b"(closed allow)\n".to_vec()
    }
}
