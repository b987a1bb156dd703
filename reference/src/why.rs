//! 02, Q-7, "Closed by what": which line of a label shut a cell to a purpose.

use crate::check::read_document;
use crate::forms::{is_keyword, word, Word};
use crate::policy::{Labelling, Policy, Row};
use crate::refusal::{leftmost, of_query, Refusal};
use crate::text::{read_form, Kind, Span};

/// `(why P T ROW COL)`, "ROW any number".
struct Why<'a> {
    purpose: Word<'a>,
    table: Word<'a>,
    row: i64,
    row_span: Span,
    column: Word<'a>,
}

/// "any other line is 11" gives none.
fn read_why(line: &[u8]) -> Option<Why<'_>> {
    let items = read_form(line, 0)?;
    let [keyword, purpose, table, row, column] = &items[..] else { return None };
    let Kind::Number(number) = row.kind else { return None };
    if !is_keyword(keyword, "why") {
        return None;
    }
    Some(Why { purpose: word(purpose)?, table: word(table)?, row: number, row_span: row.span, column: word(column)? })
}

/// "It prints `(open)`, or `(closed deny D)` .. or `(closed allow)`", or `(closed none)`: the line, its line feed included.
pub fn why(doc: &[u8], line: &[u8]) -> Result<Vec<u8>, Refusal> {
    let (policy, _) = read_document(doc)?;
    let Some(asked) = read_why(line) else { return Err(of_query(11, Span { start: 0, len: line.len() })) };

    // "23 purpose, table or column unknown .. at the leftmost such item".
    let purpose = policy.purpose(asked.purpose.text);
    let table = policy.table(asked.table.text);
    let column = table.and_then(|table| policy.tables[table].columns.iter().position(|column| column.name == asked.column.text));
    let (Some(purpose), Some(table), Some(column)) = (purpose, table, column) else {
        let looked_up = [(asked.purpose, purpose), (asked.table, table), (asked.column, column)];
        let unknown: Vec<Span> = looked_up.into_iter().filter(|(_, found)| found.is_none()).map(|(word, _)| word.span).collect();
        return Err(of_query(23, leftmost(&unknown).unwrap_or(asked.purpose.span)));
    };

    // "24 no such row, in that order"; "counting T's rows from 0".
    let mut rows = policy.rows.iter().filter(|row| row.table == table);
    let Some(row) = usize::try_from(asked.row).ok().and_then(|place| rows.nth(place)) else { return Err(of_query(24, asked.row_span)) };

    // "26 the explaining tool on a nest table, after 24, at T".
    if policy.tables[table].labelling == Labelling::Nest {
        return Err(of_query(26, asked.table.span));
    }
    Ok(explained(&policy, table, row, column, purpose))
}

/// "The label meant is the table's, column's, row's or cell's by scheme."
fn explained(policy: &Policy, table: usize, row: &Row, column: usize, purpose: usize) -> Vec<u8> {
    let table = &policy.tables[table];
    let label = match table.labelling {
        // "A public `none` table prints `(open)`; an undeclared one prints `(closed none)`."
        Labelling::None if table.public => return b"(open)\n".to_vec(),
        Labelling::None => return b"(closed none)\n".to_vec(),
        Labelling::Table(label) => Some(label),
        Labelling::Column => table.columns[column].label,
        Labelling::Row => row.label,
        // A nest table is refused with 26.
        Labelling::Cell | Labelling::Nest => row.cells[column].label,
    };
    // Every cell of those tables has a label.
    label.map_or(b"(closed none)\n".to_vec(), |label| of_label(policy, label, purpose))
}

/// "`(closed deny D)` with the first denied purpose in the label's order that is ancestor or descendant, or `(closed allow)` if no
/// denied one is and no allowed one is an ancestor."
fn of_label(policy: &Policy, label: usize, purpose: usize) -> Vec<u8> {
    let (tree, names) = (&policy.tree, &policy.denied_names[label]);
    let label = &policy.labels[label];
    let shuts = |&denied: &usize| tree.descends(purpose, denied) || tree.descends(denied, purpose);
    if let Some(place) = label.denied.iter().position(shuts) {
        // "The explaining tool prints D as its label line wrote it."
        return [b"(closed deny ", names[place].written(), b")\n"].concat();
    }
    if label.allowed.iter().any(|&allowed| tree.descends(purpose, allowed)) {
        b"(open)\n".to_vec()
    } else {
        b"(closed allow)\n".to_vec()
    }
}
