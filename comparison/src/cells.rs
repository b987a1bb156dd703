//! Small documents, each with a query and what `may_differ` says of every cell: `tests/free` holds them against the definition.

use crate::documents::{condition, Builder};
use crate::joins::{self, Join};
use crate::model::*;
use crate::pairs::{blanked, may_differ, Names};
use crate::queries::{self, Query, Verb};
use crate::random::Random;
use crate::recase::{self, listed, same};

/// What a cell may be to a query. A run has to see each of them, most as the one reason for which the cell may differ.
const SITUATIONS: [&str; 51] = [
    "no query",
    "unknown purpose, public table",
    "unknown purpose, undeclared table",
    "unknown purpose, labelled table",
    "unknown table, column that the first table has",
    "unknown table, other column",
    "other table, column of a name that the query names",
    "other table, other column",
    "column not named",
    "column not named, another one unknown",
    "closed, undeclared table",
    "closed by the table's label",
    "closed by the column's label",
    "closed by the row's label",
    "closed by its own label",
    "open, in a row withheld for another cell",
    "bound, public table",
    "bound, open by the table's label",
    "bound, open by the column's label",
    "bound, open by the row's label",
    "bound, open by its own label",
    "bound, named by the condition alone",
    "bound, another column being unknown",
    "several reasons at once",
    "closed by a label in spite of a public line",
    "bound, in other cases",
    "closed or withheld, in other cases",
    "closed, written as a blank",
    "closed, selected and in a blank's condition",
    "open, in a row withheld for a cell of a blank's condition",
    "bound, beside a blank",
    "bound, a range",
    "closed or withheld, a range",
    "bound, a date",
    "closed or withheld, a date",
    "bound, asked by sure or possible",
    "closed or withheld, asked by sure or possible",
    "closed by the labels of a nest table",
    "bound, open by the labels of a nest table",
    "nest: closed, strongly denied",
    "nest: closed, strongly denied, its own label being open",
    "nest: closed, weakly denied",
    "nest: closed, weakly denied from above alone",
    "nest: closed, allowed by no label",
    "nest: closed in spite of a public line",
    "nest: closed, written as a blank",
    "nest: open, in a row withheld for another cell",
    "nest: bound, strongly allowed",
    "nest: bound, weakly allowed",
    "nest: bound, allowed again below a label that denies",
    "nest: bound, the row's own label being closed",
];

/// Whether joins are queries (02, Q-3); then one case in four is a join, and a run has to see each of these too.
const JOINS: bool = cfg!(feature = "join");
const JOINED: [&str; 22] = [
    "join: no query",
    "join: unknown purpose",
    "join: third table",
    "join: third table, an `of` with it",
    "join: column not named",
    "join: column not named, the other table's of its name being named",
    "join: closed, the first table",
    "join: closed, the second table",
    "join: closed key",
    "join: open, in a withheld row of the first table",
    "join: open, in a withheld row of the second table",
    "join: bound key of the first table",
    "join: bound key of the second table",
    "join: bound, selected",
    "join: bound, named by the condition alone",
    "join: bound, in other cases",
    "join: bound, the second table being unknown",
    "join: bound, the first table being unknown",
    "join: bound, its row's pairs all withheld",
    "join: with itself, bound",
    "join: with itself, bound for the second key alone",
    "join: with itself, column not named",
];

/// Two to five purposes, one to three tables with two to six rows, and what these need; at times a user with a grant.
fn small(random: &mut Random) -> Model {
    let mut builder = Builder::new(random);
    builder.columns = 3;
    for _ in 0..builder.random.between(2, 5) {
        builder.purpose();
    }
    if builder.random.chance(1, 4) {
        builder.user();
        builder.grant();
    }
    for _ in 0..builder.random.between(2, 4) {
        builder.label();
    }
    // A label that allows nothing leaves it to those above it, in a nest table.
    if builder.random.chance(1, 2) {
        builder.model.labels[0].allow.clear();
    }
    for _ in 0..builder.random.between(1, 3) {
        let label = builder.random.below(builder.model.labels.len());
        let schemes = [Scheme::None, Scheme::None, Scheme::None, Scheme::Table(label), Scheme::Table(label), Scheme::Column, Scheme::Row, Scheme::Cell, Scheme::Cell];
        let scheme = if builder.random.chance(3, 10) { Scheme::Nest } else { *builder.random.pick(&schemes) };
        let columns = if scheme.labels_cells() { builder.random.between(2, 3) } else { builder.random.between(1, 3) };
        builder.table_of(scheme, columns);
    }
    // `public` lines before, between and behind the rows (02, Q-2).
    for _ in 0..builder.random.between(2, 6) {
        if builder.random.chance(1, 6) {
            builder.public();
        }
        builder.row();
    }
    if builder.random.chance(1, 6) {
        builder.public();
    }
    builder.model
}

/// A query to one of the tables, by whoever, for one of the purposes or one that is unknown, now and then with a fault.
fn query(random: &mut Random, model: &Model) -> Query {
    // Mostly one that has rows.
    let table = if random.chance(4, 5) { random.pick(&model.rows).table } else { random.below(model.tables.len()) };
    let table = &model.tables[table];
    let subjects: Vec<(String, Type)> = table.columns.iter().map(|column| (column.name.clone(), column.kind)).collect();
    let mut query = Query {
        verb: *random.pick(&[Verb::Select, Verb::Blank, Verb::Blank, Verb::Sure, Verb::Possible]),
        user: "ana".to_string(),
        role: "desk".to_string(),
        purpose: random.pick(&model.purposes).name.clone(),
        table: table.name.clone(),
        columns: None,
        condition: None,
    };
    if random.chance(4, 5) {
        query.columns = Some((0..random.between(1, 3)).map(|_| random.pick(&subjects).0.clone()).collect());
    }
    // Cells with labels of their own mostly get a condition: what withholds a blank's row stands there.
    if random.chance(if table.scheme.labels_cells() { 3 } else { 2 }, 4) {
        query.condition = Some(condition(random, &subjects, 2, 3));
    }
    match random.below(20) {
        0..=2 => query.purpose = "nobody".to_string(),
        3 | 4 => query.table = "nobody".to_string(),
        5 | 6 => query.columns.iter_mut().for_each(|columns| columns.insert(0, "nobody".to_string())),
        7 => queries::fault(random, model, &mut query),
        _ => {}
    }
    query
}

/// A document, a query text, and the query if it is one.
fn case(random: &mut Random) -> (Model, Vec<u8>, Option<Query>) {
    loop {
        let model = small(random);
        let query = query(random, &model);
        if !query.within_bounds() {
            continue;
        }
        if !random.chance(1, 10) {
            return (model, query.text(), Some(query));
        }
        // The longest texts that are no query would take the prover's time from all others.
        let text = queries::no_query(random, &model, &query);
        if text.len() <= 1_000 {
            return (model, text, None);
        }
    }
}

/// What the cell is to the query, by the model.
fn situations(model: &Model, query: Option<&Query>, row: &Row, column: usize) -> Vec<&'static str> {
    let Some(query) = query else { return vec!["no query"] };
    let queried = model.tables.iter().find(|table| same(&table.name, &query.table));
    match (queried, model.purpose(&query.purpose)) {
        (None, None) => vec!["several reasons at once"],
        (None, Some(purpose)) => vec![of_unknown_table(model, query, row, column, purpose)],
        (Some(_), None) => vec![of_unknown_purpose(model, query, row, column)],
        (Some(queried), Some(purpose)) => match reason(model, query, row, column, purpose) {
            // The query is then refused, by 15, and names its other columns all the same.
            Some("column not named") if names_unknown(query, queried) => vec!["column not named, another one unknown"],
            Some(reason) => [vec![reason], of_nest(model, query, row, column, purpose, reason)].concat(),
            None => [bound(model, query, row, column), of_nest(model, query, row, column, purpose, "bound")].concat(),
        },
    }
}

/// Whether a row of either table is withheld from a join.
fn withholds(model: &Model, join: &Join) -> bool {
    let Some(purpose) = model.purpose(&join.purpose) else { return false };
    model.rows.iter().any(|row| join.named_in(&model.tables[row.table].name).is_some_and(|named| model.row_withheld(row, &named, purpose)))
}

/// A document with a join's text, and the join if it is one.
fn join_case(random: &mut Random) -> (Model, Vec<u8>, Option<Join>) {
    loop {
        let model = joins::document_of(random, 2);
        let clock = reference::Clock { year: 2028, day: 366, hour: 10 };
        let mut join = joins::good(random, &model, clock);
        // The longest texts would take the prover's time from all others.
        if join.condition.as_ref().is_some_and(|condition| condition.subjects().len() > 4) {
            join.condition = None;
        }
        match random.below(12) {
            0 => join.purpose = "nobody".to_string(),
            1 | 2 => join.tables[random.below(2)] = "nobody".to_string(),
            3..=5 => joins::fault(random, &model, &mut join),
            6 | 7 => joins::with_itself(random, &model, &mut join),
            // Half of the others have a row withheld.
            _ if random.chance(1, 2) && !withholds(&model, &join) => continue,
            _ => {}
        }
        if model.rows.is_empty() || !join.within_bounds() {
            continue;
        }
        if !random.chance(1, 12) {
            return (model, join.text(), Some(join));
        }
        let text = joins::no_join(random, &join);
        if text.len() <= 1_000 {
            return (model, text, None);
        }
    }
}

/// What a cell is to a join, by the model (02, Q-3).
fn join_situations(model: &Model, join: Option<&Join>, row: &Row, column: usize) -> Vec<&'static str> {
    let Some(join) = join else { return vec!["join: no query"] };
    let Some(purpose) = model.purpose(&join.purpose) else { return vec!["join: unknown purpose"] };
    let table = &model.tables[row.table];
    let name = &table.columns[column].name;
    let Some(named) = join.named_in(&table.name) else {
        let with_of = join.ofs().iter().any(|(own, column)| same(own, &table.name) && same(column, name));
        return vec![if with_of { "join: third table, an `of` with it" } else { "join: third table" }];
    };
    let own = |side: usize| same(&join.tables[side], &table.name);
    let with_itself = own(0) && own(1);
    let other = usize::from(own(0));
    let key = (0..2).any(|side| own(side) && same(&join.keys[side], name));
    let withheld = model.row_withheld(row, &named, purpose);
    match (listed(&named, name), model.cell_open(row, column, purpose), withheld) {
        (false, true, false) if with_itself => vec!["join: with itself, column not named"],
        (false, true, false) if listed(&join.withholding_in(&join.tables[other]), name) => vec!["join: column not named, the other table's of its name being named"],
        (false, true, false) => vec!["join: column not named"],
        (true, false, _) => {
            let side = if own(0) { "join: closed, the first table" } else { "join: closed, the second table" };
            [side, "join: closed key"].into_iter().take(1 + usize::from(key)).collect()
        }
        (true, true, true) if own(0) => vec!["join: open, in a withheld row of the first table"],
        (true, true, true) => vec!["join: open, in a withheld row of the second table"],
        (true, true, false) => join_bound(model, join, row, column, purpose),
        _ => Vec::new(),
    }
}

/// The situations of a cell that may not differ for a join.
fn join_bound(model: &Model, join: &Join, row: &Row, column: usize, purpose: usize) -> Vec<&'static str> {
    let table = &model.tables[row.table];
    let is = |name: &str| same(name, &table.columns[column].name);
    let own = |side: usize| same(&join.tables[side], &table.name);
    let of = |(own, name): (&str, &str)| same(own, &table.name) && is(name);
    let selected = join.columns.iter().any(|(own, name)| of((own, name)));
    let compared = join.subjects().into_iter().any(of);
    let key = |side: usize| own(side) && is(&join.keys[side]);
    let known = |side: usize| joins::table_of(model, &join.tables[side]).is_some();
    let other = usize::from(own(0));
    let others: Vec<&Row> = model.rows.iter().filter(|row| same(&model.tables[row.table].name, &join.tables[other])).collect();
    let other_withheld = |row: &&Row| model.row_withheld(row, &join.withholding_in(&join.tables[other]), purpose);
    let seen = [
        (key(0) && !own(1), "join: bound key of the first table"),
        (key(1) && !own(0), "join: bound key of the second table"),
        (selected, "join: bound, selected"),
        (compared && !selected && !key(0) && !key(1), "join: bound, named by the condition alone"),
        (own(0) && !known(1), "join: bound, the second table being unknown"),
        (own(1) && !known(0), "join: bound, the first table being unknown"),
        (!others.is_empty() && others.iter().all(other_withheld), "join: bound, its row's pairs all withheld"),
        (own(0) && own(1), "join: with itself, bound"),
        (own(0) && own(1) && is(&join.keys[1]) && !is(&join.keys[0]) && !selected && !compared, "join: with itself, bound for the second key alone"),
    ];
    seen.into_iter().filter(|(seen, _)| *seen).map(|(_, situation)| situation).collect()
}

/// What the labels of a nest table make of the cell (02, Q-11), beside what it is in tables of every scheme.
fn of_nest(model: &Model, query: &Query, row: &Row, column: usize, purpose: usize, first: &str) -> Vec<&'static str> {
    let table = &model.tables[row.table];
    if table.scheme != Scheme::Nest {
        return Vec::new();
    }
    let own = row.cells[column].1;
    let nested = model.nested(row, column, purpose);
    let is = |start: &str, what: Nested| first.starts_with(start) && nested == what;
    let seen = [
        (is("closed", Nested::StronglyDenied), "nest: closed, strongly denied"),
        (is("closed", Nested::StronglyDenied) && model.open(own, purpose), "nest: closed, strongly denied, its own label being open"),
        (is("closed", Nested::WeaklyDenied), "nest: closed, weakly denied"),
        (is("closed", Nested::WeaklyDenied) && !model.denies(own, purpose), "nest: closed, weakly denied from above alone"),
        (is("closed", Nested::Unsaid), "nest: closed, allowed by no label"),
        (first.starts_with("closed") && table.public, "nest: closed in spite of a public line"),
        (first.starts_with("closed") && blanked(model, Some(query), row, column), "nest: closed, written as a blank"),
        (first.starts_with("open, in a row withheld"), "nest: open, in a row withheld for another cell"),
        (is("bound", Nested::StronglyAllowed), "nest: bound, strongly allowed"),
        (is("bound", Nested::WeaklyAllowed), "nest: bound, weakly allowed"),
        (is("bound", Nested::AllowedAgain), "nest: bound, allowed again below a label that denies"),
        (first == "bound" && !model.open(row.label, purpose), "nest: bound, the row's own label being closed"),
    ];
    seen.into_iter().filter(|(seen, _)| *seen).map(|(_, situation)| situation).collect()
}

fn is_named(model: &Model, query: &Query, row: &Row, column: usize) -> bool {
    listed(&query.named(), &model.tables[row.table].columns[column].name)
}

fn names_unknown(query: &Query, queried: &Table) -> bool {
    query.named().iter().any(|named| queried.columns.iter().all(|column| !same(&column.name, named)))
}

fn of_unknown_table(model: &Model, query: &Query, row: &Row, column: usize, purpose: usize) -> &'static str {
    let first = model.tables[0].columns.get(column);
    if !model.cell_open(row, column, purpose) {
        "several reasons at once"
    } else if first.is_some_and(|first| listed(&query.named(), &first.name)) {
        "unknown table, column that the first table has"
    } else {
        "unknown table, other column"
    }
}

fn of_unknown_purpose(model: &Model, query: &Query, row: &Row, column: usize) -> &'static str {
    let table = &model.tables[row.table];
    if !same(&table.name, &query.table) || !is_named(model, query, row, column) {
        "several reasons at once"
    } else if table.scheme == Scheme::None && table.public {
        "unknown purpose, public table"
    } else if table.scheme == Scheme::None {
        "unknown purpose, undeclared table"
    } else {
        "unknown purpose, labelled table"
    }
}

/// Why the cell may differ, its table and purpose being known; none where it may not.
fn reason(model: &Model, query: &Query, row: &Row, column: usize, purpose: usize) -> Option<&'static str> {
    let table = &model.tables[row.table];
    let in_table = same(&table.name, &query.table);
    let open = model.cell_open(row, column, purpose);
    let withheld = model.row_withheld(row, &query.withholding(), purpose);
    let condition = query.is_blank() && listed(&query.withholding(), &table.columns[column].name);
    let selected = query.columns.iter().flatten().any(|name| same(name, &table.columns[column].name));
    Some(match (in_table, is_named(model, query, row, column), open, withheld) {
        (true, true, true, false) => return None,
        (true, true, true, true) if query.is_blank() => "open, in a row withheld for a cell of a blank's condition",
        (true, true, true, true) => "open, in a row withheld for another cell",
        (true, true, false, _) => match table.scheme {
            Scheme::None => "closed, undeclared table",
            Scheme::Nest => "closed by the labels of a nest table",
            Scheme::Cell if blanked(model, Some(query), row, column) => "closed, written as a blank",
            Scheme::Cell if condition && selected => "closed, selected and in a blank's condition",
            _ if table.public => "closed by a label in spite of a public line",
            Scheme::Table(_) => "closed by the table's label",
            Scheme::Column => "closed by the column's label",
            Scheme::Row => "closed by the row's label",
            Scheme::Cell => "closed by its own label",
        },
        (true, false, true, false) => "column not named",
        (false, true, true, _) => "other table, column of a name that the query names",
        (false, false, true, false) => "other table, other column",
        _ => "several reasons at once",
    })
}

fn bound(model: &Model, query: &Query, row: &Row, column: usize) -> Vec<&'static str> {
    let table = &model.tables[row.table];
    let mut seen = vec![match table.scheme {
        Scheme::None => "bound, public table",
        Scheme::Table(_) => "bound, open by the table's label",
        Scheme::Column => "bound, open by the column's label",
        Scheme::Row => "bound, open by the row's label",
        Scheme::Cell => "bound, open by its own label",
        Scheme::Nest => "bound, open by the labels of a nest table",
    }];
    if query.columns.iter().flatten().all(|selected| !same(selected, &table.columns[column].name)) {
        seen.push("bound, named by the condition alone");
    }
    if names_unknown(query, table) {
        seen.push("bound, another column being unknown");
    }
    if (0..row.cells.len()).any(|other| blanked(model, Some(query), row, other)) {
        seen.push("bound, beside a blank");
    }
    seen
}

/// The situation of a cell whose document and query are not in one case.
fn recased(situation: &str) -> Option<&'static str> {
    if situation.starts_with("bound") {
        Some("bound, in other cases")
    } else if situation.starts_with("closed") || situation.starts_with("open, in a row withheld") {
        Some("closed or withheld, in other cases")
    } else {
        None
    }
}

/// The situations of a cell that is a range, or that sure or possible is asked of (02, Q-12), and of a date (02, Q-14).
fn of_values(situation: &str, value: &Value, query: Option<&Query>) -> Vec<&'static str> {
    let of = query.is_some_and(|query| query.columns.is_some() && matches!(query.verb, Verb::Sure | Verb::Possible));
    let words = if situation.starts_with("bound") {
        ["bound, a range", "bound, a date", "bound, asked by sure or possible"]
    } else if situation.starts_with("closed") || situation.starts_with("open, in a row withheld") {
        ["closed or withheld, a range", "closed or withheld, a date", "closed or withheld, asked by sure or possible"]
    } else {
        return Vec::new();
    };
    words.into_iter().zip([value.is_range(), value.is_date(), of]).filter(|(_, seen)| *seen).map(|(word, _)| word).collect()
}

/// A document and a query on a line each, then a word of 0 and 1 for each row, 1 where the value may differ.
fn print_case(model: &Model, document: &[u8], text: &[u8], free: &dyn Fn(&Row, usize) -> bool) {
    println!("document {}", document.escape_ascii());
    println!("query {}", text.escape_ascii());
    let word = |row: &Row| -> String { (0..row.cells.len()).map(|column| if free(row, column) { '1' } else { '0' }).collect() };
    let words: String = model.rows.iter().map(|row| format!(" {}", word(row))).collect();
    println!("cells{words}");
}

/// One join with its document: prints it, and gives the situations of its cells.
fn print_join(random: &mut Random) -> Vec<&'static str> {
    let (model, text, join) = join_case(random);
    let (document, one) = recase::any(random, model.text());
    let (text, other) = recase::any(random, text);
    print_case(&model, &document, &text, &|row, column| may_differ(&model, join.as_ref(), row, column));
    let cells = model.rows.iter().flat_map(|row| (0..row.cells.len()).map(move |column| (row, column)));
    let mut seen: Vec<&'static str> = cells.flat_map(|(row, column)| join_situations(&model, join.as_ref(), row, column)).collect();
    if one != other && seen.iter().any(|situation| situation.starts_with("join: bound")) {
        seen.push("join: bound, in other cases");
    }
    seen
}

/// Prints the cases: the document and the query on a line each, then a word of 0 and 1 for each row, 1 where the value may differ;
/// and how often each situation was seen. Fails where one never was.
pub fn print(seed: u64, cases: u64) -> bool {
    let mut seen = Vec::new();
    for place in 0..cases {
        let random = &mut Random::new(seed, place | 1 << 41);
        if JOINS && random.chance(1, 4) {
            seen.extend(print_join(random));
            continue;
        }
        let (model, text, query) = case(random);
        // 02, Q-8: all that the model says holds in every case.
        let (document, one) = recase::any(random, model.text());
        let (text, other) = recase::any(random, text);
        print_case(&model, &document, &text, &|row, column| may_differ(&model, query.as_ref(), row, column));
        for row in &model.rows {
            for column in 0..row.cells.len() {
                let found = situations(&model, query.as_ref(), row, column);
                if one != other {
                    seen.extend(recased(found[0]));
                }
                seen.extend(of_values(found[0], &row.cells[column].0, query.as_ref()));
                seen.extend(found);
            }
        }
    }
    let mut missing = Vec::new();
    for situation in SITUATIONS.into_iter().chain(JOINED.into_iter().filter(|_| JOINS)) {
        let count = seen.iter().filter(|&&seen| seen == situation).count();
        println!("seen {count} {situation}");
        if count == 0 {
            missing.push(situation);
        }
    }
    if !missing.is_empty() {
        println!("FAILED: never seen: {}", missing.join("; "));
    }
    missing.is_empty()
}
