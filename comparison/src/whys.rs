//! 02, Q-7: random why lines. The gate and the second implementation have to print the same, and on valid documents what the
//! generator's own model says; documents that differ in values of cells alone explain every line alike.

use crate::compare::{shrink, Difference, Question};
use crate::damage;
use crate::documents::long_name;
use crate::gate::{self, Explained, Refused, Second, Subject};
use crate::model::*;
use crate::random::Random;
use crate::recase::{self, same};
use crate::texts::{keep, scheme, SCHEMES};
use reference::Clock;
use std::fmt;

/// What a why line prints.
pub const PRINTED: [&str; 4] = ["open", "closed deny", "closed allow", "closed none"];
/// Which of them a table of each scheme can have, in the order of `SCHEMES`; a nest table is 26.
const POSSIBLE: [[bool; 4]; 6] = [
    [true, false, false, true],
    [true, true, true, false],
    [true, true, true, false],
    [true, true, true, false],
    [true, true, true, false],
    [false; 4],
];
/// How a denied purpose came to be told, and how lines came to be refused.
const HOW: [&str; 13] = [
    "the purpose itself",
    "one above it",
    "one below it",
    "not the label's first",
    "others that shut it behind it",
    "in another case than its purpose line",
    "the 65th or a later one",
    "11",
    "23 at P",
    "23 at T",
    "23 at COL",
    "23 at COL, the row being none",
    "26",
];
/// Kinds of rows that there aren't.
const ROWS: [&str; 3] = ["below 0", "T's count", "larger"];

#[derive(Default)]
pub struct WhyTally {
    pub lines: u64,
    recased: u64,
    /// Of valid documents: by the scheme of the table and what was printed.
    printed: [[u64; 4]; 6],
    how: [u64; 13],
    /// Refused with 24, by the row asked for, and of a nest table.
    rows: [u64; 3],
    nest_rows: u64,
    /// Lines to a refused document.
    documents: u64,
    /// Lines to two documents that differ in values of cells; those of them that printed something, and those about such a cell.
    pub pairs: u64,
    pub pairs_printed: u64,
    pub pairs_changed: u64,
}

impl WhyTally {
    /// What a run never saw.
    pub fn missing(&self) -> Vec<String> {
        let mut missing = Vec::new();
        for (scheme, (printed, possible)) in self.printed.iter().zip(POSSIBLE).enumerate() {
            let unseen = (0..4).filter(|&kind| possible[kind] && printed[kind] == 0);
            missing.extend(unseen.map(|kind| format!("{} of a table of scheme {}", PRINTED[kind], SCHEMES[scheme])));
        }
        missing.extend((0..HOW.len()).filter(|&how| self.how[how] == 0).map(|how| HOW[how].to_string()));
        missing.extend((0..ROWS.len()).filter(|&row| self.rows[row] == 0).map(|row| format!("24, the row {}", ROWS[row])));
        let others = [(self.nest_rows, "24 of a nest table"), (self.documents, "a refused document"), (self.recased, "a line in another case")];
        missing.extend(others.iter().filter(|(count, _)| *count == 0).map(|(_, what)| what.to_string()));
        missing
    }
}

impl fmt::Display for WhyTally {
    fn fmt(&self, f: &mut fmt::Formatter) -> fmt::Result {
        let list = |names: &[&str], counts: &[u64]| names.iter().zip(counts).map(|(name, count)| format!("{count} {name}")).collect::<Vec<String>>().join(", ");
        writeln!(f, "why lines:         {}, {} in another case, {} to refused documents", self.lines, self.recased, self.documents)?;
        for (place, scheme) in SCHEMES.iter().enumerate().take(5) {
            writeln!(f, "printed, {:<10}{}", format!("{scheme}:"), list(&PRINTED, &self.printed[place]))?;
        }
        writeln!(f, "denied:            {}", list(&HOW[..7], &self.how[..7]))?;
        write!(f, "lines refused:     {}; 24: {}, {} of a nest table", list(&HOW[7..], &self.how[7..]), list(&ROWS, &self.rows), self.nest_rows)
    }
}

impl WhyTally {
    /// What was seen of pairs.
    pub fn of_pairs(&self) -> String {
        format!("{} lines to two documents, {} printed, {} about a cell that differs", self.pairs, self.pairs_printed, self.pairs_changed)
    }
}

/// `(why P T ROW COL)`; the row as it is written.
#[derive(Clone, Debug)]
pub struct Why {
    purpose: String,
    table: String,
    row: String,
    column: String,
}

impl Why {
    pub fn text(&self) -> Vec<u8> {
        format!("(why {} {} {} {})", self.purpose, self.table, self.row, self.column).into_bytes()
    }
}

/// The places of a table's rows.
fn rows_of(model: &Model, table: usize) -> Vec<usize> {
    (0..model.rows.len()).filter(|&row| model.rows[row].table == table).collect()
}

/// A line about a cell that there is, if there is one; mostly of a table that is no nest table.
pub fn good(random: &mut Random, model: &Model) -> Why {
    let mut line = Why { purpose: "all".to_string(), table: "a".to_string(), row: "0".to_string(), column: "who".to_string() };
    if !model.purposes.is_empty() {
        line.purpose = random.pick(&model.purposes).name.clone();
    }
    if model.tables.is_empty() {
        return line;
    }
    let mut place = 0;
    for _ in 0..8 {
        place = random.below(model.tables.len());
        let nest = model.tables[place].scheme == Scheme::Nest && random.chance(4, 5);
        if !nest && model.rows.iter().any(|row| row.table == place) {
            break;
        }
    }
    let table = &model.tables[place];
    line.table = table.name.clone();
    line.row = random.below(rows_of(model, place).len()).to_string();
    line.column = random.pick(&table.columns).name.clone();
    near(random, model, place, &mut line);
    line
}

/// At times the purpose becomes one that the label of the cell denies, or the parent of such a one.
fn near(random: &mut Random, model: &Model, table: usize, line: &mut Why) {
    let row = line.row.parse().ok().and_then(|row: usize| rows_of(model, table).get(row).copied());
    let column = model.tables[table].columns.iter().position(|column| column.name == line.column);
    let (Some(row), Some(column), true) = (row, column, random.chance(1, 3)) else { return };
    let Some(label) = meant(model, &model.rows[row], column) else { return };
    let denied = &model.labels[label].deny;
    if denied.is_empty() {
        return;
    }
    let one = *random.pick(denied);
    let up = model.purposes[one].parent.filter(|_| random.chance(1, 3));
    line.purpose = model.purposes[up.unwrap_or(one)].name.clone();
}

/// One fault of 23 or 24, or a nest table for 26.
fn fault(random: &mut Random, model: &Model, line: &mut Why) {
    let unknown = |random: &mut Random| match random.below(3) {
        0 => long_name(random, 24),
        1 => "nobody".to_string(),
        _ => long_name(random, 2),
    };
    let table = model.tables.iter().position(|table| same(&table.name, &line.table));
    let count = table.map_or(0, |table| rows_of(model, table).len());
    match random.below(9) {
        0 => line.purpose = unknown(random),
        1 => line.table = unknown(random),
        2 => line.column = unknown(random),
        // A column of another table, known here or not.
        3 if !model.tables.is_empty() => {
            let other = random.pick(&model.tables);
            line.column = random.pick(&other.columns).name.clone();
        }
        4 => line.row = random.pick(&["-1", "-9223372036854775808", "-2"]).to_string(),
        5 => line.row = count.to_string(),
        6 => line.row = random.pick(&["9223372036854775807", "1024", "256", "4294967296", "2147483648", "65536"]).to_string(),
        7 => {
            let nests: Vec<&Table> = model.tables.iter().filter(|table| table.scheme == Scheme::Nest).collect();
            if !nests.is_empty() {
                let table = *random.pick(&nests);
                line.table = table.name.clone();
                line.column = random.pick(&table.columns).name.clone();
            }
        }
        _ => line.row = random.below(count + 2).to_string(),
    }
}

/// A text that is surely no why line (11), made from one that is.
fn no_why(random: &mut Random, line: &Why) -> Vec<u8> {
    let Why { purpose, table, row, column } = line;
    let text = line.text();
    match random.below(16) {
        0 => text[..random.below(text.len())].to_vec(),
        1 => [&text[..], b"\n"].concat(),
        2 => [b" ", &text[..]].concat(),
        3 => format!("(why {purpose} {table} {row})").into_bytes(),
        4 => format!("(why {purpose} {table} {row} {column} {column})").into_bytes(),
        5 => format!("(why {purpose} {table} {column} {row})").into_bytes(),
        6 => format!("(why {row} {table} {row} {column})").into_bytes(),
        7 => format!("(why {purpose} {table} {column} {column})").into_bytes(),
        8 => format!("(why {purpose} {table} ({row}) {column})").into_bytes(),
        9 => format!("(why {purpose} {table} {} {column})", random.pick(&["00", "-0", "01", "-", "9223372036854775808", "-9223372036854775809", "18446744073709551616", "(0 1)"])).into_bytes(),
        10 => format!("(why {} {table} {row} {column})", long_name(random, 25)).into_bytes(),
        11 => format!("({} {purpose} {table} {row} {column})", random.pick(&["whys", "wh", "select", "count", "row", "why-", "because"])).into_bytes(),
        12 => {
            let mut text = text;
            let place = random.below(text.len());
            text[place] = *random.pick(&[0, 10, 13, 9, 128, 255, b'.', b'"']);
            text
        }
        13 => {
            // A byte that is no letter, 32 away: that is no other case of it.
            let mut text = text;
            let others: Vec<usize> = (0..text.len()).filter(|&place| !text[place].is_ascii_alphabetic()).collect();
            let place = *random.pick(&others);
            text[place] ^= 32;
            text
        }
        14 => [&text[..text.len() - 1], &[b' '; 5_000][..random.between(1, 5_000)], b")"].concat(),
        _ => random.pick(&["", "(why)", "why", "()", "(clock 2028 366 10)", "(count ana desk all a)"]).as_bytes().to_vec(),
    }
}

/// The label meant: "the table's, column's, row's or cell's by scheme"; a table without labels has none, and a nest table too many.
fn meant(model: &Model, row: &Row, column: usize) -> Option<usize> {
    let table = &model.tables[row.table];
    match table.scheme {
        Scheme::None | Scheme::Nest => None,
        Scheme::Table(label) => Some(label),
        Scheme::Column => Some(table.columns[column].label),
        Scheme::Row => Some(row.label),
        Scheme::Cell => Some(row.cells[column].1),
    }
}

/// What the model says to a line.
enum Held {
    /// The table's place, what is printed by its place in `PRINTED`, and the denied purpose's place in its label.
    Printed(usize, usize, Option<(usize, usize)>),
    /// The number, and its item counted from 0: `why` itself, P, T, ROW, COL.
    Refused(u64, usize),
}

/// 02, Q-7, over the model: the answer to a line that is one, of a document that is accepted.
fn held(model: &Model, line: &Why) -> Held {
    let purpose = model.purpose(&line.purpose);
    let table = model.tables.iter().position(|table| same(&table.name, &line.table));
    let column = table.and_then(|table| model.tables[table].columns.iter().position(|column| same(&column.name, &line.column)));
    let (purpose, table, column) = match (purpose, table, column) {
        (None, _, _) => return Held::Refused(23, 1),
        (_, None, _) => return Held::Refused(23, 2),
        (_, _, None) => return Held::Refused(23, 4),
        (Some(purpose), Some(table), Some(column)) => (purpose, table, column),
    };
    let rows = rows_of(model, table);
    let Some(&row) = line.row.parse().ok().and_then(|row: usize| rows.get(row)) else { return Held::Refused(24, 3) };
    let row = &model.rows[row];
    let label = match (model.tables[table].scheme, meant(model, row, column)) {
        (Scheme::Nest, _) => return Held::Refused(26, 2),
        (_, Some(label)) => label,
        (_, None) if model.tables[table].public => return Held::Printed(table, 0, None),
        (_, None) => return Held::Printed(table, 3, None),
    };
    let related = |&d: &usize| descends(&model.purposes, purpose, d) || descends(&model.purposes, d, purpose);
    match model.labels[label].deny.iter().position(|d| related(d)) {
        Some(first) => Held::Printed(table, 1, Some((label, first))),
        None if model.open(label, purpose) => Held::Printed(table, 0, None),
        None => Held::Printed(table, 2, None),
    }
}

/// Whether the gate gave what the model says; the case of a denied purpose's letters is the document's.
fn fits(model: &Model, line: &Why, explained: &Explained) -> bool {
    match (held(model, line), explained) {
        (Held::Printed(_, 1, Some((label, first))), Ok(printed)) => {
            let name = &model.purposes[model.labels[label].deny[first]].name;
            printed.eq_ignore_ascii_case(format!("(closed deny {name})\n").as_bytes()) && printed.starts_with(b"(closed deny ")
        }
        (Held::Printed(_, kind, _), Ok(printed)) => *printed == format!("({})\n", PRINTED[kind]).into_bytes(),
        (Held::Refused(number, item), Err(refused)) => {
            let (from, to) = damage::words(&line.text())[item];
            *refused == Refused { number, source: 2, start: from as u64, length: (to - from) as u64 }
        }
        _ => false,
    }
}

impl WhyTally {
    /// A line to a document that is valid, its model's.
    fn saw(&mut self, model: &Model, line: &Why, explained: &Explained) {
        let none = line.row.starts_with('-');
        match held(model, line) {
            Held::Printed(table, kind, told) => {
                self.printed[scheme(model.tables[table].scheme)][kind] += 1;
                if let (Some((label, first)), Ok(printed)) = (told, explained) {
                    self.saw_denied(model, line, label, first, printed);
                }
            }
            Held::Refused(23, item) => {
                self.how[[8, 8, 9, 10, 10][item]] += 1;
                self.how[11] += u64::from(item == 4 && none);
            }
            Held::Refused(24, _) => {
                let table = model.tables.iter().position(|table| same(&table.name, &line.table)).unwrap_or(0);
                let count = rows_of(model, table).len().to_string();
                self.rows[if none { 0 } else { 1 + usize::from(line.row != count) }] += 1;
                self.nest_rows += u64::from(model.tables[table].scheme == Scheme::Nest);
            }
            Held::Refused(..) => self.how[12] += 1,
        }
    }

    /// A denied purpose that was told: the one at this place of its label's list.
    fn saw_denied(&mut self, model: &Model, line: &Why, label: usize, first: usize, printed: &[u8]) {
        let deny = &model.labels[label].deny;
        let (denied, purpose) = (deny[first], model.purpose(&line.purpose).unwrap_or(0));
        let below = |low, high| descends(&model.purposes, low, high);
        let later = deny[first + 1..].iter().any(|&d| below(purpose, d) || below(d, purpose));
        let written = &model.purposes[denied].name;
        let seen = [
            denied == purpose,
            denied != purpose && below(purpose, denied),
            denied != purpose && below(denied, purpose),
            first > 0,
            later,
            printed != format!("(closed deny {written})\n").as_bytes(),
            denied >= 64,
        ];
        for (how, seen) in seen.into_iter().enumerate() {
            self.how[how] += u64::from(seen);
        }
    }
}

/// The report of a line.
fn difference(what: &str, doc: &[u8], alike: Option<&[u8]>, line: &[u8], gate: String, second: String) -> Difference {
    let question = Question { query: line.to_vec(), clock: Clock { year: 0, day: 0, hour: 0 }, buffer: gate::LONGEST_WHY };
    Difference { what: what.to_string(), doc: doc.to_vec(), alike: alike.map(|text| text.to_vec()), question: Some(question), gate, second }
}

/// What was printed, in words.
fn told(explained: &Result<Explained, String>) -> String {
    match explained {
        Ok(Ok(printed)) => printed.escape_ascii().to_string(),
        other => format!("{other:?}"),
    }
}

/// One line to both; what they give, or the difference with the lines of the document that it needs.
fn ask(second: Second, doc: &[u8], line: &[u8]) -> Result<Explained, Difference> {
    let both = |doc: &[u8]| (gate::why(doc, line), Ok(second.why(doc, line)));
    let (gate, theirs) = both(doc);
    match gate {
        Ok(explained) if Ok(&explained) == theirs.as_ref() => Ok(explained),
        _ => {
            let differs = |doc: &[u8]| {
                let (gate, theirs) = both(doc);
                gate != theirs
            };
            let kept = shrink(doc, &mut |lines| differs(&lines.concat()));
            let doc = keep(doc, &kept);
            let (gate, theirs) = both(&doc);
            Err(difference("what a why line prints", &doc, None, line, told(&gate), told(&theirs)))
        }
    }
}

/// A document in a case of its own, with its model where it is valid by construction.
pub struct Document<'m> {
    pub doc: &'m [u8],
    pub model: &'m Model,
    pub valid: bool,
    pub accepted: bool,
}

/// One random line to a document.
pub fn run(random: &mut Random, second: Second, document: &Document, tally: &mut WhyTally) -> Result<(), Difference> {
    let Document { doc, model, valid, accepted } = *document;
    let mut line = good(random, model);
    let mut is_why = true;
    let text = match random.below(20) {
        0..=10 => line.text(),
        11..=15 => {
            for _ in 0..*random.pick(&[1, 1, 2, 3]) {
                fault(random, model, &mut line);
            }
            line.text()
        }
        kind => {
            is_why = false;
            let mut text = line.text();
            match kind {
                16 | 17 => text = no_why(random, &line),
                18 => damage::word(random, &mut text, doc, 1),
                _ => damage::once(random, &mut text),
            }
            text
        }
    };
    let (text, recased) = recase::any(random, text);
    let explained = ask(second, doc, &text)?;
    tally.lines += 1;
    tally.recased += u64::from(recased && accepted);
    tally.documents += u64::from(!accepted);
    tally.how[7] += u64::from(matches!(explained, Err(Refused { number: 11, .. })));
    if is_why && valid && second == Second::Reference {
        if !fits(model, &line, &explained) {
            let what = "both print to a why line what the generator holds otherwise";
            return Err(difference(what, doc, None, &text, told(&Ok(explained)), String::new()));
        }
        tally.saw(model, &line, &explained);
    }
    Ok(())
}

/// Lines to two documents that differ in values of cells alone, of the models given: they explain every line alike.
pub fn pair(random: &mut Random, subject: Subject, models: [&Model; 2], docs: [&[u8]; 2], tally: &mut WhyTally) -> Result<(), Difference> {
    let [model, other] = models;
    let changed: Vec<(usize, usize)> = (0..model.rows.len())
        .flat_map(|row| (0..model.rows[row].cells.len()).map(move |column| (row, column)))
        .filter(|&(row, column)| model.rows[row].cells[column].0 != other.rows[row].cells[column].0)
        .collect();
    for _ in 0..3 {
        let mut line = good(random, model);
        let mut about = false;
        match random.below(5) {
            0..=2 if !changed.is_empty() => {
                let &(row, column) = random.pick(&changed);
                let table = model.rows[row].table;
                line.table = model.tables[table].name.clone();
                line.row = rows_of(model, table).iter().position(|&place| place == row).unwrap_or(0).to_string();
                line.column = model.tables[table].columns[column].name.clone();
                about = true;
            }
            3 => fault(random, model, &mut line),
            _ => {}
        }
        let text = line.text();
        let [one, two] = docs.map(|doc| subject.why(doc, &text));
        if one != two {
            return Err(difference("documents that differ in values alone explain otherwise", docs[0], Some(docs[1]), &text, told(&one), told(&two)));
        }
        let printed = matches!(one, Ok(Ok(_)));
        tally.pairs += 1;
        tally.pairs_printed += u64::from(printed);
        tally.pairs_changed += u64::from(printed && about);
    }
    Ok(())
}
