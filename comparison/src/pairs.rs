//! 01, "The no-difference claim": documents alike for a query give one outcome; others mostly don't.

use crate::compare::{pair_difference, shrink, Buffers, Difference, Question, LONGEST_RESERVE};
use crate::documents;
use crate::gate::{self, Asked, Checked, Subject};
use crate::model::*;
use crate::queries::{self, Query};
use crate::random::Random;
use crate::recase::{self, listed, same, Recasing};
use crate::texts::keep;
use crate::whys::{self, WhyTally};

#[derive(Default)]
pub struct PairTally {
    pub pairs: u64,
    pub answered: u64,
    /// By refusal number: 10 to 18, 27 and 31.
    pub refusals: [u64; 32],
    pub unlike: u64,
    pub told_apart: u64,
    /// Pairs alike whose documents or query are in another case than the generator wrote them.
    pub recased: u64,
    /// Pairs alike that differ in the case of values alone, and pairs not alike that do.
    pub case_alone: u64,
    pub unlike_case: u64,
    pub told_apart_case: u64,
    /// Pairs alike that differ in an undeclared table, the query naming it; pairs not alike told apart in a public one (02, Q-2).
    pub undeclared: u64,
    pub told_apart_public: u64,
    /// Pairs alike that differ in a cell which the answer writes as a blank; pairs not alike that a blank tells apart (02, Q-10).
    pub blanked: u64,
    pub told_apart_blank: u64,
    /// Pairs alike that differ in an end of a range of the query's table; pairs not alike told apart in one (02, Q-12).
    pub ends: u64,
    pub told_apart_ends: u64,
    /// Pairs alike that differ in a date of the query's table; pairs not alike told apart in one (02, Q-14).
    pub dates: u64,
    pub told_apart_dates: u64,
    /// Pairs alike, answered, that differ in a closed cell of a nest table which the query names, and in an open one of a row withheld;
    /// pairs not alike told apart in a nest table (02, Q-11).
    pub nest_closed: u64,
    pub nest_withheld: u64,
    pub told_apart_nest: u64,
    /// A value that may differ made a range or a number: no pair alike, since 27 may tell; how often it does.
    pub turned: u64,
    pub told_apart_turned: u64,
    /// Why lines to both documents of a pair (02, Q-7).
    pub whys: WhyTally,
}

/// What is said of a pair that is not alike, where another case of values changes more than letters: no break of the claim.
pub const COUNTED_OTHERWISE: &str = "another case of values changes what is counted";

/// Cells by row and column.
pub type Cells = Vec<(usize, usize)>;

/// What a query names, as the claim asks it.
pub trait Names {
    fn purpose(&self) -> &str;
    /// The columns that it names in a table; none where it doesn't name the table.
    fn named_in(&self, table: &str) -> Option<Vec<&str>>;
    /// The columns whose closed cells withhold a row of a table that it names.
    fn withholding_in(&self, table: &str) -> Vec<&str>;
}

impl Names for Query {
    fn purpose(&self) -> &str {
        &self.purpose
    }

    fn named_in(&self, table: &str) -> Option<Vec<&str>> {
        same(table, &self.table).then(|| self.named())
    }

    fn withholding_in(&self, _: &str) -> Vec<&str> {
        self.withholding()
    }
}

/// The cells that may have another value in a document alike for the query; none: a text that is no query.
pub fn free_cells<Q: Names>(model: &Model, query: Option<&Q>) -> Cells {
    let mut free = Vec::new();
    for (place, row) in model.rows.iter().enumerate() {
        for column in 0..row.cells.len() {
            if may_differ(model, query, row, column) {
                free.push((place, column));
            }
        }
    }
    free
}

/// 01: "closed to the query's purpose, stands in a table or column that the query doesn't name, or lies in a row withheld from it".
pub fn may_differ<Q: Names>(model: &Model, query: Option<&Q>, row: &Row, column: usize) -> bool {
    // "A text that isn't a query .. names nothing."
    let Some(query) = query else { return true };
    // "A purpose that the documents don't know has every cell closed to it."
    let Some(purpose) = model.purpose(query.purpose()) else { return true };
    let table = &model.tables[row.table];
    let Some(named) = query.named_in(&table.name) else { return true };
    !model.cell_open(row, column, purpose)
        || !listed(&named, &table.columns[column].name)
        || model.row_withheld(row, &query.withholding_in(&table.name), purpose)
}

/// 02, Q-10: whether the query is a blank that writes `-` for this cell, if it gives the cell's row.
pub fn blanked(model: &Model, query: Option<&Query>, row: &Row, column: usize) -> bool {
    let Some(query) = query.filter(|query| query.is_blank()) else { return false };
    let Some(purpose) = model.purpose(&query.purpose) else { return false };
    let table = &model.tables[row.table];
    let selected = query.columns.iter().flatten().any(|name| same(name, &table.columns[column].name));
    table.scheme.labels_cells()
        && same(&table.name, &query.table)
        && selected
        && !model.cell_open(row, column, purpose)
        && !model.row_withheld(row, &query.withholding(), purpose)
}

/// Whether the condition holds of a row, or is absent.
fn matched(model: &Model, query: Option<&Query>, row: &Row) -> bool {
    let table = &model.tables[row.table];
    let value_of = |name: &str| {
        let column = table.columns.iter().position(|column| same(&column.name, name))?;
        Some(row.cells[column].0.clone())
    };
    query.and_then(|query| query.condition.as_ref()).is_none_or(|condition| condition.holds(&value_of))
}

/// The place of a table without labels that the query names; none where it names no such table.
fn unlabelled(model: &Model, query: Option<&Query>) -> Option<usize> {
    let query = query?;
    model.tables.iter().position(|table| same(&table.name, &query.table) && table.scheme == Scheme::None)
}

/// How values are changed: for others, or in their case alone (02, Q-8: "Two documents that differ in the case of an open value
/// aren't alike", and a value that may differ may differ in that too).
#[derive(Clone, Copy, PartialEq, Eq)]
pub enum Change {
    Values,
    Case,
}

/// The model with some of those cells changed, each in its type; at least one, and the text within its bound.
pub fn changed(random: &mut Random, model: &Model, cells: &Cells, all: bool, change: Change) -> Option<Model> {
    let mut other = model.clone();
    let mut any = false;
    let share = if all { 1 } else { *random.pick(&[1, 2, 4, 20]) };
    for &(row, column) in cells {
        if !random.chance(1, share) {
            continue;
        }
        let kind = model.tables[model.rows[row].table].columns[column].kind;
        let given = match &model.rows[row].cells[column].0 {
            // 02, Q-12: it "may change in either end" and "may not become or cease to be a range".
            Value::Range(..) if change == Change::Values => documents::range(random),
            Value::Name(name) if change == Change::Case || random.chance(1, 8) => Value::Name(recase::name(random, name)),
            _ if change == Change::Case => continue,
            _ => documents::value(random, kind),
        };
        any = any || given != model.rows[row].cells[column].0;
        other.rows[row].cells[column].0 = given;
    }
    if any && other.text().len() <= 60_000 {
        Some(other)
    } else {
        None
    }
}

/// 02, Q-12: the model with one of those cells, of a num column, made a range where it is a number, and the other way round.
fn turned(random: &mut Random, model: &Model, cells: &Cells) -> Option<Model> {
    let of_numbers = |(row, column): &&(usize, usize)| model.rows[*row].cells[*column].0.kind() == Type::Num;
    let numbers: Vec<&(usize, usize)> = cells.iter().filter(of_numbers).collect();
    if numbers.is_empty() {
        return None;
    }
    let &&(row, column) = random.pick(&numbers);
    let mut other = model.clone();
    let given = &mut other.rows[row].cells[column].0;
    *given = if given.is_range() { documents::value(random, Type::Num) } else { documents::range(random) };
    (other.text().len() <= 60_000).then_some(other)
}

/// Whether two models differ in such a value of the query's table.
fn differ_in(model: &Model, other: &Model, query: Option<&Query>, such: fn(&Value) -> bool) -> bool {
    let Some(query) = query else { return false };
    let differ = |(one, other): (&Row, &Row)| one.cells.iter().zip(&other.cells).any(|(one, other)| such(&one.0) && one.0 != other.0);
    let here = |row: &Row| same(&model.tables[row.table].name, &query.table);
    model.rows.iter().zip(&other.rows).filter(|(one, _)| here(one)).any(differ)
}

/// The named cells of the query's table, if that is a nest table, in which two models differ: whether some is closed, and whether some
/// is open and in a row withheld (02, Q-11).
fn in_nest(model: &Model, other: &Model, query: Option<&Query>) -> (bool, bool) {
    let Some(query) = query else { return (false, false) };
    let Some(purpose) = model.purpose(&query.purpose) else { return (false, false) };
    let (mut closed, mut withheld) = (false, false);
    for (one, other) in model.rows.iter().zip(&other.rows) {
        let table = &model.tables[one.table];
        if table.scheme != Scheme::Nest || !same(&table.name, &query.table) {
            continue;
        }
        let named = |column: &usize| listed(&query.named(), &table.columns[*column].name);
        for column in (0..one.cells.len()).filter(named).filter(|&column| one.cells[column].0 != other.cells[column].0) {
            let open = model.cell_open(one, column, purpose);
            closed = closed || !open;
            withheld = withheld || open && model.row_withheld(one, &query.withholding(), purpose);
        }
    }
    (closed, withheld)
}

/// Whether the gate accepts a document.
pub fn accepted(doc: &[u8]) -> bool {
    matches!(gate::check(doc), Ok(Checked::Accepted { .. }))
}

/// One pair alike, with its questions; and where the query is answered, one pair that isn't alike.
pub fn run(random: &mut Random, subject: Subject, buffers: &mut Buffers, tally: &mut PairTally) -> Result<(), Difference> {
    let (model, query, text, clock, alike, change) = loop {
        let model = match random.below(100) {
            0 => documents::at_bound(random).0,
            1..=3 => documents::wide_nest(random),
            _ => documents::ordinary(random),
        };
        let clock = queries::clock(random);
        let mut query = queries::good(random, &model, clock);
        let mut is_query = true;
        match random.below(20) {
            0..=11 => {}
            12..=17 => queries::fault(random, &model, &mut query),
            _ => is_query = false,
        }
        if !query.within_bounds() {
            continue;
        }
        let text = if is_query { query.text() } else { queries::no_query(random, &model, &query) };
        let query = if is_query { Some(query) } else { None };
        let free = free_cells(&model, query.as_ref());
        let change = if random.chance(1, 5) { Change::Case } else { Change::Values };
        let Some(alike) = changed(random, &model, &free, false, change) else { continue };
        if accepted(&model.text()) {
            break (model, query, text, clock, alike, change);
        }
    };
    let unlabelled = unlabelled(&model, query.as_ref());
    let differs = |place: usize| {
        model.rows.iter().zip(&alike.rows).any(|(one, other)| one.table == place && one.cells != other.cells)
    };
    let undeclared = unlabelled.is_some_and(|place| !model.tables[place].public && differs(place));
    let in_ends = differ_in(&model, &alike, query.as_ref(), Value::is_range);
    let in_dates = differ_in(&model, &alike, query.as_ref(), Value::is_date);
    let (nest_closed, nest_withheld) = in_nest(&model, &alike, query.as_ref());
    let in_blanks = model.rows.iter().zip(&alike.rows).any(|(one, other)| {
        let changed = |column: usize| one.cells[column].0 != other.cells[column].0 && blanked(&model, query.as_ref(), one, column);
        matched(&model, query.as_ref(), one) && (0..one.cells.len()).any(changed)
    });
    let recasing = Recasing::any(random);
    let other_model = alike;
    let (doc, alike) = (recasing.turn(&model.text()), recasing.turn(&other_model.text()));
    let (text, other) = recase::any(random, text);
    if !accepted(&alike) {
        let question = Question { query: text, clock, buffer: 0 };
        return Err(pair_difference(subject, "a document alike is refused".to_string(), &doc, &alike, &question));
    }
    tally.pairs += 1;
    tally.recased += u64::from(other || doc != model.text());
    tally.case_alone += u64::from(change == Change::Case);
    tally.undeclared += u64::from(undeclared);
    tally.ends += u64::from(in_ends);
    tally.dates += u64::from(in_dates);
    // 02, Q-7: labels alone explain, whatever the values are; a pair needn't even be alike for a query.
    whys::pair(random, subject, [&model, &other_model], [&doc, &alike], &mut tally.whys)?;
    if let (Some(turned), true) = (turned(random, &model, &free_cells(&model, query.as_ref())), random.chance(1, 4)) {
        let question = Question { query: text.clone(), clock, buffer: LONGEST_RESERVE };
        let (_, equal) = buffers.ask_pair(subject, &model.text(), &turned.text(), &question)?;
        whys::pair(random, subject, [&model, &turned], [&model.text(), &turned.text()], &mut tally.whys)?;
        tally.turned += 1;
        tally.told_apart_turned += u64::from(!equal);
    }
    let put = |buffer: usize, buffers: &mut Buffers| -> Result<Asked, Difference> {
        let question = Question { query: text.clone(), clock, buffer };
        let (asked, equal) = buffers.ask_pair(subject, &doc, &alike, &question)?;
        if equal {
            return Ok(asked);
        }
        Err(smaller(subject, buffers, &doc, &alike, &question))
    };
    let asked = put(LONGEST_RESERVE, buffers)?;
    match asked {
        Asked::Answered { length, .. } => {
            tally.answered += 1;
            tally.blanked += u64::from(in_blanks);
            tally.nest_closed += u64::from(nest_closed);
            tally.nest_withheld += u64::from(nest_withheld);
            let length = length as usize;
            put(length, buffers)?;
            put(length - 1, buffers)?;
            put(random.below(length + 10), buffers)?;
        }
        Asked::Refused(refused) => {
            tally.refusals[refused.number as usize] += 1;
            put(random.below(50), buffers)?;
            return Ok(());
        }
    }
    // Not alike: cells open to the query, named by it and not withheld.
    let free = free_cells(&model, query.as_ref());
    let bound: Cells = (0..model.rows.len())
        .flat_map(|row| (0..model.rows[row].cells.len()).map(move |column| (row, column)))
        .filter(|cell| !free.contains(cell))
        .collect();
    let question = Question { query: text.clone(), clock, buffer: LONGEST_RESERVE };
    if let Some(unlike) = changed(random, &model, &bound, true, Change::Values) {
        let unlike_doc = recasing.turn(&unlike.text());
        let (_, equal) = buffers.ask_pair(subject, &doc, &unlike_doc, &question)?;
        whys::pair(random, subject, [&model, &unlike], [&doc, &unlike_doc], &mut tally.whys)?;
        tally.unlike += 1;
        tally.told_apart += u64::from(!equal);
        tally.told_apart_public += u64::from(!equal && unlabelled.is_some());
        tally.told_apart_ends += u64::from(!equal && differ_in(&model, &unlike, query.as_ref(), Value::is_range));
        tally.told_apart_dates += u64::from(!equal && differ_in(&model, &unlike, query.as_ref(), Value::is_date));
        tally.told_apart_blank += u64::from(!equal && query.as_ref().is_some_and(|query| query.is_blank()));
        let of_nest = |table: &Table| table.scheme == Scheme::Nest && query.as_ref().is_some_and(|query| same(&table.name, &query.table));
        tally.told_apart_nest += u64::from(!equal && model.tables.iter().any(of_nest));
    }
    if let Some(unlike) = changed(random, &model, &bound, true, Change::Case) {
        let unlike = recasing.turn(&unlike.text());
        let (other, _) = buffers.ask_pair(subject, &unlike, &doc, &question)?;
        let (_, equal) = buffers.ask_pair(subject, &doc, &unlike, &question)?;
        tally.unlike_case += 1;
        tally.told_apart_case += u64::from(!equal);
        // Letters of the answer may be others; its length, its grant and its counts may not.
        if other != asked {
            return Err(pair_difference(subject, COUNTED_OTHERWISE.to_string(), &doc, &unlike, &question));
        }
    }
    Ok(())
}

/// The same lines deleted from both while both are accepted and told apart.
pub fn smaller(subject: Subject, buffers: &mut Buffers, doc: &[u8], alike: &[u8], question: &Question) -> Difference {
    let others: Vec<Vec<u8>> = alike.split_inclusive(|&byte| byte == b'\n').map(|line| line.to_vec()).collect();
    let lines: Vec<Vec<u8>> = doc.split_inclusive(|&byte| byte == b'\n').map(|line| line.to_vec()).collect();
    // Lines are numbered in front while shrinking, so that the other document's are known.
    let numbered: Vec<u8> = (0..lines.len()).flat_map(|place| format!("{place}\n").into_bytes()).collect();
    let kept = shrink(&numbered, &mut |places| {
        let places: Vec<usize> = places.iter().filter_map(|line| String::from_utf8_lossy(line).trim().parse().ok()).collect();
        let one: Vec<u8> = places.iter().flat_map(|&place| lines[place].clone()).collect();
        let two: Vec<u8> = places.iter().flat_map(|&place| others[place].clone()).collect();
        accepted(&one) && accepted(&two) && matches!(buffers.ask_pair(subject, &one, &two, question), Ok((_, false)))
    });
    pair_difference(subject, "a pair alike told apart".to_string(), &keep(doc, &kept), &keep(alike, &kept), question)
}
