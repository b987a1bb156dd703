//! 02, Q-12: "Each row passed by sure is passed for every choice of numbers, and each row that some choice passes is passed by
//! possible." A small document with ranges is asked both ways, and each document with numbers chosen from them by a select.

use crate::compare::{Difference, Question, LONGEST_RESERVE};
use crate::documents::{condition, wide_condition, Builder};
use crate::gate::{self, Asked};
use crate::model::*;
use crate::queries::{Query, Verb};
use crate::random::Random;
use crate::recase;
use reference::Clock;
use std::fmt;

/// All choices are tried where there are at most so many, else as many drawn.
const ALL: usize = 64;
const CLOCK: Clock = Clock { year: 2028, day: 366, hour: 10 };

#[derive(Default)]
pub struct ChoiceTally {
    documents: u64,
    answered: u64,
    chosen: u64,
    /// Rows that every choice passes, and those of them that sure doesn't; that possible passes, and those of them that no choice does.
    always: u64,
    unsure: u64,
    possible: u64,
    never: u64,
}

impl ChoiceTally {
    /// Whether something never came up: rows of either kind, and that neither claim has its converse.
    pub fn lacks(&self) -> bool {
        [self.always, self.unsure, self.possible, self.never].contains(&0)
    }
}

impl fmt::Display for ChoiceTally {
    fn fmt(&self, f: &mut fmt::Formatter) -> fmt::Result {
        write!(
            f,
            "{} documents, {} answered, {} choices of numbers; {} rows in every one, {} of them not sure; {} possible, {} of them in none tried",
            self.documents, self.answered, self.chosen, self.always, self.unsure, self.possible, self.never
        )
    }
}

/// A table whose first column is a number of its row, open where any is, and one to three columns of numbers, ranges in most.
fn document(random: &mut Random) -> Model {
    let mut builder = Builder::new(random);
    for _ in 0..builder.random.between(1, 3) {
        builder.purpose();
    }
    builder.role();
    builder.user();
    builder.cond_role_of(0, Condition::Compare("ge", "hour".to_string(), Value::Num(0)));
    for _ in 0..builder.random.between(1, 2) {
        builder.label();
    }
    let mut model = builder.model;
    model.grants.push(Grant { purpose: 0, cond_role: 0 });
    model.lines.push(Line::Grant(0));
    let scheme = *random.pick(&[Scheme::None, Scheme::Table(0), Scheme::Column, Scheme::Row, Scheme::Cell, Scheme::Nest]);
    let mut columns = vec![Column { name: "id".to_string(), kind: Type::Num, ranged: false, label: random.below(model.labels.len()) }];
    for name in &["low", "high", "due"][..random.between(1, 3)] {
        columns.push(Column { name: name.to_string(), kind: Type::Num, ranged: true, label: random.below(model.labels.len()) });
    }
    let width = columns.len();
    let mut inherited = || (scheme == Scheme::Nest && random.chance(1, 2)).then(|| random.below(model.labels.len()));
    let (weak, strong) = (inherited(), inherited());
    model.tables.push(Table { name: "sub".to_string(), scheme, public: true, weak, strong, columns });
    model.lines.extend([Line::Table(0), Line::Public(0)]);
    model.lines.extend(weak.map(|_| Line::Weak(0)).into_iter().chain(strong.map(|_| Line::Strong(0))));
    for id in 0..random.between(1, 4) {
        let labels = model.labels.len();
        let label = random.below(labels);
        let mut cells = vec![(Value::Num(id as i64), random.below(labels))];
        cells.extend((1..width).map(|_| (small(random), random.below(labels))));
        model.rows.push(Row { table: 0, label, cells });
        model.lines.push(Line::Row(model.rows.len() - 1));
    }
    model
}

/// A number near 0, or a range of a few; now and then a wide one.
fn small(random: &mut Random) -> Value {
    let low = random.below(7) as i64 - 3;
    match random.below(8) {
        0 | 1 => Value::Num(low),
        2 => Value::Range(low, low),
        3 => Value::Range(i64::MIN + random.below(3) as i64, low),
        4 => Value::Range(low, i64::MAX - random.below(3) as i64),
        _ => Value::Range(low, low + random.between(1, 4) as i64),
    }
}

/// A condition over the columns with numbers near 0, at times a number at an end of all.
fn compared(random: &mut Random, model: &Model) -> Condition {
    let subjects: Vec<(String, Type)> = model.tables[0].columns[1..].iter().map(|column| (column.name.clone(), Type::Num)).collect();
    let mut given = match random.below(4) {
        0 => condition(random, &subjects, 1, 1),
        1 => wide_condition(random, &subjects, 4),
        _ => condition(random, &subjects, 4, 4),
    };
    near(random, &mut given);
    given
}

fn near(random: &mut Random, condition: &mut Condition) {
    match condition {
        Condition::Compare(_, _, value) => {
            *value = Value::Num(if random.chance(1, 12) { *random.pick(&[i64::MIN, i64::MAX]) } else { random.below(11) as i64 - 4 });
        }
        Condition::Not(inner) => near(random, inner),
        Condition::And(list) | Condition::Or(list) => list.iter_mut().for_each(|inner| near(random, inner)),
    }
}

/// How many numbers a value stands for, at most a few thousand.
fn count(value: &Value) -> usize {
    match value {
        Value::Range(low, high) => usize::try_from(i128::from(*high) - i128::from(*low) + 1).unwrap_or(usize::MAX).min(5_000),
        _ => 1,
    }
}

/// The number of a range at a place, or drawn: an end, beside an end, or any.
fn chosen(random: &mut Random, value: &Value, place: Option<usize>) -> Value {
    let Value::Range(low, high) = *value else { return value.clone() };
    if let Some(place) = place {
        return Value::Num(low + place as i64);
    }
    let any = low.saturating_add((random.next() % 9) as i64).min(high);
    Value::Num(*random.pick(&[low, high, any, (low.saturating_add(1)).min(high), (high.saturating_sub(1)).max(low), 0.clamp(low, high), 5.clamp(low, high)]))
}

/// The documents with numbers for the ranges: all of them, or some; and whether these are all.
fn choices(random: &mut Random, model: &Model) -> (Vec<Model>, bool) {
    let cells: Vec<(usize, usize)> =
        (0..model.rows.len()).flat_map(|row| (1..model.rows[row].cells.len()).map(move |column| (row, column))).collect();
    let counts: Vec<usize> = cells.iter().map(|&(row, column)| count(&model.rows[row].cells[column].0)).collect();
    let total = counts.iter().fold(1usize, |total, &count| total.saturating_mul(count));
    let all = total <= ALL;
    let models = (0..total.min(ALL)).map(|place| {
        let mut other = model.clone();
        let mut rest = place;
        for (&(row, column), &count) in cells.iter().zip(&counts) {
            let value = &mut other.rows[row].cells[column].0;
            *value = chosen(random, value, all.then_some(rest % count));
            rest /= count;
        }
        other
    });
    (models.collect(), all)
}

/// What the gate gives: the numbers of the rows and the three counts; none where it refuses.
fn ask(doc: &[u8], query: &[u8]) -> Result<Option<(Vec<usize>, [u64; 3])>, String> {
    let mut out = vec![0; LONGEST_RESERVE];
    match gate::ask(doc, query, CLOCK, &mut out)? {
        Asked::Answered { length, passed, withheld, unmatched, .. } => {
            let text = String::from_utf8_lossy(&out[..length as usize]).into_owned();
            let number = |line: &str| line.strip_prefix("(row ").and_then(|rest| rest.split([' ', ')']).next()?.parse().ok());
            Ok(Some((text.lines().filter_map(number).collect(), [passed, withheld, unmatched])))
        }
        Asked::Refused(_) => Ok(None),
    }
}

/// One document, asked sure and possible, and by a select for each choice.
pub fn run(random: &mut Random, tally: &mut ChoiceTally) -> Result<(), Difference> {
    let model = document(random);
    let condition = compared(random, &model);
    let user = &model.users[0];
    let mut columns = vec!["id".to_string()];
    if random.chance(1, 3) {
        columns.push(model.tables[0].columns[1].name.clone());
    }
    let purpose = random.pick(&model.purposes).name.clone();
    let query = |verb: Verb| Query {
        verb,
        user: user.name.clone(),
        role: model.roles[user.role].name.clone(),
        purpose: purpose.clone(),
        table: "sub".to_string(),
        columns: Some(columns.clone()),
        condition: Some(condition.clone()),
    };
    let single = matches!(condition, Condition::Compare(..));
    let (doc, _) = recase::any(random, model.text());
    tally.documents += 1;
    let wrong = |what: &str, doc: &[u8], alike: Option<Vec<u8>>, verb: Verb| Difference {
        what: what.to_string(),
        doc: doc.to_vec(),
        alike,
        question: Some(Question { query: query(verb).text(), clock: CLOCK, buffer: LONGEST_RESERVE }),
        gate: String::new(),
        second: String::new(),
    };
    let given = |doc: &[u8], verb: Verb| ask(doc, &query(verb).text()).map_err(|what| wrong(&what, doc, None, verb));
    let (sure, possible) = match (given(&doc, Verb::Sure)?, given(&doc, Verb::Possible)?) {
        (Some(sure), Some(possible)) => (sure, possible),
        (None, None) => return Ok(()),
        _ => return Err(wrong("one of sure and possible is refused", &doc, None, Verb::Sure)),
    };
    tally.answered += 1;
    if sure.1[1] != possible.1[1] || sure.1[0] + sure.1[2] != possible.1[0] + possible.1[2] {
        return Err(wrong("sure and possible withhold otherwise", &doc, None, Verb::Sure));
    }
    let (mut always, mut ever) = (possible.0.clone(), Vec::new());
    let (models, all) = choices(random, &model);
    for other in models {
        let text = other.text();
        let Some((rows, counts)) = given(&text, Verb::Select)? else {
            return Err(wrong("a choice of numbers is refused", &doc, Some(text), Verb::Select));
        };
        tally.chosen += 1;
        if counts[1] != sure.1[1] {
            return Err(wrong("a choice of numbers withholds otherwise", &doc, Some(text), Verb::Select));
        }
        if !sure.0.iter().all(|row| rows.contains(row)) {
            return Err(wrong("a row passed by sure is not passed for this choice of numbers", &doc, Some(text), Verb::Sure));
        }
        if !rows.iter().all(|row| possible.0.contains(row)) {
            return Err(wrong("a row that this choice of numbers passes is not passed by possible", &doc, Some(text), Verb::Possible));
        }
        always.retain(|row| rows.contains(row));
        ever.extend(rows);
    }
    let never = possible.0.iter().filter(|row| !ever.contains(row)).count();
    // "A comparison is sure if it holds for every number in the range, possible if for some": of one alone it is just so.
    if single && all && (always.len() != sure.0.len() || never > 0) {
        return Err(wrong("a comparison alone is sure or possible, and not of every or some number", &doc, None, Verb::Sure));
    }
    tally.always += always.len() as u64;
    tally.unsure += always.iter().filter(|row| !sure.0.contains(row)).count() as u64;
    tally.possible += possible.0.len() as u64;
    tally.never += never as u64;
    Ok(())
}
