//! Random queries to a model: good ones, ones with a fault of each kind, and texts that are no query.

use crate::documents::{condition, deep_condition, exists, long_name, no_date, value, wide_condition, OPERATORS};
use crate::model::*;
use crate::random::Random;
use crate::recase::same;
use reference::Clock;

/// The word of a query that has columns.
#[derive(Clone, Copy, Debug, PartialEq, Eq)]
pub enum Verb {
    Select,
    /// 02, Q-10.
    Blank,
    /// 02, Q-12.
    Sure,
    Possible,
}

impl Verb {
    pub fn word(self) -> &'static str {
        match self {
            Verb::Select => "select",
            Verb::Blank => "blank",
            Verb::Sure => "sure",
            Verb::Possible => "possible",
        }
    }

    pub fn any(random: &mut Random) -> Verb {
        *random.pick(&[Verb::Select, Verb::Select, Verb::Blank, Verb::Sure, Verb::Possible])
    }

    fn of_ranges(random: &mut Random) -> Verb {
        *random.pick(&[Verb::Sure, Verb::Possible])
    }
}

#[derive(Clone, Debug)]
pub struct Query {
    /// Of a query with columns; without them it is a count.
    pub verb: Verb,
    pub user: String,
    pub role: String,
    pub purpose: String,
    pub table: String,
    /// None for a count.
    pub columns: Option<Vec<String>>,
    pub condition: Option<Condition>,
}

impl Query {
    pub fn text(&self) -> Vec<u8> {
        let word = if self.columns.is_some() { self.verb.word() } else { "count" };
        let mut text = format!("({word} {} {} {} {}", self.user, self.role, self.purpose, self.table);
        if let Some(columns) = &self.columns {
            text += &format!(" ({})", columns.join(" "));
        }
        if let Some(condition) = &self.condition {
            text += &format!(" {condition}");
        }
        (text + ")").into_bytes()
    }

    /// 01: "Named columns are those selected and every one in the condition, evaluated or not."
    pub fn named(&self) -> Vec<&str> {
        let mut named: Vec<&str> = self.columns.iter().flatten().map(|column| column.as_str()).collect();
        named.extend(self.subjects());
        named
    }

    /// The columns in the condition.
    fn subjects(&self) -> Vec<&str> {
        self.condition.as_ref().map(|condition| condition.subjects()).unwrap_or_default()
    }

    pub fn is_blank(&self) -> bool {
        self.columns.is_some() && self.verb == Verb::Blank
    }

    /// The columns whose closed cells withhold a row; 02, Q-10: of a blank "a closed cell named in the condition".
    pub fn withholding(&self) -> Vec<&str> {
        if self.is_blank() {
            self.subjects()
        } else {
            self.named()
        }
    }

    /// 01, 11: within the bounds of a query, its names and numbers being right by construction.
    pub fn within_bounds(&self) -> bool {
        let columns = self.columns.as_ref().is_none_or(|columns| (1..=16).contains(&columns.len()));
        let condition = self.condition.as_ref().is_none_or(|c| c.subjects().len() <= 64 && c.depth() <= 15);
        columns && condition && self.text().len() <= 4096
    }
}

/// A clock, now and then out of range.
pub fn clock(random: &mut Random) -> Clock {
    let any = 1 + random_below(random, 9999);
    let year = *random.pick(&[1, 4, 1900, 2000, 2027, 2027, 2028, 2028, 2024, 2100, 9999, any]);
    let leap = year % 4 == 0 && (year % 100 != 0 || year % 400 == 0);
    let last = if leap { 366 } else { 365 };
    let any = 1 + random_below(random, last);
    let day = *random.pick(&[1, 59, 60, 365, last, any, any, any]);
    let hour = random_below(random, 24);
    let mut clock = Clock { year, day, hour };
    if random.chance(1, 12) {
        match random.below(7) {
            0 => clock.year = 0,
            1 => clock.year = 10_000,
            2 => clock.day = 0,
            3 => clock.day = last + 1,
            4 => clock.hour = 24,
            5 => clock.hour = *random.pick(&[u64::MAX, 1 << 63, (1 << 32) + 5, 256]),
            _ => {
                clock.year = *random.pick(&[u64::MAX, (1 << 63) + 2028, (1 << 32) + 2028, 65_536 + 2028]);
                clock.day = *random.pick(&[1, u64::MAX, (1 << 32) + 1]);
            }
        }
    }
    clock
}

fn random_below(random: &mut Random, bound: u64) -> u64 {
    random.next() % bound
}

/// A user form and a purpose that it may mostly act for, by their places; none where there are no users or no purposes.
pub fn asker(random: &mut Random, model: &Model, clock: Clock) -> Option<(usize, usize)> {
    let mut found = None;
    if !model.users.is_empty() && !model.purposes.is_empty() {
        for _ in 0..40 {
            let (user, purpose) = (random.below(model.users.len()), random.below(model.purposes.len()));
            found = Some((user, purpose));
            if model.authorised(user, purpose, [clock.year, clock.day, clock.hour]) {
                break;
            }
        }
    }
    found
}

/// A query that the document mostly answers.
pub fn good(random: &mut Random, model: &Model, clock: Clock) -> Query {
    let mut query = Query {
        verb: Verb::any(random),
        user: "ana".to_string(),
        role: "desk".to_string(),
        purpose: "all".to_string(),
        table: "a".to_string(),
        columns: None,
        condition: None,
    };
    let mut purpose = None;
    if let Some((user, tried)) = asker(random, model, clock) {
        query.user = model.users[user].name.clone();
        query.role = model.roles[model.users[user].role].name.clone();
        query.purpose = model.purposes[tried].name.clone();
        purpose = Some(tried);
    }
    if model.tables.is_empty() {
        query.columns = Some(vec!["who".to_string()]);
        return query;
    }
    // A table with rows, not closed as a whole, is tried for.
    let (mut table, mut place) = (&model.tables[0], 0);
    for _ in 0..5 {
        place = random.below(model.tables.len());
        table = &model.tables[place];
        let closed = match (table.scheme, purpose) {
            (Scheme::Table(label), Some(p)) => !model.open(label, p),
            (Scheme::None, _) => !table.public,
            _ => false,
        };
        if !closed && model.rows.iter().any(|row| row.table == place) {
            break;
        }
    }
    query.table = table.name.clone();
    let mut columns: Vec<&Column> = table.columns.iter().collect();
    if let (Scheme::Column, Some(p), true) = (table.scheme, purpose, random.chance(4, 5)) {
        columns.retain(|column| model.open(column.label, p));
        if columns.is_empty() {
            columns = table.columns.iter().collect();
        }
    }
    // Most that take no ranges are asked for columns without any: 27 otherwise.
    let counts = random.chance(1, 4);
    if (counts || !matches!(query.verb, Verb::Sure | Verb::Possible)) && random.chance(5, 6) {
        let ranged = |column: &&Column| table.columns.iter().position(|other| other.name == column.name).is_some_and(|at| model.has_range(place, at));
        let without: Vec<&Column> = columns.iter().copied().filter(|column| !ranged(column)).collect();
        if !without.is_empty() {
            columns = without;
        }
    }
    if !counts {
        query.columns = Some(match random.below(6) {
            // Every column once: the longest answer that the reserve speaks of.
            0 => {
                let mut names: Vec<String> = columns.iter().map(|column| column.name.clone()).take(16).collect();
                let turn = random.below(names.len());
                names.rotate_left(turn);
                names
            }
            1 => vec![random.pick(&columns).name.clone(); random.between(1, 16)],
            _ => (0..random.between(1, 5)).map(|_| random.pick(&columns).name.clone()).collect(),
        });
    }
    if random.chance(3, 5) {
        let subjects: Vec<(String, Type)> = columns.iter().map(|column| (column.name.clone(), column.kind)).collect();
        query.condition = Some(match random.below(30) {
            0 => wide_condition(random, &subjects, 64),
            1 => {
                let depth = random.between(13, 15);
                deep_condition(random, &subjects, depth)
            }
            _ => {
                let comparisons = *random.pick(&[1, 1, 2, 3, 6, 12]);
                condition(random, &subjects, comparisons, 5)
            }
        });
        // A value that stands in the table makes the condition hold more often.
        let rows: Vec<&Row> = model.rows.iter().filter(|row| row.table == place).collect();
        if let (Some(condition), false, true) = (&mut query.condition, rows.is_empty(), random.chance(2, 3)) {
            take_values(random, condition, table, &rows);
        }
    }
    query
}

/// Some comparisons get a value that stands in the table: of a range an end, or a number beside it; of a date also one near it.
fn take_values(random: &mut Random, condition: &mut Condition, table: &Table, rows: &[&Row]) {
    match condition {
        Condition::Compare(_, subject, value) => {
            let place = table.columns.iter().position(|column| same(&column.name, subject));
            if let (Some(place), true) = (place, random.chance(2, 3)) {
                *value = match &random.pick(rows).cells[place].0 {
                    Value::Range(low, high) => Value::Num(*random.pick(&[*low, *high, low.saturating_sub(1), high.saturating_add(1)])),
                    Value::Date(year, month, day) => {
                        let near = [(0, 0, 0), (0, 0, 0), (1, 0, 0), (-1, 0, 0), (0, 1, -1), (0, 0, 1), (0, 0, -1)];
                        let moved = near.map(|(y, m, d)| (year + y, month + m, day + d));
                        let there: Vec<(i64, i64, i64)> = moved.into_iter().filter(|&(year, month, day)| exists(year, month, day)).collect();
                        let (year, month, day) = *random.pick(&there);
                        Value::Date(year, month, day)
                    }
                    given => given.clone(),
                };
            }
        }
        Condition::Not(inner) => take_values(random, inner, table, rows),
        Condition::And(list) | Condition::Or(list) => list.iter_mut().for_each(|inner| take_values(random, inner, table, rows)),
    }
}

/// A query for every column of the table with the most rows, without condition: what the reserve has to cover.
pub fn widest(random: &mut Random, model: &Model, clock: Clock) -> Query {
    let mut query = good(random, model, clock);
    let rows = |table: usize| model.rows.iter().filter(|row| row.table == table).count();
    if let Some(most) = (0..model.tables.len()).max_by_key(|&table| rows(table)) {
        let table = &model.tables[most];
        query.table = table.name.clone();
        if (0..table.columns.len()).any(|column| model.has_range(most, column)) && random.chance(5, 6) {
            query.verb = Verb::of_ranges(random);
        }
        let once = table.columns.iter().map(|column| column.name.clone());
        // At times all of them again and again, for answers over 60,021 bytes.
        query.columns = Some(if random.chance(1, 3) { once.cycle().take(16).collect() } else { once.take(16).collect() });
        query.condition = None;
    }
    query
}

/// One fault of the kinds 12 to 17, 27 and 31 (a kind that this document can't have leaves the query as it is).
pub fn fault(random: &mut Random, model: &Model, query: &mut Query) {
    let unknown = |random: &mut Random| match random.below(3) {
        0 => long_name(random, 24),
        1 => "nobody".to_string(),
        _ => long_name(random, 2),
    };
    match random.below(14) {
        0 => query.user = unknown(random),
        1 => query.role = unknown(random),
        2 => query.purpose = unknown(random),
        3 | 4 => {
            // Another role or user that is known: 13 where the pair isn't.
            if !model.users.is_empty() {
                query.user = random.pick(&model.users).name.clone();
            }
            if !model.roles.is_empty() {
                query.role = random.pick(&model.roles).name.clone();
            }
        }
        5 => {
            if !model.purposes.is_empty() {
                query.purpose = random.pick(&model.purposes).name.clone();
            }
        }
        6 => query.table = unknown(random),
        7 => {
            if let Some(columns) = &mut query.columns {
                let place = random.below(columns.len());
                columns[place] = if random.chance(1, 3) { "hour".to_string() } else { unknown(random) };
            }
        }
        8 => {
            let name = if random.chance(1, 2) { "day".to_string() } else { unknown(random) };
            let extra = Condition::Compare("eq", name, Value::Num(1));
            query.condition = Some(match query.condition.take() {
                Some(condition) => Condition::Or(vec![condition, extra]),
                None => extra,
            });
        }
        9 | 10 => {
            // 16: an operator or a value of the wrong type, somewhere in the condition.
            if let Some(table) = model.tables.iter().find(|table| same(&table.name, &query.table)) {
                let column = random.pick(&table.columns);
                let kind = *random.pick(&[Type::Num, Type::Name, Type::Date]);
                let operator = *random.pick(&OPERATORS);
                let extra = Condition::Compare(operator, column.name.clone(), value(random, kind));
                query.condition = Some(match query.condition.take() {
                    Some(condition) if random.chance(1, 2) => Condition::And(vec![extra, condition]),
                    Some(condition) => Condition::Or(vec![condition, Condition::Not(Box::new(extra))]),
                    None => extra,
                });
            }
        }
        11 => {
            // 27: a select, blank or count of a table with ranges, of whichever columns.
            let ranged: Vec<&Table> = model.tables.iter().filter(|table| table.columns.iter().any(|column| column.ranged)).collect();
            if !ranged.is_empty() {
                let table = *random.pick(&ranged);
                query.table = table.name.clone();
                query.verb = *random.pick(&[Verb::Select, Verb::Blank]);
                let column = random.pick(&table.columns);
                query.columns = if random.chance(2, 3) { Some(vec![random.pick(&table.columns).name.clone(); random.between(1, 2)]) } else { None };
                let compare = Condition::Compare("eq", column.name.clone(), value(random, column.kind));
                query.condition = if random.chance(2, 3) { Some(compare) } else { None };
            }
        }
        12 => {
            // 31: a date of no day, mostly compared with a column of dates, of this or another table.
            let dated = |table: &&Table| table.columns.iter().any(|column| column.kind == Type::Date);
            let tables: Vec<&Table> = model.tables.iter().filter(dated).collect();
            let here = tables.iter().find(|table| same(&table.name, &query.table)).copied();
            let Some(table) = here.or_else(|| if tables.is_empty() { None } else { Some(*random.pick(&tables)) }) else { return };
            if here.is_none() {
                query.table = table.name.clone();
                query.columns = if random.chance(2, 3) { Some(vec![random.pick(&table.columns).name.clone()]) } else { None };
                query.condition = None;
            }
            let dates: Vec<&Column> = table.columns.iter().filter(|column| column.kind == Type::Date || random.chance(1, 12)).collect();
            let extra = Condition::Compare(*random.pick(&OPERATORS), random.pick(&dates).name.clone(), no_date(random));
            query.condition = Some(match query.condition.take() {
                Some(condition) if random.chance(1, 2) => Condition::Or(vec![condition, extra]),
                Some(condition) => Condition::And(vec![Condition::Not(Box::new(extra)), condition]),
                None => extra,
            });
        }
        _ => {
            // 17: any table, any column, in the condition alone at times.
            if !model.tables.is_empty() {
                let table = random.pick(&model.tables);
                query.table = table.name.clone();
                let names: Vec<String> = (0..random.between(1, 3)).map(|_| random.pick(&table.columns).name.clone()).collect();
                query.columns = if random.chance(2, 3) { Some(names) } else { None };
                let column = random.pick(&table.columns);
                let compare = Condition::Compare("eq", column.name.clone(), value(random, column.kind));
                query.condition = if random.chance(1, 2) { Some(compare) } else { None };
            }
        }
    }
}

/// A query of exactly so many bytes (about 4,096), its condition holding 64 comparisons.
pub fn of_length(random: &mut Random, model: &Model, mut query: Query, length: usize) -> Option<Query> {
    let table = model.tables.iter().find(|table| same(&table.name, &query.table))?;
    // Dates have no length that can be chosen.
    let columns: Vec<&Column> = table.columns.iter().filter(|column| column.kind != Type::Date).collect();
    if columns.is_empty() {
        return None;
    }
    let column = *random.pick(&columns);
    let word = |random: &mut Random, letters: usize| match column.kind {
        Type::Name | Type::Date => Value::Name(long_name(random, letters)),
        Type::Num => Value::Num(10_i64.pow(letters as u32 - 1) + random.below(9) as i64),
    };
    let most = if column.kind == Type::Name { 24 } else { 18 };
    // A third of the letters at first, then brackets, then letters to fit.
    let mut letters = vec![most / 3; 64];
    let mut nots = vec![0; 64];
    query.condition = None;
    let bare = query.text().len() + "  (or)".len() - 1;
    let size = |letters: &[usize], nots: &[usize]| -> usize {
        let each = " (ne  )".len() + column.name.len();
        bare + letters.iter().sum::<usize>() + 6 * nots.iter().sum::<usize>() + 64 * each
    };
    let mut turn = 0;
    while size(&letters, &nots) + 6 <= length {
        if nots[turn % 64] < 12 {
            nots[turn % 64] += 1;
        } else if letters[turn % 64] < most {
            letters[turn % 64] += 1;
        }
        turn += 1;
        if turn > 10_000 {
            return None;
        }
    }
    let mut place = 0;
    while size(&letters, &nots) < length {
        if letters[place] < most {
            letters[place] += 1;
        }
        place = (place + 1) % 64;
        turn += 1;
        if turn > 20_000 {
            return None;
        }
    }
    let list = letters.iter().zip(&nots).map(|(&letters, &nots)| {
        let mut inner = Condition::Compare("ne", column.name.clone(), word(random, letters));
        for _ in 0..nots {
            inner = Condition::Not(Box::new(inner));
        }
        inner
    });
    query.condition = Some(Condition::Or(list.collect()));
    if query.text().len() == length {
        Some(query)
    } else {
        None
    }
}

/// A text that is surely no query (11), made from one that is.
pub fn no_query(random: &mut Random, model: &Model, query: &Query) -> Vec<u8> {
    let mut query = query.clone();
    let columns: Vec<(String, Type)> = match model.tables.iter().find(|table| same(&table.name, &query.table)) {
        Some(table) => table.columns.iter().map(|column| (column.name.clone(), column.kind)).collect(),
        None => vec![("who".to_string(), Type::Name)],
    };
    let text = query.text();
    match random.below(16) {
        0 => {
            query.columns = Some(vec![columns[0].0.clone(); 17]);
            query.text()
        }
        1 => {
            query.condition = Some(wide_condition(random, &columns, 65));
            query.text()
        }
        2 => {
            query.condition = Some(deep_condition(random, &columns, 16));
            query.text()
        }
        3 => match of_length(random, model, query, 4097) {
            Some(longer) => longer.text(),
            None => Vec::new(),
        },
        4 => text[..random.below(text.len())].to_vec(),
        5 => [&text[..], b"\n"].concat(),
        6 => [b" ", &text[..]].concat(),
        7 => {
            query.columns = Some(Vec::new());
            query.text()
        }
        8 => {
            query.user = long_name(random, 25);
            query.text()
        }
        9 => {
            query.condition = Some(Condition::And(Vec::new()));
            query.text()
        }
        10 => {
            let mut text = text;
            let place = random.below(text.len());
            text[place] = *random.pick(&[0, 10, 13, 9, 128, 255, b'.', b'"']);
            text
        }
        11 => {
            // A byte that is no letter, 32 away: that is no other case of it.
            let mut text = text;
            let others: Vec<usize> = (0..text.len()).filter(|&place| !text[place].is_ascii_alphabetic()).collect();
            let place = *random.pick(&others);
            text[place] ^= 32;
            text
        }
        12 => {
            // The word of a query with columns, and none.
            query.columns = None;
            query.condition = None;
            let word = query.verb.word();
            String::from_utf8_lossy(&query.text()).replacen("count", word, 1).into_bytes()
        }
        13 => {
            // A range where a comparison has its value (02, Q-12).
            let (subject, _) = random.pick(&columns).clone();
            query.condition = Some(Condition::Compare("eq", subject, crate::documents::range(random)));
            query.text()
        }
        14 => {
            // A bracket that is no date where a comparison has its value, or a date where it has none (02, Q-14).
            let (subject, _) = random.pick(&columns).clone();
            let no_value = ["(2028 2 9 1)", "(2028)", "(2028 feb 9)", "(2028 02 9)", "((2028 2 9))", "(9 2 9223372036854775808)", "()", "(2028 2 -0)"];
            let extra = match random.below(3) {
                0 => Condition::Compare("eq", "(2028 2 9)".to_string(), Value::Name(subject)),
                _ => Condition::Compare("eq", subject, Value::Name(random.pick(&no_value).to_string())),
            };
            query.condition = Some(if random.chance(1, 2) { extra } else { Condition::Not(Box::new(extra)) });
            query.text()
        }
        _ => random.pick(&["(select)", "(blank)", "(blanks)", "(blank", "(sure)", "(surely)", "(possible", "(possibly)"]).as_bytes().to_vec(),
    }
}
