//! Random joins (02, Q-3): documents with tables to join, joins that are mostly answered, ones with a fault of each kind, and texts that
//! are none.

use crate::documents::{condition, deep_condition, long_name, no_date, range, value, wide_condition, Builder, OPERATORS};
use crate::model::*;
use crate::pairs::Names;
use crate::queries::asker;
use crate::random::Random;
use crate::recase::{self, same};
use reference::Clock;

/// The schemes of tables, in the order of `SCHEMES`; a label is put in where there is one.
pub const SCHEMES: [Scheme; 6] = [Scheme::None, Scheme::Table(0), Scheme::Column, Scheme::Row, Scheme::Cell, Scheme::Nest];
const TABLES: [&str; 8] = ["sub", "adr", "of", "join", "Sub2", "b", "row", "abcdefghijklmnopqrstuvwx"];
/// Few, so that tables share them, each with the type that it mostly has.
const COLUMNS: [(&str, Type); 6] =
    [("id", Type::Num), ("who", Type::Name), ("day", Type::Date), ("of", Type::Name), ("due", Type::Num), ("a-very-long-column-name", Type::Name)];

#[derive(Clone, Debug)]
pub struct Join {
    pub user: String,
    pub role: String,
    pub purpose: String,
    pub tables: [String; 2],
    pub keys: [String; 2],
    /// Table and column of each `of` in the column bracket.
    pub columns: Vec<(String, String)>,
    /// Its subjects are written `(of T COL)`.
    pub condition: Option<Condition>,
}

/// A column as it is written in a join.
pub fn of(table: &str, column: &str) -> String {
    format!("(of {table} {column})")
}

/// Table and column of `(of T COL)`.
pub fn parts(subject: &str) -> Option<(&str, &str)> {
    subject.strip_prefix("(of ")?.strip_suffix(')')?.split_once(' ')
}

impl Join {
    pub fn text(&self) -> Vec<u8> {
        let columns: Vec<String> = self.columns.iter().map(|(table, column)| of(table, column)).collect();
        self.with_columns(&columns.join(" "))
    }

    /// The text with something else in the column bracket.
    fn with_columns(&self, columns: &str) -> Vec<u8> {
        let ([one, two], [key, other]) = (&self.tables, &self.keys);
        let mut text = format!("(join {} {} {} {one} {two} {key} {other} ({columns})", self.user, self.role, self.purpose);
        if let Some(condition) = &self.condition {
            text += &format!(" {condition}");
        }
        (text + ")").into_bytes()
    }

    /// The columns in the condition, by table and name.
    pub fn subjects(&self) -> Vec<(&str, &str)> {
        self.condition.iter().flat_map(|condition| condition.subjects()).filter_map(parts).collect()
    }

    /// Every `of`, by table and column.
    pub fn ofs(&self) -> Vec<(&str, &str)> {
        self.columns.iter().map(|(table, column)| (table.as_str(), column.as_str())).chain(self.subjects()).collect()
    }

    /// 01, 11: within the bounds of a query, its names and numbers being right by construction.
    pub fn within_bounds(&self) -> bool {
        let condition = self.condition.as_ref().is_none_or(|c| c.subjects().len() <= 64 && c.depth() <= 15);
        (1..=16).contains(&self.columns.len()) && condition && self.text().len() <= 4096
    }
}

/// 02, Q-3: "C1 counts as named in T1, C2 in T2", each `of` in its table; a table joined with itself has both keys named.
impl Names for Join {
    fn purpose(&self) -> &str {
        &self.purpose
    }

    fn named_in(&self, table: &str) -> Option<Vec<&str>> {
        let keys: Vec<&str> = (0..2).filter(|&side| same(&self.tables[side], table)).map(|side| self.keys[side].as_str()).collect();
        if keys.is_empty() {
            return None;
        }
        let ofs = self.ofs().into_iter().filter(|(own, _)| same(own, table)).map(|(_, column)| column);
        Some(keys.into_iter().chain(ofs).collect())
    }

    fn withholding_in(&self, table: &str) -> Vec<&str> {
        self.named_in(table).unwrap_or_default()
    }
}

/// The place of a table.
pub fn table_of(model: &Model, name: &str) -> Option<usize> {
    model.tables.iter().position(|table| same(&table.name, name))
}

/// The place of a column in a table.
pub fn column_of(table: &Table, name: &str) -> Option<usize> {
    table.columns.iter().position(|column| same(&column.name, name))
}

/// A value out of few, so that keys are equal now and then: names in several cases too.
fn few(random: &mut Random, kind: Type) -> Value {
    match kind {
        Type::Num => Value::Num(*random.pick(&[0, 1, 1, 2, -1, i64::MAX, i64::MIN])),
        Type::Name => Value::Name(random.pick(&["Ida", "ida", "IDA", "Bo", "x", "id"]).to_string()),
        Type::Date => {
            let (year, month, day) = *random.pick(&[(2028, 2, 29), (2028, 2, 29), (2028, 3, 1), (2027, 3, 1), (2027, 2, 28), (1, 1, 1)]);
            Value::Date(year, month, day)
        }
    }
}

/// The label that allows all, mostly, so that a good share of rows is given.
fn some_label(random: &mut Random, model: &Model) -> usize {
    if random.chance(3, 5) {
        0
    } else {
        random.below(model.labels.len())
    }
}

/// A document to join in, at times with more rows.
pub fn document(random: &mut Random) -> Model {
    let most = if random.chance(1, 30) { 40 } else { 6 };
    document_of(random, most)
}

/// A document with a user who may act for all purposes, two tables of any two schemes, at times a third, and at most so many rows of
/// each, of few values, among each other; the tables share names of columns.
pub fn document_of(random: &mut Random, most: usize) -> Model {
    let mut builder = Builder::new(random);
    for _ in 0..builder.random.between(2, 5) {
        builder.purpose();
    }
    builder.role();
    builder.user();
    builder.cond_role_of(0, Condition::Compare("ge", "hour".to_string(), Value::Num(0)));
    builder.model.grants.push(Grant { purpose: 0, cond_role: 0 });
    builder.model.lines.push(Line::Grant(0));
    builder.model.labels.push(Label { name: "open-to-all".to_string(), allow: vec![0], deny: Vec::new() });
    builder.model.lines.push(Line::Label(0));
    for _ in 0..builder.random.between(1, 3) {
        builder.label();
    }
    let first = builder.random.below(TABLES.len());
    let count = if builder.random.chance(1, 3) { 3 } else { 2 };
    for place in 0..count {
        let name = TABLES[(first + place) % TABLES.len()];
        add_table(&mut builder, name);
    }
    let rows: Vec<usize> = (0..count).map(|_| builder.random.below(most + 1)).collect();
    add_rows(&mut builder, rows);
    builder.model
}

/// A table of any scheme; one without labels is mostly public.
fn add_table(builder: &mut Builder, name: &str) {
    let random = &mut *builder.random;
    let mut scheme = *random.pick(&SCHEMES);
    if let Scheme::Table(label) = &mut scheme {
        *label = some_label(random, &builder.model);
    }
    let first = random.below(COLUMNS.len());
    let mut columns = Vec::new();
    for place in 0..random.between(1, 4) {
        let (name, kind) = COLUMNS[(first + place) % COLUMNS.len()];
        let kind = if random.chance(1, 8) { *random.pick(&[Type::Num, Type::Name, Type::Date]) } else { kind };
        let ranged = kind == Type::Num && random.chance(1, 8);
        columns.push(Column { name: name.to_string(), kind, ranged, label: some_label(random, &builder.model) });
    }
    let table = builder.model.tables.len();
    builder.model.tables.push(Table { name: name.to_string(), scheme, public: false, weak: None, strong: None, columns });
    builder.model.lines.push(Line::Table(table));
    for strong in [false, true] {
        if scheme == Scheme::Nest && builder.random.chance(2, 5) {
            builder.inherited_of(table, strong);
        }
    }
    if builder.random.chance(if scheme == Scheme::None { 7 } else { 1 }, 8) {
        builder.public_of(table);
    }
}

/// So many rows of each table, in any order.
fn add_rows(builder: &mut Builder, mut rows: Vec<usize>) {
    while rows.iter().any(|&left| left > 0) {
        let table = builder.random.below(rows.len());
        if rows[table] == 0 {
            continue;
        }
        rows[table] -= 1;
        let random = &mut *builder.random;
        let label = some_label(random, &builder.model);
        let mut cells = Vec::new();
        for column in &builder.model.tables[table].columns {
            let given = if column.ranged && random.chance(1, 3) { range(random) } else { few(random, column.kind) };
            cells.push((given, some_label(random, &builder.model)));
        }
        builder.row_of(Row { table, label, cells });
    }
}

/// The columns of a table that a join is mostly asked of: open ones, and ones without ranges.
fn wanted(random: &mut Random, model: &Model, table: usize, purpose: Option<usize>) -> Vec<Column> {
    let own = &model.tables[table];
    let mut columns: Vec<Column> = own.columns.clone();
    let keep = |columns: &mut Vec<Column>, such: &dyn Fn(&Column) -> bool| {
        if columns.iter().any(such) {
            columns.retain(such);
        }
    };
    if let (Scheme::Column, Some(p), true) = (own.scheme, purpose, random.chance(7, 8)) {
        keep(&mut columns, &|column| model.open(column.label, p));
    }
    if random.chance(7, 8) {
        keep(&mut columns, &|column| column_of(own, &column.name).is_some_and(|place| !model.has_range(table, place)));
    }
    columns
}

/// A join that the document mostly answers.
pub fn good(random: &mut Random, model: &Model, clock: Clock) -> Join {
    let mut join = Join {
        user: "ana".to_string(),
        role: "desk".to_string(),
        purpose: "all".to_string(),
        tables: ["a".to_string(), "b".to_string()],
        keys: ["id".to_string(), "id".to_string()],
        columns: vec![("a".to_string(), "id".to_string())],
        condition: None,
    };
    let mut purpose = None;
    if let Some((user, tried)) = asker(random, model, clock) {
        join.user = model.users[user].name.clone();
        join.role = model.roles[model.users[user].role].name.clone();
        join.purpose = model.purposes[tried].name.clone();
        purpose = Some(tried);
    }
    if model.tables.len() < 2 {
        return join;
    }
    // Two tables, not closed as a whole if there are such.
    let mut places = [0, 1];
    for _ in 0..6 {
        let one = random.below(model.tables.len());
        places = [one, (one + random.between(1, model.tables.len() - 1)) % model.tables.len()];
        let closed = |place: &usize| match (model.tables[*place].scheme, purpose) {
            (Scheme::Table(label), Some(p)) => !model.open(label, p),
            (Scheme::None, _) => !model.tables[*place].public,
            _ => false,
        };
        if !places.iter().any(closed) {
            break;
        }
    }
    join.tables = places.map(|place| model.tables[place].name.clone());
    let columns = places.map(|place| wanted(random, model, place, purpose));
    join.keys = keys(random, &columns);
    let every: Vec<(String, String, Type)> =
        (0..2).flat_map(|side| columns[side].iter().map(move |column| (side, column))).map(|(side, column)| (join.tables[side].clone(), column.name.clone(), column.kind)).collect();
    join.columns = match random.below(6) {
        0 => every.iter().map(|(table, column, _)| (table.clone(), column.clone())).take(16).collect(),
        1 => {
            let (table, column, _) = random.pick(&every).clone();
            vec![(table, column); random.between(1, 16)]
        }
        _ => {
            let some = (0..random.between(1, 4)).map(|_| random.pick(&every).clone());
            some.map(|(table, column, _)| (table, column)).collect()
        }
    };
    if random.chance(1, 2) {
        let subjects: Vec<(String, Type)> = every.iter().map(|(table, column, kind)| (of(table, column), *kind)).collect();
        join.condition = Some(compared(random, model, &subjects));
    }
    join
}

/// Two columns of one type, if there are such: often of one name.
fn keys(random: &mut Random, columns: &[Vec<Column>; 2]) -> [String; 2] {
    let [ones, twos] = columns;
    let mut fitting: Vec<(&Column, &Column)> = ones.iter().flat_map(|one| twos.iter().map(move |two| (one, two))).collect();
    if fitting.iter().any(|(one, two)| one.kind == two.kind) {
        fitting.retain(|(one, two)| one.kind == two.kind);
    }
    if random.chance(1, 2) && fitting.iter().any(|(one, two)| one.name == two.name) {
        fitting.retain(|(one, two)| one.name == two.name);
    }
    let (one, two) = *random.pick(&fitting);
    [one.name.clone(), two.name.clone()]
}

/// A condition over these subjects, its values mostly ones that stand in the tables.
fn compared(random: &mut Random, model: &Model, subjects: &[(String, Type)]) -> Condition {
    let mut given = match random.below(20) {
        0 => wide_condition(random, subjects, 64),
        1 | 2 => {
            let depth = random.between(13, 15);
            deep_condition(random, subjects, depth)
        }
        _ => {
            let comparisons = *random.pick(&[1, 1, 2, 3, 6]);
            condition(random, subjects, comparisons, 4)
        }
    };
    take_values(random, model, &mut given);
    given
}

/// Most comparisons get a value that stands in their column, or one of the few.
fn take_values(random: &mut Random, model: &Model, condition: &mut Condition) {
    match condition {
        Condition::Compare(_, subject, value) => {
            let found = parts(subject).and_then(|(table, column)| {
                let table = table_of(model, table)?;
                Some((table, column_of(&model.tables[table], column)?))
            });
            let Some((table, column)) = found else { return };
            let rows: Vec<&Row> = model.rows.iter().filter(|row| row.table == table && !row.cells[column].0.is_range()).collect();
            match random.below(6) {
                0..=3 if !rows.is_empty() => *value = random.pick(&rows).cells[column].0.clone(),
                4 => *value = few(random, model.tables[table].columns[column].kind),
                _ => {}
            }
        }
        Condition::Not(inner) => take_values(random, model, inner),
        Condition::And(list) | Condition::Or(list) => list.iter_mut().for_each(|inner| take_values(random, model, inner)),
    }
}

/// A comparison more, beside the condition that there is, evaluated or not.
fn add(random: &mut Random, join: &mut Join, extra: Condition) {
    join.condition = Some(match join.condition.take() {
        Some(condition) if random.chance(1, 3) => Condition::Or(vec![condition, extra]),
        Some(condition) if random.chance(1, 2) => Condition::And(vec![Condition::Not(Box::new(extra)), condition]),
        Some(condition) => Condition::And(vec![condition, extra]),
        None => extra,
    });
}

/// A column of one of the tables that there are, or of the join's first.
fn any_column(random: &mut Random, model: &Model) -> (String, String, Type) {
    if model.tables.is_empty() {
        return ("a".to_string(), "id".to_string(), Type::Num);
    }
    let table = random.pick(&model.tables);
    let column = random.pick(&table.columns);
    (table.name.clone(), column.name.clone(), column.kind)
}

/// One fault of the kinds 12 to 17, 22, 27 and 31 (a kind that this document can't have leaves the join as it is).
pub fn fault(random: &mut Random, model: &Model, join: &mut Join) {
    let unknown = |random: &mut Random| match random.below(3) {
        0 => long_name(random, 24),
        1 => "nobody".to_string(),
        _ => long_name(random, 2),
    };
    let side = random.below(2);
    match random.below(20) {
        0 => match random.below(3) {
            0 => join.user = unknown(random),
            1 => join.role = unknown(random),
            _ => join.purpose = unknown(random),
        },
        1 if !model.roles.is_empty() => join.role = random.pick(&model.roles).name.clone(),
        2 if !model.purposes.is_empty() => join.purpose = random.pick(&model.purposes).name.clone(),
        3 => join.tables[side] = unknown(random),
        4 => join.keys[side] = unknown(random),
        // A column of whichever table as a key: unknown, of another type, closed, or with ranges.
        5 | 6 => join.keys[side] = any_column(random, model).1,
        7 => join.keys.swap(0, 1),
        8 => join.tables.swap(0, 1),
        9..=11 => fault_of(random, model, join),
        12..=14 => with_itself(random, model, join),
        15 | 16 => {
            // 16: an operator or a value of any type, for a column of the join.
            let (table, column, _) = of_join(random, model, join);
            let kind = *random.pick(&[Type::Num, Type::Name, Type::Date]);
            let extra = Condition::Compare(*random.pick(&OPERATORS), of(&table, &column), value(random, kind));
            add(random, join, extra);
        }
        17 => {
            let (table, column, kind) = of_join(random, model, join);
            let dated = kind == Type::Date || random.chance(1, 6);
            if dated {
                let extra = Condition::Compare(*random.pick(&OPERATORS), of(&table, &column), no_date(random));
                add(random, join, extra);
            }
        }
        // 17 and 27: any column of the two tables, selected or in the condition.
        _ => {
            let (table, column, kind) = of_join(random, model, join);
            if random.chance(1, 2) {
                let place = random.below(join.columns.len() + 1);
                join.columns.insert(place, (table, column));
                join.columns.truncate(16);
            } else {
                let extra = Condition::Compare("eq", of(&table, &column), value(random, kind));
                add(random, join, extra);
            }
        }
    }
}

/// 22, in whatever case; the second key and the columns of the other table stay, or go.
pub fn with_itself(random: &mut Random, model: &Model, join: &mut Join) {
    join.tables[1] = if random.chance(1, 2) { join.tables[0].clone() } else { recase::name(random, &join.tables[0]) };
    let kept = random.below(4);
    if kept == 0 {
        return;
    }
    join.keys[1] = join.keys[0].clone();
    if let (1 | 2, Some(table)) = (kept, table_of(model, &join.tables[0])) {
        let others: Vec<&Column> = model.tables[table].columns.iter().filter(|column| !same(&column.name, &join.keys[0])).collect();
        if !others.is_empty() {
            join.keys[1] = random.pick(&others).name.clone();
        }
    }
    let (own, key) = (join.tables[0].clone(), join.keys[0].clone());
    join.columns.iter_mut().filter(|(table, _)| !same(table, &own)).for_each(|column| *column = (own.clone(), key.clone()));
    if join.subjects().iter().any(|(table, _)| !same(table, &own)) {
        join.condition = None;
    }
}

/// A column of one of the two tables, closed or not.
fn of_join(random: &mut Random, model: &Model, join: &Join) -> (String, String, Type) {
    let name = random.pick(&join.tables).clone();
    match table_of(model, &name) {
        Some(table) => {
            let column = random.pick(&model.tables[table].columns);
            (name, column.name.clone(), column.kind)
        }
        None => (name, "id".to_string(), Type::Num),
    }
}

/// 15: an `of` with a table that there isn't, with a third one, or with a column that its table lacks; selected or in the condition.
fn fault_of(random: &mut Random, model: &Model, join: &mut Join) {
    let (other, column, kind) = any_column(random, model);
    let table = match random.below(4) {
        0 => "nobody".to_string(),
        1 | 2 => other,
        _ => random.pick(&join.tables).clone(),
    };
    let column = if random.chance(1, 3) { random.pick(&["nobody", "hour", "of", "id"]).to_string() } else { column };
    if random.chance(1, 2) {
        let place = random.below(join.columns.len());
        join.columns[place] = (table, column);
    } else {
        let extra = Condition::Compare("eq", of(&table, &column), value(random, kind));
        add(random, join, extra);
    }
}

/// A text that is surely no query (11), made from a join.
pub fn no_join(random: &mut Random, join: &Join) -> Vec<u8> {
    let Join { user, role, purpose, tables: [one, two], keys: [key, other], .. } = join;
    let (table, column) = join.columns[0].clone();
    let own = of(&table, &column);
    let subjects = [(own.clone(), Type::Num)];
    let text = join.text();
    let head = format!("(join {user} {role} {purpose}");
    match random.below(22) {
        // A plain name where an `of` has to stand, and an `of` where a plain name has.
        0 => join.with_columns(&column),
        1 => join.with_columns(&format!("{own} {column}")),
        2 => format!("{head} {one} {two} {own} {other} ({own}))").into_bytes(),
        3 => format!("{head} {one} {two} {key} {own} ({own}))").into_bytes(),
        4 => format!("{head} {one} {two} {key} {other} ({own}) (eq {column} 1))").into_bytes(),
        5 => format!("{head} {one} {two} {key} {other} ({own}) (eq 1 {own}))").into_bytes(),
        6 => format!("{head} {one} {two} {key} {other} ({own}) (eq {own} {own}))").into_bytes(),
        // An `of` in another query.
        7 => format!("({} {user} {role} {purpose} {one} ({own}))", random.pick(&["select", "blank", "sure", "possible"])).into_bytes(),
        8 => format!("(count {user} {role} {purpose} {one} (eq {own} 1))").into_bytes(),
        // Too few items, too many, or another bracket.
        9 => format!("{head} {one} {two} {key} {other})").into_bytes(),
        10 => format!("{head} {one} {two} {key} ({own}))").into_bytes(),
        11 => format!("{head} {one} {key} {other} ({own}))").into_bytes(),
        12 => format!("{head} {one} {two} {key} {other} {own})").into_bytes(),
        13 => format!("{head} {one} {two} {key} {other} ({own}) (eq {own} 1) (eq {own} 1))").into_bytes(),
        14 => {
            let wrong = ["()", "(of)", "(of a)", "(of a b c)", "(off a b)", "(a b)", "((of a b))", "(of (a) b)", "(of a (b))", "(of 1 b)", "(of a 1)", "(of  a b)"];
            join.with_columns(*random.pick(&wrong))
        }
        15 => join.with_columns(&vec![own; 17].join(" ")),
        16 => Join { condition: Some(wide_condition(random, &subjects, 65)), ..join.clone() }.text(),
        17 => Join { condition: Some(deep_condition(random, &subjects, 16)), ..join.clone() }.text(),
        18 => text[..random.below(text.len())].to_vec(),
        19 => [&text[..], b"\n"].concat(),
        20 => {
            let mut text = text;
            let place = random.below(text.len());
            text[place] = *random.pick(&[0, 10, 13, 9, 128, 255, b'.', b'"']);
            text
        }
        _ => format!("({} {}", random.pick(&["joins", "join-", "of", "joi"]), String::from_utf8_lossy(&text[6..])).into_bytes(),
    }
}

/// The join of exactly so many bytes (about 4,096), its condition holding 64 comparisons; none where its names are too long.
pub fn of_length(join: &Join, length: usize) -> Option<Join> {
    let (table, column) = join.columns[0].clone();
    let subject = of(&table, &column);
    let mut list = vec![Condition::Compare("ne", subject, Value::Num(1)); 64];
    let mut join = Join { condition: Some(Condition::Or(list.clone())), ..join.clone() };
    let rest = length.checked_sub(join.text().len())?;
    for turn in 0..rest / 6 {
        let inner = list[turn % 64].clone();
        list[turn % 64] = Condition::Not(Box::new(inner));
    }
    // What is left are digits of one number more.
    if let Some(Condition::Compare(_, _, value)) = innermost(&mut list[63]) {
        *value = Value::Num(10_i64.pow((rest % 6) as u32));
    }
    join.condition = Some(Condition::Or(list));
    (join.text().len() == length && join.condition.as_ref().is_some_and(|c| c.depth() <= 15)).then_some(join)
}

fn innermost(condition: &mut Condition) -> Option<&mut Condition> {
    match condition {
        Condition::Not(inner) => innermost(inner),
        other => Some(other),
    }
}
