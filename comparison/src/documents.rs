//! Random documents that are valid by construction, ordinary ones and ones at the bounds.

use crate::model::*;
use crate::random::Random;
use crate::recase::{self, listed, same};

/// Names for every kind: few, so that kinds share them; keywords, some in several cases, and names that differ in length or last
/// byte alone.
const NAMES: [&str; 41] = [
    "all", "bill", "ads", "post", "care", "desk", "boss", "a", "b", "C", "x-1", "y_2", "row", "table", "cell", "none", "num",
    "name", "date", "allow", "deny", "select", "count", "eq", "and", "not", "purpose", "public", "blank", "sure", "possible", "nest", "weak", "strong", "Ads", "aDs", "abcdefgh", "abcdefghi",
    "abcdefghijklmnop", "abcdefghijklmnopqrstuvwx", "abcdefghijklmnopqrstuvwy",
];
const USERS: [&str; 8] = ["ana", "bob", "eve", "row", "user", "A", "an", "abcdefghijklmnopqrstuvwx"];
const COLUMNS: [&str; 17] =
    ["who", "date", "due", "age", "town", "year", "hour", "num", "name", "c1", "c2", "or", "Who", "ne", "wh", "a-very-long-column-name",
     "a-very-long-column-namf"];
const WORDS: [&str; 10] = ["Ida", "Bo", "Cy", "red", "ida", "end", "x", "Id", "a23456789-123456789_1234", "a23456789-123456789_1235"];
pub const OPERATORS: [&str; 6] = ["eq", "ne", "lt", "le", "gt", "ge"];

/// A name of some length that is hardly in use already.
pub fn long_name(random: &mut Random, length: usize) -> String {
    const FIRST: &[u8] = b"abcdefghijklmnopqrstuvwxyzABCDEFGHIJKLMNOPQRSTUVWXYZ";
    const REST: &[u8] = b"abcdefghijklmnopqrstuvwxyzABCDEFGHIJKLMNOPQRSTUVWXYZ0123456789-_";
    let mut name = String::new();
    for place in 0..length {
        name.push(char::from(*random.pick(if place == 0 { FIRST } else { REST })));
    }
    name
}

/// A name that isn't taken in any case, mostly out of a pool.
fn fresh(random: &mut Random, pool: &[&str], taken: impl Fn(&str) -> bool) -> String {
    for _ in 0..3 {
        let name = random.pick(pool).to_string();
        if !taken(&name) {
            return name;
        }
    }
    loop {
        let name = match random.below(8) {
            0 => long_name(random, 24),
            1 => long_name(random, 1),
            2 => {
                let length = random.between(2, 23);
                long_name(random, length)
            }
            _ => format!("{}{}", random.pick(pool), random.below(100)),
        };
        if name.len() <= 24 && !taken(&name) {
            return name;
        }
    }
}

pub fn number(random: &mut Random) -> i64 {
    match random.below(12) {
        0 => *random.pick(&[i64::MIN, i64::MAX, i64::MIN + 1, i64::MAX - 1, -1, 1 << 32, -(1 << 31), 1 << 53]),
        1 => random.next() as i64,
        2 => *random.pick(&[2027, 2028, 365, 366, 17, 23]),
        3 => -(random.below(10) as i64),
        _ => random.below(10) as i64,
    }
}

/// A range (02, Q-12): narrow, of one number, or with ends that are any.
pub fn range(random: &mut Random) -> Value {
    let low = number(random);
    let high = match random.below(6) {
        0 => low,
        1 | 2 => number(random),
        _ => low.saturating_add(random.below(8) as i64),
    };
    Value::Range(low.min(high), low.max(high))
}

/// 02, Q-14: whether there is such a day.
pub fn exists(year: i64, month: i64, day: i64) -> bool {
    let leap = year % 4 == 0 && year % 100 != 0 || year % 400 == 0;
    let lengths = [31, if leap { 29 } else { 28 }, 31, 30, 31, 30, 31, 31, 30, 31, 30, 31];
    let length = usize::try_from(month).ok().and_then(|month| lengths.get(month.wrapping_sub(1)));
    (1..=9999).contains(&year) && length.is_some_and(|length| (1..=*length).contains(&day))
}

/// Year, month and day of a date that there is (02, Q-14): one of a few, about the ends of February or of a year, or any.
fn day(random: &mut Random) -> (i64, i64, i64) {
    const FEW: [(i64, i64, i64); 12] = [
        (2000, 2, 29), (2000, 2, 28), (2000, 3, 1), (1999, 12, 31), (2000, 1, 1), (2024, 2, 29), (2028, 2, 9), (1900, 2, 28), (1900, 3, 1), (1, 1, 1),
        (9999, 12, 31), (2028, 10, 30),
    ];
    loop {
        let (year, month, day) = match random.below(8) {
            0..=3 => *random.pick(&FEW),
            4 => (*random.pick(&[1, 4, 100, 400, 1900, 2000, 2024, 2027, 2028, 2100, 9996, 9999]), 2, random.between(27, 29) as i64),
            5 => (1998 + random.below(4) as i64, *random.pick(&[1, 2, 3, 12]), *random.pick(&[1, 2, 28, 30, 31])),
            _ => (random.between(1, 9999) as i64, random.between(1, 12) as i64, random.between(1, 31) as i64),
        };
        if exists(year, month, day) {
            return (year, month, day);
        }
    }
}

pub fn date(random: &mut Random) -> Value {
    let (year, month, day) = day(random);
    Value::Date(year, month, day)
}

/// A date that there mostly isn't: a part beside its bounds, of an odd size or below 0.
pub fn no_date(random: &mut Random) -> Value {
    const NONE: [(i64, i64, i64); 14] = [
        (1900, 2, 29), (2100, 2, 29), (2027, 2, 29), (2000, 2, 30), (2028, 4, 31), (2028, 12, 32), (2028, 0, 1), (2028, 13, 1), (2028, 1, 0), (0, 1, 1),
        (10_000, 1, 1), (-4, 2, 29), (2028, -1, 1), (2028, 1, -1),
    ];
    let (year, month, day) = match random.below(4) {
        0 | 1 => *random.pick(&NONE),
        2 => (random.between(0, 10_000) as i64, random.below(14) as i64, random.below(33) as i64),
        _ => {
            let (mut year, mut month, mut day) = day(random);
            let any = number(random);
            let odd = *random.pick(&[any, 256 + 1, 65_536 + 2, (1 << 32) + 1, -1, 0]);
            match random.below(3) {
                0 => year = odd,
                1 => month = odd,
                _ => day = odd,
            }
            (year, month, day)
        }
    };
    Value::Date(year, month, day)
}

/// One of the types; dates less often.
fn any_type(random: &mut Random) -> Type {
    *random.pick(&[Type::Num, Type::Num, Type::Name, Type::Name, Type::Date])
}

/// What a cell of this column may hold.
pub fn cell(random: &mut Random, column: &Column) -> Value {
    if column.ranged && random.chance(1, 2) {
        range(random)
    } else {
        value(random, column.kind)
    }
}

pub fn value(random: &mut Random, kind: Type) -> Value {
    match kind {
        Type::Num => Value::Num(number(random)),
        Type::Date => date(random),
        Type::Name => Value::Name(match random.below(10) {
            0 => {
                let length = random.between(1, 24);
                long_name(random, length)
            }
            1 => random.pick(&NAMES).to_string(),
            _ => random.pick(&WORDS).to_string(),
        }),
    }
}

/// A condition over subjects (there is at least one), with at most `comparisons` of them and `depth` brackets.
pub fn condition(random: &mut Random, subjects: &[(String, Type)], comparisons: usize, depth: usize) -> Condition {
    if depth <= 1 || comparisons <= 1 && random.chance(2, 3) || random.chance(2, 5) {
        let (subject, kind) = random.pick(subjects).clone();
        let operator = match kind {
            Type::Num | Type::Date => *random.pick(&OPERATORS),
            Type::Name => OPERATORS[random.below(2)],
        };
        // The clock's values want numbers near them.
        let given = match (subject.as_str(), kind, random.chance(3, 4)) {
            ("year", Type::Num, true) => Value::Num(2020 + random.below(12) as i64),
            ("day", Type::Num, true) => Value::Num(random.below(400) as i64),
            ("hour", Type::Num, true) => Value::Num(random.below(26) as i64),
            _ => value(random, kind),
        };
        return Condition::Compare(operator, subject, given);
    }
    if random.chance(1, 3) {
        return Condition::Not(Box::new(condition(random, subjects, comparisons, depth - 1)));
    }
    let parts = random.between(1, 3.min(comparisons.max(1)));
    let list = (0..parts).map(|_| condition(random, subjects, comparisons / parts, depth - 1)).collect();
    if random.chance(1, 2) {
        Condition::And(list)
    } else {
        Condition::Or(list)
    }
}

/// A condition of exactly so many comparisons, flat or in a few groups.
pub fn wide_condition(random: &mut Random, subjects: &[(String, Type)], comparisons: usize) -> Condition {
    let list: Vec<Condition> = (0..comparisons).map(|_| condition(random, subjects, 1, 1)).collect();
    if random.chance(1, 2) {
        return Condition::Or(list);
    }
    let groups = list.chunks(random.between(5, 20)).map(|group| Condition::And(group.to_vec())).collect();
    Condition::Or(groups)
}

/// A condition of exactly so many brackets in depth (at least 3), a date's own included.
pub fn deep_condition(random: &mut Random, subjects: &[(String, Type)], depth: usize) -> Condition {
    let mut inner = condition(random, subjects, 1, 1);
    while inner.depth() < depth {
        inner = match random.below(4) {
            0 => Condition::And(vec![inner]),
            1 => Condition::Or(vec![condition(random, subjects, 1, 1), inner]),
            _ => Condition::Not(Box::new(inner)),
        };
    }
    inner
}

/// Adds lines to a model; what a line needs is added before it.
pub struct Builder<'r> {
    pub random: &'r mut Random,
    pub model: Model,
    /// The most columns a table gets.
    pub columns: usize,
    /// How often in six a purpose or role hangs below the one before it: 6 makes a chain.
    pub chain: usize,
    /// The length of every fresh name; left to chance unless this is set.
    pub names: Option<usize>,
}

impl<'r> Builder<'r> {
    pub fn new(random: &'r mut Random) -> Builder<'r> {
        let chain = *random.pick(&[0, 2, 2, 2, 6]);
        Builder { random, model: Model::default(), columns: 4, chain, names: None }
    }

    fn fresh(&mut self, pool: &[&str], taken: impl Fn(&Model, &str) -> bool) -> String {
        if let Some(length) = self.names {
            loop {
                let name = long_name(self.random, length);
                if !taken(&self.model, &name) {
                    return name;
                }
            }
        }
        let model = &self.model;
        fresh(self.random, pool, |name| taken(model, name))
    }

    pub fn purpose(&mut self) {
        let name = self.fresh(&NAMES, |m, name| m.purposes.iter().any(|p| same(&p.name, name)));
        let count = self.model.purposes.len();
        let parent = match count {
            0 => None,
            _ if self.random.chance(self.chain, 6) => Some(count - 1),
            _ => Some(self.random.below(count)),
        };
        self.model.purposes.push(Node { name, parent });
        self.model.lines.push(Line::Purpose(count));
    }

    pub fn role(&mut self) {
        let name = self.fresh(&NAMES, |m, name| m.roles.iter().any(|r| same(&r.name, name)));
        let count = self.model.roles.len();
        let parent = match count {
            0 => None,
            _ if self.random.chance(self.chain, 6) => Some(count - 1),
            _ if self.random.chance(1, 4) => None,
            _ => Some(self.random.below(count)),
        };
        self.model.roles.push(Node { name, parent });
        self.model.lines.push(Line::Role(count));
    }

    /// An attribute, unless a user stands already.
    pub fn attr(&mut self) {
        if !self.model.users.is_empty() {
            return;
        }
        if self.model.roles.is_empty() {
            self.role();
        }
        let name = self.fresh(&NAMES, |m, name| m.attributes.iter().any(|a| same(&a.name, name)) || listed(&["year", "day", "hour"], name));
        let role = self.random.below(self.model.roles.len());
        let kind = if self.random.chance(2, 3) { Type::Num } else { Type::Name };
        self.model.attributes.push(Attribute { role, name, kind });
        self.model.lines.push(Line::Attr(self.model.attributes.len() - 1));
    }

    pub fn user(&mut self) {
        if self.model.roles.is_empty() {
            self.role();
        }
        let role = self.random.below(self.model.roles.len());
        let pool = if self.random.chance(1, 6) { &NAMES[..] } else { &USERS[..] };
        let name = self.fresh(pool, |m, name| m.users.iter().any(|u| same(&u.name, name) && u.role == role));
        let mut attributes = self.model.attributes_of(role);
        for place in (1..attributes.len()).rev() {
            attributes.swap(place, self.random.below(place + 1));
        }
        let values = attributes.into_iter().map(|a| (a, value(self.random, self.model.attributes[a].kind))).collect();
        self.model.users.push(User { name, role, values });
        self.model.lines.push(Line::User(self.model.users.len() - 1));
    }

    /// What the condition of a conditional role may speak of.
    pub fn subjects(&self, role: usize) -> Vec<(String, Type)> {
        let own = self.model.attributes_of(role).into_iter().map(|a| &self.model.attributes[a]);
        let mut subjects: Vec<(String, Type)> = own.map(|a| (a.name.clone(), a.kind)).collect();
        subjects.extend(["year", "day", "hour"].map(|name| (name.to_string(), Type::Num)));
        subjects
    }

    pub fn cond_role(&mut self) {
        if self.model.roles.is_empty() {
            self.role();
        }
        let role = self.random.below(self.model.roles.len());
        let subjects = self.subjects(role);
        // Some hold at most hours, so that many queries come past 14.
        let condition = if self.random.chance(1, 4) {
            Condition::Compare("le", "hour".to_string(), Value::Num(self.random.between(15, 23) as i64))
        } else {
            let comparisons = *self.random.pick(&[1, 1, 2, 4, 8]);
            condition(self.random, &subjects, comparisons, 5)
        };
        self.cond_role_of(role, condition);
    }

    pub fn cond_role_of(&mut self, role: usize, condition: Condition) {
        let name = self.fresh(&NAMES, |m, name| m.cond_roles.iter().any(|c| same(&c.name, name)));
        self.model.cond_roles.push(CondRole { name, role, condition });
        self.model.lines.push(Line::CondRole(self.model.cond_roles.len() - 1));
    }

    pub fn grant(&mut self) {
        if self.model.purposes.is_empty() {
            self.purpose();
        }
        if self.model.cond_roles.is_empty() {
            self.cond_role();
        }
        let purpose = self.random.below(self.model.purposes.len());
        let cond_role = self.random.below(self.model.cond_roles.len());
        self.model.grants.push(Grant { purpose, cond_role });
        self.model.lines.push(Line::Grant(self.model.grants.len() - 1));
    }

    /// Many grants to a role that nobody has at any hour, so that a later one is the first to authorise.
    fn idle_grants(&mut self) {
        self.cond_role_of(0, Condition::Compare("gt", "hour".to_string(), Value::Num(23)));
        let idle = self.model.cond_roles.len() - 1;
        for grant in &mut self.model.grants {
            grant.cond_role = idle;
        }
        // Grants on lines before the role's go to its end.
        self.model.lines.retain(|line| !matches!(line, Line::Grant(_)));
        let before = self.model.grants.len();
        self.model.lines.extend((0..before).map(Line::Grant));
        while self.model.grants.len() < 124 {
            self.grant();
            if let Some(last) = self.model.grants.last_mut() {
                last.cond_role = idle;
            }
        }
    }

    fn purpose_set(&mut self, most: usize) -> Vec<usize> {
        let mut set = Vec::new();
        let most = if self.model.purposes.is_empty() { 0 } else { most };
        for _ in 0..self.random.below(most + 1) {
            let purpose = self.random.below(self.model.purposes.len());
            if !set.contains(&purpose) {
                set.push(purpose);
            }
        }
        set
    }

    pub fn label(&mut self) {
        let many = if self.random.chance(1, 30) { 256 } else { 3 };
        self.label_of(many);
    }

    /// A label with at most so many purposes in a set, and one more.
    fn label_of(&mut self, many: usize) {
        let name = self.fresh(&NAMES, |m, name| m.labels.iter().any(|l| same(&l.name, name)));
        let mut allow = self.purpose_set(many);
        let deny = if self.random.chance(1, 2) { self.purpose_set(many - 1) } else { Vec::new() };
        // Labels that allow the root keep a good share of cells open.
        if self.random.chance(1, 2) && !self.model.purposes.is_empty() && !allow.contains(&0) {
            allow.push(0);
        }
        self.model.labels.push(Label { name, allow, deny });
        self.model.lines.push(Line::Label(self.model.labels.len() - 1));
    }

    pub fn table(&mut self) {
        if self.model.labels.is_empty() {
            self.label();
        }
        let labels = self.model.labels.len();
        let scheme = match self.random.below(8) {
            0 => Scheme::None,
            1 => Scheme::Table(self.random.below(labels)),
            2 => Scheme::Column,
            3 => Scheme::Row,
            4 | 5 => Scheme::Cell,
            _ => Scheme::Nest,
        };
        let columns = self.random.between(1, self.columns);
        self.table_of(scheme, columns);
    }

    pub fn table_of(&mut self, scheme: Scheme, columns: usize) {
        if self.model.labels.is_empty() {
            self.label();
        }
        let name = self.fresh(&NAMES, |m, name| m.tables.iter().any(|t| same(&t.name, name)));
        let mut list: Vec<Column> = Vec::new();
        for _ in 0..columns {
            let name = match self.names {
                Some(length) => long_name(self.random, length),
                None => fresh(self.random, &COLUMNS, |name| list.iter().any(|column| same(&column.name, name))),
            };
            let kind = any_type(self.random);
            let ranged = kind == Type::Num && self.random.chance(2, 5);
            let label = self.random.below(self.model.labels.len());
            list.push(Column { name, kind, ranged, label });
        }
        let table = self.model.tables.len();
        self.model.tables.push(Table { name, scheme, public: false, weak: None, strong: None, columns: list });
        self.model.lines.push(Line::Table(table));
        // 02, Q-11: each line or none, in either order; `inherited` may add one later.
        if scheme == Scheme::Nest {
            let strong_first = self.random.chance(1, 2);
            for strong in [strong_first, !strong_first] {
                if self.random.chance(2, 5) {
                    self.inherited_of(table, strong);
                }
            }
        }
    }

    /// A `weak` or `strong` line (02, Q-11) for a nest table that has no row and no such line; nothing where there is none.
    pub fn inherited(&mut self) {
        let strong = self.random.chance(1, 2);
        let free = |place: &usize| {
            let table = &self.model.tables[*place];
            let given = if strong { table.strong } else { table.weak };
            table.scheme == Scheme::Nest && given.is_none() && self.model.rows.iter().all(|row| row.table != *place)
        };
        let tables: Vec<usize> = (0..self.model.tables.len()).filter(free).collect();
        if !tables.is_empty() {
            let table = *self.random.pick(&tables);
            self.inherited_of(table, strong);
        }
    }

    pub fn inherited_of(&mut self, table: usize, strong: bool) {
        let label = Some(self.random.below(self.model.labels.len()));
        if strong {
            self.model.tables[table].strong = label;
            self.model.lines.push(Line::Strong(table));
        } else {
            self.model.tables[table].weak = label;
            self.model.lines.push(Line::Weak(table));
        }
    }

    pub fn row(&mut self) {
        if self.model.tables.is_empty() {
            self.table();
        }
        let table = self.random.below(self.model.tables.len());
        let label = self.random.below(self.model.labels.len());
        let columns = self.model.tables[table].columns.clone();
        let cells = columns.iter().map(|column| (cell(self.random, column), self.random.below(self.model.labels.len()))).collect();
        self.row_of(Row { table, label, cells });
    }

    /// A `public` line (02, Q-2) for a table that has none: mostly one without labels, if there is such; else nothing.
    pub fn public(&mut self) {
        let undeclared = |model: &Model| (0..model.tables.len()).filter(|&place| !model.tables[place].public).collect::<Vec<usize>>();
        let mut tables = undeclared(&self.model);
        if self.random.chance(3, 4) && tables.iter().any(|&place| self.model.tables[place].scheme == Scheme::None) {
            tables.retain(|&place| self.model.tables[place].scheme == Scheme::None);
        }
        if !tables.is_empty() {
            let table = *self.random.pick(&tables);
            self.public_of(table);
        }
    }

    pub fn public_of(&mut self, table: usize) {
        self.model.tables[table].public = true;
        self.model.lines.push(Line::Public(table));
    }

    pub fn row_of(&mut self, row: Row) {
        self.model.rows.push(row);
        self.model.lines.push(Line::Row(self.model.rows.len() - 1));
    }

    /// A user, conditional role or row with values and operators of any type: 8, the leftmost of several; among a row's also ranges and
    /// dates, some reversed and some of no day: 8, 28, 31 or none (02, Q-12 and Q-14). In a user line they are 2.
    fn retyped(&mut self) {
        let any = |random: &mut Random, given: &mut Value| {
            match random.below(12) {
                0 => *given = Value::Range(number(random), number(random)),
                1 => *given = no_date(random),
                2..=6 => {
                    let kind = any_type(random);
                    *given = value(random, kind);
                }
                _ => {}
            }
        };
        match self.random.below(3) {
            0 => {
                self.user();
                if let Some(user) = self.model.users.last_mut() {
                    user.values.iter_mut().for_each(|(_, given)| any(self.random, given));
                }
            }
            1 => {
                let role = self.random.below(self.model.roles.len().max(1));
                if self.model.roles.is_empty() {
                    self.role();
                }
                let mut subjects = self.subjects(role);
                for (_, kind) in &mut subjects {
                    if self.random.chance(1, 3) {
                        *kind = any_type(self.random);
                    }
                }
                let condition = condition(self.random, &subjects, 6, 5);
                self.cond_role_of(role, condition);
            }
            _ => {
                self.row();
                if let Some(row) = self.model.rows.last_mut() {
                    row.cells.iter_mut().for_each(|(given, _)| any(self.random, given));
                    // Ranges reversed and dates of no day, and nothing else wrong, half of the time.
                    if self.random.chance(1, 2) {
                        for (column, (given, _)) in self.model.tables[row.table].columns.iter().zip(&mut row.cells) {
                            if column.kind == Type::Num && self.random.chance(1, 2) {
                                *given = Value::Range(number(self.random), number(self.random));
                            } else if column.kind == Type::Date && self.random.chance(1, 2) {
                                *given = no_date(self.random);
                            } else if column.kind != given.kind() {
                                *given = value(self.random, column.kind);
                            }
                        }
                    }
                }
            }
        }
    }

    /// The last line's name made that of another of its kind, or a name within it repeated: 4.
    fn retaken(&mut self) {
        let Some(&line) = self.model.lines.last() else { return };
        let model = &mut self.model;
        match line {
            Line::Purpose(last) => model.purposes[last].name = model.purposes[self.random.below(last)].name.clone(),
            Line::Role(last) => model.roles[last].name = model.roles[self.random.below(last)].name.clone(),
            Line::User(last) => {
                let other = model.users[self.random.below(last)].clone();
                model.users[last].name = other.name;
                model.users[last].role = other.role;
            }
            Line::CondRole(last) => model.cond_roles[last].name = model.cond_roles[self.random.below(last)].name.clone(),
            Line::Label(last) => match model.labels[last].allow.first() {
                Some(&purpose) if self.random.chance(1, 2) => model.labels[last].allow.push(purpose),
                _ => model.labels[last].name = model.labels[self.random.below(last)].name.clone(),
            },
            Line::Table(last) if self.random.chance(1, 2) => {
                let twice = model.tables[last].columns[0].clone();
                model.tables[last].columns.push(twice);
            }
            Line::Table(last) => model.tables[last].name = model.tables[self.random.below(last)].name.clone(),
            Line::Attr(_) | Line::Grant(_) | Line::Row(_) | Line::Public(_) | Line::Weak(_) | Line::Strong(_) => {}
        }
    }

    /// A user with other attributes than its role's, or a row shaped for another scheme or count: 7, or a fault before it.
    fn reshaped(&mut self) {
        if self.random.chance(1, 2) {
            self.user();
            let attributes = self.model.attributes.len();
            let Some(user) = self.model.users.last_mut() else { return };
            match self.random.below(3) {
                0 => {
                    user.values.pop();
                }
                1 if !user.values.is_empty() => {
                    let place = self.random.below(user.values.len());
                    let twice = user.values[place].clone();
                    user.values.push(twice);
                }
                _ if attributes > 0 => {
                    let other = self.random.below(attributes);
                    let given = value(self.random, self.model.attributes[other].kind);
                    match user.values.first_mut() {
                        Some(first) if self.random.chance(1, 2) => *first = (other, given),
                        _ => user.values.push((other, given)),
                    }
                }
                _ => {}
            }
            return;
        }
        self.row();
        let Some(row) = self.model.rows.last_mut() else { return };
        if self.random.chance(1, 2) {
            let kinds = [Scheme::None, Scheme::Row, Scheme::Cell, Scheme::Nest];
            self.model.tables[row.table].scheme = *self.random.pick(&kinds);
        }
        if self.random.chance(1, 2) {
            if self.random.chance(1, 2) {
                row.cells.pop();
            } else {
                let given = number(self.random);
                row.cells.push((Value::Num(given), row.label));
            }
        }
    }

    fn last_line(&self) -> Vec<u8> {
        let line = self.model.lines.last().map(|&line| self.model.line(line)).unwrap_or_default();
        (line + "\n").into_bytes()
    }

    /// Lines of all kinds, mixed.
    pub fn mix(&mut self, steps: usize) {
        for _ in 0..steps {
            match self.random.below(47) {
                0..=4 if self.model.purposes.len() < 60 => self.purpose(),
                5..=7 if self.model.roles.len() < 60 => self.role(),
                8..=10 if self.model.attributes.len() < 30 => self.attr(),
                11..=13 if self.model.users.len() < 250 => self.user(),
                14..=17 if self.model.cond_roles.len() < 60 => self.cond_role(),
                18..=21 if self.model.grants.len() < 120 => self.grant(),
                22..=25 if self.model.labels.len() < 60 => self.label(),
                26..=28 if self.model.tables.len() < 7 => self.table(),
                29..=32 => self.public(),
                33..=35 => self.inherited(),
                36.. if self.model.rows.len() < 1000 => self.row(),
                _ => {}
            }
        }
    }

    /// Some of each kind first, so that questions can be answered.
    pub fn base(&mut self) {
        for _ in 0..self.random.between(1, 5) {
            self.purpose();
        }
        for _ in 0..self.random.between(1, 3) {
            self.role();
        }
        for _ in 0..self.random.below(4) {
            self.attr();
        }
        for _ in 0..self.random.between(1, 3) {
            self.user();
            self.cond_role();
        }
        for _ in 0..self.random.between(1, 4) {
            self.grant();
            self.label();
        }
    }
}

/// A document of everyday size, rich in all forms.
pub fn ordinary(random: &mut Random) -> Model {
    let mut builder = Builder::new(random);
    builder.columns = *builder.random.pick(&[2, 4, 4, 6]);
    if builder.random.chance(9, 10) {
        builder.base();
    }
    let steps = builder.random.between(0, 45);
    builder.mix(steps);
    builder.model
}

/// A document of some hundreds of lines.
pub fn large(random: &mut Random) -> Model {
    let mut builder = Builder::new(random);
    builder.columns = *builder.random.pick(&[4, 8, 16]);
    builder.base();
    let steps = builder.random.between(100, 400);
    builder.mix(steps);
    builder.model
}

/// A document with nest tables and one of any scheme over 65 to 256 purposes (02, Q-5 and Q-11), and labels with few of them or many,
/// some before the last purposes and some behind them.
pub fn wide_nest(random: &mut Random) -> Model {
    let mut builder = Builder::new(random);
    builder.base();
    builder.cond_role_of(0, Condition::Compare("ge", "hour".to_string(), Value::Num(0)));
    builder.model.grants.push(Grant { purpose: 0, cond_role: builder.model.cond_roles.len() - 1 });
    builder.model.lines.push(Line::Grant(builder.model.grants.len() - 1));
    let purposes = builder.random.between(65, 256);
    let few = builder.random.between(2, purposes);
    while_fewer(&mut builder, few, |m| m.purposes.len(), Builder::purpose);
    for _ in 0..builder.random.between(2, 5) {
        let many = *builder.random.pick(&[1, 4, 24]);
        builder.label_of(many);
    }
    while_fewer(&mut builder, purposes, |m| m.purposes.len(), Builder::purpose);
    for _ in 0..builder.random.between(2, 5) {
        let many = *builder.random.pick(&[1, 4, 24]);
        builder.label_of(many);
    }
    for _ in 0..builder.random.between(1, 2) {
        let columns = builder.random.between(1, 5);
        builder.table_of(Scheme::Nest, columns);
    }
    builder.table();
    for _ in 0..builder.random.between(4, 16) {
        builder.row();
    }
    builder.model
}

/// A line that mostly has one fault of 4 to 9, 25, 28 or 31, to stand after the document's own.
pub fn faulty_line(random: &mut Random, model: &Model) -> Vec<u8> {
    let mut builder = Builder::new(random);
    builder.model = model.clone();
    let before = builder.model.lines.len();
    // A kind that is full already is taken up half the time: 3 beside other faults.
    let full = full_kind(&builder.model);
    let kind = match full {
        Some(kind) if builder.random.chance(1, 2) => kind,
        _ => builder.random.below(35),
    };
    match kind {
        // 6, or 4 where the name is taken.
        0 => {
            let name = fresh(builder.random, &NAMES, |_| false);
            return format!("(purpose {name})\n").into_bytes();
        }
        // 9 after a user, unless 4, 5 or 3 comes first.
        1 | 2 => {
            let name = fresh(builder.random, &NAMES, |_| false);
            let role = match builder.model.roles.last() {
                Some(role) if builder.random.chance(4, 5) => role.name.clone(),
                _ => "nowhere".to_string(),
            };
            let kind = builder.random.pick(&["num", "name", "num", "name", "date"]);
            return format!("(attr {role} {name} {kind})\n").into_bytes();
        }
        3 => builder.purpose(),
        4 => builder.role(),
        5 | 6 => builder.user(),
        7 | 12 => builder.cond_role(),
        8 => builder.label(),
        9 => builder.table(),
        10 => builder.grant(),
        13 | 14 => builder.user(),
        // 4 where the table is public already, whatever its labels; 5 where there is no such table (02, Q-2).
        24..=26 => {
            let declared: Vec<usize> = (0..model.tables.len()).filter(|&place| model.tables[place].public).collect();
            let name = match builder.random.below(4) {
                0 => fresh(builder.random, &NAMES, |_| false),
                1 | 2 if !declared.is_empty() => model.tables[*builder.random.pick(&declared)].name.clone(),
                _ if !model.tables.is_empty() => builder.random.pick(&model.tables).name.clone(),
                _ => builder.random.pick(&NAMES).to_string(),
            };
            return recase::any(random, format!("(public {name})\n").into_bytes()).0;
        }
        27..=31 => {
            let line = misplaced(builder.random, model);
            return recase::any(random, line).0;
        }
        32.. => {
            let line = nest_row(builder.random, model);
            return recase::any(random, line).0;
        }
        15.. => {
            if kind < 20 {
                builder.retyped();
            } else {
                builder.reshaped();
            }
            if builder.random.chance(2, 3) {
                return builder.last_line();
            }
        }
        _ => builder.row(),
    }
    if builder.random.chance(1, 3) {
        builder.retaken();
    }
    let mut text = Vec::new();
    for &line in &builder.model.lines[before..] {
        text.extend_from_slice(builder.model.line(line).as_bytes());
        text.push(b'\n');
    }
    let document = model.text();
    for _ in 0..*random.pick(&[0, 1, 1, 2, 2, 3]) {
        crate::damage::word(random, &mut text, &document, 1);
    }
    // A name taken in another case, among others.
    recase::any(random, text).0
}

/// A `weak` or `strong` line behind the document (02, Q-11): a second one, one behind a row, one for a table of another scheme, one that
/// may stand, or one whose table or label there isn't, which is 5.
fn misplaced(random: &mut Random, model: &Model) -> Vec<u8> {
    let word = *random.pick(&["weak", "strong"]);
    let given = |table: &Table| if word == "weak" { table.weak } else { table.strong };
    let has_rows = |place: usize| model.rows.iter().any(|row| row.table == place);
    let wanted = random.below(5);
    let fits = |place: &usize| {
        let table = &model.tables[*place];
        match (table.scheme == Scheme::Nest, wanted) {
            (nest, 0) => nest && given(table).is_some() && !has_rows(*place),
            (nest, 1) => nest && given(table).is_none() && has_rows(*place),
            (nest, 2) => !nest,
            (nest, 3) => nest,
            _ => true,
        }
    };
    let tables: Vec<usize> = (0..model.tables.len()).filter(fits).collect();
    let unknown = || "nobody".to_string();
    let table = if tables.is_empty() || random.chance(1, 12) { None } else { Some(&model.tables[*random.pick(&tables)]) };
    let label = match table.and_then(given) {
        _ if model.labels.is_empty() || random.chance(1, 8) => unknown(),
        // The same label a second time is no less 25.
        Some(same) if random.chance(1, 3) => model.labels[same].name.clone(),
        _ => random.pick(&model.labels).name.clone(),
    };
    let table = table.map_or_else(unknown, |table| table.name.clone());
    format!("({word} {table} {label})\n").into_bytes()
}

/// A row of a nest table, if there is one, with one or more of its items not as they should be: its own label or a cell's unknown or
/// missing, no name where a label stands, a cell too few or too many (02, Q-11): 5, the leftmost of several, or 7.
fn nest_row(random: &mut Random, model: &Model) -> Vec<u8> {
    let nested: Vec<&Table> = model.tables.iter().filter(|table| table.scheme == Scheme::Nest).collect();
    if nested.is_empty() {
        return b"(row nobody nobody)\n".to_vec();
    }
    let table = *random.pick(&nested);
    let label = |random: &mut Random| match random.chance(1, 6) {
        true => "nobody".to_string(),
        false => random.pick(&model.labels).name.clone(),
    };
    let mut items = match random.below(6) {
        0 => Vec::new(),
        1 => vec![number(random).to_string()],
        2 => vec![range(random).to_string()],
        _ => vec![label(random)],
    };
    for column in &table.columns {
        let given = cell(random, column);
        items.push(if random.chance(1, 12) { given.to_string() } else { format!("({given} {})", label(random)) });
    }
    match random.below(8) {
        0 => {
            items.pop();
        }
        1 => items.push(format!("({} {})", number(random), label(random))),
        _ => {}
    }
    let items: String = items.iter().map(|item| format!(" {item}")).collect();
    format!("(row {}{items})\n", table.name).into_bytes()
}

/// A kind of `faulty_line` that the model has as many of as it may.
fn full_kind(model: &Model) -> Option<usize> {
    let counts = [
        (model.attributes.len(), 32, 1),
        (model.purposes.len(), 256, 3),
        (model.roles.len(), 64, 4),
        (model.users.len(), 256, 5),
        (model.cond_roles.len(), 64, 7),
        (model.labels.len(), 64, 8),
        (model.tables.len(), 8, 9),
        (model.grants.len(), 128, 10),
        (model.rows.len(), 1024, 11),
    ];
    counts.iter().find(|(count, most, _)| count >= most).map(|&(_, _, kind)| kind)
}

/// A document at a bound. The flag says whether it is within all of them.
pub fn at_bound(random: &mut Random) -> (Model, bool) {
    let mut builder = Builder::new(random);
    let over = usize::from(builder.random.chance(1, 2));
    let kind = builder.random.below(17);
    if kind == 13 {
        // Names of 24 and 25 bytes, each line in turn being the first to have one.
        builder.base();
        builder.mix(5);
        builder.names = Some(24 + over);
        let before = builder.model.lines.len();
        while builder.model.lines.len() < before + 1 {
            builder.mix(1);
        }
        let unnamed = |line: &Line| matches!(line, Line::Grant(_) | Line::Row(_) | Line::Public(_) | Line::Weak(_) | Line::Strong(_));
        let named = !unnamed(&builder.model.lines[before]);
        builder.names = None;
        builder.mix(10);
        return (builder.model, over == 0 || !named);
    }
    builder.base();
    let count = |limit: usize| limit + over;
    match kind {
        0 => while_fewer(&mut builder, count(256), |m| m.purposes.len(), Builder::purpose),
        1 => while_fewer(&mut builder, count(64), |m| m.roles.len(), Builder::role),
        2 => {
            builder.model = Model::default();
            while_fewer(&mut builder, 3, |m| m.roles.len(), Builder::role);
            while_fewer(&mut builder, count(32), |m| m.attributes.len(), Builder::attr);
            while_fewer(&mut builder, 4, |m| m.users.len(), Builder::user);
        }
        3 => while_fewer(&mut builder, count(256), |m| m.users.len(), Builder::user),
        4 => while_fewer(&mut builder, count(64), |m| m.cond_roles.len(), Builder::cond_role),
        5 => {
            if builder.random.chance(1, 2) {
                builder.idle_grants();
            }
            while_fewer(&mut builder, count(128), |m| m.grants.len(), Builder::grant)
        }
        6 => while_fewer(&mut builder, count(64), |m| m.labels.len(), Builder::label),
        7 => while_fewer(&mut builder, count(8), |m| m.tables.len(), Builder::table),
        8 | 9 => {
            let scheme = match builder.random.below(6) {
                0 => Scheme::None,
                1 => Scheme::Table(0),
                2 => Scheme::Column,
                3 => Scheme::Row,
                4 => Scheme::Cell,
                _ => Scheme::Nest,
            };
            builder.table_of(scheme, count(16));
            if builder.random.chance(2, 3) {
                builder.public();
            }
            while_fewer(&mut builder, 8, |m| m.rows.len(), Builder::row);
        }
        10 => {
            builder.columns = 2;
            builder.table();
            while_fewer(&mut builder, count(1024), |m| m.rows.len(), Builder::row);
        }
        11 => {
            let role = builder.random.below(builder.model.roles.len());
            let subjects = builder.subjects(role);
            let condition = wide_condition(builder.random, &subjects, count(64));
            builder.cond_role_of(role, condition);
        }
        12 => {
            // The form's own bracket is the first.
            let role = builder.random.below(builder.model.roles.len());
            let subjects = builder.subjects(role);
            let depth = 14 + over + usize::from(over == 0 && builder.random.chance(1, 2));
            let deeper = usize::from(over == 1);
            let condition = deep_condition(builder.random, &subjects, depth + deeper);
            builder.cond_role_of(role, condition);
        }
        _ => {
            let length = 60_000 + [0, 0, 1][builder.random.below(3)] - [0, 1][builder.random.below(2)];
            fill(&mut builder, length);
            return (builder.model, length <= 60_000);
        }
    }
    builder.mix(10);
    (builder.model, over == 0)
}

fn while_fewer<'r>(builder: &mut Builder<'r>, wanted: usize, count: fn(&Model) -> usize, add: fn(&mut Builder<'r>)) {
    while count(&builder.model) < wanted {
        add(builder);
    }
}

/// Rows of one table until the text has exactly so many bytes.
fn fill(builder: &mut Builder, length: usize) {
    let scheme = match builder.random.below(4) {
        0 => Scheme::Column,
        1 => Scheme::Table(0),
        _ => Scheme::None,
    };
    let columns = builder.random.between(3, 16);
    builder.table_of(scheme, columns);
    let table = builder.model.tables.len() - 1;
    if builder.random.chance(7, 8) {
        builder.public_of(table);
    }
    for column in &mut builder.model.tables[table].columns {
        column.kind = Type::Name;
        column.ranged = false;
    }
    let mut rest = length - builder.model.text().len();
    // `(row T`, a space before each value, `)` and the line feed.
    let frame = 5 + builder.model.tables[table].name.len() + columns + 2;
    let (least, most) = (frame + columns, frame + 24 * columns);
    while rest > 0 {
        let size = if rest > 2 * most {
            builder.random.between((least + most) / 2, most)
        } else if rest > most {
            (rest / 2).max(least)
        } else {
            rest.max(least)
        };
        let mut letters = (size - frame).min(24 * columns);
        let mut cells = Vec::new();
        for left in (0..columns).rev() {
            let given = (letters - left).min(24).min(if left == 0 { letters } else { letters / (left + 1) + 1 });
            letters -= given;
            cells.push((Value::Name(long_name(builder.random, given)), 0));
        }
        builder.row_of(Row { table, label: 0, cells });
        rest = rest.saturating_sub(size);
    }
}
