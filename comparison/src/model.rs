//! The generator's own picture of a document: what each line says, and which cells are closed (01).
//! It is built with the text and never read from it.

use crate::recase::{listed, same};
use std::cmp::Ordering;
use std::fmt;

#[derive(Clone, Copy, Debug, PartialEq, Eq)]
pub enum Type {
    Num,
    Name,
    /// Of columns alone (02, Q-14).
    Date,
}

impl fmt::Display for Type {
    fn fmt(&self, f: &mut fmt::Formatter) -> fmt::Result {
        f.write_str(match self {
            Type::Num => "num",
            Type::Name => "name",
            Type::Date => "date",
        })
    }
}

#[derive(Clone, Debug, PartialEq, Eq)]
pub enum Value {
    Num(i64),
    Name(String),
    /// In cells of num columns alone (02, Q-12).
    Range(i64, i64),
    /// Year, month and day (02, Q-14); whether there is such a day is not said.
    Date(i64, i64, i64),
}

impl Value {
    pub fn kind(&self) -> Type {
        match self {
            Value::Num(_) | Value::Range(..) => Type::Num,
            Value::Name(_) => Type::Name,
            Value::Date(..) => Type::Date,
        }
    }

    pub fn is_range(&self) -> bool {
        matches!(self, Value::Range(..))
    }

    pub fn is_date(&self) -> bool {
        matches!(self, Value::Date(..))
    }
}

impl fmt::Display for Value {
    fn fmt(&self, f: &mut fmt::Formatter) -> fmt::Result {
        match self {
            Value::Num(number) => write!(f, "{number}"),
            Value::Name(name) => f.write_str(name),
            Value::Range(low, high) => write!(f, "({low} {high})"),
            Value::Date(year, month, day) => write!(f, "({year} {month} {day})"),
        }
    }
}

#[derive(Clone, Debug)]
pub enum Condition {
    Compare(&'static str, String, Value),
    Not(Box<Condition>),
    And(Vec<Condition>),
    Or(Vec<Condition>),
}

impl fmt::Display for Condition {
    fn fmt(&self, f: &mut fmt::Formatter) -> fmt::Result {
        let list = |f: &mut fmt::Formatter, word: &str, conditions: &[Condition]| {
            write!(f, "({word}")?;
            for condition in conditions {
                write!(f, " {condition}")?;
            }
            f.write_str(")")
        };
        match self {
            Condition::Compare(operator, subject, value) => write!(f, "({operator} {subject} {value})"),
            Condition::Not(inner) => write!(f, "(not {inner})"),
            Condition::And(conditions) => list(f, "and", conditions),
            Condition::Or(conditions) => list(f, "or", conditions),
        }
    }
}

impl Condition {
    /// The names compared, evaluated or not; of a join as they are written, `(of T COL)`.
    pub fn subjects(&self) -> Vec<&str> {
        match self {
            Condition::Compare(_, subject, _) => vec![subject],
            Condition::Not(inner) => inner.subjects(),
            Condition::And(list) | Condition::Or(list) => list.iter().flat_map(|c| c.subjects()).collect(),
        }
    }

    /// How many brackets deep it is, that of a date and of a join's `(of T COL)` included.
    pub fn depth(&self) -> usize {
        match self {
            Condition::Compare(_, _, Value::Range(..) | Value::Date(..)) => 2,
            Condition::Compare(_, subject, _) if subject.starts_with('(') => 2,
            Condition::Compare(..) => 1,
            Condition::Not(inner) => 1 + inner.depth(),
            Condition::And(list) | Condition::Or(list) => 1 + list.iter().map(|c| c.depth()).max().unwrap_or(0),
        }
    }

    /// Whether it holds; a name without a value, or with a range, is false.
    pub fn holds(&self, value_of: &dyn Fn(&str) -> Option<Value>) -> bool {
        match self {
            Condition::Compare(operator, subject, right) => match (value_of(subject), right) {
                (Some(Value::Num(l)), Value::Num(r)) => ordered(operator, l.cmp(r)),
                // Of two dates that there are, the later has the later year, month or day.
                (Some(Value::Date(y, m, d)), Value::Date(year, month, day)) => ordered(operator, (y, m, d).cmp(&(*year, *month, *day))),
                (Some(Value::Name(l)), Value::Name(r)) => (*operator == "eq") == same(&l, r),
                _ => false,
            },
            Condition::Not(inner) => !inner.holds(value_of),
            Condition::And(list) => list.iter().all(|c| c.holds(value_of)),
            Condition::Or(list) => list.iter().any(|c| c.holds(value_of)),
        }
    }
}

/// The six operators, by how left stands to right.
fn ordered(operator: &str, order: Ordering) -> bool {
    match operator {
        "eq" => order.is_eq(),
        "ne" => order.is_ne(),
        "lt" => order.is_lt(),
        "le" => order.is_le(),
        "gt" => order.is_gt(),
        _ => order.is_ge(),
    }
}

/// A purpose or a role.
#[derive(Clone, Debug)]
pub struct Node {
    pub name: String,
    pub parent: Option<usize>,
}

#[derive(Clone, Debug)]
pub struct Attribute {
    pub role: usize,
    pub name: String,
    pub kind: Type,
}

#[derive(Clone, Debug)]
pub struct User {
    pub name: String,
    pub role: usize,
    pub values: Vec<(usize, Value)>,
}

#[derive(Clone, Debug)]
pub struct CondRole {
    pub name: String,
    pub role: usize,
    pub condition: Condition,
}

#[derive(Clone, Debug)]
pub struct Grant {
    pub purpose: usize,
    pub cond_role: usize,
}

#[derive(Clone, Debug)]
pub struct Label {
    pub name: String,
    pub allow: Vec<usize>,
    pub deny: Vec<usize>,
}

#[derive(Clone, Copy, Debug, PartialEq, Eq)]
pub enum Scheme {
    None,
    Table(usize),
    Column,
    Row,
    Cell,
    /// 02, Q-11.
    Nest,
}

impl Scheme {
    /// Whether a row line has a label of its own.
    fn labels_rows(self) -> bool {
        matches!(self, Scheme::Row | Scheme::Nest)
    }

    /// Whether each cell has a label beside it.
    pub fn labels_cells(self) -> bool {
        matches!(self, Scheme::Cell | Scheme::Nest)
    }
}

/// What the labels of a nest table come to for a purpose (02, Q-11).
#[derive(Clone, Copy, Debug, PartialEq, Eq)]
pub enum Nested {
    StronglyDenied,
    StronglyAllowed,
    WeaklyDenied,
    WeaklyAllowed,
    /// Weakly allowed by a label below one that denies it.
    AllowedAgain,
    /// Neither denied nor allowed.
    Unsaid,
}

impl Nested {
    pub fn is_open(self) -> bool {
        matches!(self, Nested::StronglyAllowed | Nested::WeaklyAllowed | Nested::AllowedAgain)
    }
}

#[derive(Clone, Debug)]
pub struct Column {
    pub name: String,
    pub kind: Type,
    /// Whether its cells may be ranges (02, Q-12); of a num column alone.
    pub ranged: bool,
    /// A label's place, used under scheme column.
    pub label: usize,
}

#[derive(Clone, Debug)]
pub struct Table {
    pub name: String,
    pub scheme: Scheme,
    /// Whether a `public` line names it (02, Q-2).
    pub public: bool,
    /// The labels of its `weak` and `strong` lines (02, Q-11); of a nest table alone.
    pub weak: Option<usize>,
    pub strong: Option<usize>,
    pub columns: Vec<Column>,
}

#[derive(Clone, Debug)]
pub struct Row {
    pub table: usize,
    /// A label's place, used under the schemes row and nest.
    pub label: usize,
    /// A value and a label's place, the latter used under the schemes cell and nest.
    pub cells: Vec<(Value, usize)>,
}

/// A line: a place in the list of its kind.
#[derive(Clone, Copy, Debug)]
pub enum Line {
    Purpose(usize),
    Role(usize),
    Attr(usize),
    User(usize),
    CondRole(usize),
    Grant(usize),
    Label(usize),
    Table(usize),
    Row(usize),
    /// A table's place.
    Public(usize),
    Weak(usize),
    Strong(usize),
}

#[derive(Clone, Debug, Default)]
pub struct Model {
    pub purposes: Vec<Node>,
    pub roles: Vec<Node>,
    pub attributes: Vec<Attribute>,
    pub users: Vec<User>,
    pub cond_roles: Vec<CondRole>,
    pub grants: Vec<Grant>,
    pub labels: Vec<Label>,
    pub tables: Vec<Table>,
    pub rows: Vec<Row>,
    pub lines: Vec<Line>,
}

/// 01: "Ancestors and descendants include the purpose itself, and among roles the role itself."
pub fn descends(nodes: &[Node], low: usize, high: usize) -> bool {
    low == high || nodes[low].parent.is_some_and(|parent| descends(nodes, parent, high))
}

impl Model {
    pub fn text(&self) -> Vec<u8> {
        let mut text = String::new();
        for &line in &self.lines {
            text.push_str(&self.line(line));
            text.push('\n');
        }
        text.into_bytes()
    }

    pub fn line(&self, line: Line) -> String {
        let node = |word: &str, nodes: &[Node], place: usize| match nodes[place].parent {
            None => format!("({word} {})", nodes[place].name),
            Some(parent) => format!("({word} {} {})", nodes[place].name, nodes[parent].name),
        };
        match line {
            Line::Purpose(place) => node("purpose", &self.purposes, place),
            Line::Role(place) => node("role", &self.roles, place),
            Line::Attr(place) => {
                let attribute = &self.attributes[place];
                format!("(attr {} {} {})", self.roles[attribute.role].name, attribute.name, attribute.kind)
            }
            Line::User(place) => {
                let user = &self.users[place];
                let mut line = format!("(user {} {}", user.name, self.roles[user.role].name);
                for (attribute, value) in &user.values {
                    line += &format!(" ({} {value})", self.attributes[*attribute].name);
                }
                line + ")"
            }
            Line::CondRole(place) => {
                let cond_role = &self.cond_roles[place];
                let role = &self.roles[cond_role.role].name;
                format!("(cond-role {} {role} {})", cond_role.name, cond_role.condition)
            }
            Line::Grant(place) => {
                let grant = &self.grants[place];
                format!("(grant {} {})", self.purposes[grant.purpose].name, self.cond_roles[grant.cond_role].name)
            }
            Line::Label(place) => {
                let label = &self.labels[place];
                let set = |purposes: &[usize]| -> String {
                    purposes.iter().map(|&p| format!(" {}", self.purposes[p].name)).collect()
                };
                format!("(label {} (allow{}) (deny{}))", label.name, set(&label.allow), set(&label.deny))
            }
            Line::Table(place) => {
                let table = &self.tables[place];
                let mut line = format!("(table {}", table.name);
                line += &match table.scheme {
                    Scheme::None => " none".to_string(),
                    Scheme::Table(label) => format!(" table {}", self.labels[label].name),
                    Scheme::Column => " column".to_string(),
                    Scheme::Row => " row".to_string(),
                    Scheme::Cell => " cell".to_string(),
                    Scheme::Nest => " nest".to_string(),
                };
                for column in &table.columns {
                    line += &match table.scheme {
                        Scheme::Column => format!(" ({} {} {})", column.name, column.kind, self.labels[column.label].name),
                        _ => format!(" ({} {})", column.name, column.kind),
                    };
                }
                line + ")"
            }
            Line::Row(place) => {
                let row = &self.rows[place];
                let table = &self.tables[row.table];
                let mut line = format!("(row {}", table.name);
                if table.scheme.labels_rows() {
                    line += &format!(" {}", self.labels[row.label].name);
                }
                for (value, label) in &row.cells {
                    line += &match table.scheme.labels_cells() {
                        true => format!(" ({value} {})", self.labels[*label].name),
                        false => format!(" {value}"),
                    };
                }
                line + ")"
            }
            Line::Public(table) => format!("(public {})", self.tables[table].name),
            Line::Weak(table) => self.inherited("weak", table, self.tables[table].weak),
            Line::Strong(table) => self.inherited("strong", table, self.tables[table].strong),
        }
    }

    /// A `weak` or `strong` line; one without a label is never asked for.
    fn inherited(&self, word: &str, table: usize, label: Option<usize>) -> String {
        let label = label.map_or("nobody", |label| &self.labels[label].name);
        format!("({word} {} {label})", self.tables[table].name)
    }

    /// The attributes defined at a role or above, by place.
    pub fn attributes_of(&self, role: usize) -> Vec<usize> {
        (0..self.attributes.len()).filter(|&a| descends(&self.roles, role, self.attributes[a].role)).collect()
    }

    /// 01: "P is open under it exactly when P descends from an allowed purpose, and is neither ancestor nor descendant of a denied one".
    pub fn open(&self, label: usize, p: usize) -> bool {
        self.allows(label, p) && !self.denies(label, p)
    }

    /// Whether P descends from one that the label allows.
    fn allows(&self, label: usize, p: usize) -> bool {
        self.labels[label].allow.iter().any(|&a| descends(&self.purposes, p, a))
    }

    /// Whether P is ancestor or descendant of one that the label denies.
    pub fn denies(&self, label: usize, p: usize) -> bool {
        let below = |low, high| descends(&self.purposes, low, high);
        self.labels[label].deny.iter().any(|&d| below(p, d) || below(d, p))
    }

    /// 02, Q-11: what the labels of a nest table come to for one purpose. From the top down, a label that allows P takes back what
    /// was denied above it, and one that denies P has the last word over its own allowing.
    pub fn nested(&self, row: &Row, column: usize, p: usize) -> Nested {
        let table = &self.tables[row.table];
        if let Some(strong) = table.strong {
            if self.denies(strong, p) {
                return Nested::StronglyDenied;
            }
            if self.allows(strong, p) {
                return Nested::StronglyAllowed;
            }
        }
        let (mut allowed, mut denied, mut again) = (false, false, false);
        for label in table.weak.into_iter().chain([row.label, row.cells[column].1]) {
            if self.allows(label, p) {
                again = again || denied;
                (allowed, denied) = (true, false);
            }
            denied = denied || self.denies(label, p);
        }
        match (allowed, denied) {
            (_, true) => Nested::WeaklyDenied,
            (true, false) if again => Nested::AllowedAgain,
            (true, false) => Nested::WeaklyAllowed,
            (false, false) => Nested::Unsaid,
        }
    }

    pub fn purpose(&self, name: &str) -> Option<usize> {
        self.purposes.iter().position(|purpose| same(&purpose.name, name))
    }

    /// 01: "A cell's label is its table's, column's, row's or its own, by scheme; the cell is closed when that label is."
    /// 02, Q-2: "Cells of an undeclared table count as closed"; Q-11: of a nest table all labels together say it.
    pub fn cell_open(&self, row: &Row, column: usize, p: usize) -> bool {
        let table = &self.tables[row.table];
        match table.scheme {
            Scheme::None => table.public,
            Scheme::Table(label) => self.open(label, p),
            Scheme::Column => self.open(table.columns[column].label, p),
            Scheme::Row => self.open(row.label, p),
            Scheme::Cell => self.open(row.cells[column].1, p),
            Scheme::Nest => self.nested(row, column, p).is_open(),
        }
    }

    /// 01: "Scheme row withholds a row whose label is closed, even if no column is named. Scheme cell withholds a row with a closed named cell."
    /// 02, Q-10: of a blank, "a closed cell named in the condition"; `withholding` has the names that count. Q-11: a nest table's "row is
    /// withheld only for a closed named cell".
    pub fn row_withheld(&self, row: &Row, withholding: &[&str], p: usize) -> bool {
        let table = &self.tables[row.table];
        match table.scheme {
            Scheme::None | Scheme::Table(_) | Scheme::Column => false,
            Scheme::Row => !self.open(row.label, p),
            Scheme::Cell | Scheme::Nest => (0..table.columns.len())
                .any(|column| listed(withholding, &table.columns[column].name) && !self.cell_open(row, column, p)),
        }
    }

    /// 02, Q-12: whether some row of a table, withheld or not, has a range in this column.
    pub fn has_range(&self, table: usize, column: usize) -> bool {
        self.rows.iter().any(|row| row.table == table && row.cells[column].0.is_range())
    }

    /// Whether some grant lets a user form act for a purpose (only to aim queries with).
    pub fn authorised(&self, user: usize, purpose: usize, clock: [u64; 3]) -> bool {
        let user = &self.users[user];
        let value_of = |name: &str| match name.to_ascii_lowercase().as_str() {
            "year" => i64::try_from(clock[0]).ok().map(Value::Num),
            "day" => i64::try_from(clock[1]).ok().map(Value::Num),
            "hour" => i64::try_from(clock[2]).ok().map(Value::Num),
            _ => user.values.iter().find(|(a, _)| same(&self.attributes[*a].name, name)).map(|(_, v)| v.clone()),
        };
        self.grants.iter().any(|grant| {
            let cond_role = &self.cond_roles[grant.cond_role];
            descends(&self.purposes, purpose, grant.purpose)
                && descends(&self.roles, user.role, cond_role.role)
                && cond_role.condition.holds(&value_of)
        })
    }
}
