//! 01, "Document forms": items to one of the nine forms, or to a `public` line of 02, Q-2, or a `weak` or `strong` one of Q-11, by
//! shape alone.

use crate::condition::{read_condition, Condition, Subject};
use crate::date::Date;
use crate::text::{read_form, Item, Kind, Name, Span};

/// A name where it stands.
#[derive(Clone, Copy, Debug)]
pub struct Word<'a> {
    pub text: Name<'a>,
    pub span: Span,
}

/// 01: "`v` for a name or a number"; 02, Q-12: "A `num` cell's value may be `(LOW HIGH)`"; 02, Q-14: "`(YEAR MONTH DAY)`".
#[derive(Clone, Copy, Debug, PartialEq, Eq)]
pub enum Value<'a> {
    Name(Name<'a>),
    Number(i64),
    Range(i64, i64),
    Date(Date),
}

/// A value where it stands.
#[derive(Clone, Copy, Debug)]
pub struct Given<'a> {
    pub value: Value<'a>,
    pub span: Span,
}

/// 01: `num` or `name`; 02, Q-14: of a column also `date`.
#[derive(Clone, Copy, Debug, PartialEq, Eq)]
pub enum Type {
    Num,
    Name,
    Date,
}

impl Value<'_> {
    /// The type that a value has.
    pub fn kind(&self) -> Type {
        match self {
            Value::Name(_) => Type::Name,
            Value::Number(_) | Value::Range(..) => Type::Num,
            Value::Date(_) => Type::Date,
        }
    }
}

/// The five schemes of a table form, and `nest` of 02, Q-11; only `table` names a label of its own.
#[derive(Clone, Copy, Debug)]
pub enum Scheme<'a> {
    None,
    Table(Word<'a>),
    Column,
    Row,
    Cell,
    Nest,
}

/// 02, Q-11: "Source document 000 lets a label be strong or weak".
#[derive(Clone, Copy, Debug, PartialEq, Eq)]
pub enum Strength {
    Weak,
    Strong,
}

/// `(COL num)`, or `(COL num L)` under scheme column.
#[derive(Clone, Debug)]
pub struct ColumnForm<'a> {
    pub name: Word<'a>,
    pub kind: Type,
    pub label: Option<Word<'a>>,
}

/// 01: "a row's items after T are names, numbers and brackets `(v L)`, in any mix and count"; v may be a range (02, Q-12) or a date
/// (02, Q-14), and these stand bare too.
#[derive(Clone, Debug)]
pub enum RowItem<'a> {
    Plain(Given<'a>),
    Labelled(Given<'a>, Word<'a>),
}

/// One document line as a form.
#[derive(Clone, Debug)]
pub enum Form<'a> {
    Purpose { name: Word<'a>, parent: Option<Word<'a>> },
    Role { name: Word<'a>, parent: Option<Word<'a>> },
    Attr { role: Word<'a>, name: Word<'a>, kind: Type },
    User { name: Word<'a>, role: Word<'a>, values: Vec<(Word<'a>, Given<'a>)> },
    CondRole { name: Word<'a>, role: Word<'a>, condition: Condition<'a> },
    Grant { purpose: Word<'a>, cond_role: Word<'a> },
    Label { name: Word<'a>, allow: Vec<Word<'a>>, deny: Vec<Word<'a>> },
    Table { name: Word<'a>, scheme: Scheme<'a>, columns: Vec<ColumnForm<'a>> },
    Row { table: Word<'a>, items: Vec<RowItem<'a>> },
    Public { table: Word<'a> },
    Inherited { strength: Strength, table: Word<'a>, label: Word<'a> },
}

/// A name item.
pub fn word<'a>(item: &Item<'a>) -> Option<Word<'a>> {
    match item.kind {
        Kind::Name(text) => Some(Word { text, span: item.span }),
        _ => None,
    }
}

/// A name or number item.
pub fn given<'a>(item: &Item<'a>) -> Option<Given<'a>> {
    match item.kind {
        Kind::Name(text) => Some(Given { value: Value::Name(text), span: item.span }),
        Kind::Number(number) => Some(Given { value: Value::Number(number), span: item.span }),
        Kind::Bracket(_) => None,
    }
}

/// The items of a bracket item.
pub fn bracket<'i, 'a>(item: &'i Item<'a>) -> Option<&'i [Item<'a>]> {
    match &item.kind {
        Kind::Bracket(items) => Some(items),
        _ => None,
    }
}

/// 01: "Keywords are known by position": the name standing there, without case (02, Q-8).
pub fn is_keyword(item: &Item, keyword: &str) -> bool {
    match item.kind {
        Kind::Name(text) => text == Name::of(keyword.as_bytes()),
        _ => false,
    }
}

/// 01: "`(attr ROLE A num)` or `name`"; "`name` may stand for `num`".
fn type_word(item: &Item) -> Option<Type> {
    if is_keyword(item, "num") {
        Some(Type::Num)
    } else if is_keyword(item, "name") {
        Some(Type::Name)
    } else {
        None
    }
}

/// 01, 2: the form of a line without its line feed, or none if the form is wrong.
pub fn read_line(line: &[u8], base: usize) -> Option<Form<'_>> {
    let items = read_form(line, base)?;
    let (head, rest) = items.split_first()?;
    let Kind::Name(keyword) = head.kind else { return None };
    match &keyword.small()[..] {
        b"purpose" => named_with_parent(rest).map(|(name, parent)| Form::Purpose { name, parent }),
        b"role" => named_with_parent(rest).map(|(name, parent)| Form::Role { name, parent }),
        b"attr" => attr(rest),
        b"user" => user(rest),
        b"cond-role" => cond_role(rest),
        b"grant" => grant(rest),
        b"label" => label(rest),
        b"table" => table(rest),
        b"row" => row(rest),
        b"public" => public(rest),
        b"weak" => inherited(Strength::Weak, rest),
        b"strong" => inherited(Strength::Strong, rest),
        _ => None,
    }
}

/// 01: "`(purpose N)` for the root, `(purpose N PARENT)`", and the same for roles.
fn named_with_parent<'a>(items: &[Item<'a>]) -> Option<(Word<'a>, Option<Word<'a>>)> {
    match items {
        [name] => Some((word(name)?, None)),
        [name, parent] => Some((word(name)?, Some(word(parent)?))),
        _ => None,
    }
}

/// 01: "`(attr ROLE A num)` or `name`".
fn attr<'a>(items: &[Item<'a>]) -> Option<Form<'a>> {
    let [role, name, kind] = items else { return None };
    Some(Form::Attr { role: word(role)?, name: word(name)?, kind: type_word(kind)? })
}

/// 01: "`(user U ROLE (A v) ..)`".
fn user<'a>(items: &[Item<'a>]) -> Option<Form<'a>> {
    let [name, role, pairs @ ..] = items else { return None };
    let values = pairs.iter().map(attribute_value).collect::<Option<Vec<_>>>()?;
    Some(Form::User { name: word(name)?, role: word(role)?, values })
}

/// `(A v)`.
fn attribute_value<'a>(item: &Item<'a>) -> Option<(Word<'a>, Given<'a>)> {
    let [name, value] = bracket(item)? else { return None };
    Some((word(name)?, given(value)?))
}

/// 01: "`(cond-role C ROLE cond)`".
fn cond_role<'a>(items: &[Item<'a>]) -> Option<Form<'a>> {
    let [name, role, condition] = items else { return None };
    Some(Form::CondRole { name: word(name)?, role: word(role)?, condition: read_condition(condition, Subject::plain)? })
}

/// 01: "`(grant PURPOSE C)`".
fn grant<'a>(items: &[Item<'a>]) -> Option<Form<'a>> {
    let [purpose, cond_role] = items else { return None };
    Some(Form::Grant { purpose: word(purpose)?, cond_role: word(cond_role)? })
}

/// 01: "`(label L (allow P ..) (deny P ..))`".
fn label<'a>(items: &[Item<'a>]) -> Option<Form<'a>> {
    let [name, allow, deny] = items else { return None };
    Some(Form::Label { name: word(name)?, allow: purpose_set(allow, "allow")?, deny: purpose_set(deny, "deny")? })
}

/// 01: "`(allow)` and `(deny)` are empty sets".
fn purpose_set<'a>(item: &Item<'a>, keyword: &str) -> Option<Vec<Word<'a>>> {
    let (head, purposes) = bracket(item)?.split_first()?;
    if !is_keyword(head, keyword) {
        return None;
    }
    purposes.iter().map(word).collect()
}

/// 01, "Tables": the five table forms, "at least one column"; 02, Q-11: "A `(table T nest (COL num) ..)`".
fn table<'a>(items: &[Item<'a>]) -> Option<Form<'a>> {
    let [name, scheme_word, rest @ ..] = items else { return None };
    let Kind::Name(keyword) = scheme_word.kind else { return None };
    let (scheme, columns) = match &keyword.small()[..] {
        b"none" => (Scheme::None, rest),
        b"table" => {
            let (label, columns) = rest.split_first()?;
            (Scheme::Table(word(label)?), columns)
        }
        b"column" => (Scheme::Column, rest),
        b"row" => (Scheme::Row, rest),
        b"cell" => (Scheme::Cell, rest),
        b"nest" => (Scheme::Nest, rest),
        _ => return None,
    };
    if columns.is_empty() {
        return None;
    }
    let labelled = matches!(scheme, Scheme::Column);
    let columns = columns.iter().map(|item| column(item, labelled)).collect::<Option<Vec<_>>>()?;
    Some(Form::Table { name: word(name)?, scheme, columns })
}

/// 02, Q-14: "A `date` column", beside those of 01; no attribute is one.
fn column_type(item: &Item) -> Option<Type> {
    if is_keyword(item, "date") {
        Some(Type::Date)
    } else {
        type_word(item)
    }
}

/// `(COL num)`, and under scheme column `(COL num L)`.
fn column<'a>(item: &Item<'a>, labelled: bool) -> Option<ColumnForm<'a>> {
    match (bracket(item)?, labelled) {
        ([name, kind], false) => Some(ColumnForm { name: word(name)?, kind: column_type(kind)?, label: None }),
        ([name, kind, label], true) => {
            Some(ColumnForm { name: word(name)?, kind: column_type(kind)?, label: Some(word(label)?) })
        }
        _ => None,
    }
}

/// 01: "As a form (2), a row's items after T are names, numbers and brackets `(v L)`".
fn row<'a>(items: &[Item<'a>]) -> Option<Form<'a>> {
    let (table, rest) = items.split_first()?;
    let items = rest.iter().map(row_item).collect::<Option<Vec<_>>>()?;
    Some(Form::Row { table: word(table)?, items })
}

/// 02, Q-2: "A line `(public T)`".
fn public<'a>(items: &[Item<'a>]) -> Option<Form<'a>> {
    let [table] = items else { return None };
    Some(Form::Public { table: word(table)? })
}

/// 02, Q-11: "lines `(weak T L)` and `(strong T L)`".
fn inherited<'a>(strength: Strength, items: &[Item<'a>]) -> Option<Form<'a>> {
    let [table, label] = items else { return None };
    Some(Form::Inherited { strength, table: word(table)?, label: word(label)? })
}

/// A value, or `(v L)`. Two or three numbers in a bracket are a value, and a number and a name are not, so no item is both.
fn row_item<'a>(item: &Item<'a>) -> Option<RowItem<'a>> {
    if let Some(value) = cell_value(item) {
        return Some(RowItem::Plain(value));
    }
    let [value, label] = bracket(item)? else { return None };
    Some(RowItem::Labelled(cell_value(value)?, word(label)?))
}

/// What a cell may hold: a name, a number, a date, or a range (02, Q-12), which users and comparisons don't take.
fn cell_value<'a>(item: &Item<'a>) -> Option<Given<'a>> {
    match bracket(item) {
        Some([low, high]) => match (&low.kind, &high.kind) {
            (Kind::Number(low), Kind::Number(high)) => Some(Given { value: Value::Range(*low, *high), span: item.span }),
            _ => None,
        },
        _ => constant(item),
    }
}

/// What a comparison takes: a name, a number, or a date (02, Q-14: "comparisons take such constants"), which users don't take.
pub fn constant<'a>(item: &Item<'a>) -> Option<Given<'a>> {
    match bracket(item) {
        None => given(item),
        Some([year, month, day]) => match (&year.kind, &month.kind, &day.kind) {
            (&Kind::Number(year), &Kind::Number(month), &Kind::Number(day)) => {
                Some(Given { value: Value::Date(Date { year, month, day }), span: item.span })
            }
            _ => None,
        },
        Some(_) => None,
    }
}
