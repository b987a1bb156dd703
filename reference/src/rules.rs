//! 01, "Checking a document": the numbers 3 to 9, 28 of 02, Q-12, 31 of Q-14 and 25 of Q-11, one function each, for a line whose form
//! is right.

use crate::forms::{Form, Given, RowItem, Scheme, Type, Value, Word};
use crate::policy::{row_label, Labelling, Policy, CLOCK_NAMES};
use crate::text::Span;

/// 02, Q-5: "The 65th purpose is accepted and the 257th is 3".
pub const MOST_PURPOSES: usize = 256;
pub const MOST_ROLES: usize = 64;
pub const MOST_ATTRIBUTES: usize = 32;
pub const MOST_USERS: usize = 256;
pub const MOST_COND_ROLES: usize = 64;
pub const MOST_GRANTS: usize = 128;
pub const MOST_LABELS: usize = 64;
pub const MOST_TABLES: usize = 8;
pub const MOST_COLUMNS: usize = 16;
pub const MOST_ROWS: usize = 1024;

/// 01, 3: "a bound exceeded", by the bounds named in "Bracket texts".
pub fn bound_exceeded(policy: &Policy, form: &Form) -> bool {
    match form {
        Form::Purpose { .. } => policy.purposes.len() >= MOST_PURPOSES,
        Form::Role { .. } => policy.roles.len() >= MOST_ROLES,
        Form::Attr { .. } => policy.attributes.len() >= MOST_ATTRIBUTES,
        Form::User { .. } => policy.users.len() >= MOST_USERS,
        Form::CondRole { condition, .. } => policy.cond_roles.len() >= MOST_COND_ROLES || condition.over_bound(),
        Form::Grant { .. } => policy.grants.len() >= MOST_GRANTS,
        Form::Label { .. } => policy.labels.len() >= MOST_LABELS,
        Form::Table { columns, .. } => policy.tables.len() >= MOST_TABLES || columns.len() > MOST_COLUMNS,
        Form::Row { .. } => policy.rows.len() >= MOST_ROWS,
        // One for each table is all that 4 lets stand, and 25 two for each.
        Form::Public { .. } | Form::Inherited { .. } => false,
    }
}

/// 01: "for 4 the later of two equal names", within one line.
fn repeated(names: &[Word]) -> Vec<Span> {
    let mut again = Vec::new();
    for (place, name) in names.iter().enumerate() {
        if names[..place].iter().any(|earlier| earlier.text == name.text) {
            again.push(name.span);
        }
    }
    again
}

/// A name's place if it is taken.
fn taken_if(taken: bool, name: &Word) -> Vec<Span> {
    if taken {
        vec![name.span]
    } else {
        Vec::new()
    }
}

/// 01, 4: "Names are unique within a kind; columns within their table; purposes within a set; attributes over the document, clock names included."
pub fn names_taken(policy: &Policy, form: &Form) -> Vec<Span> {
    match form {
        Form::Purpose { name, .. } => taken_if(policy.purpose(name.text).is_some(), name),
        Form::Role { name, .. } => taken_if(policy.role(name.text).is_some(), name),
        Form::Attr { name, .. } => {
            taken_if(CLOCK_NAMES.contains(&name.text) || policy.attribute(name.text).is_some(), name)
        }
        // 01: "The pair of user and role is unique; a second such pair is 4 at the role."
        Form::User { name, role, .. } => match policy.role(role.text) {
            Some(known) => taken_if(policy.user_in_role(name.text, known).is_some(), role),
            None => Vec::new(),
        },
        Form::CondRole { name, .. } => taken_if(policy.cond_role(name.text).is_some(), name),
        Form::Grant { .. } => Vec::new(),
        Form::Label { name, allow, deny } => {
            let mut taken = taken_if(policy.label(name.text).is_some(), name);
            taken.extend(repeated(allow));
            taken.extend(repeated(deny));
            taken
        }
        Form::Table { name, columns, .. } => {
            let mut taken = taken_if(policy.table(name.text).is_some(), name);
            let names: Vec<Word> = columns.iter().map(|column| column.name).collect();
            taken.extend(repeated(&names));
            taken
        }
        Form::Row { .. } => Vec::new(),
        // 02, Q-2: "a second such line is 4", whatever the table's scheme.
        Form::Public { table } => {
            taken_if(policy.table(table.text).is_some_and(|place| policy.tables[place].public), table)
        }
        // A second such line is 25.
        Form::Inherited { .. } => Vec::new(),
    }
}

/// 01, 5: "A name is used only after the line that defines it."
pub fn names_unknown(policy: &Policy, form: &Form) -> Vec<Span> {
    let mut unknown = Vec::new();
    let mut uses = |name: &Word, known: bool| {
        if !known {
            unknown.push(name.span);
        }
    };
    match form {
        Form::Purpose { parent, .. } => {
            if let Some(above) = parent {
                uses(above, policy.purpose(above.text).is_some());
            }
        }
        Form::Role { parent, .. } => {
            if let Some(above) = parent {
                uses(above, policy.role(above.text).is_some());
            }
        }
        Form::Attr { role, .. } => uses(role, policy.role(role.text).is_some()),
        Form::User { role, values, .. } => {
            uses(role, policy.role(role.text).is_some());
            // An attribute of another role and a clock name are known, and 7 speaks of them.
            for (attribute, _) in values {
                let known = CLOCK_NAMES.contains(&attribute.text) || policy.attribute(attribute.text).is_some();
                uses(attribute, known);
            }
        }
        Form::CondRole { role, condition, .. } => {
            let known_role = policy.role(role.text);
            uses(role, known_role.is_some());
            // 01: "any other attribute there is 5".
            if let Some(role) = known_role {
                for comparison in condition.comparisons() {
                    let subject = &comparison.subject.name;
                    uses(subject, policy.condition_type(role, subject.text).is_some());
                }
            }
        }
        Form::Grant { purpose, cond_role } => {
            uses(purpose, policy.purpose(purpose.text).is_some());
            uses(cond_role, policy.cond_role(cond_role.text).is_some());
        }
        Form::Label { allow, deny, .. } => {
            for purpose in allow.iter().chain(deny) {
                uses(purpose, policy.purpose(purpose.text).is_some());
            }
        }
        Form::Table { scheme, columns, .. } => {
            if let Scheme::Table(label) = scheme {
                uses(label, policy.label(label.text).is_some());
            }
            for column in columns {
                if let Some(label) = &column.label {
                    uses(label, policy.label(label.text).is_some());
                }
            }
        }
        // 01: "For 5 it uses T and, in a row table, the first item if that is a name, in a cell table each bracket's L."
        // 02, Q-11: those of a nest table are "looked up for 5 as in row and cell tables".
        Form::Row { table, items } => {
            let known_table = policy.table(table.text);
            uses(table, known_table.is_some());
            let labelling = known_table.map(|place| policy.tables[place].labelling);
            if labelling.is_some_and(Labelling::rows_have_labels) {
                if let Some(RowItem::Plain(first)) = items.first() {
                    if let Some(name) = row_label(&items[0]) {
                        uses(&Word { text: name, span: first.span }, policy.label(name).is_some());
                    }
                }
            }
            if labelling.is_some_and(Labelling::cells_have_labels) {
                for item in items {
                    if let RowItem::Labelled(_, label) = item {
                        uses(label, policy.label(label.text).is_some());
                    }
                }
            }
        }
        // 02, Q-2: "T unknown is 5".
        Form::Public { table } => uses(table, policy.table(table.text).is_some()),
        Form::Inherited { table, label, .. } => {
            uses(table, policy.table(table.text).is_some());
            uses(label, policy.label(label.text).is_some());
        }
    }
    unknown
}

/// 01, 6: "a second root purpose".
pub fn second_root(policy: &Policy, form: &Form) -> bool {
    match form {
        Form::Purpose { parent: None, .. } => !policy.purposes.is_empty(),
        _ => false,
    }
}

/// 01, 7: "a row or user without the right count or set of values .. or row items not shaped for the table's scheme".
pub fn wrong_values(policy: &Policy, form: &Form) -> bool {
    match form {
        Form::User { role, values, .. } => match policy.role(role.text) {
            Some(role) => {
                let wanted = policy.attributes_of(role);
                let each_once = wanted.iter().all(|attribute| {
                    values.iter().filter(|(given, _)| given.text == attribute.name).count() == 1
                });
                !each_once || values.len() != wanted.len()
            }
            None => true,
        },
        Form::Row { table, items } => match policy.table(table.text) {
            Some(place) => {
                let columns = policy.tables[place].columns.len();
                match row_values(policy.tables[place].labelling, items) {
                    Some(values) => values.len() != columns,
                    None => true,
                }
            }
            None => true,
        },
        _ => false,
    }
}

/// The values of a row whose items are shaped for the scheme: `(row T v ..)`, `(row T L v ..)`, `(row T (v L) ..)`, and for nest
/// `(row T L (v L) ..)`.
fn row_values<'a>(labelling: Labelling, items: &[RowItem<'a>]) -> Option<Vec<Given<'a>>> {
    let values = if labelling.rows_have_labels() {
        let (first, rest) = items.split_first()?;
        row_label(first)?;
        rest
    } else {
        items
    };
    values
        .iter()
        .map(|item| match (item, labelling.cells_have_labels()) {
            (RowItem::Labelled(given, _), true) => Some(*given),
            (RowItem::Plain(given), false) => Some(*given),
            _ => None,
        })
        .collect()
}

/// 01, 8: "a value or operator of the wrong type".
pub fn wrong_types(policy: &Policy, form: &Form) -> Vec<Span> {
    match form {
        Form::User { values, .. } => {
            let mut wrong = Vec::new();
            for (name, given) in values {
                if let Some(attribute) = policy.attribute(name.text) {
                    wrong.extend(wrong_value(attribute.kind, given));
                }
            }
            wrong
        }
        Form::CondRole { role, condition, .. } => match policy.role(role.text) {
            Some(role) => condition.wrong_types(&|subject| policy.condition_type(role, subject.name.text)),
            None => Vec::new(),
        },
        Form::Row { table, items } => {
            let mut wrong = Vec::new();
            if let Some(place) = policy.table(table.text) {
                let values = row_values(policy.tables[place].labelling, items).unwrap_or_default();
                for (column, given) in policy.tables[place].columns.iter().zip(&values) {
                    wrong.extend(wrong_value(column.kind, given));
                }
            }
            wrong
        }
        _ => Vec::new(),
    }
}

/// 02, Q-12, 28: "LOW above HIGH .. at the range's own bracket".
pub fn ranges_reversed(policy: &Policy, form: &Form) -> Vec<Span> {
    row_faults(policy, form, &|value| matches!(value, Value::Range(low, high) if low > high))
}

/// 02, Q-14, 31: "no such date .. at the date's own bracket". A conditional role's dates are 8, there being no attribute of that type.
pub fn no_such_dates(policy: &Policy, form: &Form) -> Vec<Span> {
    row_faults(policy, form, &|value| matches!(value, Value::Date(date) if !date.exists()))
}

/// Where the values of a row stand that have a fault of their own.
fn row_faults(policy: &Policy, form: &Form, fault: &dyn Fn(Value) -> bool) -> Vec<Span> {
    let Form::Row { table, items } = form else { return Vec::new() };
    let Some(place) = policy.table(table.text) else { return Vec::new() };
    let values = row_values(policy.tables[place].labelling, items).unwrap_or_default();
    values.iter().filter(|given| fault(given.value)).map(|given| given.span).collect()
}

/// The value's place if it isn't of the type wanted.
fn wrong_value(wanted: Type, given: &Given) -> Option<Span> {
    if given.value.kind() == wanted {
        None
    } else {
        Some(given.span)
    }
}

/// 01, 9: "an attr line after any user line".
pub fn late_attribute(policy: &Policy, form: &Form) -> bool {
    match form {
        Form::Attr { .. } => !policy.users.is_empty(),
        _ => false,
    }
}

/// 02, Q-11, 25: "a strong or weak line given twice, after a row or for a table of another scheme".
pub fn misplaced_label(policy: &Policy, form: &Form) -> bool {
    let Form::Inherited { strength, table, .. } = form else { return false };
    let Some(place) = policy.table(table.text) else { return false };
    let table = &policy.tables[place];
    table.labelling != Labelling::Nest
        || table.inherited(*strength).is_some()
        || policy.rows.iter().any(|row| row.table == place)
}
