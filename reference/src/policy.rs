//! What the accepted lines of a document define, each kind in document order.

use crate::condition::Condition;
use crate::forms::{Form, RowItem, Scheme, Strength, Type, Value};
use crate::purpose::{Label, Tree};
use crate::text::Name;

/// 01: "`year`, `day`, `hour` exist already, as numbers."
pub const CLOCK_NAMES: [Name; 3] = [Name::of(b"year"), Name::of(b"day"), Name::of(b"hour")];

#[derive(Debug)]
pub struct Role<'a> {
    pub name: Name<'a>,
    pub parent: Option<usize>,
}

#[derive(Debug)]
pub struct Attribute<'a> {
    pub name: Name<'a>,
    pub role: usize,
    pub kind: Type,
}

/// A user form: the user, the role and the values in that role.
#[derive(Debug)]
pub struct User<'a> {
    pub name: Name<'a>,
    pub role: usize,
    pub values: Vec<(Name<'a>, Value<'a>)>,
}

#[derive(Debug)]
pub struct CondRole<'a> {
    pub name: Name<'a>,
    pub role: usize,
    pub condition: Condition<'a>,
}

#[derive(Debug)]
pub struct Grant {
    pub purpose: usize,
    pub cond_role: usize,
}

/// Where the labels of a table's cells stand.
#[derive(Clone, Copy, Debug, PartialEq, Eq)]
pub enum Labelling {
    None,
    Table(usize),
    Column,
    Row,
    Cell,
    /// 02, Q-11: a label for the row and one for each cell, below those of the table.
    Nest,
}

impl Labelling {
    /// `(row T L v ..)` and, of a nest table, `(row T L (v L) ..)`.
    pub fn rows_have_labels(self) -> bool {
        matches!(self, Labelling::Row | Labelling::Nest)
    }

    /// `(row T (v L) ..)` and, of a nest table, `(row T L (v L) ..)`.
    pub fn cells_have_labels(self) -> bool {
        matches!(self, Labelling::Cell | Labelling::Nest)
    }
}

#[derive(Debug)]
pub struct Column<'a> {
    pub name: Name<'a>,
    pub kind: Type,
    pub label: Option<usize>,
}

#[derive(Debug)]
pub struct Table<'a> {
    pub name: Name<'a>,
    pub labelling: Labelling,
    /// 02, Q-2: whether a `public` line names it, on a labelled table too, "where it does nothing".
    pub public: bool,
    /// 02, Q-11: the labels of its `weak` and `strong` lines, "each optional".
    pub weak: Option<usize>,
    pub strong: Option<usize>,
    pub columns: Vec<Column<'a>>,
}

impl Table<'_> {
    /// The label that the table's `weak` or `strong` line gives.
    pub fn inherited(&self, strength: Strength) -> Option<usize> {
        match strength {
            Strength::Weak => self.weak,
            Strength::Strong => self.strong,
        }
    }

    /// Where that label is kept.
    fn inherited_mut(&mut self, strength: Strength) -> &mut Option<usize> {
        match strength {
            Strength::Weak => &mut self.weak,
            Strength::Strong => &mut self.strong,
        }
    }
}

#[derive(Debug)]
pub struct Cell<'a> {
    pub value: Value<'a>,
    pub label: Option<usize>,
}

#[derive(Debug)]
pub struct Row<'a> {
    pub table: usize,
    pub label: Option<usize>,
    pub cells: Vec<Cell<'a>>,
}

#[derive(Debug, Default)]
pub struct Policy<'a> {
    pub purposes: Vec<Name<'a>>,
    pub tree: Tree,
    pub roles: Vec<Role<'a>>,
    pub attributes: Vec<Attribute<'a>>,
    pub users: Vec<User<'a>>,
    pub cond_roles: Vec<CondRole<'a>>,
    pub grants: Vec<Grant>,
    pub label_names: Vec<Name<'a>>,
    pub labels: Vec<Label>,
    /// The purposes that each label denies as its line wrote them (02, Q-8), in its order.
    pub denied_names: Vec<Vec<Name<'a>>>,
    pub tables: Vec<Table<'a>>,
    pub rows: Vec<Row<'a>>,
}

impl<'a> Policy<'a> {
    /// The purpose of a name.
    pub fn purpose(&self, name: Name) -> Option<usize> {
        self.purposes.iter().position(|known| *known == name)
    }

    /// The role of a name.
    pub fn role(&self, name: Name) -> Option<usize> {
        self.roles.iter().position(|known| known.name == name)
    }

    /// The attribute of a name, clock names apart.
    pub fn attribute(&self, name: Name) -> Option<&Attribute<'a>> {
        self.attributes.iter().find(|known| known.name == name)
    }

    /// The conditional role of a name.
    pub fn cond_role(&self, name: Name) -> Option<usize> {
        self.cond_roles.iter().position(|known| known.name == name)
    }

    /// The label of a name.
    pub fn label(&self, name: Name) -> Option<usize> {
        self.label_names.iter().position(|known| *known == name)
    }

    /// The table of a name.
    pub fn table(&self, name: Name) -> Option<usize> {
        self.tables.iter().position(|known| known.name == name)
    }

    /// Whether some user form has this user.
    pub fn knows_user(&self, name: Name) -> bool {
        self.users.iter().any(|known| known.name == name)
    }

    /// The user form of a user and a role.
    pub fn user_in_role(&self, name: Name, role: usize) -> Option<&User<'a>> {
        self.users.iter().find(|known| known.name == name && known.role == role)
    }

    /// 01: ancestors and descendants include "among roles the role itself".
    pub fn role_descends(&self, low: usize, high: usize) -> bool {
        let mut here = Some(low);
        while let Some(place) = here {
            if place == high {
                return true;
            }
            // A parent stands on an earlier line than its child, so the walk ends.
            here = self.roles.get(place).and_then(|role| role.parent);
        }
        false
    }

    /// 01: "each attribute defined at it or above".
    pub fn attributes_of(&self, role: usize) -> Vec<&Attribute<'a>> {
        self.attributes.iter().filter(|attribute| self.role_descends(role, attribute.role)).collect()
    }

    /// 01: "over attributes of ROLE and those above, and the clock".
    pub fn condition_type(&self, role: usize, name: Name) -> Option<Type> {
        if CLOCK_NAMES.contains(&name) {
            return Some(Type::Num);
        }
        self.attributes_of(role).into_iter().find(|attribute| attribute.name == name).map(|attribute| attribute.kind)
    }

    /// Takes a line that the rules found without fault; none if one of its names isn't known after all.
    pub fn record(&mut self, form: Form<'a>) -> Option<()> {
        match form {
            Form::Purpose { name, parent } => {
                let parent = match parent {
                    Some(above) => Some(self.purpose(above.text)?),
                    None => None,
                };
                self.tree.add(parent).ok()?;
                self.purposes.push(name.text);
            }
            Form::Role { name, parent } => {
                let parent = match parent {
                    Some(above) => Some(self.role(above.text)?),
                    None => None,
                };
                self.roles.push(Role { name: name.text, parent });
            }
            Form::Attr { role, name, kind } => {
                let role = self.role(role.text)?;
                self.attributes.push(Attribute { name: name.text, role, kind });
            }
            Form::User { name, role, values } => {
                let role = self.role(role.text)?;
                let values = values.iter().map(|(attribute, given)| (attribute.text, given.value)).collect();
                self.users.push(User { name: name.text, role, values });
            }
            Form::CondRole { name, role, condition } => {
                let role = self.role(role.text)?;
                self.cond_roles.push(CondRole { name: name.text, role, condition });
            }
            Form::Grant { purpose, cond_role } => {
                let purpose = self.purpose(purpose.text)?;
                let cond_role = self.cond_role(cond_role.text)?;
                self.grants.push(Grant { purpose, cond_role });
            }
            Form::Label { name, allow, deny } => {
                let allowed = allow.iter().map(|p| self.purpose(p.text)).collect::<Option<Vec<_>>>()?;
                let denied = deny.iter().map(|p| self.purpose(p.text)).collect::<Option<Vec<_>>>()?;
                self.label_names.push(name.text);
                self.denied_names.push(deny.iter().map(|p| p.text).collect());
                self.labels.push(Label { allowed, denied });
            }
            Form::Table { name, scheme, columns } => {
                let labelling = match scheme {
                    Scheme::None => Labelling::None,
                    Scheme::Table(label) => Labelling::Table(self.label(label.text)?),
                    Scheme::Column => Labelling::Column,
                    Scheme::Row => Labelling::Row,
                    Scheme::Cell => Labelling::Cell,
                    Scheme::Nest => Labelling::Nest,
                };
                let mut kept = Vec::new();
                for column in &columns {
                    let label = match column.label {
                        Some(label) => Some(self.label(label.text)?),
                        None => None,
                    };
                    kept.push(Column { name: column.name.text, kind: column.kind, label });
                }
                self.tables.push(Table { name: name.text, labelling, public: false, weak: None, strong: None, columns: kept });
            }
            Form::Row { table, items } => {
                let table = self.table(table.text)?;
                let mut rest = &items[..];
                let mut label = None;
                if self.tables[table].labelling.rows_have_labels() {
                    let (first, others) = items.split_first()?;
                    label = Some(self.label(row_label(first)?)?);
                    rest = others;
                }
                let mut cells = Vec::new();
                for item in rest {
                    cells.push(match item {
                        RowItem::Plain(given) => Cell { value: given.value, label: None },
                        RowItem::Labelled(given, own) => Cell { value: given.value, label: Some(self.label(own.text)?) },
                    });
                }
                self.rows.push(Row { table, label, cells });
            }
            Form::Public { table } => {
                let table = self.table(table.text)?;
                self.tables[table].public = true;
            }
            Form::Inherited { strength, table, label } => {
                let table = self.table(table.text)?;
                let label = self.label(label.text)?;
                *self.tables[table].inherited_mut(strength) = Some(label);
            }
        }
        Some(())
    }
}

/// 01: "in a row table, the first item if that is a name"; 02, Q-11: in a nest table too.
pub fn row_label<'a>(first: &RowItem<'a>) -> Option<Name<'a>> {
    match first {
        RowItem::Plain(given) => match given.value {
            Value::Name(name) => Some(name),
            Value::Number(_) | Value::Range(..) | Value::Date(_) => None,
        },
        RowItem::Labelled(..) => None,
    }
}
