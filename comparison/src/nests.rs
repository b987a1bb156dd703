//! 02, Q-11: nest tables under every choice of a weak, a strong, a row's and a cell's label out of sixteen, asked by a blank for each
//! purpose: the gate, the second implementation and the generator's own `nested` have to agree on every cell.

use crate::compare::{Buffers, Difference, Question, LONGEST_RESERVE};
use crate::gate::Second;
use crate::model::*;
use reference::Clock;
use std::fmt;

const CLOCK: Clock = Clock { year: 2028, day: 366, hour: 10 };
/// Root over mid and side, mid over leaf.
const PURPOSES: [(&str, Option<usize>); 4] = [("root", None), ("mid", Some(0)), ("leaf", Some(1)), ("side", Some(0))];
/// What a label allows, and what it denies: every one of these with every one of those.
const ALLOWED: [Option<usize>; 4] = [None, Some(0), Some(1), Some(2)];
const DENIED: [Option<usize>; 4] = [None, Some(1), Some(2), Some(3)];
const LABELS: usize = ALLOWED.len() * DENIED.len();
/// 01: "8 tables".
const TABLES: usize = 8;

#[derive(Default)]
pub struct NestTally {
    tables: u64,
    /// Cells by what their labels come to, in the order of `Nested`.
    cells: [u64; 6],
}

impl NestTally {
    /// Whether something never came up.
    pub fn lacks(&self) -> bool {
        self.cells.contains(&0)
    }
}

impl fmt::Display for NestTally {
    fn fmt(&self, f: &mut fmt::Formatter) -> fmt::Result {
        let [denied, allowed, weakly_denied, weakly_allowed, again, unsaid] = self.cells;
        write!(
            f,
            "{} tables, one for each weak and strong label, all rows' and cells' labels in each; cells strongly denied {denied}, strongly allowed {allowed}, weakly denied {weakly_denied}, weakly allowed {weakly_allowed}, again after a denial {again}, neither {unsaid}",
            self.tables
        )
    }
}

/// The purposes, a user who may act for all of them, and the labels.
fn base() -> Model {
    let mut model = Model::default();
    for (place, (name, parent)) in PURPOSES.into_iter().enumerate() {
        model.purposes.push(Node { name: name.to_string(), parent });
        model.lines.push(Line::Purpose(place));
    }
    model.roles.push(Node { name: "desk".to_string(), parent: None });
    model.users.push(User { name: "ana".to_string(), role: 0, values: Vec::new() });
    let condition = Condition::Compare("ge", "hour".to_string(), Value::Num(0));
    model.cond_roles.push(CondRole { name: "any".to_string(), role: 0, condition });
    model.grants.push(Grant { purpose: 0, cond_role: 0 });
    model.lines.extend([Line::Role(0), Line::User(0), Line::CondRole(0), Line::Grant(0)]);
    for allow in ALLOWED {
        for deny in DENIED {
            let name = format!("l{}", model.labels.len());
            model.labels.push(Label { name, allow: allow.into_iter().collect(), deny: deny.into_iter().collect() });
            model.lines.push(Line::Label(model.labels.len() - 1));
        }
    }
    model
}

/// A table with these labels, and a row for each label with a cell for each label.
fn add(model: &mut Model, weak: Option<usize>, strong: Option<usize>) {
    let table = model.tables.len();
    let column = |place: usize| Column { name: format!("c{place}"), kind: Type::Num, ranged: false, label: 0 };
    model.tables.push(Table { name: format!("t{table}"), scheme: Scheme::Nest, public: false, weak, strong, columns: (0..LABELS).map(column).collect() });
    model.lines.push(Line::Table(table));
    model.lines.extend(weak.map(|_| Line::Weak(table)).into_iter().chain(strong.map(|_| Line::Strong(table))));
    for label in 0..LABELS {
        let cells = (0..LABELS).map(|own| (Value::Num((label * LABELS + own) as i64), own)).collect();
        model.rows.push(Row { table, label, cells });
        model.lines.push(Line::Row(model.rows.len() - 1));
    }
}

/// A blank of every column of a table for a purpose.
fn query(model: &Model, table: usize, purpose: usize) -> Vec<u8> {
    let columns: Vec<&str> = model.tables[table].columns.iter().map(|column| column.name.as_str()).collect();
    format!("(blank ana desk {} {} ({}))", model.purposes[purpose].name, model.tables[table].name, columns.join(" ")).into_bytes()
}

/// What the generator holds for the answer.
fn held(model: &Model, table: usize, purpose: usize, tally: &mut NestTally) -> String {
    let mut text = String::new();
    for row in model.rows.iter().filter(|row| row.table == table) {
        text += "(row";
        for (column, (value, _)) in row.cells.iter().enumerate() {
            let nested = model.nested(row, column, purpose);
            tally.cells[nested as usize] += 1;
            text += &if nested.is_open() { format!(" {value}") } else { " -".to_string() };
        }
        text += ")\n";
    }
    text + &format!("(end {LABELS} 0 0)\n")
}

/// Every table, eight to a document.
pub fn all(second: Second, buffers: &mut Buffers) -> Result<NestTally, Difference> {
    let mut tally = NestTally::default();
    let given = || std::iter::once(None).chain((0..LABELS).map(Some));
    let choices: Vec<(Option<usize>, Option<usize>)> = given().flat_map(|weak| given().map(move |strong| (weak, strong))).collect();
    for some in choices.chunks(TABLES) {
        let mut model = base();
        for &(weak, strong) in some {
            add(&mut model, weak, strong);
        }
        let doc = model.text();
        for table in 0..some.len() {
            tally.tables += 1;
            for purpose in 0..PURPOSES.len() {
                let question = Question { query: query(&model, table, purpose), clock: CLOCK, buffer: LONGEST_RESERVE };
                buffers.ask(second, &doc, &question)?;
                let expected = held(&model, table, purpose, &mut tally);
                let gate = String::from_utf8_lossy(buffers.given(expected.len())).into_owned();
                if gate != expected {
                    let what = "both give an answer of a nest table that the generator holds otherwise".to_string();
                    return Err(Difference { what, doc, alike: None, question: Some(question), gate, second: expected });
                }
            }
        }
    }
    Ok(tally)
}
