//! The rows of a document and a query on them in SQL, modified for its purpose, for peers that hold the rows with their labels.
//! Names have no case (02, Q-8): all but the values of rows are held in small letters.

/// A bracket text: a word or a list.
enum Form {
    Word { written: String, small: String },
    List(Vec<Form>),
}

impl Form {
    /// A keyword, a name or a number, in small letters.
    fn word(&self) -> &str {
        match self {
            Form::Word { small, .. } => small,
            Form::List(_) => panic!("a word is wanted"),
        }
    }

    /// The value of a row, which is printed as it is written; of a date one number, which stands in the order of dates and is not printed.
    fn value(&self) -> Value {
        match self {
            Form::Word { written, .. } => Value::of(written),
            Form::List(parts) => Value::Number(parts.iter().fold(0, |date, part| 100 * date + part.word().parse::<i64>().expect("a date"))),
        }
    }

    /// A column as a condition names it: plainly, or in a join with its table.
    fn column(&self) -> String {
        match self {
            Form::Word { small, .. } => small.clone(),
            Form::List(parts) => format!("{}.{}", parts[1].word(), parts[2].word()),
        }
    }

    fn list(&self) -> &[Form] {
        match self {
            Form::List(forms) => forms,
            Form::Word { .. } => panic!("a list is wanted"),
        }
    }
}

/// One bracket text that the gate has accepted.
fn read(text: &str) -> Form {
    let mut open = vec![Vec::new()];
    for word in text.replace('(', " ( ").replace(')', " ) ").split_whitespace() {
        match word {
            "(" => open.push(Vec::new()),
            ")" => {
                let done = open.pop().expect("brackets in pairs");
                open.last_mut().expect("brackets in pairs").push(Form::List(done));
            }
            _ => {
                let word = Form::Word { written: word.to_string(), small: word.to_ascii_lowercase() };
                open.last_mut().expect("brackets in pairs").push(word);
            }
        }
    }
    open.remove(0).remove(0)
}

/// What stands in a field of a row.
pub enum Value {
    Name(String),
    Number(i64),
}

impl Value {
    fn of(word: &str) -> Value {
        word.parse().map_or_else(|_| Value::Name(word.to_string()), Value::Number)
    }
}

/// A set of purposes or of labels, a bit each. SQL's numbers are signed; the 64th bit is the sign.
type Mask = i64;

/// How a row has a label.
#[derive(Clone, Copy, PartialEq, Eq)]
pub enum Held {
    /// As in the paper, by its two masks: the allowed one has an ancestor of the purpose, the denied one no relative of it.
    Masks,
    /// By its number; the query has the set of the labels that are open to its purpose. The gate does the same.
    Number,
}

impl Held {
    /// The fields of a label, with their types in SQL.
    fn fields(self, of: &str) -> Vec<String> {
        let fields: &[&str] = match self {
            Held::Masks => &["allowed", "denied"],
            Held::Number => &["label"],
        };
        fields.iter().map(|field| format!("{of}_{field} BIGINT")).collect()
    }
}

/// How a peer compares a column of names with a name, without the case of the 26 ASCII letters (02, Q-8).
#[derive(Clone, Copy, PartialEq, Eq)]
pub enum Compared {
    /// By the column's collation, as SQLite has one for it.
    Collated,
    /// By the column in small letters, as PostgreSQL does where its locale is C.
    Lowered,
}

impl Compared {
    /// The type of a column of names.
    fn kind(self) -> &'static str {
        match self {
            Compared::Collated => "TEXT COLLATE NOCASE",
            Compared::Lowered => "TEXT",
        }
    }

    /// What is compared with a name in small letters.
    fn column(self, column: &str) -> String {
        match self {
            Compared::Collated => column.into(),
            Compared::Lowered => format!("lower({column})"),
        }
    }
}

struct Label {
    name: String,
    allowed: Mask,
    denied: Mask,
}

struct Column {
    name: String,
    holds_numbers: bool,
}

/// A table with its rows, whose labels stand where a row line has them.
pub struct Table {
    pub name: String,
    scheme: String,
    held: Held,
    compared: Compared,
    columns: Vec<Column>,
    pub rows: Vec<Vec<Value>>,
}

impl Table {
    /// The fields, with their types in SQL.
    fn fields(&self) -> Vec<String> {
        let mut fields = Vec::new();
        if self.scheme == "row" {
            fields.extend(self.held.fields(ROW));
        }
        for column in &self.columns {
            fields.push(format!("{} {}", column.name, if column.holds_numbers { "BIGINT" } else { self.compared.kind() }));
            if self.scheme == "cell" {
                fields.extend(self.held.fields(&column.name));
            }
        }
        fields
    }

    pub fn create(&self) -> String {
        format!("CREATE TABLE {} ({})", self.name, self.fields().join(", "))
    }

    /// How many fields a row has.
    pub fn width(&self) -> usize {
        self.fields().len()
    }
}

/// What the label of a whole row is a label of. No column has this name.
const ROW: &str = "whole_row";

/// What the peers hold of a document. Labels of tables and columns are rows of a table of their own, a table's label without a column;
/// so are the tables that are declared public.
pub struct Document {
    parents: Vec<(String, Option<String>)>,
    labels: Vec<Label>,
    held: Held,
    compared: Compared,
    pub tables: Vec<Table>,
}

fn set(places: impl Iterator<Item = usize>) -> Mask {
    places.map(|place| 1u64.checked_shl(place as u32).expect("64 at most")).fold(0, |set, bit| set | bit) as Mask
}

fn by_masks(of: &str, [above, related]: [Mask; 2]) -> String {
    format!("({of}allowed & {above}) <> 0 AND ({of}denied & {related}) = 0")
}

/// The table of labels of tables and columns, which is the first.
const LABELS: &str = "labels";
/// The table of the tables that are declared public (02, Q-2), which is the second.
const PUBLIC: &str = "public_tables";

impl Document {
    pub fn read(text: &[u8], held: Held, compared: Compared) -> Document {
        let mut document = Document { parents: Vec::new(), labels: Vec::new(), held, compared, tables: Vec::new() };
        let column = |(name, holds_numbers): (&str, bool)| Column { name: name.into(), holds_numbers };
        let columns = [("of_table", false), ("of_column", false), ("allowed", true), ("denied", true)];
        document.tables.push(document.table(LABELS, "none", columns.map(column).into()));
        document.tables.push(document.table(PUBLIC, "none", vec![column(("of_table", false))]));
        for line in std::str::from_utf8(text).expect("an accepted text").lines() {
            let form = read(line);
            let [kind, name, rest @ ..] = form.list() else { panic!("a line has a name") };
            match kind.word() {
                "purpose" => document.parents.push((name.word().into(), rest.first().map(|parent| parent.word().into()))),
                "label" => {
                    let [allowed, denied] = [&rest[0], &rest[1]].map(|set| document.mask(set.list()[1..].iter().map(Form::word)));
                    document.labels.push(Label { name: name.word().into(), allowed, denied });
                }
                "table" => document.add_table(name.word(), rest),
                "public" => document.tables[1].rows.push(vec![Value::Name(name.word().into())]),
                "row" => document.add_row(name.word(), rest),
                _ => {}
            }
        }
        document
    }

    /// A table without rows.
    fn table(&self, name: &str, scheme: &str, columns: Vec<Column>) -> Table {
        Table { name: name.into(), scheme: scheme.into(), held: self.held, compared: self.compared, columns, rows: Vec::new() }
    }

    fn mask<'a>(&self, purposes: impl Iterator<Item = &'a str>) -> Mask {
        let place = |purpose: &str| self.parents.iter().position(|(name, _)| name == purpose).expect("a purpose of the document");
        set(purposes.map(place))
    }

    fn label(&self, name: &str) -> usize {
        self.labels.iter().position(|label| label.name == name).expect("a label of the document")
    }

    fn add_label(&mut self, table: &str, column: &str, label: &str) {
        let Label { allowed, denied, .. } = self.labels[self.label(label)];
        let names = [table, column].map(|name| Value::Name(name.into()));
        self.tables[0].rows.push(names.into_iter().chain([allowed, denied].map(Value::Number)).collect());
    }

    fn add_table(&mut self, name: &str, rest: &[Form]) {
        let scheme = rest[0].word();
        let columns = if scheme == "table" { &rest[2..] } else { &rest[1..] };
        if scheme == "table" {
            self.add_label(name, "", rest[1].word());
        }
        for column in columns.iter().map(Form::list).filter(|_| scheme == "column") {
            self.add_label(name, column[0].word(), column[2].word());
        }
        let columns = columns.iter().map(Form::list);
        let columns = columns.map(|column| Column { name: column[0].word().into(), holds_numbers: column[1].word() != "name" });
        self.tables.push(self.table(name, scheme, columns.collect()));
    }

    fn add_row(&mut self, name: &str, items: &[Form]) {
        let place = self.tables.iter().position(|table| table.name == name).expect("a table of the document");
        let labels = |label: &Form| {
            let number = self.label(label.word());
            let Label { allowed, denied, .. } = self.labels[number];
            let fields = if self.held == Held::Masks { vec![allowed, denied] } else { vec![number as i64] };
            fields.into_iter().map(Value::Number)
        };
        let mut row = Vec::new();
        match self.tables[place].scheme.as_str() {
            "row" => {
                row.extend(labels(&items[0]));
                row.extend(items[1..].iter().map(Form::value));
            }
            "cell" => {
                for item in items.iter().map(Form::list) {
                    row.push(item[0].value());
                    row.extend(labels(&item[1]));
                }
            }
            _ => row.extend(items.iter().map(Form::value)),
        }
        self.tables[place].rows.push(row);
    }

    /// Whether a table has labels or is declared public: another one is closed to every purpose (02, Q-2).
    pub fn serves(&self, table: &Table) -> bool {
        let mut public = self.tables[1].rows.iter().flatten();
        table.scheme != "none" || public.any(|value| matches!(value, Value::Name(name) if *name == table.name))
    }

    fn ancestors<'a>(&'a self, purpose: &'a str) -> Vec<&'a str> {
        let mut found = vec![purpose];
        while let Some((_, Some(parent))) = self.parents.iter().find(|(name, _)| name == found[found.len() - 1]) {
            found.push(parent);
        }
        found
    }

    /// The ancestors of a purpose, itself with them, and its relatives.
    fn around(&self, purpose: &str) -> [Mask; 2] {
        let above = self.ancestors(purpose);
        let names = self.parents.iter().map(|(name, _)| name.as_str());
        let related = names.filter(|name| above.contains(name) || self.ancestors(name).contains(&purpose));
        [self.mask(above.iter().copied()), self.mask(related)]
    }

    /// Whether the label of a row or cell is open to the purpose.
    fn opened(&self, purpose: &str, of: &str) -> String {
        let [above, related] = self.around(purpose);
        if self.held == Held::Masks {
            return by_masks(&format!("{of}_"), [above, related]);
        }
        let open = |label: &Label| label.allowed & above != 0 && label.denied & related == 0;
        let open = set(self.labels.iter().enumerate().filter(|(_, label)| open(label)).map(|(number, _)| number));
        format!("({open} >> {of}_label) & 1 = 1")
    }

    /// The query modified for its purpose.
    pub fn modify(&self, query: &str) -> Modified {
        let form = read(query);
        let [kind, _, _, purpose, name, rest @ ..] = form.list() else { panic!("a query has a table") };
        let (purpose, name) = (purpose.word(), name.word());
        let table = self.tables.iter().find(|table| table.name == name).expect("a table of the document");
        let blank = kind.word() == "blank";
        let (selected, rest) = if kind.word() == "count" { (&[][..], rest) } else { (rest[0].list(), &rest[1..]) };
        let selected: Vec<String> = selected.iter().map(|column| column.word().to_string()).collect();
        let mut tested = Vec::new();
        let condition = rest.first().map(|form| condition(form, self.compared, &mut tested));
        let mut named = [selected.clone(), tested.clone()].concat();
        // 02, Q-10: a row of a blank is withheld for the cells of its condition alone.
        let mut withholding = if blank { tested } else { named.clone() };
        for names in [&mut named, &mut withholding] {
            names.sort();
            names.dedup();
        }
        let gaps = blank && table.scheme == "cell";
        let given = |column: &String| if gaps { format!("CASE WHEN {} THEN {column} END", self.opened(purpose, column)) } else { column.clone() };
        let closed = |among: String| format!("SELECT count(*) FROM {LABELS} WHERE of_table = '{name}' AND {among} AND NOT ({})", by_masks("", self.around(purpose)));
        let quoted: Vec<String> = named.iter().map(|column| format!("'{column}'")).collect();
        let holds_numbers = |name: &String| table.columns.iter().any(|column| column.name == *name && column.holds_numbers);
        Modified {
            closed: match table.scheme.as_str() {
                "none" => Some(format!("SELECT 1 - count(*) FROM {PUBLIC} WHERE of_table = '{name}'")),
                "table" => Some(closed("of_column = ''".into())),
                "column" => Some(closed(format!("of_column IN ({})", quoted.join(", ")))),
                _ => None,
            },
            opened: match table.scheme.as_str() {
                "row" => Some(self.opened(purpose, ROW)),
                "cell" if withholding.is_empty() => None,
                "cell" => Some(withholding.iter().map(|column| self.opened(purpose, column)).collect::<Vec<_>>().join(" AND ")),
                _ => None,
            },
            holds_numbers: selected.iter().map(holds_numbers).collect(),
            table: name.into(),
            selected: selected.iter().map(given).collect(),
            gaps,
            condition,
        }
    }
}

/// A join of two tables with labels at their rows (02, Q-3), modified for its purpose.
pub struct Joined {
    pub tables: [String; 2],
    pub keys: [String; 2],
    /// Whether a row of each table is open.
    pub opened: [String; 2],
    /// That the keys are equal, and the condition.
    tests: Vec<String>,
    selected: Vec<String>,
    pub holds_numbers: Vec<bool>,
}

impl Document {
    pub fn modify_join(&self, query: &str) -> Joined {
        let form = read(query);
        let [_, _, _, purpose, first, second, key, other, selected, rest @ ..] = form.list() else { panic!("a join has two tables and keys") };
        let tables = [first, second].map(|table| table.word().to_string());
        let keys = [key, other].map(|key| key.word().to_string());
        let holds_numbers = |table: &str, name: &str| {
            let table = self.tables.iter().find(|known| known.name == table).expect("a table of the document");
            table.columns.iter().any(|column| column.name == name && column.holds_numbers)
        };
        let compared = |place: usize| {
            let column = format!("{}.{}", tables[place], keys[place]);
            if holds_numbers(&tables[place], &keys[place]) { column } else { self.compared.column(&column) }
        };
        let mut tests = vec![format!("{} = {}", compared(0), compared(1))];
        tests.extend(rest.first().map(|form| condition(form, self.compared, &mut Vec::new())));
        Joined {
            opened: [0, 1].map(|place: usize| self.opened(purpose.word(), &format!("{}.{ROW}", tables[place]))),
            tests,
            selected: selected.list().iter().map(Form::column).collect(),
            holds_numbers: selected.list().iter().map(|column| holds_numbers(column.list()[1].word(), column.list()[2].word())).collect(),
            tables,
            keys,
        }
    }
}

impl Joined {
    /// The pairs, those of one row of the first table after the other: SQLite keeps to the order in which tables stand in a cross join.
    pub fn pairs(&self) -> String {
        format!("{} AND {} AND {}", self.unlabelled(), self.opened[0], self.opened[1])
    }

    /// The same without the labels, for a server that tests them itself.
    pub fn unlabelled(&self) -> String {
        let Joined { tables: [first, second], selected, tests, .. } = self;
        format!("SELECT {} FROM {first} CROSS JOIN {second} WHERE {}", selected.join(", "), tests.join(" AND "))
    }

    /// How many rows of each table are withheld.
    pub fn withheld(&self) -> [String; 2] {
        [0, 1].map(|place: usize| format!("SELECT count(*) FROM {} WHERE NOT ({})", self.tables[place], self.opened[place]))
    }
}

/// A condition in SQL; the columns that it names are added to the others.
fn condition(form: &Form, compared: Compared, named: &mut Vec<String>) -> String {
    let [word, rest @ ..] = form.list() else { panic!("a condition has a word") };
    let operator = match word.word() {
        "eq" => "=",
        "ne" => "<>",
        "lt" => "<",
        "le" => "<=",
        "gt" => ">",
        "ge" => ">=",
        "not" => return format!("(NOT {})", condition(&rest[0], compared, named)),
        joined => {
            let parts: Vec<String> = rest.iter().map(|part| condition(part, compared, named)).collect();
            return format!("({})", parts.join(&format!(" {} ", joined.to_uppercase())));
        }
    };
    let column = rest[0].column();
    named.push(column.clone());
    match Value::of(rest[1].word()) {
        Value::Name(name) => format!("({} {operator} '{name}')", compared.column(&column)),
        Value::Number(number) => format!("({column} {operator} {number})"),
    }
}

/// A query that is modified for its purpose.
pub struct Modified {
    /// Counts what is closed of the table's label or of the named columns', or the table if it has no labels and isn't public; where it
    /// finds one there is no answer.
    pub closed: Option<String>,
    /// Whether a row is open, where rows or cells have labels.
    pub opened: Option<String>,
    pub condition: Option<String>,
    pub table: String,
    /// The selected columns; of a blank over cells, NULL for a closed one.
    pub selected: Vec<String>,
    pub gaps: bool,
    /// Which of the selected columns hold numbers.
    pub holds_numbers: Vec<bool>,
}

impl Modified {
    fn over_rows(&self, what: &str, tests: &[&str]) -> String {
        let tests = if tests.is_empty() { String::new() } else { format!(" WHERE {}", tests.join(" AND ")) };
        format!("SELECT {what} FROM {}{tests}", self.table)
    }

    /// The rows, or for a count their number: the condition is tested first, then the labels, as the paper adds them (Fig. 5).
    pub fn rows(&self) -> String {
        self.tested(self.condition.iter().chain(&self.opened))
    }

    /// The same with the labels tested first, where rows or cells have them.
    pub fn labels_first(&self) -> Option<String> {
        self.opened.as_ref().map(|_| self.tested(self.opened.iter().chain(&self.condition)))
    }

    fn tested<'a>(&self, tests: impl Iterator<Item = &'a String>) -> String {
        let what = if self.selected.is_empty() { "count(*)".into() } else { self.selected.join(", ") };
        self.over_rows(&what, &tests.map(String::as_str).collect::<Vec<_>>())
    }

    /// How many rows are withheld; none where no row and no cell has a label.
    pub fn withheld(&self) -> Option<String> {
        self.opened.as_ref().map(|opened| self.over_rows("count(*)", &[&format!("NOT ({opened})")]))
    }

    /// How many rows there are.
    pub fn all(&self) -> String {
        self.over_rows("count(*)", &[])
    }
}
