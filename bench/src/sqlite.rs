//! SQLite by its C interface, in memory, with the rows of a document and prepared queries.

use crate::documents::Case;
use crate::modified::{Compared, Document, Held, Modified, Table, Value};
use crate::writing::Writing;
use crate::{Call, BUFFER};
use std::ffi::{c_char, c_int, c_void, CStr, CString};
use std::ptr::{null, null_mut};

#[repr(C)]
struct Handle([u8; 0]);
#[repr(C)]
struct Program([u8; 0]);

extern "C" {
    fn sqlite3_libversion() -> *const c_char;
    fn sqlite3_open_v2(name: *const c_char, handle: *mut *mut Handle, flags: c_int, module: *const c_char) -> c_int;
    fn sqlite3_close(handle: *mut Handle) -> c_int;
    fn sqlite3_errmsg(handle: *mut Handle) -> *const c_char;
    fn sqlite3_prepare_v2(handle: *mut Handle, text: *const c_char, len: c_int, made: *mut *mut Program, tail: *mut *const c_char) -> c_int;
    fn sqlite3_finalize(program: *mut Program) -> c_int;
    fn sqlite3_step(program: *mut Program) -> c_int;
    fn sqlite3_reset(program: *mut Program) -> c_int;
    fn sqlite3_bind_int64(program: *mut Program, place: c_int, value: i64) -> c_int;
    fn sqlite3_bind_text(program: *mut Program, place: c_int, text: *const c_char, len: c_int, free: *const c_void) -> c_int;
    fn sqlite3_column_type(program: *mut Program, place: c_int) -> c_int;
    fn sqlite3_column_int64(program: *mut Program, place: c_int) -> i64;
    fn sqlite3_column_text(program: *mut Program, place: c_int) -> *const u8;
    fn sqlite3_column_bytes(program: *mut Program, place: c_int) -> c_int;
}

const OK: c_int = 0;
const ROW: c_int = 100;
const DONE: c_int = 101;
/// The type of a value that is missing.
const NULL: c_int = 5;
/// Readable, writable, made if it isn't there; no locks, since one thread alone uses it: the cheapest way that there is.
const FLAGS: c_int = 0x2 | 0x4 | 0x8000;

pub struct Database(*mut Handle);

impl Database {
    fn open() -> Database {
        let mut handle = null_mut();
        // Sound: the name ends with a zero byte, and the handle is written here.
        let said = unsafe { sqlite3_open_v2(c":memory:".as_ptr(), &mut handle, FLAGS, null()) };
        assert_eq!(said, OK, "SQLite opens a database in memory");
        Database(handle)
    }

    pub fn prepare(&self, text: &str) -> Statement {
        let mut program = null_mut();
        // Sound: the handle is open, the text has its length, and the program is written here.
        let said = unsafe { sqlite3_prepare_v2(self.0, text.as_ptr().cast(), text.len() as c_int, &mut program, null_mut()) };
        // Sound: the message stands until the next call.
        assert_eq!(said, OK, "{text}: {:?}", unsafe { CStr::from_ptr(sqlite3_errmsg(self.0)) });
        Statement(program)
    }

    pub fn run(&self, text: &str) {
        self.prepare(text).to_its_end();
    }

    fn fill(&self, table: &Table) {
        self.run(&table.create());
        let insert = self.prepare(&format!("INSERT INTO {} VALUES ({})", table.name, vec!["?"; table.width()].join(", ")));
        for row in &table.rows {
            for (place, value) in (1..).zip(row) {
                insert.bind(place, value);
            }
            insert.to_its_end();
        }
    }

    pub fn load(document: &Document) -> Database {
        let database = Database::open();
        database.run("BEGIN");
        for table in &document.tables {
            database.fill(table);
        }
        database.run("COMMIT");
        database
    }
}

impl Drop for Database {
    fn drop(&mut self) {
        // Sound: the statements hold it no longer, as they are dropped before (`Form` has them first, and so have joins).
        unsafe { sqlite3_close(self.0) };
    }
}

pub struct Statement(*mut Program);

impl Statement {
    /// Whether there is one row more. Behind the last one the statement begins again.
    pub fn step(&self) -> bool {
        // Sound, here and below: the program is prepared and not yet finalized.
        match unsafe { sqlite3_step(self.0) } {
            ROW => true,
            said => {
                assert_eq!(said, DONE, "SQLite goes on");
                unsafe { sqlite3_reset(self.0) };
                false
            }
        }
    }

    fn to_its_end(&self) {
        while self.step() {}
    }

    fn bind(&self, place: c_int, value: &Value) {
        let said = match value {
            Value::Number(number) => unsafe { sqlite3_bind_int64(self.0, place, *number) },
            // Sound: the text stays where it is until the row is inserted.
            Value::Name(name) => unsafe { sqlite3_bind_text(self.0, place, name.as_ptr().cast(), name.len() as c_int, null()) },
        };
        assert_eq!(said, OK, "SQLite takes a value");
    }

    pub fn number(&self, place: usize) -> i64 {
        unsafe { sqlite3_column_int64(self.0, place as c_int) }
    }

    fn is_null(&self, place: usize) -> bool {
        unsafe { sqlite3_column_type(self.0, place as c_int) == NULL }
    }

    /// Sound as long as the row stands, which is until the next step.
    pub fn name(&self, place: usize) -> &[u8] {
        unsafe {
            let text = sqlite3_column_text(self.0, place as c_int);
            if text.is_null() {
                return &[];
            }
            std::slice::from_raw_parts(text, sqlite3_column_bytes(self.0, place as c_int) as usize)
        }
    }

    /// The only number of the only row.
    pub fn only(&self) -> u64 {
        assert!(self.step(), "a count is one row");
        let number = self.number(0);
        self.to_its_end();
        number as u64
    }
}

impl Drop for Statement {
    fn drop(&mut self) {
        unsafe { sqlite3_finalize(self.0) };
    }
}

/// A modified query, prepared.
struct Query {
    closed: Option<Statement>,
    rows: Statement,
    labels_first: Option<Statement>,
    withheld: Option<Statement>,
    all: Statement,
    holds_numbers: Vec<bool>,
    /// Whether values may be missing: those of a blank over cells.
    gaps: bool,
}

impl Query {
    fn new(database: &Database, modified: Modified) -> Query {
        let prepare = |text: String| database.prepare(&text);
        Query {
            rows: prepare(modified.rows()),
            labels_first: modified.labels_first().map(prepare),
            withheld: modified.withheld().map(prepare),
            all: prepare(modified.all()),
            closed: modified.closed.map(prepare),
            holds_numbers: modified.holds_numbers,
            gaps: modified.gaps,
        }
    }

    fn is_open(&self) -> bool {
        self.closed.as_ref().map_or(true, |closed| closed.only() == 0)
    }

    /// Looks at every value of every row, and writes none; of a count, at the number. Sums them.
    fn looked_at(&self, rows: &Statement) -> u64 {
        if !self.is_open() {
            return 0;
        }
        if self.holds_numbers.is_empty() {
            return rows.only();
        }
        let mut sum = 0;
        while rows.step() {
            for (place, &holds_numbers) in self.holds_numbers.iter().enumerate() {
                sum += if holds_numbers { rows.number(place) as u64 } else { rows.name(place).len() as u64 };
            }
        }
        sum
    }

    /// Writes the row lines; how many there are.
    fn put_rows(&self, rows: &Statement, out: &mut Writing) -> u64 {
        let mut passed = 0;
        while rows.step() {
            out.bytes(b"(row");
            for (place, &holds_numbers) in self.holds_numbers.iter().enumerate() {
                out.byte(b' ');
                if self.gaps && rows.is_null(place) {
                    out.byte(b'-');
                } else if holds_numbers {
                    out.number(rows.number(place));
                } else {
                    out.bytes(rows.name(place));
                }
            }
            out.bytes(b")\n");
            passed += 1;
        }
        passed
    }

    /// Writes the whole answer: the rows that pass are counted on the way, those withheld and all by a query of their own, and the rest
    /// is the difference.
    fn put_answer(&self, rows: &Statement, out: &mut Writing) {
        if self.is_open() {
            let passed = if self.holds_numbers.is_empty() { rows.only() } else { self.put_rows(rows, out) };
            let withheld = self.withheld.as_ref().map_or(0, Statement::only);
            out.end([passed, withheld, self.all.only() - passed - withheld]);
        }
    }
}

/// A document's rows in one form, and its three queries.
struct Form {
    select: Query,
    blank: Query,
    count: Query,
    _database: Database,
    document: Document,
}

impl Form {
    fn new(case: &Case, held: Held) -> Form {
        let document = Document::read(&case.text, held, Compared::Collated);
        let database = Database::load(&document);
        let select = Query::new(&database, document.modify(&case.select));
        let blank = Query::new(&database, document.modify(&case.blank));
        let count = Query::new(&database, document.modify(&case.count));
        Form { select, blank, count, _database: database, document }
    }

    fn query(&self, call: Call) -> &Query {
        match call {
            Call::Select => &self.select,
            Call::Blank => &self.blank,
            Call::Check | Call::Count => &self.count,
        }
    }
}

/// A document's rows: the labels by their masks, and, where rows or cells have labels, also by their numbers.
pub struct Sqlite {
    masks: Form,
    numbers: Option<Form>,
}

/// Which version it is.
pub fn version() -> Option<String> {
    // Sound: a constant text that ends with a zero byte.
    let version: CString = unsafe { CStr::from_ptr(sqlite3_libversion()) }.into();
    version.into_string().ok()
}

impl Sqlite {
    pub fn open(case: &Case) -> Option<Sqlite> {
        let masks = Form::new(case, Held::Masks);
        let numbers = masks.select.labels_first.is_some().then(|| Form::new(case, Held::Number));
        Some(Sqlite { masks, numbers })
    }

    /// The rows, already split into values, loaded into a new database.
    pub fn load(&self) -> Database {
        Database::load(&self.masks.document)
    }

    /// Whether the query tests labels of rows or cells.
    pub fn has_labels(&self, call: Call) -> bool {
        self.masks.query(call).labels_first.is_some()
    }

    /// The bare query, the condition first.
    pub fn bare(&self, call: Call) -> u64 {
        let query = self.masks.query(call);
        query.looked_at(&query.rows)
    }

    /// The bare query, the labels first, where there are any.
    pub fn labels_first(&self, call: Call) -> Option<u64> {
        let query = self.masks.query(call);
        query.labels_first.as_ref().map(|rows| query.looked_at(rows))
    }

    /// The bare query, the condition first, with labels by their numbers.
    pub fn numbered(&self, call: Call) -> Option<u64> {
        let query = self.numbers.as_ref()?.query(call);
        Some(query.looked_at(&query.rows))
    }

    /// The whole answer, the condition first; how many bytes it has.
    pub fn counted(&self, call: Call, out: &mut [u8]) -> usize {
        let mut out = Writing::new(out);
        let query = self.masks.query(call);
        query.put_answer(&query.rows, &mut out);
        out.len()
    }

    /// The whole answer by each way to it.
    pub fn answers(&self, call: Call) -> Vec<Vec<u8>> {
        let forms = [Some(&self.masks), self.numbers.as_ref()].into_iter().flatten();
        let ways = forms.map(|form| form.query(call)).flat_map(|query| [Some(&query.rows), query.labels_first.as_ref()].map(|rows| (query, rows)));
        ways.filter_map(|(query, rows)| {
            let mut out = vec![0; BUFFER];
            let mut writing = Writing::new(&mut out);
            query.put_answer(rows?, &mut writing);
            let len = writing.len();
            out.truncate(len);
            Some(out)
        })
        .collect()
    }
}
