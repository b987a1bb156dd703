//! Importing (02, Q-1): the gate, the second implementation and what the generator knows, on random files; every short file; and
//! documents to which the written lines are added, as desks do.

use crate::compare::{self, Buffers, Difference, Question, LONGEST_RESERVE};
use crate::documents::{self, Builder};
use crate::files::{self, Fault, File, Known};
use crate::gate::{self, Checked, Import, Imported, Second};
use crate::model::{Model, Scheme, Type};
use crate::queries;
use crate::random::Random;
use crate::recase;
use std::collections::BTreeMap;

/// Bytes on both sides of a lent buffer that nobody may touch.
const FENCE: usize = 32;
/// Every file of at most so many bytes is tried.
const SMALL: usize = 7;

/// What a run has seen.
#[derive(Default)]
pub struct ImportTally {
    pub files: u64,
    pub small: u64,
    pub calls: u64,
    pub written: u64,
    pub longest: usize,
    /// By refusal number.
    pub refusals: [u64; 22],
    /// How often each fault came out with each number.
    pub faults: BTreeMap<(Fault, u64), u64>,
    pub documents: u64,
    pub accepted: u64,
    pub rows: u64,
    /// Those whose lines have the table or the label in another case.
    pub recased: u64,
    /// Refused documents, by number.
    pub refused: [u64; 22],
}

/// What has to come out at least once.
const NEEDED: [(Fault, u64); 22] = [
    (Fault::None, 0),
    (Fault::None, 21),
    (Fault::Names, 20),
    (Fault::Unfit, 20),
    (Fault::UnfitQuoted, 20),
    (Fault::Empty, 20),
    (Fault::Count, 19),
    (Fault::Blank, 19),
    (Fault::Blank, 20),
    (Fault::LoneReturn, 19),
    (Fault::InnerQuote, 19),
    (Fault::BehindQuote, 19),
    (Fault::OpenQuote, 19),
    (Fault::Several, 19),
    (Fault::Several, 20),
    (Fault::Bytes, 0),
    (Fault::Bytes, 19),
    (Fault::Bytes, 20),
    (Fault::Bytes, 21),
    (Fault::Noise, 0),
    (Fault::Noise, 19),
    (Fault::Noise, 20),
];

impl ImportTally {
    /// What never came up.
    pub fn missing(&self) -> Vec<String> {
        let mut missing: Vec<String> = (19..=21).filter(|&n| self.refusals[n] == 0).map(|n| format!("refusal {n}")).collect();
        missing.extend(NEEDED.iter().filter(|key| !self.faults.contains_key(key)).map(|(fault, n)| format!("{fault:?} with {n}")));
        // Lines for a table's types and counts, and lines that don't fit them: 5 for no label, 7 for the count, 8 for a type.
        missing.extend([5, 7, 8].iter().filter(|&&n| self.refused[n] == 0).map(|n| format!("a document with lines refused with {n}")));
        if self.accepted == 0 || self.rows == 0 {
            missing.push("a document accepted with lines".to_string());
        }
        if self.recased == 0 {
            missing.push("a document accepted with lines in another case".to_string());
        }
        missing
    }
}

/// A lent buffer with fences, filled with one pattern before each call.
struct Lent {
    pattern: Vec<u8>,
    bytes: Vec<u8>,
}

impl Lent {
    fn new() -> Lent {
        Lent { pattern: Vec::new(), bytes: Vec::new() }
    }

    fn lend(&mut self, length: usize) -> &mut [u8] {
        let whole = length + 2 * FENCE;
        while self.pattern.len() < whole {
            self.pattern.push((self.pattern.len() * 41 % 253) as u8 ^ 0x5a);
        }
        self.bytes.clear();
        self.bytes.extend_from_slice(&self.pattern[..whole]);
        &mut self.bytes[FENCE..FENCE + length]
    }

    /// The lent bytes, or what was wrong with those around them and behind the lines.
    fn after(&self, length: usize, used: usize) -> Result<&[u8], String> {
        let end = FENCE + length;
        if used > length {
            return Err(format!("lines of {used} bytes in a buffer of {length}"));
        }
        if self.bytes[..FENCE] != self.pattern[..FENCE] || self.bytes[end..] != self.pattern[end..end + FENCE] {
            return Err("bytes written outside the lent buffer".to_string());
        }
        if self.bytes[FENCE + used..end] != self.pattern[FENCE + used..end] {
            return Err("a byte beyond the lines was changed".to_string());
        }
        Ok(&self.bytes[FENCE..end])
    }
}

/// A run over files.
pub struct Imports {
    second: Second,
    ours: Lent,
    theirs: Lent,
    pub tally: ImportTally,
}

fn number(imported: Imported) -> u64 {
    imported.err().map_or(0, |refused| refused.number)
}

fn shown(import: &Import) -> String {
    let Import { file, table, label } = import;
    format!("table {}, label {}, file of {} bytes:\n{}", table.escape_ascii(), label.escape_ascii(), file.len(), file.escape_ascii())
}

impl Imports {
    pub fn new(second: Second) -> Imports {
        Imports { second, ours: Lent::new(), theirs: Lent::new(), tally: ImportTally::default() }
    }

    /// One call with a buffer of this length: equal in every field and every byte.
    fn call(&mut self, import: &Import, length: usize) -> Result<Imported, String> {
        let before = import.clone();
        let ours = gate::import(import, self.ours.lend(length))?;
        let theirs = self.second.import(import, self.theirs.lend(length));
        if *import != before {
            return Err("the file, the table or the label was changed".to_string());
        }
        if ours != theirs {
            return Err(format!("buffer of {length}: gate {ours:?}, second {theirs:?}"));
        }
        let used = ours.map_or(0, |length| length as usize);
        if self.ours.after(length, used)? != self.theirs.after(length, used)? {
            return Err(format!("buffer of {length}: other bytes"));
        }
        self.tally.calls += 1;
        self.tally.written += u64::from(ours.is_ok());
        self.tally.refusals[number(ours) as usize] += 1;
        Ok(ours)
    }

    /// One file with several buffers, most of them about as long as the lines; what measuring gives.
    fn file(&mut self, import: &Import, lengths: &dyn Fn(usize) -> Vec<usize>, fault: Fault) -> Result<Imported, String> {
        let measured = gate::measure_import(import)?;
        let second = self.second.measure_import(import);
        if measured != second || measured.is_err_and(|refused| refused.number == 21) {
            return Err(format!("measuring: gate {measured:?}, second {second:?}"));
        }
        let needed = measured.map_or(0, |length| length as usize);
        for length in lengths(needed) {
            let given = self.call(import, length)?;
            *self.tally.faults.entry((fault, number(given))).or_default() += 1;
            let expected = match measured {
                Ok(_) if length < needed => 21,
                Ok(_) => 0,
                Err(refused) => refused.number,
            };
            if number(given) != expected || given.is_ok() && given != measured {
                return Err(format!("buffer of {length}: {given:?}, measured {measured:?}"));
            }
        }
        Ok(measured)
    }

    /// One random file.
    pub fn random(&mut self, random: &mut Random) -> Result<(), String> {
        let file = files::any(random);
        self.tally.files += 1;
        self.tally.longest = self.tally.longest.max(file.import.file.len());
        let (more, less) = (random.below(40), random.next() as usize);
        let lengths = |needed: usize| match needed {
            0 => vec![0, more],
            _ => vec![needed, needed - 1, 0, needed + more, less % needed],
        };
        let told = |what: String| format!("{what}\n{}", shown(&file.import));
        let measured = self.file(&file.import, &lengths, file.fault).map_err(told)?;
        match held(&file, measured) {
            None => Ok(()),
            Some(expected) => Err(told(format!("both give {measured:?}, but the generator holds: {expected}"))),
        }
    }

    /// Every short file over the bytes that matter most.
    pub fn all_small(&mut self) -> Result<(), String> {
        let mut import = Import { file: Vec::new(), table: b"t".to_vec(), label: b"l".to_vec() };
        let lengths = |needed: usize| if needed == 0 { vec![3] } else { vec![needed, needed - 1] };
        while let Some(file) = files::small(self.tally.small as usize, SMALL) {
            import.file = file;
            let tried = self.file(&import, &lengths, Fault::Noise);
            tried.map_err(|what| format!("{what}\n{}", shown(&import)))?.ok();
            self.tally.small += 1;
        }
        Ok(())
    }
}

/// What the generator expects, where that is not what came out.
fn held(file: &File, measured: Imported) -> Option<String> {
    match file.known {
        Known::Nothing => None,
        Known::Lines => {
            let length = lines(&file.import, &file.records).len() as u64;
            let mut out = vec![0; length as usize];
            let given = gate::import(&file.import, &mut out);
            (measured != Ok(length) || given != Ok(Ok(length)) || out != lines(&file.import, &file.records)).then(|| format!("{length} bytes of lines"))
        }
        Known::Refused(number, record) => {
            let start = file.starts.get(record).copied().unwrap_or(0) as u64;
            let as_held = measured.is_err_and(|refused| (refused.number, refused.start, refused.length) == (number, start, 0));
            (!as_held).then(|| format!("{number} at {start}"))
        }
    }
}

/// The lines as they follow from the records.
fn lines(import: &Import, records: &[Vec<Vec<u8>>]) -> Vec<u8> {
    let mut lines = Vec::new();
    for record in records {
        let items: Vec<&[u8]> = [&b"row"[..], &import.table, &import.label].into_iter().chain(record.iter().map(|value| &value[..])).collect();
        lines.push(b'(');
        lines.extend(items.join(&b" "[..]));
        lines.extend(b")\n");
    }
    lines
}

/// A document with a table of scheme row, mostly without dates, and its place.
fn with_row_table(random: &mut Random) -> (Model, usize) {
    let mut builder = Builder::new(random);
    builder.base();
    let steps = builder.random.between(0, 25);
    builder.mix(steps);
    let columns = builder.random.between(1, 5);
    builder.table_of(Scheme::Row, columns);
    let table = builder.model.tables.len() - 1;
    if builder.random.chance(4, 5) {
        builder.model.tables[table].columns.iter_mut().filter(|column| column.kind == Type::Date).for_each(|column| column.kind = Type::Name);
    }
    (builder.model, table)
}

/// Adds the lines of a list to a document and checks it on both sides; where types, counts and bounds allow it is accepted with as
/// many lines more, and a query of it is answered alike.
pub fn desk(random: &mut Random, buffers: &mut Buffers, second: Second, tally: &mut ImportTally) -> Result<(), Difference> {
    let (model, table) = with_row_table(random);
    let table = &model.tables[table];
    let kinds: Vec<Type> = table.columns.iter().map(|column| column.kind).collect();
    let count = if random.chance(1, 50) { random.between(900, 1_100) } else { random.between(0, 12) };
    // A list has no dates (02, Q-14), so that its lines fit no table with a column of them.
    let listed = |kind: Type| if kind == Type::Date { Type::Num } else { kind };
    let mut records: Vec<Vec<Vec<u8>>> = (0..count)
        .map(|_| kinds.iter().map(|&kind| documents::value(random, listed(kind)).to_string().into_bytes()).collect())
        .collect();
    let label = random.pick(&model.labels).name.clone();
    // Table and label in whichever case: the lines have them as given (02, Q-8).
    let mut given = |name: &str| if random.chance(1, 2) { recase::name(random, name) } else { name.to_string() };
    let (table, label) = (given(&table.name), given(&label));
    let recased = !model.tables.iter().any(|known| known.name == table) || !model.labels.iter().any(|known| known.name == label);
    let mut import = Import { file: Vec::new(), table: table.into_bytes(), label: label.into_bytes() };
    // Lines that the document refuses: another type, another count, a table or label that it lacks.
    let fits = match random.below(10) {
        0 if count > 0 => {
            let (row, column) = (random.below(count), random.below(kinds.len()));
            let other = if kinds[column] == Type::Num { Type::Name } else { Type::Num };
            records[row][column] = documents::value(random, other).to_string().into_bytes();
            false
        }
        1 if count > 0 => {
            let value = documents::value(random, Type::Num).to_string().into_bytes();
            records.iter_mut().for_each(|record| record.push(value.clone()));
            false
        }
        2 if count > 0 => {
            let name = files::name(random);
            *(if random.chance(1, 2) { &mut import.table } else { &mut import.label }) = name;
            false
        }
        _ => count == 0 || !kinds.contains(&Type::Date),
    };
    import.file = files::of_records(random, &records);
    let (mut doc, _) = recase::any(random, model.text());
    let before = doc.len();
    let alone = |what: String, doc: &[u8], gate: String| Difference { what, doc: doc.to_vec(), alike: None, question: None, gate, second: shown(&import) };
    let mut out = vec![0; before + 200 * count + 1_000];
    let length = match gate::import(&import, &mut out) {
        Ok(Ok(length)) => length as usize,
        other => return Err(alone("a list without faults is not imported".to_string(), &doc, format!("{other:?}"))),
    };
    doc.extend_from_slice(&out[..length]);
    let checked = compare::check(second, &doc)?;
    tally.documents += 1;
    match checked {
        Checked::Accepted { lines, .. } if lines != (model.lines.len() + count) as u64 => {
            return Err(alone(format!("accepted with {lines} lines, of which {count} are the list's"), &doc, String::new()));
        }
        Checked::Accepted { .. } => {
            tally.accepted += 1;
            tally.rows += count as u64;
            tally.recased += u64::from(recased && count > 0);
        }
        Checked::Refused(refused) => {
            let within = model.rows.len() + count <= 1_024 && doc.len() <= 60_000;
            if fits && within {
                return Err(alone("lines that fit their table are refused".to_string(), &doc, format!("{checked:?}")));
            }
            tally.refused[refused.number as usize] += 1;
        }
    }
    let clock = queries::clock(random);
    let query = queries::good(random, &model, clock).text();
    let (query, _) = recase::any(random, query);
    buffers.ask(second, &doc, &Question { query, clock, buffer: LONGEST_RESERVE }).map(|_| ())
}
