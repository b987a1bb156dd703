//! Random comma-separated files (02, Q-1). Each is built from records, with faults whose outcome the generator knows by itself, or
//! is damaged byte by byte, where only the two implementations can be compared.

use crate::documents;
use crate::gate::Import;
use crate::model::Type;
use crate::random::Random;

/// What was done to a file that was right; the tally counts the outcomes of each.
#[derive(Clone, Copy, Debug, PartialEq, Eq, PartialOrd, Ord)]
pub enum Fault {
    None,
    /// A table or label that is no name.
    Names,
    /// A field that is no name or number, of bytes that stand in a plain field.
    Unfit,
    /// The same, of a comma, a line ending or a doubled quote in quotes.
    UnfitQuoted,
    /// An empty field.
    Empty,
    /// A field more or less than the first record's.
    Count,
    /// A line without anything.
    Blank,
    /// A carriage return outside quotes without its line feed.
    LoneReturn,
    /// A quote in a plain field.
    InnerQuote,
    /// Something behind a closing quote.
    BehindQuote,
    /// A quote that nothing closes.
    OpenQuote,
    /// Several of these, a byte changed anywhere, or bytes without any plan.
    Several,
    Bytes,
    Noise,
}

/// What the generator holds of an outcome.
#[derive(Clone, Copy, Debug, PartialEq, Eq)]
pub enum Known {
    Nothing,
    /// The lines that follow from the records.
    Lines,
    /// A number, and the record at whose start it is.
    Refused(u64, usize),
}

/// A file, what it was made of, and what is known of it.
pub struct File {
    pub import: Import,
    pub fault: Fault,
    pub known: Known,
    /// The values, for `Known::Lines`.
    pub records: Vec<Vec<Vec<u8>>>,
    /// Where each record starts.
    pub starts: Vec<usize>,
}

/// Fields as they are written.
struct Record {
    fields: Vec<Vec<u8>>,
    ending: &'static [u8],
}

/// Whether fields are quoted, and how lines end.
struct Style {
    /// In four.
    quoted: usize,
    /// In four: CRLF.
    returns: usize,
    last_ending: bool,
}

/// Values that no bracket text has, of bytes that may stand outside quotes.
const UNFIT: [&[u8]; 36] = [
    b"a23456789-123456789_12345", b"9223372036854775808", b"-9223372036854775809", b"18446744073709551616", b"-0", b"00", b"01", b"-01", b"-", b"--1",
    b"+1", b"1.5", b"1e3", b"_a", b"-a", b"9a", b"1a", b"a b", b" a", b"a ", b" ", b"a.b", b"(a)", b"a;b", b"\t", b"a\tb", b"\0", b"a\0", b"\x7f", b"\xc3\xa9",
    b"\xef\xbb\xbfa", b"99999999999999999999999999999999999999999999", b"(2028 2 9)", b"2028-02-09", b"(1 5)", b"2028 2 9",
];
/// Values that stand in quotes only.
const UNFIT_QUOTED: [&[u8]; 14] =
    [b",", b"a,b", b"\"", b"a\"b", b"\"\"", b"\"a\"", b"a\nb", b"a\r\nb", b"\n", b"\r", b"a\rb", b"\r\n", b"a,\"b\"\r\n1", b"a\n\n\"b"];
/// Names and numbers at the edges.
const EDGES: [&[u8]; 12] = [
    b"a23456789-123456789_1234", b"9223372036854775807", b"-9223372036854775808", b"0", b"-1", b"a", b"Z", b"a-", b"a_9", b"row", b"999999999999999999",
    b"1000000000000000000",
];
/// Tables and labels that are no names.
const NO_NAMES: [&[u8]; 14] =
    [b"", b"1", b"-1", b"0", b"_a", b"-a", b"9a", b"a b", b"(a)", b"a\n", b"a,b", b"\"a\"", b"\xc3\xa9", b"a23456789-123456789_12345"];

fn is_plain(byte: u8) -> bool {
    !b",\"\r\n".contains(&byte)
}

impl Style {
    fn new(random: &mut Random) -> Style {
        Style { quoted: *random.pick(&[0, 0, 1, 2, 4]), returns: *random.pick(&[0, 0, 2, 4, 4]), last_ending: random.chance(3, 4) }
    }

    /// A value in quotes where it has to be, else as the style has it.
    fn field(&self, random: &mut Random, value: &[u8]) -> Vec<u8> {
        if !value.iter().all(|&byte| is_plain(byte)) || random.chance(self.quoted, 4) {
            quoted(value)
        } else {
            value.to_vec()
        }
    }

    fn ending(&self, random: &mut Random) -> &'static [u8] {
        if random.chance(self.returns, 4) {
            b"\r\n"
        } else {
            b"\n"
        }
    }
}

/// RFC 4180, 2.7: quotes around, quotes inside doubled.
fn quoted(value: &[u8]) -> Vec<u8> {
    let mut written = vec![b'"'];
    for &byte in value {
        written.extend(std::iter::repeat_n(byte, if byte == b'"' { 2 } else { 1 }));
    }
    written.push(b'"');
    written
}

/// A name or a number.
fn value(random: &mut Random) -> Vec<u8> {
    match random.below(8) {
        0 => random.pick(&EDGES).to_vec(),
        1 => {
            let length = random.between(1, 24);
            documents::long_name(random, length).into_bytes()
        }
        place => documents::value(random, if place % 2 == 0 { Type::Num } else { Type::Name }).to_string().into_bytes(),
    }
}

pub fn name(random: &mut Random) -> Vec<u8> {
    let length = *random.pick(&[1, 2, 3, 4, 8, 23, 24]);
    documents::long_name(random, length).into_bytes()
}

/// How many columns and records.
fn size(random: &mut Random) -> (usize, usize) {
    match random.below(400) {
        0 => (random.between(1_000, 5_000), 1),
        1 => (random.between(1, 3), random.between(1_000, 3_000)),
        2..=20 => (random.between(8, 40), random.between(1, 10)),
        21..=40 => (1, 0),
        41..=140 => (1, random.between(1, 6)),
        _ => (random.between(2, 5), random.between(1, 6)),
    }
}

/// A file of values by a type for each column, quoted and ended at random; for lists that a document's table takes.
pub fn of_records(random: &mut Random, records: &[Vec<Vec<u8>>]) -> Vec<u8> {
    let style = Style::new(random);
    let made: Vec<Record> = records.iter().map(|values| record(random, &style, values)).collect();
    text(&made, style.last_ending).0
}

fn record(random: &mut Random, style: &Style, values: &[Vec<u8>]) -> Record {
    let fields = values.iter().map(|value| style.field(random, value)).collect();
    Record { fields, ending: style.ending(random) }
}

/// The bytes, and where each record starts.
fn text(records: &[Record], last_ending: bool) -> (Vec<u8>, Vec<usize>) {
    let (mut text, mut starts) = (Vec::new(), Vec::new());
    for (place, record) in records.iter().enumerate() {
        starts.push(text.len());
        text.extend(record.fields.join(&b","[..]));
        if last_ending || place + 1 < records.len() {
            text.extend(record.ending);
        }
    }
    (text, starts)
}

/// One fault put into the records; the number it is refused with and at which record, where that is known.
fn damage(random: &mut Random, style: &mut Style, fault: Fault, records: &mut Vec<Record>) -> Option<(u64, usize)> {
    let at = random.below(records.len());
    let columns = records[0].fields.len();
    let column = random.below(records[at].fields.len());
    match fault {
        Fault::Unfit | Fault::UnfitQuoted => {
            let value = if fault == Fault::Unfit { random.pick(&UNFIT[..]) } else { random.pick(&UNFIT_QUOTED[..]) };
            records[at].fields[column] = style.field(random, value);
            Some((20, at))
        }
        Fault::Empty => {
            records[at].fields[column] = style.field(random, b"");
            // Nothing at the very end would be no record.
            style.last_ending = style.last_ending || columns == 1;
            Some((20, at))
        }
        Fault::Count if records[at].fields.len() > 1 && random.chance(1, 2) => {
            records[at].fields.remove(column);
            known_count(at, records.len())
        }
        Fault::Count => {
            let value = value(random);
            records[at].fields.insert(column, style.field(random, &value));
            known_count(at, records.len())
        }
        Fault::Blank => {
            let ending = style.ending(random);
            records.insert(at, Record { fields: vec![Vec::new()], ending });
            match (columns, at) {
                (1, _) => Some((20, at)),
                (_, 0) => Some((19, 1)),
                _ => Some((19, at)),
            }
        }
        Fault::LoneReturn => {
            if random.chance(1, 3) {
                records[at].ending = b"\r";
                style.last_ending = true;
            } else {
                // Before a field, so that no line feed stands behind it.
                records[at].fields[column].insert(0, b'\r');
            }
            Some((19, at))
        }
        Fault::InnerQuote => {
            let bad: [&[u8]; 6] = [b"a\"", b"a\"b", b"a\"b\"", b" \"a\"", b"\xef\xbb\xbf\"a\"", b"1\"\"2"];
            records[at].fields[column] = random.pick(&bad).to_vec();
            Some((19, at))
        }
        Fault::BehindQuote => {
            let bad: [&[u8]; 6] = [b"\"a\"b", b"\"a\" ", b"\"\"a", b"\"a\"\"b\"c", b"\"a\n\"1", b"\"a\"\0"];
            records[at].fields[column] = random.pick(&bad).to_vec();
            Some((19, at))
        }
        Fault::OpenQuote => {
            let bad: [&[u8]; 4] = [b"\"a", b"\"", b"\"a\"\"", b"\"a\"\"b"];
            records[at].fields[column] = random.pick(&bad).to_vec();
            // Any quote further on closes it before a value's first byte, which is no ending either.
            Some((19, at))
        }
        _ => None,
    }
}

/// Of another count than the first's is the record itself, or where the first has it the second.
fn known_count(at: usize, records: usize) -> Option<(u64, usize)> {
    match (at, records) {
        (0, 1) => None,
        (0, _) => Some((19, 1)),
        _ => Some((19, at)),
    }
}

const OF_RECORDS: [Fault; 10] = [
    Fault::Unfit,
    Fault::UnfitQuoted,
    Fault::Empty,
    Fault::Count,
    Fault::Blank,
    Fault::LoneReturn,
    Fault::InnerQuote,
    Fault::BehindQuote,
    Fault::OpenQuote,
    Fault::Unfit,
];

/// Bytes that mean something to the RFC or to a name or number, and some that mean nothing.
const BYTES: &[u8] = b"\"\"\",,\r\r\n\n\na10-_ \t\0\x7f\x80\xff(";

/// One damage that knows nothing of records.
fn damage_bytes(random: &mut Random, text: &mut Vec<u8>) {
    let place = random.below(text.len() + 1);
    let end = (place + random.below(6)).min(text.len());
    match random.below(8) {
        0 | 1 => text.insert(place, *random.pick(BYTES)),
        2 | 3 if place < text.len() => text[place] = *random.pick(BYTES),
        4 if place < text.len() => {
            text.remove(place);
        }
        5 => text.truncate(place),
        6 => {
            let piece = text[place..end].to_vec();
            let to = random.below(text.len() + 1);
            text.splice(to..to, piece);
        }
        _ => {
            text.drain(place..end);
        }
    }
}

fn noise(random: &mut Random) -> Vec<u8> {
    let length = *random.pick(&[1, 2, 4, 8, 20, 60]);
    let all = random.chance(1, 4);
    (0..random.below(length + 1)).map(|_| if all { random.next() as u8 } else { *random.pick(BYTES) }).collect()
}

/// A file without faults but for its size: one field of very many bytes, plain or quoted, or nothing but one kind of byte.
fn enormous(random: &mut Random) -> Vec<u8> {
    let length = random.between(60_000, 200_000);
    let byte = *random.pick(BYTES);
    match random.below(3) {
        0 => vec![byte; length],
        1 => [b"\"".to_vec(), vec![byte; length], b"\"\n".to_vec()].concat(),
        _ => [b"a,1\r\n".to_vec(), vec![b'a'; length], b",1".to_vec()].concat(),
    }
}

/// Any file, with any table and label.
pub fn any(random: &mut Random) -> File {
    let (mut table, mut label) = (name(random), name(random));
    let mut names = true;
    if random.chance(1, 12) {
        names = false;
        let bad = random.pick(&NO_NAMES).to_vec();
        match random.below(3) {
            0 => table = bad,
            1 => label = bad,
            _ => (table, label) = (bad, random.pick(&NO_NAMES).to_vec()),
        }
    }
    let unknown = |fault, file, table, label| File {
        import: Import { file, table, label },
        fault,
        known: Known::Nothing,
        records: Vec::new(),
        starts: Vec::new(),
    };
    if random.chance(1, 12) {
        let text = noise(random);
        return unknown(Fault::Noise, text, table, label);
    }
    if random.chance(1, 1_000) {
        let text = enormous(random);
        return unknown(Fault::Noise, text, table, label);
    }
    let (columns, count) = size(random);
    let mut style = Style::new(random);
    let values: Vec<Vec<Vec<u8>>> = (0..count).map(|_| (0..columns).map(|_| value(random)).collect()).collect();
    let mut records: Vec<Record> = values.iter().map(|values| record(random, &style, values)).collect();
    let mut fault = if names { Fault::None } else { Fault::Names };
    let mut known = if names { Known::Lines } else { Known::Refused(20, 0) };
    if count > 0 && random.chance(3, 5) {
        fault = *random.pick(&OF_RECORDS);
        known = match damage(random, &mut style, fault, &mut records) {
            Some((19, at)) => Known::Refused(19, at),
            Some((_, at)) if names => Known::Refused(20, at),
            Some(_) => Known::Refused(20, 0),
            None => Known::Nothing,
        };
        if random.chance(1, 4) {
            let more = *random.pick(&OF_RECORDS);
            damage(random, &mut style, more, &mut records);
            (fault, known) = (Fault::Several, Known::Nothing);
        }
    }
    let (mut text, starts) = text(&records, style.last_ending);
    if random.chance(1, 8) {
        for _ in 0..*random.pick(&[1, 1, 2, 3]) {
            damage_bytes(random, &mut text);
        }
        (fault, known) = (Fault::Bytes, Known::Nothing);
    }
    File { import: Import { file: text, table, label }, fault, known, records: values, starts }
}

/// Every file of at most so many of these bytes, in order: call with 0, 1, .. until there is none.
pub fn small(place: usize, most: usize) -> Option<Vec<u8>> {
    const LETTERS: [u8; 6] = *b"a0,\"\r\n";
    let (mut place, mut length) = (place, 0);
    let mut many = 1;
    while place >= many {
        place -= many;
        many *= LETTERS.len();
        length += 1;
    }
    if length > most {
        return None;
    }
    let mut file = Vec::with_capacity(length);
    for _ in 0..length {
        file.push(LETTERS[place % LETTERS.len()]);
        place /= LETTERS.len();
    }
    Some(file)
}
