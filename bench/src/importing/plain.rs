//! What the gate is measured against: the same job as a Rust programmer would write it who needs no proof and takes no crate.
//! One table of byte classes and slices, no allocation for a record or a field.

/// Number and start of a refusal (02, Q-1).
#[derive(Clone, Copy, Debug, PartialEq, Eq)]
pub struct Refused {
    pub number: u64,
    pub start: usize,
}

const OTHER: u8 = 0;
const LETTER: u8 = 1;
const DIGIT: u8 = 2;
/// `-` and `_`.
const JOINER: u8 = 3;

/// The class of each byte.
const CLASS: [u8; 256] = {
    let mut class = [OTHER; 256];
    let mut byte = 0;
    while byte < 256 {
        class[byte] = match byte as u8 {
            b'a'..=b'z' | b'A'..=b'Z' => LETTER,
            b'0'..=b'9' => DIGIT,
            b'-' | b'_' => JOINER,
            _ => OTHER,
        };
        byte += 1;
    }
    class
};

fn class(byte: u8) -> u8 {
    CLASS[byte as usize]
}

fn is_name(word: &[u8]) -> bool {
    match word {
        [first, rest @ ..] => word.len() <= 24 && class(*first) == LETTER && rest.iter().all(|&byte| class(byte) != OTHER),
        [] => false,
    }
}

fn is_number(word: &[u8]) -> bool {
    let (most, digits): (&[u8], &[u8]) = match word {
        [b'-', rest @ ..] => (b"9223372036854775808", rest),
        _ => (b"9223372036854775807", word),
    };
    match digits {
        [] => false,
        [b'0'] => word.len() == 1,
        [b'0', ..] => false,
        _ => digits.iter().all(u8::is_ascii_digit) && (digits.len() < 19 || digits.len() == 19 && digits <= most),
    }
}

fn is_value(word: &[u8]) -> bool {
    match word.first() {
        Some(first) if class(*first) == LETTER => is_name(word),
        Some(_) => is_number(word),
        None => false,
    }
}

/// A field's value where it can be one of a bracket text, and where the field ends; none where the quotes break the RFC.
/// A value with a doubled quote is none of a bracket text, so it is handed back as empty.
#[inline]
fn field(file: &[u8], at: usize) -> Option<(&[u8], usize)> {
    if file.get(at) != Some(&b'"') {
        let rest = &file[at..];
        let length = rest.iter().position(|&byte| matches!(byte, b',' | b'\n' | b'\r' | b'"')).unwrap_or(rest.len());
        return Some((&rest[..length], at + length));
    }
    let mut here = at + 1;
    let mut doubled = false;
    loop {
        here += file[here..].iter().position(|&byte| byte == b'"')?;
        if file.get(here + 1) != Some(&b'"') {
            let value = if doubled { &[] } else { &file[at + 1..here] };
            return Some((value, here + 1));
        }
        doubled = true;
        here += 2;
    }
}

/// Where the next field starts, and whether it is of this record; none for what the RFC has not.
#[inline]
fn ending(file: &[u8], at: usize) -> Option<(usize, bool)> {
    match file.get(at) {
        Some(b',') => Some((at + 1, true)),
        Some(b'\n') => Some((at + 1, false)),
        Some(b'\r') if file.get(at + 1) == Some(&b'\n') => Some((at + 2, false)),
        None => Some((at, false)),
        Some(_) => None,
    }
}

/// The first pass: the length of the lines, or the refusal that no buffer prevents.
#[no_mangle]
#[inline(never)]
pub fn plain_measure(file: &[u8], table: &[u8], label: &[u8]) -> Result<usize, Refused> {
    let mut width = None;
    let mut unfit = None;
    let (mut values, mut records, mut bytes) = (0usize, 0usize, 0usize);
    let mut start = 0;
    while start < file.len() {
        let malformed = Refused { number: 19, start };
        let mut here = start;
        let mut count = 0usize;
        loop {
            let (value, end) = field(file, here).ok_or(malformed)?;
            if unfit.is_none() && !is_value(value) {
                unfit = Some(start);
            }
            bytes += value.len();
            count += 1;
            let (next, more) = ending(file, end).ok_or(malformed)?;
            here = next;
            if !more {
                break;
            }
        }
        if *width.get_or_insert(count) != count {
            return Err(malformed);
        }
        values += count;
        records += 1;
        start = here;
    }
    if !is_name(table) || !is_name(label) {
        return Err(Refused { number: 20, start: 0 });
    }
    match unfit {
        Some(start) => Err(Refused { number: 20, start }),
        None => Ok(bytes + values + records * (table.len() + label.len() + 8)),
    }
}

/// "(row T L", with which each line begins.
fn beginning(table: &[u8], label: &[u8]) -> Vec<u8> {
    [b"(row ", table, b" ", label].concat()
}

/// Measures, then writes straight into the lent slice.
#[no_mangle]
#[inline(never)]
pub fn plain_import(file: &[u8], table: &[u8], label: &[u8], out: &mut [u8]) -> Result<usize, Refused> {
    let length = plain_measure(file, table, label)?;
    if length > out.len() {
        return Err(Refused { number: 21, start: 0 });
    }
    let out = &mut out[..length];
    let first = beginning(table, label);
    let mut to = 0;
    let mut put = |bytes: &[u8]| {
        out[to..to + bytes.len()].copy_from_slice(bytes);
        to += bytes.len();
    };
    let mut here = 0;
    while here < file.len() {
        put(&first);
        loop {
            let (value, end) = field(file, here).expect("the first pass read it");
            put(b" ");
            put(value);
            let (next, more) = ending(file, end).expect("the first pass read it");
            here = next;
            if !more {
                break;
            }
        }
        put(b")\n");
    }
    Ok(length)
}

/// The same in one pass, into a vector that grows.
#[no_mangle]
#[inline(never)]
pub fn plain_lines(file: &[u8], table: &[u8], label: &[u8]) -> Result<Vec<u8>, Refused> {
    let first = beginning(table, label);
    let mut out = Vec::with_capacity(file.len() * 2);
    let mut width = None;
    let mut unfit = None;
    let mut start = 0;
    while start < file.len() {
        let malformed = Refused { number: 19, start };
        out.extend_from_slice(&first);
        let mut here = start;
        let mut count = 0usize;
        loop {
            let (value, end) = field(file, here).ok_or(malformed)?;
            if unfit.is_none() && !is_value(value) {
                unfit = Some(start);
            }
            out.push(b' ');
            out.extend_from_slice(value);
            count += 1;
            let (next, more) = ending(file, end).ok_or(malformed)?;
            here = next;
            if !more {
                break;
            }
        }
        if *width.get_or_insert(count) != count {
            return Err(malformed);
        }
        out.extend_from_slice(b")\n");
        start = here;
    }
    if !is_name(table) || !is_name(label) {
        return Err(Refused { number: 20, start: 0 });
    }
    match unfit {
        Some(start) => Err(Refused { number: 20, start }),
        None => Ok(out),
    }
}
