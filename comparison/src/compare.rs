//! One text, one question: the gate and the second implementation side by side.

use crate::gate::{self, Asked, Checked, Second, Subject};
use reference::Clock;
use std::fmt;

/// 01: the longest answer that a reserve may promise, and the asking program's buffer.
pub const LONGEST_RESERVE: usize = 60_021;
/// A buffer that every answer fits in: 1,024 rows of 16 values, the longest of them ranges, and their spaces.
pub const ROOMY: usize = 1_024 * (16 * 44 + 7) + 64;
/// Bytes on both sides of a lent buffer that nobody may touch.
const FENCE: usize = 64;

/// What was asked, and what came of it on both sides.
#[derive(Clone, Debug)]
pub struct Difference {
    pub what: String,
    pub doc: Vec<u8>,
    /// The second document of a pair.
    pub alike: Option<Vec<u8>>,
    /// None for checking.
    pub question: Option<Question>,
    pub gate: String,
    pub second: String,
}

#[derive(Clone, Debug)]
pub struct Question {
    pub query: Vec<u8>,
    pub clock: Clock,
    pub buffer: usize,
}

/// A text with its bytes outside print shown as escapes; line feeds stay.
fn shown(text: &[u8]) -> String {
    let byte = |&byte: &u8| if byte == b'\n' { "\n".to_string() } else { byte.escape_ascii().to_string() };
    text.iter().map(byte).collect()
}

impl fmt::Display for Difference {
    fn fmt(&self, f: &mut fmt::Formatter) -> fmt::Result {
        writeln!(f, "DIFFERENCE: {}", self.what)?;
        writeln!(f, "--- document, {} bytes", self.doc.len())?;
        writeln!(f, "{}", shown(&self.doc))?;
        if let Some(alike) = &self.alike {
            writeln!(f, "--- the document alike, {} bytes", alike.len())?;
            writeln!(f, "{}", shown(alike))?;
        }
        if let Some(Question { query, clock, buffer }) = &self.question {
            writeln!(f, "--- query, {} bytes", query.len())?;
            writeln!(f, "{}", shown(query))?;
            writeln!(f, "--- clock {} {} {}, buffer {buffer}", clock.year, clock.day, clock.hour)?;
        }
        writeln!(f, "--- gate:   {}", self.gate)?;
        writeln!(f, "--- second: {}", self.second)
    }
}

/// Lent buffers with fences, filled with one pattern before each question.
pub struct Buffers {
    pattern: Vec<u8>,
    one: Vec<u8>,
    two: Vec<u8>,
}

/// The bytes of a buffer after a question, or what was wrong with them.
fn after<'b>(pattern: &[u8], whole: &'b [u8], length: usize, asked: Asked) -> Result<&'b [u8], String> {
    let end = FENCE + length;
    if whole[..FENCE] != pattern[..FENCE] || whole[end..end + FENCE] != pattern[end..end + FENCE] {
        return Err("bytes written outside the lent buffer".to_string());
    }
    let used = match asked {
        Asked::Answered { length: used, .. } if used as usize > length => {
            return Err(format!("an answer of {used} bytes in a buffer of {length}"));
        }
        Asked::Answered { length: used, .. } => used as usize,
        Asked::Refused(_) => 0,
    };
    if whole[FENCE + used..end] != pattern[FENCE + used..end] {
        return Err("a byte beyond the answer was changed".to_string());
    }
    Ok(&whole[FENCE..end])
}

/// An outcome in words, the answer's beginning included.
fn told(asked: Asked, bytes: &[u8]) -> String {
    match asked {
        Asked::Answered { length, .. } => {
            let given = bytes.get(..length as usize).unwrap_or(bytes);
            format!("{asked:?}\n{}", shown(&given[..given.len().min(2_000)]))
        }
        Asked::Refused(_) => format!("{asked:?}"),
    }
}

impl Buffers {
    pub fn new() -> Buffers {
        let pattern: Vec<u8> = (0..ROOMY + 2 * FENCE).map(|place| (place * 37 % 251) as u8 ^ 0xa5).collect();
        Buffers { one: pattern.clone(), two: pattern.clone(), pattern }
    }

    /// Lends out a buffer with the pattern in it.
    fn lend(pattern: &[u8], whole: &mut [u8], length: usize) {
        whole[..length + 2 * FENCE].copy_from_slice(&pattern[..length + 2 * FENCE]);
    }

    /// 01, "Asking": the same question to both; equal in every field and every byte.
    pub fn ask(&mut self, second: Second, doc: &[u8], question: &Question) -> Result<Asked, Difference> {
        let Question { query, clock, buffer } = question;
        let (clock, length) = (*clock, *buffer);
        Buffers::lend(&self.pattern, &mut self.one, length);
        Buffers::lend(&self.pattern, &mut self.two, length);
        let difference = |what: String, gate: String, second: String| Difference {
            what,
            doc: doc.to_vec(),
            alike: None,
            question: Some(question.clone()),
            gate,
            second,
        };
        let theirs = second.ask(doc, query, clock, &mut self.two[FENCE..FENCE + length]);
        let their_bytes = &self.two[FENCE..FENCE + length];
        let ours = match gate::ask(doc, query, clock, &mut self.one[FENCE..FENCE + length]) {
            Ok(ours) => ours,
            Err(what) => return Err(difference(what, String::new(), told(theirs, their_bytes))),
        };
        let our_bytes = match after(&self.pattern, &self.one, length, ours) {
            Ok(bytes) => bytes,
            Err(what) => {
                return Err(difference(what, told(ours, &self.one[FENCE..FENCE + length]), told(theirs, their_bytes)));
            }
        };
        if ours != theirs {
            return Err(difference("results of asking".to_string(), told(ours, our_bytes), told(theirs, their_bytes)));
        }
        if our_bytes != their_bytes {
            return Err(difference("bytes of the buffer".to_string(), told(ours, our_bytes), told(theirs, their_bytes)));
        }
        Ok(ours)
    }

    /// The first bytes that the gate left in its buffer.
    pub fn given(&self, length: usize) -> &[u8] {
        &self.one[FENCE..FENCE + length]
    }

    /// 01, "The no-difference claim": one question to two documents; the outcome, and whether they are equal.
    pub fn ask_pair(&mut self, subject: Subject, doc: &[u8], alike: &[u8], question: &Question) -> Result<(Asked, bool), Difference> {
        let Question { query, clock, buffer } = question;
        let (clock, length) = (*clock, *buffer);
        Buffers::lend(&self.pattern, &mut self.one, length);
        Buffers::lend(&self.pattern, &mut self.two, length);
        let one = subject.ask(doc, query, clock, &mut self.one[FENCE..FENCE + length]);
        let two = subject.ask(alike, query, clock, &mut self.two[FENCE..FENCE + length]);
        let outcome = match (one, two) {
            (Ok(one), Ok(two)) => match (after(&self.pattern, &self.one, length, one), after(&self.pattern, &self.two, length, two)) {
                (Ok(first), Ok(other)) => Ok((one, two, one == two && first == other)),
                (Err(what), _) | (_, Err(what)) => Err(what),
            },
            (Err(what), _) | (_, Err(what)) => Err(what),
        };
        match outcome {
            Ok((one, _, equal)) => Ok((one, equal)),
            Err(what) => Err(pair_difference(subject, what, doc, alike, question)),
        }
    }
}

/// The report of a pair told apart.
pub fn pair_difference(subject: Subject, what: String, doc: &[u8], alike: &[u8], question: &Question) -> Difference {
    let tell = |text: &[u8]| {
        let mut buffer = vec![0; question.buffer];
        match subject.ask(text, &question.query, question.clock, &mut buffer) {
            Ok(asked) => told(asked, &buffer),
            Err(what) => what,
        }
    };
    Difference {
        what,
        doc: doc.to_vec(),
        alike: Some(alike.to_vec()),
        question: Some(question.clone()),
        gate: tell(doc),
        second: format!("(on the document alike) {}", tell(alike)),
    }
}

/// 01, "Checking a document": the same text to both; the number of lines and the reserve, or the refusal.
pub fn check(second: Second, doc: &[u8]) -> Result<Checked, Difference> {
    let theirs = second.check(doc);
    let difference = |what: &str, gate: String| Difference {
        what: what.to_string(),
        doc: doc.to_vec(),
        alike: None,
        question: None,
        gate,
        second: format!("{theirs:?}"),
    };
    let ours = match gate::check(doc) {
        Ok(given) => given,
        Err(what) => return Err(difference(&what, String::new())),
    };
    if ours != theirs {
        return Err(difference("results of checking", format!("{ours:?}")));
    }
    if matches!(ours, Checked::Accepted { reserve, .. } if reserve > LONGEST_RESERVE as u64) {
        return Err(difference("a reserve over 60,021", format!("{ours:?}")));
    }
    Ok(ours)
}

/// Whether an answered query is a select, a blank (02, Q-10), sure or possible (02, Q-12) whose column bracket repeats no column.
pub fn repeats_no_column(query: &[u8]) -> bool {
    // 02, Q-8: without case, so that `who` and `Who` are one column.
    let text = String::from_utf8_lossy(query).to_ascii_lowercase();
    let Some(rest) = ["(select ", "(blank ", "(sure ", "(possible "].iter().find_map(|word| text.strip_prefix(word)) else { return false };
    let Some((_, columns)) = rest.split_once('(') else { return false };
    let Some((columns, _)) = columns.split_once(')') else { return false };
    let columns: Vec<&str> = columns.split(' ').collect();
    (0..columns.len()).all(|place| !columns[..place].contains(&columns[place]))
}

/// The text with lines deleted while `fails` stays true of it: in halves, quarters, then one by one.
pub fn shrink(doc: &[u8], fails: &mut dyn FnMut(&[Vec<u8>]) -> bool) -> Vec<usize> {
    let lines: Vec<Vec<u8>> = doc.split_inclusive(|&byte| byte == b'\n').map(|line| line.to_vec()).collect();
    let mut kept: Vec<usize> = (0..lines.len()).collect();
    let mut size = lines.len() / 2;
    while size > 0 {
        let mut start = 0;
        let mut any = false;
        while start < kept.len() {
            let mut fewer = kept.clone();
            fewer.drain(start..(start + size).min(kept.len()));
            let text: Vec<Vec<u8>> = fewer.iter().map(|&place| lines[place].clone()).collect();
            if fails(&text) {
                kept = fewer;
                any = true;
            } else {
                start += size;
            }
        }
        if !(size == 1 && any) {
            size /= 2;
        }
    }
    kept
}
