//! Random texts: checking and asking on both sides (01 (d), "a second implementation for random texts").

use crate::compare::{check, repeats_no_column, shrink, Buffers, Difference, Question, LONGEST_RESERVE, ROOMY};
use crate::damage;
use crate::documents;
use crate::gate::{self, Asked, Checked, Refused, Second};
use crate::model::{Model, Scheme};
use crate::queries;
use crate::random::Random;
use crate::recase::{self, same};
use crate::whys::{self, WhyTally};
use reference::Clock;

/// Texts over this length get fewer questions, for the time they take.
const LARGE: usize = 10_000;

/// How much was recased (02, Q-8).
#[derive(Default)]
pub struct Recased {
    pub texts: u64,
    pub accepted: u64,
    pub queries: u64,
    pub answered: u64,
}

/// What a run has seen.
#[derive(Default)]
pub struct Tally {
    pub texts: u64,
    pub accepted: u64,
    pub longest: usize,
    pub queries: u64,
    pub answered: u64,
    pub asked: u64,
    /// Texts and queries in another case than the generator wrote them; of these, those accepted and answered.
    pub recased: Recased,
    /// Blanks answered, and those of them with a `-` for a value (02, Q-10).
    pub blanks: u64,
    pub dashes: u64,
    /// Answers to sure and to possible, and those of them with a range (02, Q-12).
    pub sure: u64,
    pub possible: u64,
    pub ranges: u64,
    /// Answers with a date to select, blank, sure and possible; dates of no day in documents and in queries (02, Q-14).
    pub dates: [u64; 4],
    pub no_date_in_document: u64,
    pub no_date_in_query: u64,
    /// Answers by the scheme of their table and by their verb, in the order of `SCHEMES` and `VERBS`; of valid documents alone.
    pub answers: [[u64; 5]; 6],
    /// Answers of nest tables with neither a weak nor a strong line, with a weak one, with a strong one, with both (02, Q-11).
    pub inherited: [u64; 4],
    /// Blanks of nest tables with a `-`.
    pub nest_dashes: u64,
    /// Refused with 25 for one reason alone, in the order of `MISPLACED`.
    pub misplaced: [u64; 3],
    /// By refusal number.
    pub refusals: [u64; 32],
    /// Why lines (02, Q-7).
    pub whys: WhyTally,
}

impl Tally {
    pub fn saw_check(&mut self, checked: Checked) {
        match checked {
            Checked::Accepted { .. } => self.accepted += 1,
            Checked::Refused(refused) => self.saw_refusal(refused),
        }
    }

    pub fn saw_ask(&mut self, asked: Asked) {
        self.asked += 1;
        if let Asked::Refused(refused) = asked {
            self.saw_refusal(refused);
        }
    }

    /// An answer to a query of a valid document; whether it has a `-`.
    fn saw_answer(&mut self, model: &Model, query: &[u8], dash: bool) {
        let words = words_of(query);
        let (verb, table) = (&words[0], &words[4]);
        let Some(table) = model.tables.iter().find(|known| same(&known.name, table)) else { return };
        if let Some(verb) = VERBS.iter().position(|known| same(known, verb)) {
            self.answers[scheme(table.scheme)][verb] += 1;
        }
        if table.scheme == Scheme::Nest {
            self.inherited[usize::from(table.weak.is_some()) + 2 * usize::from(table.strong.is_some())] += 1;
            self.nest_dashes += u64::from(dash);
        }
    }

    /// Why a line is 25, as the lines before it have it; told only where there is one reason.
    fn saw_misplaced(&mut self, before: &[u8], line: &[u8]) {
        let own = words_of(line);
        let mut reasons = [false; 3];
        for earlier in before.split(|&byte| byte == b'\n').map(words_of).filter(|words| words.len() > 2 && same(&words[1], &own[1])) {
            let is = |keyword: &str| same(&earlier[0], keyword);
            reasons[0] |= is(&own[0]);
            reasons[1] |= is("row");
            reasons[2] |= is("table") && !same(&earlier[2], "nest");
        }
        let found: Vec<usize> = (0..3).filter(|&reason| reasons[reason]).collect();
        if let [only] = found[..] {
            self.misplaced[only] += 1;
        }
    }

    fn saw_refusal(&mut self, refused: Refused) {
        self.refusals[refused.number as usize] += 1;
        self.no_date_in_document += u64::from(refused.number == 31 && refused.source == 1);
        self.no_date_in_query += u64::from(refused.number == 31 && refused.source == 2);
    }
}

/// The schemes and the verbs that answers are counted by.
pub const SCHEMES: [&str; 6] = ["none", "table", "column", "row", "cell", "nest"];
pub const VERBS: [&str; 5] = ["select", "count", "blank", "sure", "possible"];
/// The reasons for 25 (02, Q-11).
pub const MISPLACED: [&str; 3] = ["given twice", "behind a row", "for another scheme"];

/// A scheme's place in `SCHEMES`.
pub fn scheme(scheme: Scheme) -> usize {
    match scheme {
        Scheme::None => 0,
        Scheme::Table(_) => 1,
        Scheme::Column => 2,
        Scheme::Row => 3,
        Scheme::Cell => 4,
        Scheme::Nest => 5,
    }
}

/// The words of a form.
fn words_of(form: &[u8]) -> Vec<String> {
    damage::words(form).into_iter().map(|(from, to)| String::from_utf8_lossy(&form[from..to]).into_owned()).collect()
}

/// A document text, the model it was made from, and whether the text is valid by construction.
struct Text {
    model: Model,
    doc: Vec<u8>,
    valid: bool,
    recased: bool,
}

fn document(random: &mut Random) -> Text {
    let mut bound = false;
    let (model, mut valid) = match random.below(100) {
        0..=5 => {
            bound = true;
            documents::at_bound(random)
        }
        6..=7 => (documents::large(random), true),
        8..=10 => (documents::wide_nest(random), true),
        _ => (documents::ordinary(random), true),
    };
    let mut doc = model.text();
    valid = valid && doc.len() <= 60_000;
    match random.below(20) {
        0..=7 => {}
        8..=9 if !bound => {}
        10 if !bound => {
            doc = damage::noise(random);
            valid = false;
        }
        11 if !bound => {
            // Noise after lines that are right.
            doc.extend(damage::noise(random));
            valid = false;
        }
        kind if (12..=15).contains(&kind) || bound && (8..=15).contains(&kind) => {
            doc.extend(documents::faulty_line(random, &model));
            valid = false;
        }
        _ => {
            for _ in 0..*random.pick(&[1, 1, 1, 2, 3]) {
                damage::once(random, &mut doc);
            }
            valid = false;
        }
    }
    let (doc, recased) = recase::any(random, doc);
    Text { model, doc, valid, recased }
}

/// A query text: mostly good, else with one or two faults, of a length at the bound, no query, or damaged.
fn query(random: &mut Random, model: &Model, doc: &[u8], clock: Clock) -> Vec<u8> {
    let share = if doc.len() > LARGE { 2 } else { 10 };
    if random.chance(1, share) {
        return queries::widest(random, model, clock).text();
    }
    let mut query = queries::good(random, model, clock);
    match random.below(20) {
        0..=8 => query.text(),
        9..=13 => {
            for _ in 0..*random.pick(&[1, 1, 2, 3]) {
                queries::fault(random, model, &mut query);
            }
            query.text()
        }
        14 => {
            let length = random.between(4095, 4097);
            match queries::of_length(random, model, query.clone(), length) {
                Some(long) => long.text(),
                None => query.text(),
            }
        }
        15 | 16 => queries::no_query(random, model, &query),
        17 => damage::noise(random),
        _ => {
            let mut text = query.text();
            if random.chance(1, 2) {
                damage::word(random, &mut text, doc, 1);
                return text;
            }
            for _ in 0..*random.pick(&[1, 1, 2]) {
                damage::once(random, &mut text);
            }
            text
        }
    }
}

/// A run over texts: what the gate is compared with, the buffers, and what was seen.
pub struct Run {
    pub second: Second,
    pub buffers: Buffers,
    pub tally: Tally,
}

impl Run {
    pub fn new(second: Second) -> Run {
        Run { second, buffers: Buffers::new(), tally: Tally::default() }
    }

    /// One text: checked, then asked, and its own bytes the same afterwards.
    pub fn text(&mut self, random: &mut Random) -> Result<(), Difference> {
        let text = document(random);
        let before = text.doc.clone();
        self.tally.texts += 1;
        self.tally.longest = self.tally.longest.max(text.doc.len());
        let reserve = self.check(&text)?;
        self.tally.recased.texts += u64::from(text.recased);
        self.tally.recased.accepted += u64::from(text.recased && reserve.is_some());
        let questions = match (reserve, text.doc.len() > LARGE) {
            (None, _) => 1,
            (Some(_), true) => 2,
            (Some(_), false) => 5,
        };
        for _ in 0..questions {
            let clock = queries::clock(random);
            let query = query(random, &text.model, &text.doc, clock);
            let (query, recased) = recase::any(random, query);
            let dashes = self.tally.dashes;
            let answered = self.query(random, &text.doc, &query, clock, reserve)?;
            if answered && text.valid {
                let dash = self.tally.dashes > dashes;
                self.tally.saw_answer(&text.model, &query, dash);
            }
            self.tally.recased.queries += u64::from(recased);
            self.tally.recased.answered += u64::from(recased && answered);
        }
        let document = whys::Document { doc: &text.doc, model: &text.model, valid: text.valid, accepted: reserve.is_some() };
        for _ in 0..questions {
            whys::run(random, self.second, &document, &mut self.tally.whys)?;
        }
        if before == text.doc {
            Ok(())
        } else {
            Err(alone("the document's bytes were changed".to_string(), before, None, String::new()))
        }
    }

    /// The reserve, where the text is accepted.
    fn check(&mut self, text: &Text) -> Result<Option<usize>, Difference> {
        let checked = check(self.second, &text.doc).map_err(|difference| smaller_check(self.second, difference))?;
        self.tally.saw_check(checked);
        if let Checked::Refused(Refused { number: 25, start, length, .. }) = checked {
            let (before, line) = text.doc.split_at(start as usize);
            self.tally.saw_misplaced(before, &line[..length as usize]);
        }
        match checked {
            Checked::Accepted { reserve, .. } => Ok(Some(reserve as usize)),
            Checked::Refused(_) if text.valid => {
                let what = "both refuse a document that the generator holds valid".to_string();
                Err(alone(what, text.doc.clone(), None, format!("{checked:?}")))
            }
            Checked::Refused(_) => Ok(None),
        }
    }

    /// One query with several buffers, most of them about as long as the answer; whether it is answered in some.
    fn query(&mut self, random: &mut Random, doc: &[u8], query: &[u8], clock: Clock, reserve: Option<usize>) -> Result<bool, Difference> {
        self.tally.queries += 1;
        let mut question = Question { query: query.to_vec(), clock, buffer: LONGEST_RESERVE };
        let mut asked = self.ask(doc, &question)?;
        if matches!(asked, Asked::Refused(refused) if refused.number == 18) {
            question.buffer = ROOMY;
            asked = self.ask(doc, &question)?;
        }
        self.measure(doc, &question, asked)?;
        let Asked::Answered { length, .. } = asked else {
            question.buffer = random.below(40);
            return self.ask(doc, &question).map(|_| false);
        };
        self.tally.answered += 1;
        let length = length as usize;
        let word = query.to_ascii_lowercase();
        if word.starts_with(b"(blank ") {
            self.tally.blanks += 1;
            self.tally.dashes += u64::from(has_dash(self.buffers.given(length)));
        }
        self.tally.sure += u64::from(word.starts_with(b"(sure "));
        self.tally.possible += u64::from(word.starts_with(b"(possible "));
        self.tally.ranges += u64::from(has_bracket(self.buffers.given(length), 2));
        let verbs: [&[u8]; 4] = [b"(select ", b"(blank ", b"(sure ", b"(possible "];
        if let (Some(verb), true) = (verbs.iter().position(|verb| word.starts_with(verb)), has_bracket(self.buffers.given(length), 3)) {
            self.tally.dates[verb] += 1;
        }
        if repeats_no_column(query) && reserve.is_some_and(|reserve| length > reserve) {
            return Err(self.smaller_reserve(doc, question));
        }
        let mut lengths = vec![length - 1, length];
        if doc.len() <= LARGE {
            lengths.extend([length + 1, 0, random.below(length)]);
        }
        for buffer in lengths {
            question.buffer = buffer;
            self.ask(doc, &question)?;
        }
        Ok(true)
    }

    /// Measuring gives the answer's length, or the refusal, and the second implementation measures the same (02, Q-4).
    pub fn measure(&self, doc: &[u8], question: &Question, asked: Asked) -> Result<(), Difference> {
        let expected = match asked {
            Asked::Answered { length, .. } => Ok(length),
            Asked::Refused(refused) => Err(refused),
        };
        let measured = gate::measure(doc, &question.query, question.clock);
        let second = gate::measured(self.second, doc, &question.query, question.clock).unwrap_or(expected);
        if measured == Ok(expected) && second == expected {
            return Ok(());
        }
        let what = "what measuring gives".to_string();
        Err(Difference { second: format!("{second:?}"), ..alone(what, doc.to_vec(), Some(question.clone()), format!("{measured:?}; asking: {asked:?}")) })
    }

    /// The lines that an answer longer than its reserve takes.
    fn smaller_reserve(&mut self, doc: &[u8], question: Question) -> Difference {
        let mut over = |doc: &[u8]| -> Option<String> {
            let checked = check(self.second, doc).ok()?;
            let asked = self.buffers.ask(self.second, doc, &question).ok()?;
            match (checked, asked) {
                (Checked::Accepted { reserve, .. }, Asked::Answered { length, .. }) if length > reserve => {
                    Some(format!("reserve {reserve}, {asked:?}"))
                }
                _ => None,
            }
        };
        let kept = shrink(doc, &mut |lines| over(&lines.concat()).is_some());
        let doc = keep(doc, &kept);
        let gate = over(&doc).unwrap_or_default();
        alone("an answer longer than the reserve".to_string(), doc, Some(question), gate)
    }

    /// One question to both, and what is seen of it.
    pub fn ask(&mut self, doc: &[u8], question: &Question) -> Result<Asked, Difference> {
        match self.buffers.ask(self.second, doc, question) {
            Ok(asked) => {
                self.tally.saw_ask(asked);
                Ok(asked)
            }
            Err(difference) => Err(smaller_ask(self.second, &mut self.buffers, difference)),
        }
    }
}

/// Whether an answer has a `-` where a value would stand.
fn has_dash(answer: &[u8]) -> bool {
    answer.windows(3).any(|bytes| bytes == b" - " || bytes == b" -)")
}

/// Whether an answer has a value of so many numbers: two are a range, three a date.
fn has_bracket(answer: &[u8], numbers: usize) -> bool {
    let after = |place: usize| answer[place..].iter().take_while(|&&byte| byte != b')').filter(|&&byte| byte == b' ').count();
    (2..answer.len()).any(|place| answer[place - 2..place] == *b" (" && after(place) + 1 == numbers)
}

/// What the gate gave that is wrong by itself.
fn alone(what: String, doc: Vec<u8>, question: Option<Question>, gate: String) -> Difference {
    Difference { what, doc, alike: None, question, gate, second: String::new() }
}

fn smaller_check(second: Second, difference: Difference) -> Difference {
    let kept = shrink(&difference.doc, &mut |lines| check(second, &lines.concat()).is_err());
    let text = keep(&difference.doc, &kept);
    check(second, &text).err().unwrap_or(difference)
}

fn smaller_ask(second: Second, buffers: &mut Buffers, difference: Difference) -> Difference {
    let Some(question) = difference.question.clone() else { return difference };
    let kept = shrink(&difference.doc, &mut |lines| buffers.ask(second, &lines.concat(), &question).is_err());
    let text = keep(&difference.doc, &kept);
    buffers.ask(second, &text, &question).err().unwrap_or(difference)
}

/// The lines of those places.
pub fn keep(doc: &[u8], kept: &[usize]) -> Vec<u8> {
    let lines: Vec<&[u8]> = doc.split_inclusive(|&byte| byte == b'\n').collect();
    kept.iter().filter_map(|&place| lines.get(place)).copied().collect::<Vec<_>>().concat()
}
