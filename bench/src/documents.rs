//! The documents and queries that are measured: one kind of document for each scheme, grown by its rows.

/// The six schemes of a table.
#[derive(Clone, Copy, Debug, PartialEq, Eq)]
enum Scheme {
    None,
    Table,
    Column,
    Row,
    Cell,
    Nest,
}

const SCHEMES: [Scheme; 6] = [Scheme::None, Scheme::Table, Scheme::Column, Scheme::Row, Scheme::Cell, Scheme::Nest];

/// Bytes of the documents; 60,000 is the longest that is taken.
const SIZES: [(&str, usize); 3] = [("15", 15_000), ("30", 30_000), ("60", 60_000)];

/// Rows of the main table; the second table has the rest of the 1,024.
const MOST_ROWS: usize = 1_020;

pub const CLOCK: (u64, u64, u64) = (2028, 366, 10);

/// The two schemes that are held against each other: a nest document (02, Q-11) has the rows of the cell document, as many as fit, with
/// the same cells closed.
pub const CELL: &str = "cell";
pub const NEST: &str = "nest";

/// Two columns, two comparisons; the purpose is authorised by the third grant.
const SELECT: &str = "(select ana desk post sub (who due) (and (gt due 5000) (ne town Ulm)))";
const COUNT: &str = "(count ana desk post sub (and (gt due 5000) (ne town Ulm)))";

impl Scheme {
    fn word(self) -> &'static str {
        match self {
            Scheme::None => "none",
            Scheme::Table => "table",
            Scheme::Column => "column",
            Scheme::Row => "row",
            Scheme::Cell => CELL,
            Scheme::Nest => NEST,
        }
    }
}

/// A repeatable sequence of numbers.
struct Sequence(u64);

impl Sequence {
    fn below(&mut self, bound: u64) -> u64 {
        self.0 ^= self.0 << 13;
        self.0 ^= self.0 >> 7;
        self.0 ^= self.0 << 17;
        (self.0 >> 11) % bound
    }
}

/// Purposes, roles, attributes, users, conditional roles, grants and labels, the same in each document.
pub const POLICY: &str = "\
(purpose all)
(purpose bill all)
(purpose invoice bill)
(purpose remind bill)
(purpose ads all)
(purpose post ads)
(purpose mail ads)
(purpose phone ads)
(purpose care all)
(purpose repair care)
(purpose survey care)
(purpose audit all)
(role staff)
(role desk staff)
(role night desk)
(role clerk staff)
(attr staff level num)
(attr desk site name)
(attr clerk grade num)
(user ana desk (level 5) (site north))
(user bo desk (level 3) (site south))
(user cy night (level 7) (site north))
(user dee clerk (level 4) (grade 2))
(user ana clerk (level 5) (grade 3))
(user eli staff (level 1))
(cond-role senior staff (ge level 5))
(cond-role north desk (and (eq site north) (lt hour 17)))
(cond-role daytime staff (and (ge hour 8) (le hour 18) (not (lt level 2))))
(cond-role graded clerk (or (gt grade 2) (ge level 6)))
(grant bill graded)
(grant care daytime)
(grant ads north)
(grant audit senior)
(grant all graded)
(label free (allow all) (deny))
(label noads (allow all) (deny ads))
(label onlybill (allow bill) (deny))
(label adsonly (allow ads) (deny phone))
(label nophone (allow all) (deny phone))
(label shut (allow) (deny))
(label nobill (allow all) (deny bill))
(label caring (allow care audit) (deny survey))
";

const TOWNS: [&str; 8] = ["Ulm", "Bern", "Graz", "Oslo", "Kiel", "Lund", "Metz", "Pisa"];
/// Under the purpose `post` these are open ..
pub const OPEN: [&str; 4] = ["free", "adsonly", "nophone", "nobill"];
/// .. and these are closed.
const CLOSED: [&str; 4] = ["noads", "onlybill", "shut", "caring"];
/// Of these the first alone denies it, as a closed cell of a nest table has to: a label that says nothing of a purpose leaves what comes
/// down from the row and the table.
const DENYING: &str = CLOSED[0];
/// What a nest table says of itself: the strong label says nothing of `post`, so that all four labels of a cell are asked.
const NEST_LINES: &str = "(strong sub onlybill)\n(weak sub noads)\n";
/// The columns: name, type and, under scheme column, label. Those that the queries name are open.
const COLUMNS: [(&str, &str, &str); 6] = [
    ("who", "name", "free"),
    ("due", "num", "adsonly"),
    ("town", "name", "nophone"),
    ("since", "num", "noads"),
    ("plan", "name", "onlybill"),
    ("visits", "num", "shut"),
];

fn table_line(scheme: Scheme) -> String {
    let mut line = format!("(table sub {}", scheme.word());
    if scheme == Scheme::Table {
        line.push_str(" nophone");
    }
    for (name, kind, label) in COLUMNS {
        if scheme == Scheme::Column {
            line.push_str(&format!(" ({name} {kind} {label})"));
        } else {
            line.push_str(&format!(" ({name} {kind})"));
        }
    }
    line.push_str(")\n");
    line
}

/// A label: one in `one_in` closed.
fn label(sequence: &mut Sequence, one_in: u64) -> &'static str {
    let place = sequence.below(4) as usize;
    if sequence.below(one_in) == 0 {
        CLOSED[place]
    } else {
        OPEN[place]
    }
}

fn row_line(scheme: Scheme, sequence: &mut Sequence, number: usize) -> String {
    let values = [
        format!("Subscriber-{number:04}"),
        format!("{}", sequence.below(10_000)),
        TOWNS[sequence.below(8) as usize].to_string(),
        format!("{}", 19_900_000 + sequence.below(300_000)),
        format!("plan-{}", sequence.below(40)),
        format!("{}", sequence.below(2_000) as i64 - 200),
    ];
    let mut line = String::from("(row sub");
    match scheme {
        Scheme::Row => line.push_str(&format!(" {}", label(sequence, 4))),
        // By the number, so that the cells are those of scheme cell.
        Scheme::Nest => line.push_str(&format!(" {}", [OPEN, CLOSED][number % 4 / 3][number % 7 % 4])),
        Scheme::None | Scheme::Table | Scheme::Column | Scheme::Cell => {}
    }
    for value in values {
        match scheme {
            Scheme::Cell => line.push_str(&format!(" ({value} {})", label(sequence, 8))),
            Scheme::Nest => {
                let own = label(sequence, 8);
                line.push_str(&format!(" ({value} {})", if CLOSED.contains(&own) { DENYING } else { own }));
            }
            Scheme::None | Scheme::Table | Scheme::Column | Scheme::Row => line.push_str(&format!(" {value}")),
        }
    }
    line.push_str(")\n");
    line
}

/// A document, the three queries that it is asked with, and what it is called.
pub struct Case {
    pub scheme: &'static str,
    pub size: &'static str,
    pub text: Vec<u8>,
    pub select: String,
    /// The same as a blank (02, Q-10).
    pub blank: String,
    pub count: String,
    /// Queries that are refused before a row is looked at, and with which number.
    pub refused: Vec<(u64, String)>,
}

impl Case {
    fn new(scheme: &'static str, size: &'static str, text: Vec<u8>, select: String, count: String) -> Case {
        let blank = select.replacen("(select ", "(blank ", 1);
        Case { scheme, size, text, select, blank, count, refused: Vec::new() }
    }

    /// The same with the queries that take ranges.
    fn ranged(self) -> Case {
        let [sure, possible] = ["(sure ", "(possible "].map(|word| self.select.replacen("(select ", word, 1));
        Case { select: sure, blank: possible, ..self }
    }

    /// Whether the peers have no such values or labels.
    pub fn is_alone(&self) -> bool {
        ALONE.contains(&self.scheme)
    }

    /// How many row lines it has.
    pub fn rows(&self) -> usize {
        self.text.split(|&byte| byte == b'\n').filter(|line| line.starts_with(b"(row ")).count()
    }
}

/// The document of a scheme with at most so many bytes, and as many rows as fit.
fn document(scheme: Scheme, bytes: usize) -> Vec<u8> {
    let mut text = String::from(POLICY);
    text.push_str("(table sites none (site name) (seats num))\n(public sites)\n");
    text.push_str("(row sites north 14)\n(row sites south 9)\n");
    text.push_str(&table_line(scheme));
    match scheme {
        // 02, Q-2: without this line no query of it is answered.
        Scheme::None => text.push_str("(public sub)\n"),
        Scheme::Nest => text.push_str(NEST_LINES),
        Scheme::Table | Scheme::Column | Scheme::Row | Scheme::Cell => {}
    }
    let mut sequence = Sequence(0x9e37_79b9_7f4a_7c15);
    for number in 0..MOST_ROWS {
        let line = row_line(scheme, &mut sequence, number);
        if text.len() + line.len() > bytes {
            break;
        }
        text.push_str(&line);
    }
    text.into_bytes()
}

/// The select with a word changed, for each refusal that needs no row: another bracket too few, user unknown, role not given, purpose
/// not authorised, column unknown, operator of the wrong type; and a closed table or column where there is one.
fn refused(scheme: Scheme) -> Vec<(u64, String)> {
    let mut refused = vec![
        (11, SELECT.replace("Ulm)))", "Ulm))")),
        (12, SELECT.replace("ana", "zoe")),
        (13, SELECT.replace("desk", "night")),
        (14, SELECT.replace("ana", "bo")),
        (15, SELECT.replace("town", "city")),
        (16, SELECT.replace("ne town", "lt town")),
    ];
    match scheme {
        Scheme::Table => refused.push((17, SELECT.replace("post", "phone"))),
        Scheme::Column => refused.push((17, SELECT.replace("who due", "who since"))),
        // 02, Q-11: a nest table gives no 17.
        Scheme::None | Scheme::Row | Scheme::Cell | Scheme::Nest => {}
    }
    refused
}

/// The eighteen cases of the table: six schemes, three sizes.
pub fn cases() -> Vec<Case> {
    let mut cases = Vec::new();
    for scheme in SCHEMES {
        for (size, bytes) in SIZES {
            let case = Case::new(scheme.word(), size, document(scheme, bytes), SELECT.into(), COUNT.into());
            cases.push(Case { refused: refused(scheme), ..case });
        }
    }
    cases
}

/// Documents of scheme none with a range for every other amount, and for `visits` in each row.
pub fn ranges() -> Vec<Case> {
    let text = |bytes: usize| {
        let plain = String::from_utf8(document(Scheme::None, bytes)).expect("names and numbers");
        let mut text = String::new();
        for (place, line) in plain.lines().enumerate() {
            let line = if line.starts_with("(row sub ") { with_ranges(line, place % 2 == 0) } else { line.into() };
            if text.len() + line.len() < bytes {
                text.push_str(&line);
                text.push('\n');
            }
        }
        text.into_bytes()
    };
    // The count is of a column without ranges.
    let count = "(count ana desk post sub (and (ne plan plan-7) (ne town Ulm)))";
    SIZES.map(|(size, bytes)| Case::new("ranges", size, text(bytes), SELECT.into(), count.into()).ranged()).into()
}

/// A row of six values with its last, and if wanted its second, made a range of a hundred numbers.
fn with_ranges(line: &str, both: bool) -> String {
    let mut words: Vec<String> = line.trim_end_matches(')').split(' ').map(String::from).collect();
    for place in if both { vec![3, 7] } else { vec![7] } {
        let low: i64 = words[place].parse().expect("a number");
        words[place] = format!("({low} {})", low + 100);
    }
    words.join(" ") + ")"
}

/// Documents full of dates (02, Q-14), three in each row; and the same rows with a number for each, year, month and day in one.
pub const DATES: &str = "dates";
pub const DAYS: &str = "days";

pub fn dates() -> Vec<Case> {
    let most: Vec<usize> = (1..=MOST_ROWS).collect();
    let rows = |bytes: usize| most.partition_point(|&rows| calendar(DATES, "", rows).text.len() <= bytes);
    let of = |scheme: &'static str| SIZES.map(|(size, bytes)| calendar(scheme, size, rows(bytes)));
    of(DATES).into_iter().chain(of(DAYS)).collect()
}

/// So many rows of a name and three days, and a select by two of them.
fn calendar(scheme: &'static str, size: &'static str, rows: usize) -> Case {
    let written = |year: u64, month: u64, day: u64| match scheme {
        DATES => format!("({year} {month} {day})"),
        _ => format!("{year}{month:02}{day:02}"),
    };
    let kind = if scheme == DATES { "date" } else { "num" };
    let mut text = format!("{POLICY}(table sub none (who name) (born {kind}) (since {kind}) (paid {kind}))\n(public sub)\n");
    let mut sequence = Sequence(0x9e37_79b9_7f4a_7c15);
    for number in 0..rows {
        let mut day = |first: u64, years: u64| written(first + sequence.below(years), 1 + sequence.below(12), 1 + sequence.below(28));
        text.push_str(&format!("(row sub Subscriber-{number:04} {} {} {})\n", day(1940, 70), day(1990, 38), day(2027, 2)));
    }
    let condition = format!("(and (gt since {}) (ne paid {}))", written(2009, 6, 30), written(2028, 2, 29));
    let select = format!("(select ana desk post sub (who since) {condition})");
    Case::new(scheme, size, text.into_bytes(), select, format!("(count ana desk post sub {condition})"))
}

/// Documents without rows: so many purposes, each below the one before it. The root is granted and the last is asked for.
pub const CHAIN: &str = "chain";

pub fn chain(size: &'static str, purposes: usize) -> Case {
    let mut text = format!("(purpose {})\n", purpose(0));
    for number in 1..purposes {
        text.push_str(&format!("(purpose {} {})\n", purpose(number), purpose(number - 1)));
    }
    text.push_str("(role desk)\n(user ana desk)\n(cond-role any desk (ge hour 0))\n");
    text.push_str(&format!("(grant {} any)\n(table sub none (c00 num) (c01 num))\n(public sub)\n", purpose(0)));
    let asked = purpose(purposes - 1);
    let select = format!("(select ana desk {asked} sub (c00 c01) (gt c00 0))");
    Case::new(CHAIN, size, text.into_bytes(), select, format!("(count ana desk {asked} sub (gt c00 0))"))
}

/// The names of purposes are of one length.
fn purpose(number: usize) -> String {
    format!("purpose-{number:03}")
}

/// The cases that are made to be bad, which the goals leave out.
pub const BAD: [&str; 13] = ["full", "turns", "dear", "front", "mixed", "nots", "cased", "alike", "wide", "gaps", "ends", "dated", "merged"];

/// The cases with ranges (02, Q-12), asked by sure in place of select and by possible in place of blank, and those with dates (02, Q-14)
/// with their numbers, and nest tables (02, Q-11): not asked of the peers.
pub const ALONE: [&str; 7] = ["ranges", "ends", DATES, DAYS, "dated", NEST, "merged"];

/// Lookups that are dear: 64 labels of 24 bytes that differ in the last two, each of 16 cells in a row with the last of them.
pub fn dear_lookups() -> Case {
    lookups("dear", last_two, |name| name)
}

fn last_two(number: usize) -> String {
    format!("label-with-a-long-name{number:02}")
}

/// The same with labels that differ in the first two bytes.
pub fn front_lookups() -> Case {
    lookups("front", |number| format!("{}{}-name-of-a-label-long", letter(number / 8), letter(number % 8)), |name| name)
}

/// As the first, with the labels defined in small letters and used in capitals (02, Q-8).
pub fn mixed_lookups() -> Case {
    lookups("mixed", last_two, |name| name.to_uppercase())
}

fn letter(place: usize) -> char {
    (b'a' + place as u8) as char
}

fn lookups(scheme: &'static str, named: fn(usize) -> String, used: fn(String) -> String) -> Case {
    let mut text = String::from("(purpose all)\n(role desk)\n(user ana desk)\n(cond-role any desk (ge hour 0))\n(grant all any)\n");
    for number in 0..64 {
        text.push_str(&format!("(label {} (allow all) (deny))\n", named(number)));
    }
    text.push_str("(table sub cell");
    for column in 0..16 {
        text.push_str(&format!(" (c{column:02} num)"));
    }
    text.push_str(")\n");
    let row = format!("(row sub{})\n", format!(" (1 {})", used(named(63))).repeat(16));
    while text.len() + row.len() <= 60_000 {
        text.push_str(&row);
    }
    let select = "(select ana desk all sub (c00 c01) (and (gt c14 0) (ne c15 7)))";
    Case::new(scheme, "60", text.into_bytes(), select.into(), "(count ana desk all sub (and (gt c14 0) (ne c15 7)))".into())
}

/// Sixteen columns, in turns open and closed, all of them selected: a select gives no row, a blank each with eight gaps (02, Q-10).
pub fn gaps() -> Case {
    sixteen("gaps", "(label a (allow all) (deny))\n(label b (allow) (deny))\n", CELL, "", "")
}

/// The same of a nest table (02, Q-11), of which the table and each row deny what every other cell allows again.
pub fn merged() -> Case {
    sixteen("merged", "(label a (allow all) (deny))\n(label b (allow) (deny all))\n", NEST, "(weak sub b)\n", " b")
}

/// Rows of sixteen cells with the labels a and b in turns, the row's own before them.
fn sixteen(scheme: &'static str, labels: &str, word: &str, noted: &str, own: &str) -> Case {
    let mut text = String::from("(purpose all)\n(role desk)\n(user ana desk)\n(cond-role any desk (ge hour 0))\n(grant all any)\n");
    text.push_str(&format!("{labels}(table sub {word}"));
    let columns: Vec<String> = (0..16).map(|column| format!("c{column:02}")).collect();
    text.push_str(&columns.iter().map(|column| format!(" ({column} num)")).collect::<String>());
    text.push_str(&format!(")\n{noted}"));
    let row = format!("(row sub{own}{})\n", " (1 a) (2 b)".repeat(8));
    while text.len() + row.len() <= 60_000 {
        text.push_str(&row);
    }
    Case::new(scheme, "60", text.into_bytes(), format!("(select ana desk all sub ({}))", columns.join(" ")), "(count ana desk all sub)".into())
}

/// A full document asked with a full condition: 64 comparisons, which come out alike in most rows.
pub fn full_condition() -> Case {
    condition("full", "and", |number| format!(" (ne visits {})", 3_000 + number))
}

/// The same with comparisons that come out otherwise in nearly every row.
pub fn turning_condition() -> Case {
    condition("turns", "or", |number| format!(" (lt visits {})", 156 * (number + 1)))
}

fn condition(scheme: &'static str, joined: &str, compared: fn(usize) -> String) -> Case {
    let compared: String = (0..64).map(compared).collect();
    let select = format!("(select ana desk post sub (who due) ({joined}{compared}))");
    Case::new(scheme, "60", document(Scheme::None, 60_000), select, format!("(count ana desk post sub ({joined}{compared}))"))
}

/// A policy without conditions or labels, and one table of these columns with 1,024 rows of these values.
fn plain_rows(columns: &str, values: &str) -> Vec<u8> {
    let mut text = String::from("(purpose all)\n(role desk)\n(user ana desk)\n(cond-role any desk (ge hour 0))\n(grant all any)\n");
    text.push_str(&format!("(table sub none{columns})\n(public sub)\n"));
    text.push_str(&format!("(row sub{values})\n").repeat(1_024));
    text.into_bytes()
}

/// A value of 24 bytes.
const LONG: &str = "value-with-a-long-name-x";

fn plain(scheme: &'static str, columns: &str, values: &str, selected: &str, condition: &str) -> Case {
    let select = format!("(select ana desk all sub ({selected}) {condition})");
    Case::new(scheme, "60", plain_rows(columns, values), select, format!("(count ana desk all sub {condition})"))
}

/// 64 comparisons below five `not`s each, every one of which is met in every row.
pub fn nested_nots() -> Case {
    let compared = "(not (not (not (not (not (lt c00 0))))))";
    plain("nots", " (c00 num)", " 5", "c00", &format!("(and{})", format!(" {compared}").repeat(64)))
}

/// 64 comparisons below five `not`s each with the range of all numbers, none of which is sure and every one possible, in every row.
pub fn both_ends() -> Case {
    let compared = "(not (not (not (not (not (lt c00 0))))))";
    let all = " (-9223372036854775808 9223372036854775807)";
    let case = plain("ends", " (c00 num)", all, "c00", &format!("(and{})", format!(" {compared}").repeat(64))).ranged();
    Case { count: "(count ana desk all sub)".into(), ..case }
}

/// 64 comparisons with the day before the one that stands in every row, in a condition that needs all of them.
pub fn next_days() -> Case {
    plain("dated", " (c00 date)", " (2028 12 31)", "c00", &format!("(and{})", " (gt c00 (2028 12 30))".repeat(64)))
}

/// 64 comparisons of names that are the same to the last byte, every one of which is met in every row.
pub fn alike_names() -> Case {
    same_names("alike", LONG)
}

/// The same with names that are the same but for their case (02, Q-8).
pub fn cased_names() -> Case {
    same_names("cased", &LONG.to_uppercase())
}

fn same_names(scheme: &'static str, compared: &str) -> Case {
    plain(scheme, " (c00 name)", &format!(" {LONG}"), "c00", &format!("(or{})", format!(" (ne c00 {compared})").repeat(64)))
}

/// One column of long names, selected sixteen times.
pub fn wide_answer() -> Case {
    plain("wide", " (c00 name)", &format!(" {LONG}"), &["c00"; 16].join(" "), &format!("(eq c00 {LONG})"))
}
