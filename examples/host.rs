//! A host in Rust: it lends texts and a buffer to the gate, and prints what it gets back. From the root of the repository:
//!     tools/library
//!     rustc --edition 2021 -L target/staticlib -l static=gate -o host examples/host.rs && ./host
//! examples/host.expected is what it prints. examples/host.c is the same in C.

use std::io::{self, Write};
use std::process::ExitCode;

#[path = "../include/gate.rs"]
mod gate;

use gate::{ask, check, import, measure, measure_import, part, why, Answer, Checked, Clock, Loaded, Refusal, Source, WHY_BYTES};

const POLICY: &str = "\
(purpose all)
(purpose bill all)
(purpose ads all)
(purpose post ads)
(role desk)
(attr desk level num)
(user ana desk (level 5))
(cond-role senior desk (and (ge level 5) (lt hour 17)))
(grant ads senior)
(label free (allow all) (deny))
(label noads (allow all) (deny ads))
(table sub cell (who name) (due num))
(row sub (Ida free) (40 free))
(row sub (Bo free) (75 noads))
(row sub (Cy free) (60 free))
";

const QUERY: &str = "(select ana desk post sub (who) (gt due 50))";
const QUERY_BILL: &str = "(select ana desk bill sub (who) (gt due 50))";

/// Why lines about Bo, in row 1: an open cell and a closed one; and one about a row that is not there.
const WHY_LINES: [&str; 3] = ["(why post sub 1 who)", "(why post sub 1 due)", "(why post sub 3 due)"];

/// A list from the billing house, and the table for it; and one whose second record has a field too few.
const LIST: &str = "Ida,40\r\n\"Bo\",75\r\n";
const LIST_TABLE: &str = "(table list row (who name) (due num))\n";
const WRONG_LIST: &str = "Ida,40\r\nBo\r\n";

/// The clock of the sample: day 366 of a leap year, ten o'clock.
const CLOCK: Clock = Clock { year: 2028, day: 366, hour: 10 };

/// What stands in a buffer before it is lent, to see which bytes the gate leaves.
const MARK: u8 = 0xA5;

fn print_refused(to: &mut impl Write, doc: &[u8], query: &[u8], r: &Refusal) -> io::Result<()> {
    let source = match r.source {
        Source::Document => "document",
        Source::Query => "query",
        Source::File => "file",
    };
    write!(to, "refused {} {} {} {}: [", r.number, source, r.start, r.len)?;
    // Bytes as they are; a text may hold any.
    to.write_all(part(doc, query, r))?;
    writeln!(to, "]")
}

fn print_checked(to: &mut impl Write, doc: &[u8], r: &Result<Checked, Refusal>) -> io::Result<()> {
    match r {
        Ok(c) => writeln!(to, "accepted: {} lines, a reserve of {}", c.lines, c.reserve),
        Err(x) => print_refused(to, doc, b"", x),
    }
}

fn print_answered(to: &mut impl Write, doc: &[u8], query: &[u8], out: &[u8], r: &Result<Answer, Refusal>) -> io::Result<()> {
    match r {
        Ok(a) => {
            to.write_all(&out[..a.len])?;
            writeln!(
                to,
                "{} bytes by grant {}; passed {}, withheld {}, unmatched {}",
                a.len, a.grant, a.passed, a.withheld, a.unmatched
            )
        }
        Err(x) => print_refused(to, doc, query, x),
    }
}

fn print_measured(to: &mut impl Write, doc: &[u8], query: &[u8], r: &Result<usize, Refusal>) -> io::Result<()> {
    match r {
        Ok(len) => writeln!(to, "{len} bytes"),
        Err(x) => print_refused(to, doc, query, x),
    }
}

fn print_told(to: &mut impl Write, doc: &[u8], line: &[u8], out: &[u8], r: &Result<usize, Refusal>) -> io::Result<()> {
    match r {
        Ok(len) => to.write_all(&out[..*len]),
        Err(x) => print_refused(to, doc, line, x),
    }
}

fn yes(b: bool) -> &'static str {
    if b {
        "yes"
    } else {
        "no"
    }
}

/// All the bytes are still the mark.
fn untouched(bytes: &[u8]) -> bool {
    bytes.iter().all(|b| *b == MARK)
}

/// Gives whether the sample was accepted and answered; without that there is nothing to show.
fn show(to: &mut impl Write) -> io::Result<bool> {
    let doc = POLICY.as_bytes();
    // Bo's 75 made 10: the cell is closed to what the query is for.
    let policy10 = POLICY.replace("(75 noads)", "(10 noads)");
    let doc10 = policy10.as_bytes();
    // No conditional role is called junior.
    let wrong_policy = POLICY.replace("(row sub (Bo free) (75 noads))\n(row sub (Cy free) (60 free))\n", "(grant bill junior)\n");
    let wrong = wrong_policy.as_bytes();
    let query = QUERY.as_bytes();
    let query_bill = QUERY_BILL.as_bytes();

    writeln!(to, "-- the sample policy, checked")?;
    let checked = check(doc);
    print_checked(to, doc, &checked)?;
    let Ok(Checked { reserve, .. }) = checked else { return Ok(false) };

    writeln!(to, "-- the sample query, asked")?;
    // A buffer of this length is never too short for a query whose column bracket repeats no column.
    let mut buffer = vec![MARK; reserve];
    let first = ask(doc, query, CLOCK, &mut buffer);
    print_answered(to, doc, query, &buffer, &first)?;
    let Ok(Answer { len, .. }) = first else { return Ok(false) };
    writeln!(to, "the bytes behind the answer are as they were: {}", yes(untouched(&buffer[len..])))?;

    writeln!(to, "-- the same, with Bo's 75 made 10")?;
    let mut buffer10 = vec![MARK; reserve];
    let second = ask(doc10, query, CLOCK, &mut buffer10);
    print_answered(to, doc10, query, &buffer10, &second)?;
    writeln!(to, "the same number and figures: {}", yes(second == first))?;
    writeln!(to, "the same bytes in the buffer: {}", yes(buffer10 == buffer))?;

    writeln!(to, "-- a buffer one byte shorter than the answer")?;
    buffer.fill(MARK);
    let short = ask(doc, query, CLOCK, &mut buffer[..len - 1]);
    print_answered(to, doc, query, &buffer, &short)?;
    writeln!(to, "the buffer is as it was: {}", yes(untouched(&buffer)))?;

    writeln!(to, "-- a buffer just as long as the answer, which is measured")?;
    let measured = measure(doc, query, CLOCK);
    print_measured(to, doc, query, &measured)?;
    let Ok(len) = measured else { return Ok(false) };
    let mut just = vec![MARK; len];
    let answered = ask(doc, query, CLOCK, &mut just);
    print_answered(to, doc, query, &just, &answered)?;

    writeln!(to, "-- a purpose that nothing authorises, asked and measured")?;
    let refused = ask(doc, query_bill, CLOCK, &mut buffer);
    print_answered(to, doc, query_bill, &buffer, &refused)?;
    print_measured(to, doc, query_bill, &measure(doc, query_bill, CLOCK))?;

    writeln!(to, "-- an empty query")?;
    let refused = ask(doc, b"", CLOCK, &mut buffer);
    print_answered(to, doc, b"", &buffer, &refused)?;

    writeln!(to, "-- the sample policy, loaded once; asked twice, and measured")?;
    let Ok((loaded, checked)) = Loaded::new(doc) else { return Ok(false) };
    print_checked(to, doc, &Ok(checked))?;
    for _ in 0..2 {
        buffer.fill(MARK);
        let again = loaded.ask(query, CLOCK, &mut buffer);
        print_answered(to, doc, query, &buffer, &again)?;
        writeln!(to, "the same as from the text: {}", yes(again == first && buffer == buffer10))?;
    }
    print_measured(to, doc, query, &loaded.measure(query, CLOCK))?;
    print_answered(to, doc, query_bill, &buffer, &loaded.ask(query_bill, CLOCK, &mut buffer.clone()))?;

    writeln!(to, "-- why cells are open or closed, by the text and by the loaded policy")?;
    let mut told = [MARK; WHY_BYTES];
    for line in WHY_LINES.map(str::as_bytes) {
        told = [MARK; WHY_BYTES];
        let mut told_loaded = told;
        let found = why(doc, line, &mut told);
        print_told(to, doc, line, &told, &found)?;
        let again = loaded.why(line, &mut told_loaded);
        writeln!(to, "the same by the loaded policy: {}", yes(again == found && told_loaded == told))?;
    }
    writeln!(to, "the buffer of the refused line is as it was: {}", yes(untouched(&told)))?;
    buffer.fill(MARK);

    writeln!(to, "-- a policy with an unknown name, loaded, checked and asked")?;
    let Err((_, refused)) = Loaded::new(wrong) else { return Ok(false) };
    print_refused(to, wrong, b"", &refused)?;
    print_checked(to, wrong, &check(wrong))?;
    let refused = ask(wrong, query, CLOCK, &mut buffer);
    print_answered(to, wrong, query, &buffer, &refused)?;
    writeln!(to, "the buffer is as it was: {}", yes(untouched(&buffer)))?;

    writeln!(to, "-- a list, measured, imported, and checked behind its table")?;
    let measured = measure_import(LIST.as_bytes(), b"list", b"free");
    print_measured(to, doc, b"", &measured)?;
    let Ok(len) = measured else { return Ok(false) };
    let mut lines = vec![MARK; len];
    let Ok(_) = import(LIST.as_bytes(), b"list", b"free", &mut lines) else { return Ok(false) };
    to.write_all(&lines)?;
    let grown = [doc, LIST_TABLE.as_bytes(), &lines].concat();
    print_checked(to, &grown, &check(&grown))?;

    writeln!(to, "-- a list whose second record has a field too few")?;
    let Err(refused) = import(WRONG_LIST.as_bytes(), b"list", b"free", &mut buffer) else { return Ok(false) };
    print_refused(to, doc, b"", &refused)?;
    writeln!(to, "the buffer is as it was: {}", yes(untouched(&buffer)))?;
    Ok(true)
}

fn main() -> ExitCode {
    let mut to = io::stdout().lock();
    let shown = show(&mut to);
    // A host that printed only half of it did not succeed.
    match (shown, to.flush()) {
        (Ok(true), Ok(())) => ExitCode::SUCCESS,
        _ => ExitCode::FAILURE,
    }
}
