//! 01's sample document and small helpers for the tests.
#![allow(dead_code)]

use reference::{ask, check, Answer, Clock, Refusal, Source};

/// The document of 01, "Sample session".
pub const SAMPLE: &str = "\
(purpose all)
(purpose bill all)
(purpose ads all)
(purpose post ads)
(role desk)
(attr desk level num)
(user ana desk (level 5))
(cond-role senior desk (and (ge level 5) (lt hour 17)))
(grant ads senior)
(label free (allow all) (deny))
(label noads (allow all) (deny ads))
(table sub cell (who name) (due num))
(row sub (Ida free) (40 free))
(row sub (Bo free) (75 noads))
(row sub (Cy free) (60 free))
";

/// The query of 01, "Sample session".
pub const QUERY: &str = "(select ana desk post sub (who) (gt due 50))";

/// The clock of 01, "Sample session".
pub const CLOCK: Clock = Clock { year: 2028, day: 366, hour: 10 };

/// Lines before any table: purposes root > mid > leaf and root > side, user u in role r, everything granted.
pub const BASE: &str = "\
(purpose root)
(purpose mid root)
(purpose leaf mid)
(purpose side root)
(role r)
(user u r)
(cond-role c r (gt year 0))
(grant root c)
(label open (allow root) (deny))
(label shut (allow) (deny))
(label nomid (allow root) (deny mid))
";

/// A refused document's number and part.
pub fn refused(doc: &str) -> (u32, usize, usize) {
    let refusal = check(doc.as_bytes()).expect_err(doc);
    assert_eq!(refusal.source, Source::Document);
    (refusal.number, refusal.start, refusal.len)
}

/// An accepted document's number of lines.
pub fn lines(doc: &str) -> usize {
    check(doc.as_bytes()).unwrap_or_else(|refusal| panic!("{refusal:?} in {doc}")).lines
}

/// The answer's text and counts, with the untouched bytes checked.
pub fn answer(doc: &str, query: &str, clock: Clock) -> (String, Answer) {
    let mut out = vec![b'#'; 60_021];
    let answer = ask(doc.as_bytes(), query.as_bytes(), clock, &mut out).expect(query);
    assert!(out[answer.len..].iter().all(|&byte| byte == b'#'));
    (String::from_utf8(out[..answer.len].to_vec()).unwrap(), answer)
}

/// Only the text of the answer.
pub fn answer_text(doc: &str, query: &str, clock: Clock) -> String {
    answer(doc, query, clock).0
}

/// A refused query's number and part, with the untouched buffer checked.
pub fn query_refused(doc: &str, query: &[u8], clock: Clock) -> (u32, usize, usize) {
    let mut out = vec![b'#'; 60_021];
    let refusal: Refusal = ask(doc.as_bytes(), query, clock, &mut out).expect_err("an answer");
    assert!(out.iter().all(|&byte| byte == b'#'));
    assert_eq!(refusal.source, Source::Query);
    (refusal.number, refusal.start, refusal.len)
}
