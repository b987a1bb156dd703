//! 01, "Asking": the numbers 10 to 18 with their parts, their order, and the answers of the five schemes.

mod common;
use common::*;
use reference::{ask, measure, Answer, Clock, Refusal, Source};

#[test]
fn numbers_1_to_9_as_in_checking() {
    let mut out = [b'#'; 8];
    let bad_clock = Clock { year: 0, day: 0, hour: 0 };
    let mut first = |doc: &str| {
        let refusal = ask(doc.as_bytes(), b"no query", bad_clock, &mut out).expect_err(doc);
        assert_eq!(refusal.source, Source::Document);
        assert_eq!(out, [b'#'; 8]);
        (refusal.number, refusal.start, refusal.len)
    };
    assert_eq!(first(&"(".repeat(60_001)), (1, 0, 0));
    assert_eq!(first("(purpose a)"), (2, 0, 11));
    let roles: String = (0..65).map(|n| format!("(role r{n:03})\n")).collect();
    assert_eq!(first(&roles), (3, 768, 11));
    assert_eq!(first("(role a)\n(role a)\n"), (4, 15, 1));
    assert_eq!(first("(role a b)\n"), (5, 8, 1));
    assert_eq!(first("(purpose a)\n(purpose b)\n"), (6, 12, 11));
    assert_eq!(first("(table t none (k num))\n(row t)\n"), (7, 23, 7));
    assert_eq!(first("(table t none (k num))\n(row t x)\n"), (8, 30, 1));
    assert_eq!(first("(role r)\n(user u r)\n(attr r a num)\n"), (9, 20, 14));
}

#[test]
fn number_10_clock() {
    for clock in [
        Clock { year: 0, day: 1, hour: 0 },
        Clock { year: 10_000, day: 1, hour: 0 },
        Clock { year: 2027, day: 0, hour: 0 },
        Clock { year: 2027, day: 366, hour: 0 },
        Clock { year: 1900, day: 366, hour: 0 },
        Clock { year: 2028, day: 367, hour: 0 },
        Clock { year: 2028, day: 366, hour: 24 },
        Clock { year: u64::MAX, day: u64::MAX, hour: u64::MAX },
    ] {
        assert_eq!(query_refused(SAMPLE, QUERY.as_bytes(), clock), (10, 0, 0));
        // 10 comes before 11.
        assert_eq!(query_refused(SAMPLE, b"(", clock), (10, 0, 0));
    }
}

#[test]
fn number_11_shape() {
    for query in [
        "", " ", "(", ")", "()", "select", "(select)", "(select u r p t)", "(select u r p t ())", "(select u r p t c)", "(select u r p t (1))", "(select u r p t ((c)))",
        "(select u r p (c))", "(select u r p t (c) (c))", "(select u r p t (c) (eq c 1) (eq c 1))", "(select u r p t (c) c)", "(select u r p t (c)  (eq c 1))",
        "(select 1 r p t (c))", "(select u 1 p t (c))", "(select u r 1 t (c))", "(select u r p 1 (c))", "(selects u r p t (c))", "(row t 1)",
        "(count u r p)", "(count u r p t c)", "(count u r p t (c))", "(count u r p t (eq c 1) (eq c 1))", "(count u r p t (and))", "(count u r p t (eq 1 c))", "(count u r p t (eq c 1 1))",
        "(count u r p t)\n", "(count u r p\nt)", "(count u r p t) ", " (count u r p t)", "(count u r p t)(count u r p t)", "(count u r p t (eq c 01))", "(count u r p t (eq c 9223372036854775808))",
        "(count uuuuuuuuuuuuuuuuuuuuuuuuu r p t)",
    ] {
        assert_eq!(query_refused(SAMPLE, query.as_bytes(), CLOCK), (11, 0, query.len()), "{query}");
    }
    assert_eq!(query_refused(SAMPLE, b"\x00\xff\x80", CLOCK), (11, 0, 3));
}

#[test]
fn number_11_bounds() {
    // 16 columns are taken, 17 are not: "(select ana desk post sub (" is 27 bytes, 17 times "who" and 16 spaces 67, "))" 2.
    let select = |count: usize| format!("(select ana desk post sub ({}))", vec!["who"; count].join(" "));
    assert!(answer_text(SAMPLE, &select(16), CLOCK).ends_with("(end 3 0 0)\n"));
    assert_eq!(query_refused(SAMPLE, select(17).as_bytes(), CLOCK), (11, 0, 96));
    // 64 comparisons are taken, 65 are not: "(count ana desk post sub (or))" is 30 bytes, " (gt due 50)" 12.
    let count = |count: usize| format!("(count ana desk post sub (or{}))", " (gt due 50)".repeat(count));
    assert_eq!(answer_text(SAMPLE, &count(64), CLOCK), "(end 1 1 1)\n");
    assert_eq!(query_refused(SAMPLE, count(65).as_bytes(), CLOCK), (11, 0, 810));
    // A query over 4,096 bytes can only be one over the other bounds or malformed; at 4,096 a long one still counts.
    // 64 comparisons "(eq NAME NAME)" with names of 24 bytes are 54 bytes each, so a full query stays below 4,096;
    // the nots around each of them make it longer: "(not " and ")" are 6 bytes.
    let name = "n".repeat(24);
    let doc = format!("{BASE}(table t none ({name} name))\n(public t)\n(row t {name})\n");
    let long = |nots: usize, plain: usize| {
        let eq = format!("(eq {name} {name})");
        let mut parts = vec![format!("{}{}{}", "(not ".repeat(2), eq, "))"); nots];
        parts.extend(vec![eq; plain]);
        format!("(count u r root t (and {}))", parts.join(" "))
    };
    // "(count u r root t (and " 23 bytes, 54 for a comparison, 12 for two nots, spaces between, "))" 2.
    let under = long(42, 22);
    assert_eq!(under.len(), 23 + 64 * 54 + 42 * 12 + 63 + 2);
    assert_eq!(under.len(), 4048);
    assert_eq!(answer_text(&doc, &under, CLOCK), "(end 1 0 0)\n");
    let over = long(47, 17);
    assert_eq!(over.len(), 4108);
    assert_eq!(query_refused(&doc, over.as_bytes(), CLOCK), (11, 0, 4108));
}

#[test]
fn number_11_exactly_4096_bytes() {
    // "(count u r root t (and " is 23 bytes and "))" 2; 4,071 are left: 63 spaces and 64 conditions of 4,008 bytes in all.
    // "(eq k 1)" is 8 bytes; 44 of them under nine nots of 6 are 62 each: 2,728; the others take the 1,280 left: 20 of 64.
    // 64 bytes: "(eq k NUMBER)" is 7 + the number's; nine nots 54 leave 10 bytes, so the number has 3 digits.
    let nested = |number: &str| format!("{}(eq k {number}){}", "(not ".repeat(9), ")".repeat(9));
    let mut parts = vec![nested("1"); 44];
    parts.extend(vec![nested("100"); 20]);
    let query = format!("(count u r root t (and {}))", parts.join(" "));
    assert_eq!(query.len(), 4096);
    let doc = format!("{BASE}(table t none (k num))\n(public t)\n(row t 2)\n");
    // Nine nots turn the comparison round: 2 is neither 1 nor 100, so all hold.
    assert_eq!(answer_text(&doc, &query, CLOCK), "(end 1 0 0)\n");
    let longer = query.replacen("(eq k 1)", "(eq k 10)", 1);
    assert_eq!(query_refused(&doc, longer.as_bytes(), CLOCK), (11, 0, 4097));
}

#[test]
fn number_12_unknown() {
    // "(count ana desk post sub)": U at 7, ROLE at 11, P at 16.
    assert_eq!(query_refused(SAMPLE, b"(count bob desk post sub)", CLOCK), (12, 7, 3));
    assert_eq!(query_refused(SAMPLE, b"(count ana shop post sub)", CLOCK), (12, 11, 4));
    assert_eq!(query_refused(SAMPLE, b"(count ana desk none sub)", CLOCK), (12, 16, 4));
    // The leftmost of several.
    assert_eq!(query_refused(SAMPLE, b"(count bob shop none nosuch)", CLOCK), (12, 7, 3));
    assert_eq!(query_refused(SAMPLE, b"(count ana shop none nosuch)", CLOCK), (12, 11, 4));
    assert_eq!(query_refused(SAMPLE, b"(count anna desk post sub)", CLOCK), (12, 7, 4));
    // An empty document knows nobody.
    assert_eq!(query_refused("", b"(count ana desk post sub)", CLOCK), (12, 7, 3));
}

/// Roles top over low, and other; user ana in low, bob in other.
const ROLES: &str = "\
(purpose all)
(role top)
(role low top)
(role other)
(attr top level num)
(user ana low (level 5))
(user bob other)
(cond-role five top (eq level 5))
(cond-role lows low (gt level 0))
(grant all five)
(table t none (k num))
(public t)
(row t 1)
";

#[test]
fn number_13_role_not_given() {
    // "(count ana top all t)": the role at 11. The role above the given one isn't given.
    assert_eq!(query_refused(ROLES, b"(count ana top all t)", CLOCK), (13, 11, 3));
    assert_eq!(query_refused(ROLES, b"(count ana other all t)", CLOCK), (13, 11, 5));
    assert_eq!(query_refused(ROLES, b"(count bob low all t)", CLOCK), (13, 11, 3));
    // 12 is earlier, even further right: the purpose at 15.
    assert_eq!(query_refused(ROLES, b"(count ana top none t)", CLOCK), (12, 15, 4));
    // The conditional role's role is an ancestor of ana's: authorised.
    assert_eq!(answer_text(ROLES, "(count ana low all t)", CLOCK), "(end 1 0 0)\n");
}

#[test]
fn number_14_not_authorised() {
    // bob's role doesn't descend from top: the purpose at 17.
    assert_eq!(query_refused(ROLES, b"(count bob other all t)", CLOCK), (14, 17, 3));
    // The condition fails: the purpose at 15. 14 is earlier than 15.
    let six = ROLES.replace("(level 5)", "(level 6)");
    assert_eq!(query_refused(&six, b"(count ana low all nosuch)", CLOCK), (14, 15, 3));
    // A grant of a descendant doesn't authorise the ancestor, nor a sibling.
    assert_eq!(query_refused(SAMPLE, b"(count ana desk all sub)", CLOCK), (14, 16, 3));
    assert_eq!(query_refused(SAMPLE, b"(count ana desk bill sub)", CLOCK), (14, 16, 4));
    // A grant authorises its own purpose and those below.
    assert_eq!(answer_text(SAMPLE, "(count ana desk ads sub)", CLOCK), "(end 3 0 0)\n");
    assert_eq!(answer_text(SAMPLE, "(count ana desk post sub)", CLOCK), "(end 3 0 0)\n");
}

#[test]
fn the_first_authorising_grant() {
    // Grants: 0 for side, 1 whose condition fails, 2 of a role that u hasn't, 3 for mid, 4 for leaf itself.
    let doc = "\
(purpose root)
(purpose mid root)
(purpose leaf mid)
(purpose side root)
(role r)
(role s)
(user u r)
(cond-role yes r (gt year 0))
(cond-role no r (lt year 0))
(cond-role far s (gt year 0))
(grant side yes)
(grant root no)
(grant root far)
(grant mid yes)
(grant leaf yes)
(table t none (k num))
(public t)
";
    assert_eq!(answer(doc, "(count u r leaf t)", CLOCK).1.grant, 3);
    assert_eq!(answer(doc, "(count u r mid t)", CLOCK).1.grant, 3);
    assert_eq!(answer(doc, "(count u r side t)", CLOCK).1.grant, 0);
    assert_eq!(query_refused(doc, b"(count u r root t)", CLOCK), (14, 11, 4));
}

#[test]
fn the_clock_in_conditions() {
    let doc = |condition: &str| BASE.replace("(gt year 0)", condition) + "(table t none (k num))\n(public t)\n";
    for holds in ["(eq year 2028)", "(eq day 366)", "(eq hour 10)", "(not (ne hour 10))", "(or (eq hour 1) (eq hour 10))", "(and (ge day 366) (le day 366))"] {
        assert_eq!(answer_text(&doc(holds), "(count u r root t)", CLOCK), "(end 0 0 0)\n", "{holds}");
    }
    for fails in ["(ne year 2028)", "(lt day 366)", "(gt hour 10)", "(not (eq hour 10))", "(or (eq hour 1) (eq hour 11))", "(and (ge day 366) (lt day 366))"] {
        assert_eq!(query_refused(&doc(fails), b"(count u r root t)", CLOCK), (14, 11, 4), "{fails}");
    }
}

#[test]
fn values_belong_to_the_role_acted_in() {
    // u has level 1 in r and 9 in s; the conditional role asks for 9, of the role above both.
    let doc = "\
(purpose p)
(role top)
(role r top)
(role s top)
(attr top level num)
(user u r (level 1))
(user u s (level 9))
(cond-role c top (eq level 9))
(grant p c)
(table t none (k num))
(public t)
";
    assert_eq!(query_refused(doc, b"(count u r p t)", CLOCK), (14, 11, 1));
    assert_eq!(answer_text(doc, "(count u s p t)", CLOCK), "(end 0 0 0)\n");
    assert_eq!(query_refused(doc, b"(count u top p t)", CLOCK), (13, 9, 3));
}

#[test]
fn number_15_table_or_column() {
    // "(select ana desk post nosuch (who))": T at 22. The table is left of its columns.
    assert_eq!(query_refused(SAMPLE, b"(select ana desk post nosuch (nocol))", CLOCK), (15, 22, 6));
    // "(select ana desk post sub (who nocol) (gt due 50))": at 31.
    assert_eq!(query_refused(SAMPLE, b"(select ana desk post sub (who nocol) (gt due 50))", CLOCK), (15, 31, 5));
    // "(select ana desk post sub (who) (gt nocol 50))": at 36.
    assert_eq!(query_refused(SAMPLE, b"(select ana desk post sub (who) (gt nocol 50))", CLOCK), (15, 36, 5));
    // Clock names aren't columns: "(count ana desk post sub (gt hour 1))" at 29.
    assert_eq!(query_refused(SAMPLE, b"(count ana desk post sub (gt hour 1))", CLOCK), (15, 29, 4));
    // Attributes aren't either.
    assert_eq!(query_refused(SAMPLE, b"(count ana desk post sub (gt level 1))", CLOCK), (15, 29, 5));
    // 15 is earlier than 16: the second comparison's column, not the first one's operator.
    assert_eq!(query_refused(SAMPLE, b"(count ana desk post sub (or (lt who x) (eq nocol 1)))", CLOCK), (15, 44, 5));
}

#[test]
fn number_16_types() {
    // "(count ana desk post sub (lt who Cy))": the operator at 26, the value at 33.
    assert_eq!(query_refused(SAMPLE, b"(count ana desk post sub (lt who Cy))", CLOCK), (16, 26, 2));
    assert_eq!(query_refused(SAMPLE, b"(count ana desk post sub (lt who 5))", CLOCK), (16, 26, 2));
    assert_eq!(query_refused(SAMPLE, b"(count ana desk post sub (eq who 50))", CLOCK), (16, 33, 2));
    assert_eq!(query_refused(SAMPLE, b"(count ana desk post sub (lt due abc))", CLOCK), (16, 33, 3));
    // "(count ana desk post sub (or (eq due 1) (ge who x)))": not reached, yet wrong; at 41.
    assert_eq!(query_refused(SAMPLE, b"(count ana desk post sub (or (eq due 1) (ge who x)))", CLOCK), (16, 41, 2));
    // Names take eq and ne.
    assert_eq!(answer_text(SAMPLE, "(count ana desk post sub (eq who Cy))", CLOCK), "(end 1 0 2)\n");
    assert_eq!(answer_text(SAMPLE, "(count ana desk post sub (ne who Cy))", CLOCK), "(end 2 0 1)\n");
    assert_eq!(answer_text(SAMPLE, "(count ana desk post sub (eq who Cyd))", CLOCK), "(end 0 0 3)\n");
}

#[test]
fn number_17_table_closed() {
    let doc = format!("{BASE}(table t table nomid (k num))\n(row t 1)\n(table s table shut (k num))\n");
    // "(count u r leaf t)": T at 16.
    assert_eq!(query_refused(&doc, b"(count u r leaf t)", CLOCK), (17, 16, 1));
    assert_eq!(query_refused(&doc, b"(select u r root t (k))", CLOCK), (17, 17, 1));
    assert_eq!(answer_text(&doc, "(select u r side t (k))", CLOCK), "(row 1)\n(end 1 0 0)\n");
    // Closed even without rows and without named columns; 16 is earlier.
    assert_eq!(query_refused(&doc, b"(count u r side s)", CLOCK), (17, 16, 1));
    assert_eq!(query_refused(&doc, b"(count u r side s (eq k x))", CLOCK), (16, 24, 1));
}

#[test]
fn number_17_column_closed() {
    let doc = format!("{BASE}(table t column (a num open) (b num nomid))\n(row t 1 2)\n(row t 3 4)\n");
    // Selected: "(select u r leaf t (a b))" at 22; in the condition: "(select u r leaf t (a) (eq b 2))" at 27.
    assert_eq!(query_refused(&doc, b"(select u r leaf t (a b))", CLOCK), (17, 22, 1));
    assert_eq!(query_refused(&doc, b"(select u r leaf t (a) (eq b 2))", CLOCK), (17, 27, 1));
    // Evaluated or not: "(count u r leaf t (or (gt a 0) (eq b 2)))" at 35.
    assert_eq!(query_refused(&doc, b"(count u r leaf t (or (gt a 0) (eq b 2)))", CLOCK), (17, 35, 1));
    // The leftmost of two places.
    assert_eq!(query_refused(&doc, b"(select u r leaf t (b) (eq b 2))", CLOCK), (17, 20, 1));
    // Not named: nothing is closed.
    assert_eq!(answer_text(&doc, "(select u r leaf t (a))", CLOCK), "(row 1)\n(row 3)\n(end 2 0 0)\n");
    assert_eq!(answer_text(&doc, "(count u r leaf t)", CLOCK), "(end 2 0 0)\n");
    assert_eq!(answer_text(&doc, "(select u r side t (b a b) (eq b 4))", CLOCK), "(row 4 3 4)\n(end 1 0 1)\n");
}

#[test]
fn number_18_buffer() {
    let refusal = Refusal { number: 18, source: Source::Query, start: 0, len: 0 };
    // "(end 3 0 0)\n" is 12 bytes.
    for room in 0..14 {
        let mut out = vec![b'#'; room];
        let result = ask(SAMPLE.as_bytes(), b"(count ana desk post sub)", CLOCK, &mut out);
        if room < 12 {
            assert_eq!(result, Err(refusal));
            assert!(out.iter().all(|&byte| byte == b'#'));
        } else {
            assert_eq!(result, Ok(Answer { len: 12, grant: 0, passed: 3, withheld: 0, unmatched: 0 }));
            assert_eq!(&out[..12], b"(end 3 0 0)\n");
            assert!(out[12..].iter().all(|&byte| byte == b'#'));
        }
    }
    // 17 is earlier.
    let doc = format!("{BASE}(table t table shut (k num))\n");
    let closed = Refusal { number: 17, source: Source::Query, start: 16, len: 1 };
    assert_eq!(ask(doc.as_bytes(), b"(count u r root t)", CLOCK, &mut []), Err(closed));
}

#[test]
fn the_length_of_an_answer() {
    // "(end 3 0 0)\n", and "(row Cy)\n(end 1 1 1)\n".
    assert_eq!(measure(SAMPLE.as_bytes(), b"(count ana desk post sub)", CLOCK), Ok(12));
    assert_eq!(measure(SAMPLE.as_bytes(), b"(select ana desk post sub (who) (gt due 50))", CLOCK), Ok(21));
    let refusal = Refusal { number: 14, source: Source::Query, start: 17, len: 4 };
    assert_eq!(measure(SAMPLE.as_bytes(), b"(select ana desk bill sub (who))", CLOCK), Err(refusal));
}

#[test]
fn scheme_row_withholds_closed_rows() {
    let doc = format!("{BASE}(table t row (k num))\n(row t open 1)\n(row t nomid 2)\n(row t shut 3)\n(row t open 4)\n");
    // Even if no column is named; even where the condition fails for the row.
    assert_eq!(answer_text(&doc, "(count u r leaf t)", CLOCK), "(end 2 2 0)\n");
    assert_eq!(answer_text(&doc, "(count u r side t)", CLOCK), "(end 3 1 0)\n");
    assert_eq!(answer_text(&doc, "(select u r leaf t (k) (eq k 4))", CLOCK), "(row 4)\n(end 1 2 1)\n");
    assert_eq!(answer_text(&doc, "(select u r side t (k k) (le k 2))", CLOCK), "(row 1 1)\n(row 2 2)\n(end 2 1 1)\n");
}

#[test]
fn scheme_cell_withholds_rows_with_a_closed_named_cell() {
    let doc = format!("{BASE}(table t cell (a num) (b name))\n(row t (1 open) (x shut))\n(row t (2 nomid) (y open))\n(row t (-3 open) (z open))\n");
    // No column named: nothing withheld.
    assert_eq!(answer_text(&doc, "(count u r leaf t)", CLOCK), "(end 3 0 0)\n");
    assert_eq!(answer_text(&doc, "(select u r leaf t (a))", CLOCK), "(row 1)\n(row -3)\n(end 2 1 0)\n");
    assert_eq!(answer_text(&doc, "(select u r leaf t (b))", CLOCK), "(row y)\n(row z)\n(end 2 1 0)\n");
    assert_eq!(answer_text(&doc, "(select u r side t (b a))", CLOCK), "(row y 2)\n(row z -3)\n(end 2 1 0)\n");
    // A column in an or branch that needn't be reached: still named.
    assert_eq!(answer_text(&doc, "(count u r leaf t (or (lt a 9) (eq b q)))", CLOCK), "(end 1 2 0)\n");
    assert_eq!(answer_text(&doc, "(count u r leaf t (or (eq b z) (gt a 9)))", CLOCK), "(end 1 2 0)\n");
    // Withheld also where the condition would fail.
    assert_eq!(answer_text(&doc, "(count u r leaf t (eq a 100))", CLOCK), "(end 0 1 2)\n");
}

/// 256 purposes, each below the one before it: a grant of the first reaches the last, and one of the last nothing else.
#[test]
fn a_chain_of_256_purposes() {
    let purposes: String = (1..256).map(|n| format!("(purpose p{n} p{})\n", n - 1)).collect();
    let document = |granted: &str| {
        format!(
            "(purpose p0)\n{purposes}(role r)\n(user u r)\n(cond-role c r (ge hour 0))\n(grant {granted} c)\n\
             (label low (allow p255) (deny))\n(label shut (allow p0) (deny p192))\n(label top (allow p0) (deny))\n\
             (table t row (k num))\n(row t low 1)\n(row t shut 2)\n(row t top 3)\n"
        )
    };
    let asked = |granted: &str, purpose: &str| answer_text(&document(granted), &format!("(select u r {purpose} t (k))"), CLOCK);
    assert_eq!(asked("p0", "p255"), "(row 1)\n(row 3)\n(end 2 1 0)\n");
    assert_eq!(asked("p0", "p254"), "(row 3)\n(end 1 2 0)\n");
    assert_eq!(asked("p255", "p255"), "(row 1)\n(row 3)\n(end 2 1 0)\n");
    assert_eq!(query_refused(&document("p255"), b"(count u r p254 t)", CLOCK), (14, 11, 4));
    assert_eq!(query_refused(&document("p255"), b"(count u r p0 t)", CLOCK), (14, 11, 2));
}

#[test]
fn a_public_table_is_open_to_every_purpose() {
    let doc = format!("{BASE}(table t none (k num) (w name))\n(public t)\n(table s none (k num))\n(row t 1 a)\n(row s 7)\n(row t -9223372036854775808 b)\n(public s)\n");
    // Only the table's own rows, in document order.
    for purpose in ["root", "mid", "leaf", "side"] {
        let query = format!("(select u r {purpose} t (w k))");
        assert_eq!(answer_text(&doc, &query, CLOCK), "(row a 1)\n(row b -9223372036854775808)\n(end 2 0 0)\n");
    }
    assert_eq!(answer_text(&doc, "(count u r mid s (ge k 7))", CLOCK), "(end 1 0 0)\n");
}

#[test]
fn the_six_operators_on_numbers() {
    let doc = format!("{BASE}(table t none (k num))\n(public t)\n(row t 1)\n(row t 2)\n(row t 3)\n");
    for (operator, passed) in [("eq", 1), ("ne", 2), ("lt", 1), ("le", 2), ("gt", 1), ("ge", 2)] {
        let query = format!("(count u r root t ({operator} k 2))");
        assert_eq!(answer_text(&doc, &query, CLOCK), format!("(end {passed} 0 {})\n", 3 - passed), "{operator}");
    }
}

#[test]
fn a_clock_name_may_be_a_column() {
    // The column's value counts, not the clock's 2028.
    let doc = format!("{BASE}(table t none (year num))\n(public t)\n(row t 7)\n");
    assert_eq!(answer_text(&doc, "(select u r root t (year) (eq year 7))", CLOCK), "(row 7)\n(end 1 0 0)\n");
}
