//! 02, Q-8: "Names that differ only in the case of ASCII letters are now the same name".

mod common;
use common::*;

/// The sample with every letter in capitals: keywords, names and values.
fn capitals() -> String {
    SAMPLE.to_uppercase()
}

#[test]
fn definitions_and_uses() {
    assert_eq!(lines("(purpose all)\n(purpose Ads ALL)\n(purpose post aDS)\n"), 3);
    assert_eq!(lines("(role desk)\n(role low DESK)\n(attr Desk Level num)\n(user ana dESK (LEVEL 5))\n"), 4);
    assert_eq!(lines("(role r)\n(attr r a num)\n(cond-role C R (and (eq A 1) (eq HOUR 1)))\n(purpose P)\n(grant p c)\n"), 5);
    assert_eq!(lines("(purpose P)\n(label L (allow p) (deny P))\n(table T table l (k num))\n(row t 1)\n"), 4);
    assert_eq!(lines("(label L (allow) (deny))\n(table t column (k num l))\n(table R row (k num))\n(row r l 1)\n(table e cell (k num))\n(row E (1 l))\n"), 6);
}

#[test]
fn keywords() {
    assert_eq!(lines(&capitals()), 15);
    assert_eq!(lines("(Purpose p)\n(ROLE r)\n(aTTr r a NUM)\n(attr r b Name)\n(USER u r (a 1) (b x))\n(Cond-Role c r (AND (Not (OR (EQ a 1) (Ne b y))) (lT a 1) (Le a 1) (GT a 1) (Ge a 1)))\n(GRANT p c)\n(Label l (ALLOW p) (Deny p))\n"), 8);
    assert_eq!(lines("(label l (allow) (deny))\n(TABLE a NONE (k num))\n(table b Table l (k NUM))\n(table c COLUMN (k num l))\n(table d Row (k num))\n(table e CELL (k num))\n(ROW a 1)\n(PUBLIC A)\n"), 8);
    // A keyword is known by position still: `ROW` names a role here, `Num` a column.
    assert_eq!(lines("(role ROW)\n(user none row)\n(table Row none (Num num))\n(row ROW 1)\n"), 4);
}

#[test]
fn a_second_definition_is_4() {
    assert_eq!(refused("(purpose ads)\n(purpose Ads ads)\n"), (4, 23, 3));
    assert_eq!(refused("(role desk)\n(role DESK)\n"), (4, 18, 4));
    assert_eq!(refused("(role r)\n(attr r a num)\n(attr r A name)\n"), (4, 32, 1));
    assert_eq!(refused("(role r)\n(attr r Hour num)\n"), (4, 17, 4));
    assert_eq!(refused("(role r)\n(user u r)\n(user U R)\n"), (4, 28, 1));
    assert_eq!(refused("(role r)\n(cond-role c r (gt year 0))\n(cond-role C r (gt year 0))\n"), (4, 48, 1));
    assert_eq!(refused("(label l (allow) (deny))\n(label L (allow) (deny))\n"), (4, 32, 1));
    assert_eq!(refused("(table t none (k num))\n(table T none (k num))\n"), (4, 30, 1));
    assert_eq!(refused("(table t none (k num))\n(public t)\n(PUBLIC T)\n"), (4, 42, 1));
    // Columns within their table, purposes within a set; the later of two.
    assert_eq!(refused("(table t none (k num) (j num) (K num))\n"), (4, 31, 1));
    assert_eq!(refused("(purpose p)\n(label l (allow p P) (deny))\n"), (4, 30, 1));
    assert_eq!(refused("(label l (allow p P) (deny))\n"), (4, 18, 1));
    assert_eq!(lines("(purpose p)\n(label l (allow p) (deny P))\n"), 2);
    // A root in another case is 4 before it is 6.
    assert_eq!(refused("(purpose a)\n(purpose A)\n"), (4, 21, 1));
    // A line's own name isn't known yet, in whichever case.
    assert_eq!(refused("(purpose a A)\n"), (5, 11, 1));
}

#[test]
fn values_of_users() {
    // An attribute given twice in two cases, and a clock name: 7. The head has 9 + 15 bytes.
    let head = "(role r)\n(attr r a num)\n";
    for bad in ["(user u r (a 1) (A 1))", "(user u r (A 1) (Year 1))", "(user u r (DAY 1))"] {
        assert_eq!(refused(&format!("{head}{bad}\n")), (7, 24, bad.len()), "{bad}");
    }
    assert_eq!(lines(&format!("{head}(user u R (A 1))\n")), 3);
    // Attributes and clock names in conditions, and name values, without case.
    let doc = "(purpose p)\n(role r)\n(attr r Team name)\n(user u r (TEAM Red))\n(cond-role c r (and (eq team rED) (eq Hour 10)))\n(grant p c)\n(table t none (k num))\n(public t)\n";
    assert_eq!(answer_text(doc, "(count u r p t)", CLOCK), "(end 0 0 0)\n");
    assert_eq!(query_refused(&doc.replace("rED", "Reds"), b"(count u r p t)", CLOCK), (14, 11, 1));
}

#[test]
fn queries() {
    // 01's sample session with everything in another case; a cell is printed as its row line wrote it.
    for query in [QUERY.to_uppercase(), "(Select aNa DESK Post SUB (Who) (Gt dUE 50))".to_string()] {
        assert_eq!(answer_text(SAMPLE, &query, CLOCK), "(row Cy)\n(end 1 1 1)\n");
        assert_eq!(answer_text(&capitals(), &query, CLOCK), "(row CY)\n(end 1 1 1)\n");
    }
    assert_eq!(answer_text(&capitals(), QUERY, CLOCK), "(row CY)\n(end 1 1 1)\n");
    assert_eq!(answer_text(SAMPLE, "(COUNT ana desk post sub)", CLOCK), "(end 3 0 0)\n");
    // Refusals point at the word as the query has it.
    assert_eq!(query_refused(SAMPLE, b"(count ANA DESK Bill sub)", CLOCK), (14, 16, 4));
    assert_eq!(query_refused(SAMPLE, b"(count ana desk post SUBS)", CLOCK), (15, 21, 4));
    assert_eq!(query_refused(SAMPLE, b"(count ana desk post sub (LT Who Cy))", CLOCK), (16, 26, 2));
}

#[test]
fn values_of_cells() {
    // `eq` on a cell in another case passes and prints as written; repeated, each time.
    assert_eq!(answer_text(SAMPLE, "(select ana desk post sub (who WHO) (eq who iDA))", CLOCK), "(row Ida Ida)\n(end 1 0 2)\n");
    assert_eq!(answer_text(SAMPLE, "(count ana desk post sub (ne who BO))", CLOCK), "(end 2 0 1)\n");
    let doc = format!("{BASE}(table t none (k name))\n(Public T)\n(row t ada)\n(row t Ada)\n(row t ADA)\n(row t ad)\n(row t ada-)\n(row t ada_)\n(row t ada0)\n");
    assert_eq!(answer_text(&doc, "(select u r root t (k) (eq k aDa))", CLOCK), "(row ada)\n(row Ada)\n(row ADA)\n(end 3 0 4)\n");
    assert_eq!(answer_text(&doc, "(select u r root t (k) (eq k ADA-))", CLOCK), "(row ada-)\n(end 1 0 6)\n");
}

#[test]
fn a_named_column_in_another_case_is_named() {
    // Closed labels are found by it: a table's, a column's, a cell's.
    let doc = format!("{BASE}(table t column (a num open) (b num nomid))\n(row t 1 2)\n(table e cell (a num) (b num))\n(row e (1 open) (2 nomid))\n(table w table shut (k num))\n");
    assert_eq!(query_refused(&doc, b"(select u r leaf T (A B))", CLOCK), (17, 22, 1));
    assert_eq!(query_refused(&doc, b"(count u r leaf t (or (gt A 0) (eq B 2)))", CLOCK), (17, 35, 1));
    assert_eq!(answer_text(&doc, "(select u r LEAF E (A) (eq B 2))", CLOCK), "(end 0 1 0)\n");
    assert_eq!(query_refused(&doc, b"(count U R Side W)", CLOCK), (17, 16, 1));
}

#[test]
fn other_bytes_have_no_case() {
    // `@` and a backquote, `[` and `{`, and the others 32 apart are no letters: wrong form, not another name.
    for byte in [b'@', b'`', b'[', b'{', b'^', b'~', 127, 13, 16, 0, 8, 9, 128, 0xc3, 0xe0, 0xff] {
        let with = |text: &str| text.bytes().map(|b| if b == b'?' { byte } else { b }).collect::<Vec<u8>>();
        let line = with("(purpose a?)\n");
        let refusal = reference::check(&line).expect_err("a name");
        assert_eq!((refusal.number, refusal.start, refusal.len), (2, 0, line.len() - 1), "{byte}");
        let query = with("(count an? desk post sub)");
        assert_eq!(query_refused(SAMPLE, &query, CLOCK), (11, 0, query.len()), "{byte}");
    }
    // The keyword's hyphen, 45, is no carriage return, 13; `_` and `-` are two names.
    assert_eq!(refused("(role r)\n(cond\rrole c r (gt year 0))\n"), (2, 9, 27));
    assert_eq!(refused("(role r)\n(cond_role c r (gt year 0))\n"), (2, 9, 27));
    assert_eq!(lines("(role a-b)\n(role a_b)\n(role a0b)\n(role A1b)\n"), 4);
    assert_eq!(refused("(role a-b)\n(role A-B)\n"), (4, 17, 3));
}

#[test]
fn clock_line() {
    let run = |first: &str| {
        let mut output = Vec::new();
        reference::program::run(SAMPLE.as_bytes(), format!("{first}\n{QUERY}\n").as_bytes(), &mut output).unwrap();
        String::from_utf8(output).unwrap()
    };
    for first in ["(CLOCK 2028 366 10)", "(Clock 2028 366 10)", "(clocK 2028 366 10)"] {
        assert_eq!(run(first), "(row Cy)\n(end 1 1 1)\n");
    }
    for first in ["(CLOCKS 2028 366 10)", "(CLOC 2028 366 10)", "(CLOC[ 2028 366 10)"] {
        assert_eq!(run(first), "(refused 10 query 0 0)\n");
    }
}

#[test]
fn a_list_is_written_as_given() {
    let mut out = [b'#'; 46];
    assert_eq!(reference::import(b"Ida,40\n\"bO\",2\n", b"Recs", b"FREE", &mut out), Ok(44));
    assert_eq!(&out, b"(row Recs FREE Ida 40)\n(row Recs FREE bO 2)\n##");
}
