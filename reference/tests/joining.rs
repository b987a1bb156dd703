//! 02, Q-3, "Addresses beside names": joins, derived by hand from the request. Run with `--features join`.
#![cfg(feature = "join")]

mod common;
use common::*;
use reference::{ask, check, measure, Clock};

/// Subscribers and addresses, each with a column `id` and a column `note`; rows of the two stand among each other.
const DOC: &str = "\
(purpose root)
(purpose mid root)
(purpose leaf mid)
(purpose side root)
(role r)
(role q)
(user u r)
(cond-role c r (gt year 0))
(grant mid c)
(grant side c)
(label open (allow root) (deny))
(label shut (allow) (deny))
(label nomid (allow root) (deny mid))
(table sub none (id num) (who name) (note name))
(public sub)
(table adr none (id num) (city name) (note name))
(public adr)
(row sub 1 Ida x)
(row adr 2 Ulm y)
(row sub 2 Bo X)
(row adr 1 Bonn x)
(row sub 1 Cy y)
(row adr 1 Kiel X)
";

/// A query with the offending part between angle brackets: the text, and the part's start and length.
fn marked(query: &str) -> (String, usize, usize) {
    let start = query.find('<').expect(query);
    let end = query.find('>').expect(query);
    (query.replace(['<', '>'], ""), start, end - start - 1)
}

/// The query is refused with this number at the marked part.
fn refused_at(doc: &str, number: u32, query: &str) {
    let (text, start, len) = marked(query);
    assert_eq!(query_refused(doc, text.as_bytes(), CLOCK), (number, start, len), "{query}");
}

fn joined(doc: &str, query: &str) -> String {
    let (text, answer) = answer(doc, query, CLOCK);
    assert_eq!(measure(doc.as_bytes(), query.as_bytes(), CLOCK), Ok(answer.len));
    assert!(text.ends_with(&format!("(end {} {} {})\n", answer.passed, answer.withheld, answer.unmatched)), "{text}");
    text
}

/// Only the counts.
fn counts(doc: &str, query: &str) -> (usize, usize, usize) {
    let answer = answer(doc, query, CLOCK).1;
    (answer.passed, answer.withheld, answer.unmatched)
}

#[test]
fn pairs_by_the_first_table_then_the_second() {
    // Ida and Cy have 1 with Bonn and Kiel, Bo has 2 with Ulm; four of the nine pairs differ in their keys.
    assert_eq!(
        joined(DOC, "(join u r mid sub adr id id ((of sub who) (of adr city)))"),
        "(row Ida Bonn)\n(row Ida Kiel)\n(row Bo Ulm)\n(row Cy Bonn)\n(row Cy Kiel)\n(end 5 0 4)\n"
    );
    assert_eq!(
        joined(DOC, "(join u r mid adr sub id id ((of sub who) (of adr city)))"),
        "(row Bo Ulm)\n(row Ida Bonn)\n(row Cy Bonn)\n(row Ida Kiel)\n(row Cy Kiel)\n(end 5 0 4)\n"
    );
    // Columns of one table alone, in any order and again.
    assert_eq!(joined(DOC, "(join u r mid sub adr id id ((of adr city) (of adr id) (of adr city)) (eq (of sub who) bo))"), "(row Ulm 2 Ulm)\n(end 1 0 8)\n");
    // The grant is that of the purpose.
    assert_eq!(answer(DOC, "(join u r side sub adr id id ((of sub who)))", CLOCK).1.grant, 1);
}

#[test]
fn names_are_keys_without_case() {
    // x and X are one name: Ida with Bonn and Kiel, Bo with Bonn and Kiel, Cy with Ulm; printed as the row lines wrote them.
    assert_eq!(
        joined(DOC, "(join u r mid sub adr note note ((of sub note) (of adr note)))"),
        "(row x x)\n(row x X)\n(row X x)\n(row X X)\n(row y y)\n(end 5 0 4)\n"
    );
    assert_eq!(joined(DOC, "(JOIN U R Mid SUB Adr ID Id ((OF Sub WHO)) (EQ (oF ADR City) ULM))"), "(row Bo)\n(end 1 0 8)\n");
}

#[test]
fn dates_and_numbers_as_keys() {
    let doc = format!(
        "{BASE}(table s none (d date) (n num))\n(public s)\n(table t none (d date) (n num))\n(public t)\n\
         (row s (2028 2 29) -9223372036854775808)\n(row s (2028 3 1) 9223372036854775807)\n\
         (row t (2028 3 1) -9223372036854775808)\n(row t (2028 2 29) 0)\n(row t (2027 2 28) 9223372036854775807)\n"
    );
    assert_eq!(joined(&doc, "(join u r root s t d d ((of s d) (of t n)))"), "(row (2028 2 29) 0)\n(row (2028 3 1) -9223372036854775808)\n(end 2 0 4)\n");
    assert_eq!(joined(&doc, "(join u r root s t n n ((of t d)))"), "(row (2028 3 1))\n(row (2027 2 28))\n(end 2 0 4)\n");
}

#[test]
fn one_column_name_in_both_tables() {
    // The table says whose `note` is meant.
    assert_eq!(joined(DOC, "(join u r mid sub adr id id ((of sub who)) (eq (of sub note) y))"), "(row Cy)\n(row Cy)\n(end 2 0 7)\n");
    assert_eq!(joined(DOC, "(join u r mid sub adr id id ((of sub who)) (eq (of adr note) y))"), "(row Bo)\n(end 1 0 8)\n");
    assert_eq!(
        joined(DOC, "(join u r mid sub adr id id ((of sub note) (of adr note)) (or (eq (of adr city) kiel) (not (ne (of sub who) bo))))"),
        "(row x X)\n(row X y)\n(row y X)\n(end 3 0 6)\n"
    );
}

#[test]
fn tables_without_rows() {
    let doc = format!("{DOC}(table e none (id num))\n(public e)\n");
    assert_eq!(joined(&doc, "(join u r mid sub e id id ((of sub who)))"), "(end 0 0 0)\n");
    assert_eq!(joined(&doc, "(join u r mid e sub id id ((of sub who)))"), "(end 0 0 0)\n");
}

/// Two tables of these schemes: what stands behind the table's name, each row's label and each cell's.
fn schemed(one: (&str, &[&str]), two: (&str, &[&str])) -> String {
    let table = |name: &str, (head, rows): (&str, &[&str])| {
        let rows: String = rows.iter().map(|row| format!("(row {name} {row})\n")).collect();
        format!("(table {name} {head})\n{rows}")
    };
    format!("{}{}{}", DOC.split("(table").next().unwrap(), table("s", one), table("t", two))
}

const ROWS: &[&str] = &["1 a", "2 b", "1 c"];

#[test]
fn rows_withheld_by_their_label() {
    let rows: (&str, &[&str]) = ("row (k num) (v name)", &["open 1 a", "nomid 1 b", "open 3 c"]);
    // The pairs of the second row are withheld, whatever their keys.
    let doc = schemed(rows, ("table open (k num) (v name)", ROWS));
    assert_eq!(joined(&doc, "(join u r mid s t k k ((of s v) (of t v)))"), "(row a a)\n(row a c)\n(end 2 3 4)\n");
    assert_eq!(joined(&doc, "(join u r side s t k k ((of s v) (of t v)))"), "(row a a)\n(row a c)\n(row b a)\n(row b c)\n(end 4 0 5)\n");
    // In the second table too.
    let doc = schemed(("table open (k num) (v name)", ROWS), rows);
    assert_eq!(joined(&doc, "(join u r mid s t k k ((of s v) (of t v)))"), "(row a a)\n(row c a)\n(end 2 3 4)\n");
    // Either row is enough, and a pair of two such counts once: 9 pairs, 2 * 2 of them of rows not withheld.
    let doc = schemed(rows, rows);
    assert_eq!(joined(&doc, "(join u r mid s t k k ((of s v) (of t v)))"), "(row a a)\n(row c c)\n(end 2 5 2)\n");
}

#[test]
fn rows_withheld_by_a_named_cell() {
    let cells: (&str, &[&str]) = ("cell (k num) (v name) (w name)", &["(1 open) (a open) (x open)", "(1 nomid) (b open) (y open)", "(2 open) (c nomid) (z open)", "(2 open) (d open) (z nomid)"]);
    let plain: (&str, &[&str]) = ("table open (k num) (v name)", &["1 p", "2 q"]);
    let doc = schemed(cells, plain);
    // The key counts as named: the second row is withheld though nothing else names it.
    assert_eq!(joined(&doc, "(join u r mid s t k k ((of t v)))"), "(row p)\n(row q)\n(row q)\n(end 3 2 3)\n");
    // A selected cell, and one of the condition, evaluated or not.
    assert_eq!(joined(&doc, "(join u r mid s t k k ((of s v)))"), "(row a)\n(row d)\n(end 2 4 2)\n");
    assert_eq!(joined(&doc, "(join u r mid s t k k ((of t v)) (or (eq (of t v) q) (eq (of s w) z)))"), "(row q)\n(end 1 4 3)\n");
    // The other way round.
    let doc = schemed(plain, cells);
    assert_eq!(joined(&doc, "(join u r mid s t k k ((of s v)))"), "(row p)\n(row q)\n(row q)\n(end 3 2 3)\n");
    assert_eq!(joined(&doc, "(join u r mid s t k k ((of t v)))"), "(row a)\n(row d)\n(end 2 4 2)\n");
    // A column of the same name in the other table names nothing here: s's v is not named by (of t v).
    let both = schemed(("cell (k num) (v name)", &["(1 open) (a nomid)"]), ("cell (k num) (v name)", &["(1 open) (b open)"]));
    assert_eq!(joined(&both, "(join u r mid s t k k ((of t v)))"), "(row b)\n(end 1 0 0)\n");
    assert_eq!(joined(&both, "(join u r mid s t k k ((of s v)))"), "(end 0 1 0)\n");
}

#[test]
fn the_second_key_is_named_in_the_second_table_alone() {
    // C1 is k and C2 is m; s's m and t's k are closed and not named.
    let one: (&str, &[&str]) = ("cell (k num) (m num)", &["(1 open) (7 nomid)"]);
    let two: (&str, &[&str]) = ("cell (k num) (m num)", &["(8 nomid) (1 open)", "(8 nomid) (2 nomid)"]);
    assert_eq!(joined(&schemed(one, two), "(join u r mid s t k m ((of s k) (of t m)))"), "(row 1 1)\n(end 1 1 0)\n");
    // Named, they withhold.
    assert_eq!(joined(&schemed(one, two), "(join u r mid s t k m ((of s m)))"), "(end 0 2 0)\n");
    assert_eq!(joined(&schemed(one, two), "(join u r mid s t k m ((of t k)))"), "(end 0 2 0)\n");
}

#[test]
fn nest_tables() {
    let nest: (&str, &[&str]) = ("nest (k num) (v name)", &["shut (1 open) (a open)", "open (1 open) (b nomid)", "shut (1 shut) (c open)"]);
    let plain: (&str, &[&str]) = ("table open (k num) (v name)", &["1 p", "2 q"]);
    // The row's label alone withholds nothing; a key that no label allows does, and so does a named cell that is denied.
    let doc = schemed(nest, plain);
    assert_eq!(joined(&doc, "(join u r mid s t k k ((of t v)))"), "(row p)\n(row p)\n(end 2 2 2)\n");
    assert_eq!(joined(&doc, "(join u r mid s t k k ((of s v)))"), "(row a)\n(end 1 4 1)\n");
    let doc = schemed(plain, nest);
    assert_eq!(joined(&doc, "(join u r mid s t k k ((of t v)))"), "(row a)\n(end 1 4 1)\n");
    // Never 17.
    let doc = schemed(nest, nest).replace("(row s shut (1 open) (a open))", "(weak s shut)\n(strong s nomid)\n(row s shut (1 open) (a open))");
    assert_eq!(counts(&doc, "(join u r mid s t k k ((of t k)))"), (0, 9, 0));
}

#[test]
fn withheld_before_unmatched() {
    // The withheld row's key equals no other's, and its condition fails: its pairs are withheld all the same.
    let doc = schemed(("row (k num)", &["nomid 9", "open 1"]), ("row (k num)", &["open 1", "open 2"]));
    assert_eq!(counts(&doc, "(join u r mid s t k k ((of s k)) (eq (of s k) 1))"), (1, 2, 1));
    // A row all of whose pairs are withheld by the other table.
    let doc = schemed(("row (k num)", &["open 1", "open 2"]), ("row (k num)", &["nomid 1", "shut 2"]));
    assert_eq!(counts(&doc, "(join u r mid s t k k ((of s k)))"), (0, 4, 0));
}

#[test]
fn other_forms_are_11() {
    for query in [
        "(join u r mid sub adr id id (who))",
        "(join u r mid sub adr id id (sub who))",
        "(join u r mid sub adr id id ())",
        "(join u r mid sub adr id id)",
        "(join u r mid sub adr id id (of sub who))",
        "(join u r mid sub adr id ((of sub who)))",
        "(join u r mid sub adr (of sub id) id ((of sub who)))",
        "(join u r mid sub adr id (of adr id) ((of sub who)))",
        "(join u r mid (of sub id) adr id id ((of sub who)))",
        "(join u r mid sub adr id id ((of sub)))",
        "(join u r mid sub adr id id ((of sub who note)))",
        "(join u r mid sub adr id id ((of sub (of sub who))))",
        "(join u r mid sub adr id id ((of 1 who)))",
        "(join u r mid sub adr id id ((of sub 1)))",
        "(join u r mid sub adr id id ((off sub who)))",
        "(join u r mid sub adr id id ((sub who)))",
        "(join u r mid sub adr id id (((of sub who))))",
        "(join u r mid sub adr id id ((of sub who) who))",
        "(join u r mid sub adr id id ((of sub who)) (eq who bo))",
        "(join u r mid sub adr id id ((of sub who)) (eq (of sub who) (of adr city)))",
        "(join u r mid sub adr id id ((of sub who)) (eq bo (of sub who)))",
        "(join u r mid sub adr id id ((of sub who)) (eq (of sub who) bo) (eq (of sub who) bo))",
        "(join u r mid sub adr id id ((of sub who)) (and))",
        "(join u r mid sub adr id id ((of sub who)) (eq (of sub id) (1 5)))",
        "(join u r mid sub adr id 1 ((of sub who)))",
        "(join u r mid sub id id ((of sub who)))",
        "(joins u r mid sub adr id id ((of sub who)))",
        "(join u r mid sub adr id id ((of sub who)))\n",
        // An `of` in any other query.
        "(select u r mid sub ((of sub who)))",
        "(blank u r mid sub ((of sub who)))",
        "(sure u r mid sub (who) (eq (of sub who) bo))",
        "(count u r mid sub (eq (of sub who) bo))",
        "(select u r mid sub (who) (eq (of sub who) bo))",
    ] {
        assert_eq!(query_refused(DOC, query.as_bytes(), CLOCK), (11, 0, query.len()), "{query}");
    }
}

#[test]
fn bounds_of_a_join() {
    let columns = |n: usize| format!("(join u r mid sub adr id id ({}))", vec!["(of sub who)"; n].join(" "));
    assert_eq!(counts(DOC, &columns(16)), (5, 0, 4));
    assert_eq!(query_refused(DOC, columns(17).as_bytes(), CLOCK).0, 11);
    let wide = |n: usize| format!("(join u r mid sub adr id id ((of sub who)) (or {}))", vec!["(eq (of sub id) 1)"; n].join(" "));
    assert_eq!(counts(DOC, &wide(64)), (4, 0, 5));
    assert_eq!(query_refused(DOC, wide(65).as_bytes(), CLOCK).0, 11);
    // The form is 1, each `not` one more, the comparison and the `of` one each: 13 nots make 16.
    let deep = |n: usize| format!("(join u r mid sub adr id id ((of sub who)) {}(eq (of sub id) 2){})", "(not ".repeat(n), ")".repeat(n));
    assert_eq!(counts(DOC, &deep(13)), (4, 0, 5));
    assert_eq!(query_refused(DOC, deep(14).as_bytes(), CLOCK).0, 11);
    // 64 comparisons with brackets around them, and letters to fit: 4,096 bytes are a query.
    let long = |bytes: usize| {
        let start = "(join u r mid sub adr id id ((of sub who)) (or";
        let rest = bytes - start.len() - "))".len() - 64 * " (ne (of sub who) a)".len();
        let one = |place: usize| {
            let nots = rest / 6 / 64 + usize::from(place < rest / 6 % 64);
            let name = "a".repeat(if place == 0 { 1 + rest % 6 } else { 1 });
            format!(" {}(ne (of sub who) {name}){}", "(not ".repeat(nots), ")".repeat(nots))
        };
        let text = format!("{start}{}))", (0..64).map(one).collect::<String>());
        assert_eq!(text.len(), bytes);
        text
    };
    assert_eq!(counts(DOC, &long(4096)), (5, 0, 4));
    assert_eq!(query_refused(DOC, long(4097).as_bytes(), CLOCK), (11, 0, 4097));
}

#[test]
fn unknown_names() {
    refused_at(DOC, 12, "(join <nobody> r mid sub adr id id ((of sub who)))");
    refused_at(DOC, 12, "(join u <nobody> mid sub adr id id ((of sub who)))");
    refused_at(DOC, 12, "(join u r <nobody> sub adr id id ((of sub who)))");
    refused_at(DOC, 13, "(join u <q> mid sub adr id id ((of sub who)))");
    refused_at(DOC, 14, "(join u r <root> sub adr id id ((of sub who)))");
    // 12, 13 and 14 before 15.
    refused_at(DOC, 14, "(join u r <root> nobody adr id id ((of sub who)))");
    refused_at(DOC, 15, "(join u r mid <nobody> adr id id ((of sub who)))");
    refused_at(DOC, 15, "(join u r mid sub <nobody> id id ((of sub who)))");
    refused_at(DOC, 15, "(join u r mid <no> nobody id id ((of sub who)))");
    refused_at(DOC, 15, "(join u r mid sub adr <city> id ((of sub who)))");
    refused_at(DOC, 15, "(join u r mid sub adr id <who> ((of sub who)))");
    refused_at(DOC, 15, "(join u r mid sub adr <year> who ((of sub who)))");
    refused_at(DOC, 15, "(join u r mid sub adr id id ((of sub <city>)))");
    refused_at(DOC, 15, "(join u r mid sub adr id id ((of adr <who>)))");
    refused_at(DOC, 15, "(join u r mid sub adr id id ((of <nobody> who)))");
    refused_at(DOC, 15, "(join u r mid sub adr id id ((of <nobody> nothing)))");
    refused_at(DOC, 15, "(join u r mid sub adr id id ((of sub who)) (eq (of sub <hour>) 1))");
    refused_at(DOC, 15, "(join u r mid sub adr id id ((of sub who)) (or (eq (of sub id) 1) (eq (of <abr> id) 1)))");
    // From left to right over tables, keys, columns and condition.
    refused_at(DOC, 15, "(join u r mid sub <nobody> nothing no ((of sub none)))");
    refused_at(DOC, 15, "(join u r mid sub adr id <no> ((of sub none)))");
    refused_at(DOC, 15, "(join u r mid sub adr id id ((of sub <no>) (of no no)) (eq (of no no) 1))");
    // A third table of the document is neither.
    let third = format!("{DOC}(table far none (id num))\n(public far)\n");
    refused_at(&third, 15, "(join u r mid sub adr id id ((of <far> id)))");
    refused_at(&third, 15, "(join u r mid sub adr id id ((of sub id)) (eq (of <far> id) 1))");
}

#[test]
fn a_table_with_itself() {
    refused_at(DOC, 22, "(join u r mid sub <sub> id id ((of sub who)))");
    refused_at(DOC, 22, "(join u r mid sub <SUB> id id ((of Sub who)))");
    // After 15 and before 16, 27, 31 and 17.
    refused_at(DOC, 15, "(join u r mid sub sub id id ((of sub <city>)))");
    refused_at(DOC, 15, "(join u r mid sub sub id id ((of <adr> city)))");
    refused_at(DOC, 22, "(join u r mid sub <sub> id who ((of sub who)))");
    refused_at(DOC, 22, "(join u r mid sub <sub> id id ((of sub who)) (lt (of sub who) 5))");
    refused_at(DOC, 22, "(join u r mid sub <sub> id id ((of sub who)) (eq (of sub id) (2027 2 29)))");
    let doc = format!("{DOC}(table z none (n num))\n(row z (1 2))\n");
    refused_at(&doc, 22, "(join u r mid z <z> n n ((of z n)))");
}

#[test]
fn wrong_types() {
    // Keys of different types at C2, which stands left of the condition.
    refused_at(DOC, 16, "(join u r mid sub adr id <city> ((of sub who)))");
    refused_at(DOC, 16, "(join u r mid sub adr who <id> ((of sub who)))");
    refused_at(DOC, 16, "(join u r mid sub adr id <city> ((of sub who)) (lt (of sub who) 5))");
    refused_at(DOC, 16, "(join u r mid sub adr id id ((of sub who)) (<lt> (of sub who) 5))");
    refused_at(DOC, 16, "(join u r mid sub adr id id ((of sub who)) (eq (of sub who) <5>))");
    refused_at(DOC, 16, "(join u r mid sub adr id id ((of sub who)) (eq (of adr id) <bonn>))");
    // By the table: `x` is a number in one and a name in the other.
    let doc = format!("{DOC}(table s none (x num))\n(public s)\n(table t none (x name))\n(public t)\n");
    refused_at(&doc, 16, "(join u r mid s t x <x> ((of s x)))");
    refused_at(&doc, 16, "(join u r mid s sub x id ((of s x)) (eq (of s x) <a>))");
    refused_at(&doc, 16, "(join u r mid sub t who x ((of t x)) (eq (of t x) <1>))");
    assert_eq!(joined(&doc, "(join u r mid s sub x id ((of s x)) (eq (of s x) 1))"), "(end 0 0 0)\n");
}

#[test]
fn ranges_and_dates() {
    let doc = format!("{DOC}(table z none (n num) (m num))\n(public z)\n(row z 1 (1 2))\n(table y row (n num) (d date))\n(row y shut (1 5) (2028 2 29))\n");
    // At the column: C1, C2 or an `of`'s COL, the leftmost; in rows withheld too; after 16 and before 31 and 17.
    refused_at(&doc, 27, "(join u r mid z sub <m> id ((of sub who)))");
    refused_at(&doc, 27, "(join u r mid sub z id <m> ((of sub who)))");
    refused_at(&doc, 27, "(join u r mid sub z id n ((of z <m>)))");
    refused_at(&doc, 27, "(join u r mid sub z id n ((of z n)) (gt (of z <m>) 0))");
    refused_at(&doc, 27, "(join u r mid sub y id <n> ((of sub who)))");
    refused_at(&doc, 16, "(join u r mid sub z who <m> ((of sub who)))");
    refused_at(&doc, 27, "(join u r mid z y <m> n ((of y d)) (eq (of y d) (2027 2 29)))");
    // A range in a column that isn't named does nothing, and neither does one of the same name in the other table.
    assert_eq!(joined(&doc, "(join u r mid sub z id n ((of sub who)))"), "(row Ida)\n(row Cy)\n(end 2 0 1)\n");
    let same = format!("{DOC}(table z none (id num) (note name))\n(public z)\n(row z 1 a)\n(table w none (id num) (k num))\n(public w)\n(row w (1 2) 1)\n");
    assert_eq!(joined(&same, "(join u r mid z w id k ((of z id)))"), "(row 1)\n(end 1 0 0)\n");
    refused_at(&same, 27, "(join u r mid z w id k ((of w <id>)))");
    // 31 at the date's own bracket, after 27 and before 17.
    let dated = doc.replace("(row y shut (1 5)", "(row y shut 1");
    refused_at(&dated, 31, "(join u r mid sub y id n ((of sub who)) (lt (of y d) <(2027 2 29)>))");
    let closed = dated.replace("(public sub)\n", "");
    refused_at(&closed, 31, "(join u r mid sub y id n ((of sub who)) (lt (of y d) <(2027 2 29)>))");
    refused_at(&closed, 17, "(join u r mid <sub> y id n ((of sub who)) (lt (of y d) (2028 2 29)))");
}

#[test]
fn closed_tables_and_columns() {
    let table: (&str, &[&str]) = ("table nomid (k num) (v name)", &["1 a"]);
    let column: (&str, &[&str]) = ("column (k num open) (v name nomid)", &["1 b"]);
    let undeclared: (&str, &[&str]) = ("none (k num) (v name)", &["1 c"]);
    let open: (&str, &[&str]) = ("table open (k num) (v name)", &["1 d"]);
    refused_at(&schemed(table, open), 17, "(join u r mid <s> t k k ((of t v)))");
    refused_at(&schemed(open, table), 17, "(join u r mid s <t> k k ((of s v)))");
    refused_at(&schemed(table, table), 17, "(join u r mid <s> t k k ((of s v)))");
    refused_at(&schemed(undeclared, open), 17, "(join u r side <s> t k k ((of t v)))");
    refused_at(&schemed(open, undeclared), 17, "(join u r side s <t> k k ((of s v)))");
    refused_at(&schemed(column, undeclared), 17, "(join u r mid s <t> k k ((of s v)))");
    refused_at(&schemed(column, open), 17, "(join u r mid s t k k ((of s <v>)))");
    refused_at(&schemed(column, open), 17, "(join u r mid s t <v> v ((of s k)))");
    refused_at(&schemed(open, column), 17, "(join u r mid s t v <v> ((of s k)))");
    refused_at(&schemed(column, open), 17, "(join u r mid s t k k ((of s k)) (or (eq (of s k) 1) (eq (of s <v>) a)))");
    // A closed column that isn't named, and one of the same name in the other table.
    assert_eq!(joined(&schemed(column, open), "(join u r mid s t k k ((of t v)))"), "(row d)\n(end 1 0 0)\n");
    assert_eq!(joined(&schemed(column, column), "(join u r mid s t k k ((of t k)))"), "(row 1)\n(end 1 0 0)\n");
    assert_eq!(joined(&schemed(table, column), "(join u r side s t k k ((of t v)))"), "(row b)\n(end 1 0 0)\n");
    // Without a single row too.
    refused_at(&schemed(("table nomid (k num)", &[]), open), 17, "(join u r mid <s> t k k ((of t v)))");
}

#[test]
fn buffers_and_clocks() {
    let query = "(join u r mid sub adr id id ((of sub who) (of adr city)))";
    let length = joined(DOC, query).len();
    let mut out = vec![b'#'; length];
    assert_eq!(ask(DOC.as_bytes(), query.as_bytes(), CLOCK, &mut out).unwrap().len, length);
    let mut out = vec![b'#'; length - 1];
    let refusal = ask(DOC.as_bytes(), query.as_bytes(), CLOCK, &mut out).unwrap_err();
    assert_eq!((refusal.number, refusal.start, refusal.len), (18, 0, 0));
    assert!(out.iter().all(|&byte| byte == b'#'));
    let late = Clock { year: 2027, day: 366, hour: 0 };
    assert_eq!(query_refused(DOC, query.as_bytes(), late), (10, 0, 0));
    // Joins have no reserve: this answer is longer than every one of a table.
    assert!(length > check(DOC.as_bytes()).unwrap().reserve);
}

#[test]
fn as_many_pairs_as_rows() {
    // 512 rows each, one key: every pair passes and none is left out of the counts.
    let rows = |name: &str, key: usize| format!("(row {name} {key})\n").repeat(512);
    let doc = format!("{BASE}(table s none (k num))\n(public s)\n(table t none (k num))\n(public t)\n{}{}", rows("s", 1), rows("t", 1));
    let query = b"(join u r root s t k k ((of s k)))";
    let length = measure(doc.as_bytes(), query, CLOCK).unwrap();
    assert_eq!(length, 512 * 512 * "(row 1)\n".len() + "(end 262144 0 0)\n".len());
    let doc = doc.replace(&rows("t", 1), &rows("t", 2));
    assert_eq!(counts(&doc, "(join u r root s t k k ((of s k)))"), (0, 0, 262_144));
}

#[test]
fn closed_values_leave_the_answer_as_it_was() {
    let doc = |closed: &str, key: &str| {
        schemed(
            ("cell (k num) (v name) (w name)", &[&format!("(1 open) (a open) ({closed} nomid)"), &format!("({key} nomid) (b open) (x open)")]),
            ("row (k num) (v name)", &["open 1 p", &format!("nomid {key} {closed}")]),
        )
    };
    for query in ["(join u r mid s t k k ((of s v) (of t v)))", "(join u r mid t s k k ((of s v) (of t v)) (ne (of t v) x))", "(join u r mid s t k k ((of s w)))"] {
        let first = joined(&doc("x", "1"), query);
        for (closed, key) in [("p", "1"), ("a", "2"), ("longername", "-7")] {
            assert_eq!(joined(&doc(closed, key), query), first, "{query}");
        }
    }
}
