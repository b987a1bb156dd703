//! 01, "Checking a document": the numbers 1 to 9 with their parts.

mod common;
use common::*;

#[test]
fn accepted_texts() {
    assert_eq!(lines(""), 0);
    assert_eq!(lines(BASE), 11);
    // Keywords are known by position.
    assert_eq!(lines("(purpose purpose)\n(role role)\n(attr role role num)\n(cond-role eq role (eq role 1))\n(grant purpose eq)\n(label allow (allow purpose) (deny purpose))\n(table none none (none name))\n(row none none)\n(table public none (public name))\n(public public)\n(row public public)\n"), 11);
    // Several role roots; one name in several kinds.
    assert_eq!(lines("(role a)\n(role b)\n(role c)\n(purpose a)\n(purpose b a)\n(label a (allow) (deny))\n"), 6);
    // Columns may have clock names, and the same name in two tables.
    assert_eq!(lines("(table t none (year num))\n(table s none (year name))\n"), 2);
}

#[test]
fn number_1_text_over_60000_bytes() {
    // 60,000 bytes of opening brackets is 2 on the first line; one byte more is 1, empty at the start.
    assert_eq!(refused(&"(".repeat(60_000)), (2, 0, 60_000));
    assert_eq!(refused(&"(".repeat(60_001)), (1, 0, 0));
    assert_eq!(refused(&"\n".repeat(60_001)), (1, 0, 0));
}

#[test]
fn number_2_wrong_form() {
    // Unfinished: the whole line, which has no line feed.
    assert_eq!(refused("(purpose a)"), (2, 0, 11));
    assert_eq!(refused("(purpose a)\n(role r)"), (2, 12, 8));
    // Blank.
    assert_eq!(refused("\n"), (2, 0, 0));
    assert_eq!(refused("(purpose a)\n\n"), (2, 12, 0));
    // Spaces, brackets and other bytes.
    for line in ["(purpose a )", "( purpose a)", "(purpose  a)", " (purpose a)", "(purpose a) ", "(purpose a)\r", "(purpose\ta)", "purpose a", "(purpose a))", "((purpose a)", "()", "(())", "(purpose a)(role b)"] {
        assert_eq!(refused(&format!("{line}\n")), (2, 0, line.len()), "{line}");
    }
    // Shapes that no form has.
    for line in [
        "(purpose)", "(purpose 1)", "(purpose a b c)", "(purpose (a))", "(purposes a)", "(nothing a)", "(5 a)", "((purpose) a)",
        "(role)", "(role a b c)",
        "(attr r a)", "(attr r a number)", "(attr r a num num)", "(attr r 1 num)",
        "(user u)", "(user u r a)", "(user u r (a))", "(user u r (a 1 2))", "(user u r (1 a))", "(user u r (a (1)))",
        "(cond-role c r)", "(cond-role c r (and))", "(cond-role c r (or))", "(cond-role c r (not))", "(cond-role c r (not (eq a 1) (eq a 1)))",
        "(cond-role c r (eq a))", "(cond-role c r (eq 1 a))", "(cond-role c r (eq a 1 2))", "(cond-role c r (is a 1))", "(cond-role c r eq)", "(cond-role c r (eq a 1) (eq a 1))", "(cond-role c r (and (eq a 1) b))",
        "(grant p)", "(grant p c c)",
        "(label l)", "(label l (allow))", "(label l (deny) (allow))", "(label l (allow 1) (deny))", "(label l () (deny))", "(label l (allow) (deny) (deny))",
        "(table t)", "(table t none)", "(table t table)", "(table t table l)", "(table t some (a num))", "(table t none (a))", "(table t none (a num l))", "(table t column (a num))", "(table t none (a number))", "(table t none (1 num))", "(table t none a)",
        "(row)", "(row 1 2)", "(row t ())", "(row t (1))", "(row t (1 2 3 4))", "(row t (a 2))", "(row t (1 a b))", "(row t ((1) a))",
        "(row t ((1 2) 3))", "(row t ((1 2) (3 4)))", "(row t ((1 a) b))", "(row t (1 02))", "(row t (1  2))", "(row t ((1 2)))", "(row (1 2))",
        "(user u r (a (1 2)))", "(user u r ((1 2) a))", "(cond-role c r (eq a (1 2)))",
        "(public)", "(public 1)", "(public t t)", "(public (t))", "(publics t)", "(public t (k))", "(publi t)",
        "(purpose a-b.c)", "(purpose -a)", "(purpose _a)", "(purpose 9a)", "(row t 01)", "(row t -0)", "(row t +1)", "(row t -)", "(row t 1.5)",
    ] {
        assert_eq!(refused(&format!("{line}\n")), (2, 0, line.len()), "{line}");
    }
    // Bytes outside ASCII are no letters.
    assert_eq!(refused("(purpose é)\n"), (2, 0, 12));
}

#[test]
fn number_3_bounds() {
    let many = |count: usize, line: &dyn Fn(usize) -> String| (0..count).map(|n| line(n) + "\n").collect::<String>();
    // 256 purposes: the root and 255 below it; "(purpose a000)" is 14 bytes, "(purpose a001 a000)" 19.
    let purposes = |count: usize| format!("(purpose a000)\n{}", many(count - 1, &|n| format!("(purpose a{:03} a000)", n + 1)));
    for count in [64, 65, 256] {
        assert_eq!(lines(&purposes(count)), count);
    }
    assert_eq!(refused(&purposes(257)), (3, 15 + 255 * 20, 19));
    // 3 is lower than 4, 5 and 6: a taken name, an unknown parent and a second root are not looked at any more.
    assert_eq!(refused(&format!("{}(purpose a000 b)\n", purposes(256))), (3, 15 + 255 * 20, 16));
    assert_eq!(refused(&format!("{}(purpose a000)\n", purposes(256))), (3, 15 + 255 * 20, 14));
    // 64 roles of "(role r000)", 11 bytes.
    let roles = |count| many(count, &|n| format!("(role r{n:03})"));
    assert_eq!(lines(&roles(64)), 64);
    assert_eq!(refused(&roles(65)), (3, 64 * 12, 11));
    // 32 attributes of "(attr r a000 num)", 17 bytes, after "(role r)", 8.
    let attributes = |count| format!("(role r)\n{}", many(count, &|n| format!("(attr r a{n:03} num)")));
    assert_eq!(lines(&attributes(32)), 33);
    assert_eq!(refused(&attributes(33)), (3, 9 + 32 * 18, 17));
    // 256 user forms of "(user u000 r)", 13 bytes.
    let users = |count| format!("(role r)\n{}", many(count, &|n| format!("(user u{n:03} r)")));
    assert_eq!(lines(&users(256)), 257);
    assert_eq!(refused(&users(257)), (3, 9 + 256 * 14, 13));
    // 64 conditional roles of "(cond-role c000 r (gt year 0))", 30 bytes.
    let cond_roles = |count| format!("(role r)\n{}", many(count, &|n| format!("(cond-role c{n:03} r (gt year 0))")));
    assert_eq!(lines(&cond_roles(64)), 65);
    assert_eq!(refused(&cond_roles(65)), (3, 9 + 64 * 31, 30));
    // 128 grants of "(grant root c)", 14 bytes, one of them in BASE already.
    let grants = |count| format!("{BASE}{}", many(count, &|_| "(grant root c)".to_string()));
    assert_eq!(lines(&grants(127)), 138);
    assert_eq!(refused(&grants(128)), (3, BASE.len() + 127 * 15, 14));
    // 8 tables of "(table t000 none (k num))", 25 bytes.
    let tables = |count| many(count, &|n| format!("(table t{n:03} none (k num))"));
    assert_eq!(lines(&tables(8)), 8);
    assert_eq!(refused(&tables(9)), (3, 8 * 26, 25));
    // 16 columns of " (c000 num)", 11 bytes, in "(table t none)", 14.
    let columns = |count: usize| format!("(table t none{})\n", (0..count).map(|n| format!(" (c{n:03} num)")).collect::<String>());
    assert_eq!(lines(&columns(16)), 1);
    assert_eq!(refused(&columns(17)), (3, 0, 14 + 17 * 11));
    // 1,024 rows in all: 512 of each table and one more; "(row s 1)" is 9 bytes, the tables 23 each.
    let rows = |count| format!("(table s none (k num))\n(table t none (k num))\n{}", many(count, &|n| format!("(row {} 1)", if n % 2 == 0 { "s" } else { "t" })));
    assert_eq!(lines(&rows(1024)), 1026);
    assert_eq!(refused(&rows(1025)), (3, 46 + 1024 * 10, 9));
    // 64 comparisons of " (gt year 0)", 12 bytes, in "(cond-role c r (and))", 21, after "(role r)".
    let comparisons = |count: usize| format!("(role r)\n(cond-role c r (and{}))\n", " (gt year 0)".repeat(count));
    assert_eq!(lines(&comparisons(64)), 2);
    assert_eq!(refused(&comparisons(65)), (3, 9, 21 + 65 * 12));
}

#[test]
fn number_4_name_taken() {
    // The second line begins at 12, its name at 21.
    assert_eq!(refused("(purpose a)\n(purpose a a)\n"), (4, 21, 1));
    assert_eq!(refused("(role a)\n(role a)\n"), (4, 15, 1));
    // "(attr r a num)" begins at 9; the second at 24, its A at 24 + 8.
    assert_eq!(refused("(role r)\n(attr r a num)\n(attr r a name)\n"), (4, 32, 1));
    // Attributes are unique over the document: the second role's may not share the name.
    assert_eq!(refused("(role r)\n(role s)\n(attr r a num)\n(attr s a num)\n"), (4, 41, 1));
    // Clock names included.
    assert_eq!(refused("(role r)\n(attr r hour num)\n"), (4, 17, 4));
    // The pair of user and role: at the role. "(user u r)" is 10 bytes; the second begins at 20, its role at 28.
    assert_eq!(refused("(role r)\n(user u r)\n(user u r)\n"), (4, 28, 1));
    assert_eq!(lines("(role r)\n(role s)\n(user u r)\n(user u s)\n(user v r)\n"), 5);
    // "(cond-role c r (gt year 0))" is 27 bytes; the second begins at 37, its C at 48.
    assert_eq!(refused("(role r)\n(cond-role c r (gt year 0))\n(cond-role c r (gt year 0))\n"), (4, 48, 1));
    // "(label l (allow) (deny))" is 24 bytes; the second begins at 25, its L at 32.
    assert_eq!(refused("(label l (allow) (deny))\n(label l (allow) (deny))\n"), (4, 32, 1));
    // "(table t none (k num))" is 22 bytes; the second begins at 23, its T at 30.
    assert_eq!(refused("(table t none (k num))\n(table t none (k num))\n"), (4, 30, 1));
    // Columns within their table: "(table t none (k num) (j num) (k num))", the later k at 31.
    assert_eq!(refused("(table t none (k num) (j num) (k num))\n"), (4, 31, 1));
    // Purposes within a set: "(label l (allow p p) (deny))" begins at 12, the later p at 12 + 18.
    assert_eq!(refused("(purpose p)\n(label l (allow p p) (deny))\n"), (4, 30, 1));
    // The same purpose in both sets is no second name within a set.
    assert_eq!(lines("(purpose p)\n(label l (allow p) (deny p))\n"), 2);
    // 4 is lower than 5: the repeated unknown purpose at 18.
    assert_eq!(refused("(label l (allow p p) (deny))\n"), (4, 18, 1));
    // 3 is lower than 4: a 65th role whose name is taken.
    let roles: String = (0..64).map(|n| format!("(role r{n:03})\n")).collect();
    assert_eq!(refused(&format!("{roles}(role r000)\n")), (3, 64 * 12, 11));
}

#[test]
fn number_5_name_unknown() {
    assert_eq!(refused("(purpose a)\n(purpose b c)\n"), (5, 23, 1));
    // A name is used only after the line that defines it: not on it.
    assert_eq!(refused("(purpose a a)\n"), (5, 11, 1));
    assert_eq!(refused("(role a a)\n"), (5, 8, 1));
    assert_eq!(refused("(attr r a num)\n"), (5, 6, 1));
    assert_eq!(refused("(user u r)\n"), (5, 8, 1));
    // An attribute that no line defines: "(user u r (b 1))" begins at 9, b at 9 + 11.
    assert_eq!(refused("(role r)\n(user u r (b 1))\n"), (5, 20, 1));
    // ROLE, then the attributes of a condition.
    assert_eq!(refused("(cond-role c r (eq a 1))\n"), (5, 13, 1));
    assert_eq!(refused("(role r)\n(cond-role c r (eq a 1))\n"), (5, 28, 1));
    // An attribute of another role is 5 there; "(attr s a num)" begins at 18, the cond-role at 33, its a at 33 + 19.
    assert_eq!(refused("(role r)\n(role s)\n(attr s a num)\n(cond-role c r (eq a 1))\n"), (5, 52, 1));
    // An attribute below ROLE isn't one above it: "(role s r)" is 10 bytes, so everything is 2 further on.
    assert_eq!(refused("(role r)\n(role s r)\n(attr s a num)\n(cond-role c r (eq a 1))\n"), (5, 54, 1));
    // One above is.
    assert_eq!(lines("(role r)\n(role s r)\n(attr r a num)\n(cond-role c s (eq a 1))\n"), 4);
    // The leftmost of two.
    assert_eq!(refused("(grant p c)\n"), (5, 7, 1));
    assert_eq!(refused("(purpose p)\n(grant p c)\n"), (5, 21, 1));
    // "(label l (allow p) (deny q))": q at 25, after 12 bytes of the first line.
    assert_eq!(refused("(purpose p)\n(label l (allow p) (deny q))\n"), (5, 37, 1));
    assert_eq!(refused("(table t table l (k num))\n"), (5, 15, 1));
    // "(table t column (k num l))": l at 23.
    assert_eq!(refused("(table t column (k num l))\n"), (5, 23, 1));
    assert_eq!(refused("(row t 1)\n"), (5, 5, 1));
    // Row table, 22 bytes with its line feed: the first item if it is a name, at 22 + 7, whatever the count.
    assert_eq!(refused("(table t row (k num))\n(row t l)\n"), (5, 29, 1));
    // Cell table, 23 bytes with its line feed: each bracket's L, "(row t (1 l))", at 23 + 10, even among wrong items.
    assert_eq!(refused("(table t cell (k num))\n(row t (1 l))\n"), (5, 33, 1));
    assert_eq!(refused("(table t cell (k num))\n(row t x (1 l))\n"), (5, 35, 1));
    // In other tables a bracket's L is not used: 7, the whole line.
    assert_eq!(refused("(table t none (k num))\n(row t (1 l))\n"), (7, 23, 13));
    // In a row table a bracket isn't a name, and its L isn't used.
    assert_eq!(refused("(table t row (k num))\n(row t (1 l))\n"), (7, 22, 13));
}

#[test]
fn number_6_second_root() {
    assert_eq!(refused("(purpose a)\n(purpose b)\n"), (6, 12, 11));
    // 4 is lower.
    assert_eq!(refused("(purpose a)\n(purpose a)\n"), (4, 21, 1));
}

#[test]
fn number_7_values_of_users() {
    // Roles r over s, and o apart; r has a, s has b, o has z. The lines have 9, 11, 9, 15, 16 and 15 bytes: 75.
    let head = "(role r)\n(role s r)\n(role o)\n(attr r a num)\n(attr s b name)\n(attr o z num)\n";
    assert_eq!(head.len(), 75);
    for good in ["(user u r (a 1))", "(user u s (a 1) (b x))", "(user u s (b x) (a 1))"] {
        assert_eq!(lines(&format!("{head}{good}\n")), 7, "{good}");
    }
    for bad in [
        "(user u r)",                   // none for a
        "(user u s (a 1))",             // none for b
        "(user u r (a 1) (a 1))",       // given twice
        "(user u s (a 1) (a 1))",       // given twice, the count right
        "(user u r (a 1) (z 1))",       // of another role
        "(user u r (z 1))",             // of another role, the count right
        "(user u r (a 1) (b x))",       // defined below, not above
        "(user u r (a 1) (year 1))",    // a clock name
        "(user u r (year 1))",          // a clock name, the count right
        "(user u r (a x) (a 1))",       // 7 is lower than 8
    ] {
        assert_eq!(refused(&format!("{head}{bad}\n")), (7, 75, bad.len()), "{bad}");
    }
}

#[test]
fn number_7_values_of_rows() {
    let head = "(label l (allow) (deny))\n(table n none (a num) (b name))\n(table t table l (a num) (b name))\n(table c column (a num l) (b name l))\n(table r row (a num) (b name))\n(table e cell (a num) (b name))\n";
    for good in ["(row n 1 x)", "(row t 1 x)", "(row c 1 x)", "(row r l 1 x)", "(row e (1 l) (x l))"] {
        assert_eq!(lines(&format!("{head}{good}\n")), 7, "{good}");
    }
    for bad in [
        "(row n)", "(row n 1)", "(row n 1 x x)", "(row n l 1 x)", "(row n (1 l) (x l))", "(row n 1 (x l))",
        "(row t)", "(row t 1)", "(row t 1 x x)", "(row t (1 l) x)",
        "(row c)", "(row c 1)", "(row c 1 x x)", "(row c (1 l) x)",
        "(row r)", "(row r l)", "(row r l 1)", "(row r l 1 x x)", "(row r 1 x)", "(row r 1 1 x)", "(row r (1 l) 1 x)", "(row r l (1 l) x)", "(row r l (1 nolabel) x)",
        "(row e)", "(row e (1 l))", "(row e (1 l) (x l) (x l))", "(row e 1 x)", "(row e (1 l) x)", "(row e l (1 l) (x l))",
        "(row n x)", // 7 is lower than 8
    ] {
        assert_eq!(refused(&format!("{head}{bad}\n")), (7, head.len(), bad.len()), "{bad}");
    }
}

#[test]
fn number_8_types() {
    // "(role r)\n(attr r a num)\n(attr r b name)\n" is 9 + 15 + 16 bytes: 40.
    let head = "(role r)\n(attr r a num)\n(attr r b name)\n";
    assert_eq!(head.len(), 40);
    // "(user u r (a x) (b y))": x at 13; "(user u r (a 1) (b 2))": 2 at 19; the leftmost of two at 13.
    assert_eq!(refused(&format!("{head}(user u r (a x) (b y))\n")), (8, 53, 1));
    assert_eq!(refused(&format!("{head}(user u r (a 1) (b 2))\n")), (8, 59, 1));
    assert_eq!(refused(&format!("{head}(user u r (a x) (b 2))\n")), (8, 53, 1));
    // "(cond-role c r (eq a x))": the value at 21; "(lt b x)": the operator at 16; "(lt b 1)": the operator, leftmost.
    assert_eq!(refused(&format!("{head}(cond-role c r (eq a x))\n")), (8, 61, 1));
    assert_eq!(refused(&format!("{head}(cond-role c r (lt b x))\n")), (8, 56, 2));
    assert_eq!(refused(&format!("{head}(cond-role c r (lt b 1))\n")), (8, 56, 2));
    assert_eq!(refused(&format!("{head}(cond-role c r (ne b 1))\n")), (8, 61, 1));
    for operator in ["lt", "le", "gt", "ge"] {
        assert_eq!(refused(&format!("{head}(cond-role c r ({operator} b x))\n")), (8, 56, 2));
        assert_eq!(lines(&format!("{head}(cond-role c r ({operator} a 1))\n")), 4);
    }
    for operator in ["eq", "ne"] {
        assert_eq!(lines(&format!("{head}(cond-role c r ({operator} b x))\n")), 4);
        assert_eq!(lines(&format!("{head}(cond-role c r ({operator} a 1))\n")), 4);
    }
    // The clock is numbers: "(eq hour x)", x at 24.
    assert_eq!(refused(&format!("{head}(cond-role c r (eq hour x))\n")), (8, 64, 1));
    // A name there is a value, not another attribute: "(eq a a)" has the wrong type.
    assert_eq!(refused(&format!("{head}(cond-role c r (eq a a))\n")), (8, 61, 1));
    // Rows: "(row t x y)", x at 7; the table line has 32 bytes with its line feed.
    let table = "(table t none (a num) (b name))\n";
    assert_eq!(table.len(), 32);
    assert_eq!(refused(&format!("{table}(row t x y)\n")), (8, 39, 1));
    assert_eq!(refused(&format!("{table}(row t 10 11)\n")), (8, 42, 2));
    assert_eq!(refused(&format!("{table}(row t x 11)\n")), (8, 39, 1));
    // In a cell the value, not the bracket: the label and the table have 25 + 32 bytes, "(row t (x l) (y l))" x at 8.
    let cells = "(label l (allow) (deny))\n(table t cell (a num) (b name))\n";
    assert_eq!(cells.len(), 57);
    assert_eq!(refused(&format!("{cells}(row t (x l) (y l))\n")), (8, 65, 1));
    // In a row table the label isn't a value: 25 + 22 bytes, "(row t l x)" x at 9.
    assert_eq!(refused("(label l (allow) (deny))\n(table t row (a num))\n(row t l x)\n"), (8, 56, 1));
}

#[test]
fn number_9_late_attribute() {
    // "(role r)\n(user u r)\n" is 20 bytes.
    assert_eq!(refused("(role r)\n(user u r)\n(attr r a num)\n"), (9, 20, 14));
    // After any user line, whatever its role: "(role s)\n" is 9 more.
    assert_eq!(refused("(role r)\n(role s)\n(user u r)\n(attr s a num)\n"), (9, 29, 14));
    // 4 and 5 are lower.
    assert_eq!(refused("(role r)\n(user u r)\n(attr r day num)\n"), (4, 28, 3));
    assert_eq!(refused("(role r)\n(user u r)\n(attr s a num)\n"), (5, 26, 1));
    // Roles may follow a user line.
    assert_eq!(lines("(role r)\n(user u r)\n(role s r)\n(user u s)\n"), 4);
}

#[test]
fn the_first_failing_line_counts() {
    // Line 2 is 6, line 3 would be 2.
    assert_eq!(refused("(purpose a)\n(purpose b)\n(\n"), (6, 12, 11));
}

#[test]
fn a_line_feed_ends_a_line_anywhere() {
    assert_eq!(refused("(purpose\na)\n"), (2, 0, 8));
}
