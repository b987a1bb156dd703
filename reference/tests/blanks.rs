//! 02, Q-10: "`(blank U ROLE P T (..))`, condition optional, withholds a row only for a closed row label or a closed cell named in
//! the condition. A closed cell that is only selected is written `-`".

mod common;
use common::*;

/// `nomid` is closed to root, mid and leaf, and open to side; `shut` to all.
const TABLES: &str = "\
(table e cell (k num) (w name) (z num))
(row e (1 open) (a open) (7 open))
(row e (2 nomid) (b open) (-8 open))
(row e (-3 open) (c nomid) (9 shut))
(row e (4 nomid) (d nomid) (5 nomid))
(table r row (k num))
(row r nomid 5)
(row r open -6)
(table c column (k num open) (w num nomid))
(row c 3 4)
(table t table nomid (k num))
(row t 2)
(table n none (k num))
(row n -1)
(table m none (k num))
(public m)
(row m -1)
";

fn doc() -> String {
    format!("{BASE}{TABLES}")
}

fn answers(query: &str, expected: &str) {
    assert_eq!(answer_text(&doc(), query, CLOCK), expected, "{query}");
}

#[test]
fn a_closed_cell_that_is_only_selected() {
    // `-` beside `-8` and `-3`, which begin alike.
    answers("(blank u r leaf e (k w z))", "(row 1 a 7)\n(row - b -8)\n(row -3 - -)\n(row - - -)\n(end 4 0 0)\n");
    answers("(blank u r side e (k w z))", "(row 1 a 7)\n(row 2 b -8)\n(row -3 c -)\n(row 4 d 5)\n(end 4 0 0)\n");
    answers("(blank u r leaf e (z))", "(row 7)\n(row -8)\n(row -)\n(row -)\n(end 4 0 0)\n");
    // Each time that it is selected, in whatever case.
    answers("(blank u r leaf e (w w W))", "(row a a a)\n(row b b b)\n(row - - -)\n(row - - -)\n(end 4 0 0)\n");
    // The counts go with the answer.
    let (text, given) = answer(&doc(), "(blank u r leaf e (k) (ne w a))", CLOCK);
    assert_eq!(text, "(row -)\n(end 1 2 1)\n");
    assert_eq!((given.len, given.grant, given.passed, given.withheld, given.unmatched), (20, 0, 1, 2, 1));
}

#[test]
fn a_closed_cell_of_the_condition_withholds() {
    answers("(blank u r leaf e (w) (gt k 0))", "(row a)\n(end 1 2 1)\n");
    // Selected as well: it withholds, and is never written.
    answers("(blank u r leaf e (k w) (gt k 0))", "(row 1 a)\n(end 1 2 1)\n");
    answers("(blank u r leaf e (k k w) (ne w z))", "(row 1 1 a)\n(row - - b)\n(end 2 2 0)\n");
    // "evaluated or not", and withheld whatever the condition says.
    answers("(blank u r leaf e (w) (or (eq w a) (eq w b) (lt z 0)))", "(row a)\n(row b)\n(end 2 2 0)\n");
    answers("(blank u r leaf e (w) (and (eq w x) (gt k 0)))", "(end 0 3 1)\n");
    answers("(blank u r leaf e (w) (gt z 100))", "(end 0 2 2)\n");
    answers("(blank u r side e (w) (gt z 0))", "(row a)\n(row d)\n(end 2 1 1)\n");
}

#[test]
fn a_closed_row_label_withholds() {
    answers("(blank u r leaf r (k))", "(row -6)\n(end 1 1 0)\n");
    answers("(blank u r leaf r (k k) (lt k 0))", "(row -6 -6)\n(end 1 1 0)\n");
    answers("(blank u r leaf r (k) (gt k 0))", "(end 0 1 1)\n");
    answers("(blank u r side r (k))", "(row 5)\n(row -6)\n(end 2 0 0)\n");
}

#[test]
fn refusals_come_as_for_select() {
    // "(blank u r leaf " is 16 bytes.
    assert_eq!(query_refused(&doc(), b"(blank u r leaf t (k))", CLOCK), (17, 16, 1));
    assert_eq!(query_refused(&doc(), b"(blank u r leaf n (k))", CLOCK), (17, 16, 1));
    // A closed column that is only selected is 17 too.
    assert_eq!(query_refused(&doc(), b"(blank u r leaf c (k w))", CLOCK), (17, 21, 1));
    assert_eq!(query_refused(&doc(), b"(blank u r leaf c (k) (or (eq k 3) (eq w 4)))", CLOCK), (17, 39, 1));
    answers("(blank u r leaf c (k) (eq k 3))", "(row 3)\n(end 1 0 0)\n");
    answers("(blank u r leaf m (k))", "(row -1)\n(end 1 0 0)\n");
    answers("(blank u r side t (k))", "(row 2)\n(end 1 0 0)\n");
    for (query, refusal) in [
        ("(blank u r leaf e ())", (11, 0, 21)),
        ("(blank u r leaf e)", (11, 0, 18)),
        ("(blank u r leaf e (gt k 0))", (11, 0, 27)),
        ("(blank u r leaf e (-))", (11, 0, 22)),
        ("(blank u r leaf e (k) (eq w -))", (11, 0, 31)),
        ("(blanks u r leaf e (k))", (11, 0, 23)),
        ("(blank x r leaf e (k))", (12, 7, 1)),
        ("(blank u s leaf e (k))", (12, 9, 1)),
        ("(blank u r x e (k))", (12, 11, 1)),
        ("(blank u r leaf x (k))", (15, 16, 1)),
        ("(blank u r leaf e (k x))", (15, 21, 1)),
        ("(blank u r leaf e (k) (eq x 1))", (15, 26, 1)),
        ("(blank u r leaf e (k) (gt w a))", (16, 23, 2)),
        ("(blank u r leaf e (k) (gt k a))", (16, 28, 1)),
    ] {
        assert_eq!(query_refused(&doc(), query.as_bytes(), CLOCK), refusal, "{query}");
    }
    let seventeen = format!("(blank u r leaf e (k{}))", " k".repeat(16));
    assert_eq!(query_refused(&doc(), seventeen.as_bytes(), CLOCK), (11, 0, seventeen.len()));
    answers("(BLANK u r leaf e (k k k k k k k k k k k k k k k K) (Eq W b))", "(row - - - - - - - - - - - - - - - -)\n(end 1 2 1)\n");
}

#[test]
fn the_buffer_and_18() {
    let query = b"(blank u r leaf e (k) (ne w a))";
    for (room, fits) in [(20, true), (21, true), (19, false), (0, false)] {
        let mut out = vec![b'#'; room];
        let asked = reference::ask(doc().as_bytes(), query, CLOCK, &mut out);
        match asked {
            Ok(answer) => {
                assert!(fits && answer.len == 20);
                assert_eq!(&out[..20], b"(row -)\n(end 1 2 1)\n");
                assert!(out[20..].iter().all(|&byte| byte == b'#'));
            }
            Err(refusal) => {
                assert!(!fits && (refusal.number, refusal.start, refusal.len) == (18, 0, 0));
                assert!(out.iter().all(|&byte| byte == b'#'));
            }
        }
    }
    assert_eq!(reference::measure(doc().as_bytes(), query, CLOCK), Ok(20));
}

#[test]
fn the_reserve_covers_it() {
    // A `-` is no longer than a value: the longest blank that repeats no column is the longest select.
    let reserve = reference::check(doc().as_bytes()).unwrap().reserve;
    for purpose in ["root", "mid", "leaf", "side"] {
        for columns in ["k w z", "z k w", "w", "k z"] {
            let (text, _) = answer(&doc(), &format!("(blank u r {purpose} e ({columns}))"), CLOCK);
            assert!(text.len() <= reserve);
        }
    }
}
