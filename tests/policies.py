"""Policies with what the checker must say of each, derived by hand from the request.

A case is (name, lines, expected). Lines are joined with line feeds; a policy given as bytes is taken as it stands.
Expected is the number of lines where the policy is accepted, or (number, line, item): the number of the refusal, the line
counted from 0, and the offending item as (text, occurrence in that line, counted from 0), or None for the whole line.
"""

import re

BASE = [
    "(purpose all)",
    "(purpose bill all)",
    "(purpose ads all)",
    "(purpose post ads)",
    "(role desk)",
    "(role clerk desk)",
    "(role other)",
    "(attr desk level num)",
    "(attr clerk team name)",
    "(attr other size num)",
]
USERS = BASE + ["(user ana desk (level 5))", "(user ben clerk (team red) (level 7))"]
ROLES = USERS + ["(cond-role senior desk (and (ge level 5) (lt hour 17)))"]
LABELS = ROLES + ["(grant ads senior)", "(label free (allow all) (deny))", "(label noads (allow all) (deny ads))"]
TABLES = LABELS + [
    "(table n none (a num) (b name))",
    "(table t table free (a num))",
    "(table c column (a num free) (b name noads))",
    "(table r row (a num) (b name))",
    "(table e cell (who name) (due num))",
]
ROWS = TABLES + [
    "(row n 1 x)",
    "(public n)",
    "(row t -5)",
    "(row c 3 y)",
    "(row r free 4 z)",
    "(row e (Ida free) (40 noads))",
]

# dates (02, Q-14) in a table of each scheme
DATES = LABELS + [
    "(table n none (d date) (a num) (b name))",
    "(table t table free (d date))",
    "(table c column (d date free) (b name noads))",
    "(table r row (d date) (b name))",
    "(table e cell (d date) (due num))",
    "(table two none (d date) (f date))",
]

# labels that come down (02, Q-11): a nest table beside one of each other scheme, its weak and strong lines, and a row of it
NEST = TABLES + ["(label shut (allow) (deny))", "(table s nest (who name) (due num))"]
NOTED = NEST + ["(weak s noads)", "(strong s shut)"]
NESTED = NOTED + ["(row s free (Ida noads) (40 shut))"]
NEST_ROW = "(row s free (Ida free) (40 free))"
NEST_DATES = NEST + ["(table z nest (d date) (k num))"]


def after(base, *lines):
    return base + list(lines)


def nested(depth, comparison="(eq level 1)"):
    """A condition of so many brackets, one within the comparison not counted."""
    return "(not " * (depth - 1) + comparison + ")" * (depth - 1)


def dates(*wanted):
    """Rows of one date each, behind their tables."""
    return DATES + [f"(row t {date})" for date in wanted]


def no_date(name, date):
    """A date of no day is 31 at its bracket."""
    return (f"31, {name}", dates("(2028 2 9)", date), (31, len(DATES) + 1, (date, 0)))


def out_of_place(name, base, line):
    """A weak or strong line out of place is 25, at the whole line."""
    return (f"25, {name}", after(base, line), (25, len(base), None))


KEYWORDS = r"\((?:purpose|role|attr|user|cond-role|grant|label|table|row|public|weak|strong|allow|deny|and|or|not|[engl][eqt])\b| (?:num|name)\b|(?<=table . )\w+"


def capital_keywords(line):
    """A line of ROWS with its keywords alone in capitals."""
    return re.sub(KEYWORDS, lambda word: word[0].upper(), line)


def capital_names(line):
    """The same with all but its keywords in capitals."""
    return re.sub(rf"({KEYWORDS})|[a-z]", lambda found: found[0] if found[1] else found[0].upper(), line)


def some(n, form):
    return [form.format(i) for i in range(n)]


def tree(n, above=lambda i: 0):
    """n purposes: p0, and each other below the one that `above` gives."""
    return ["(purpose p0)"] + [f"(purpose p{i} p{above(i)})" for i in range(1, n)]


def chain(n):
    return tree(n, lambda i: i - 1)


def row_fill(n):
    return TABLES + ["(row t 1)"] * n


NAME24 = "a" + "b" * 23
WIDE = "(table w none " + " ".join(f"(c{i} num)" for i in range(16)) + ")"
WIDER = "(table w none " + " ".join(f"(c{i} num)" for i in range(17)) + ")"
WIDE_NEST = WIDE.replace("none", "nest")
MANY = "(cond-role many desk (and " + " ".join(["(eq level 1)"] * 64) + "))"
MORE = "(cond-role many desk (and " + " ".join(["(eq level 1)"] * 65) + "))"


CASES = [
    # ---- accepted
    ("empty", b"", 0),
    ("sample", ROWS, len(ROWS)),
    ("every number of columns", after(LABELS, WIDE), len(LABELS) + 1),
    ("64 comparisons", after(USERS, MANY), len(USERS) + 1),
    ("nesting 16", after(USERS, f"(cond-role deep desk {nested(15)})"), len(USERS) + 1),
    ("name of 24", ["(purpose " + NAME24 + ")"], 1),
    ("both ends of the numbers", after(TABLES, "(row t 9223372036854775807)", "(row t -9223372036854775808)"), len(TABLES) + 2),
    ("a purpose in both sets", after(BASE, "(label l (allow ads) (deny ads))"), len(BASE) + 1),
    ("grants repeat", after(ROLES, "(grant ads senior)", "(grant ads senior)"), len(ROLES) + 2),
    ("names of different kinds", ["(purpose x)", "(role x)", "(attr x x num)", "(label x (allow x) (deny))", "(table x none (x num))"], 5),
    ("keywords as names", ["(purpose purpose)", "(role row)", "(label deny (allow purpose) (deny))", "(table table none (name num))", "(row table 3)"], 5),
    # ranges (02, Q-12)
    ("a range in each scheme", after(TABLES, "(row n (1 5) x)", "(row t (1 5))", "(row c (-5 -1) y)", "(row r free (-1 1) z)", "(row e (Ida free) ((40 75) noads))"), len(TABLES) + 5),
    ("a range of one number", after(TABLES, "(row t (5 5))", "(row t (-3 -3))", "(row t (0 0))", "(row t 0)"), len(TABLES) + 4),
    ("the range of all numbers", after(TABLES, "(row t (-9223372036854775808 9223372036854775807))"), len(TABLES) + 1),
    ("a range beside a number", after(TABLES, "(table x none (aa num) (bb num) (cc name))", "(row x (1 5) 3 x)", "(ROW X 1 (-3 5) Y)"), len(TABLES) + 3),
    # dates (02, Q-14)
    ("a date in each scheme", after(DATES, "(row n (2028 2 9) 1 x)", "(row t (2028 2 29))", "(row c (1999 12 31) x)", "(row r noads (2000 1 1) y)", "(row e ((2028 2 29) free) (1 noads))"), len(DATES) + 5),
    ("the first and the last date", dates("(1 1 1)", "(9999 12 31)"), len(DATES) + 2),
    ("29 February of leap years", dates("(2000 2 29)", "(2024 2 29)", "(2028 2 29)", "(4 2 29)", "(400 2 29)", "(9996 2 29)"), len(DATES) + 6),
    ("28 February of other years", dates("(1900 2 28)", "(2100 2 28)", "(2027 2 28)", "(1 2 28)", "(9999 2 28)"), len(DATES) + 5),
    ("the last day of each month", dates(*(f"(2027 {month} {day})" for month, day in enumerate([31, 28, 31, 30, 31, 30, 31, 31, 30, 31, 30, 31], 1))), len(DATES) + 12),
    ("a date beside a range", after(DATES, "(row n (2028 2 9) (1 5) x)", "(row e ((2028 2 9) free) ((-5 5) noads))"), len(DATES) + 2),
    ("the type of dates in other cases", after(LABELS, "(table x none (a DATE) (b Date))", "(row x (2028 2 9) (2028 2 9))", "(table y column (a dAte free))", "(row y (1 1 1))"), len(LABELS) + 4),
    ("date as a name", ["(purpose date)", "(role date)", "(attr date date name)", "(user date date (date date))", "(cond-role date date (eq date date))", "(label date (allow date) (deny))", "(table date cell (date date))", "(row date ((2028 2 9) date))"], 8),
    ("words of queries as names", ["(purpose sure)", "(role possible)", "(label blank (allow sure) (deny))", "(table sure cell (possible num))", "(row sure ((1 2) blank))"], 5),
    # labels that come down (02, Q-11)
    ("a nest table without lines and rows", NEST, len(NEST)),
    ("a weak and a strong line", NOTED, len(NOTED)),
    ("a row of a nest table", NESTED, len(NESTED)),
    ("a nest table's row without its lines", after(NEST, NEST_ROW), len(NEST) + 1),
    ("a weak line alone", after(NEST, "(weak s noads)", NEST_ROW), len(NEST) + 2),
    ("a strong line alone", after(NEST, "(strong s noads)", NEST_ROW), len(NEST) + 2),
    ("a strong line before the weak one", after(NEST, "(strong s free)", "(weak s noads)", NEST_ROW), len(NEST) + 3),
    ("one label at all four places", after(NEST, "(strong s shut)", "(weak s shut)", "(row s shut (Ida shut) (40 shut))"), len(NEST) + 3),
    ("lines behind rows of other tables", after(NEST, "(row t 1)", "(row r free 1 x)", "(weak s free)", "(row e (Ida free) (40 free))", "(strong s free)", NEST_ROW, "(row t 2)"), len(NEST) + 7),
    ("lines behind rows of another nest table", after(NEST, "(table z nest (a num))", "(row z free (1 free))", "(weak s noads)", "(strong s noads)", NEST_ROW), len(NEST) + 5),
    ("lines of two nest tables", after(NEST, "(table z nest (a num))", "(weak z free)", "(weak s noads)", "(strong s noads)", "(strong z shut)"), len(NEST) + 5),
    ("a public line before a nest table's lines", after(NEST, "(public s)", "(weak s noads)", "(strong s free)", NEST_ROW), len(NEST) + 4),
    ("a public line behind a nest table's rows", after(NESTED, NEST_ROW, "(public s)", NEST_ROW), len(NESTED) + 3),
    ("17 labels in a row", after(NEST, WIDE_NEST, "(weak w noads)", "(row w free" + "".join(some(16, " ({} noads)")) + ")"), len(NEST) + 3),
    ("1,024 rows of a nest table", NOTED + [NEST_ROW] * 1024, len(NOTED) + 1024),
    ("64 labels of a nest table", some(64, "(label l{} (allow) (deny))") + ["(table s nest (a num))", "(weak s l63)", "(strong s l0)"] + [f"(row s l{n} (1 l{63 - n}))" for n in range(64)], 131),
    ("a range in a nest table", after(NEST, "(row s free (Ida noads) ((40 75) shut))", "(row s free (Bo noads) ((-5 -5) free))"), len(NEST) + 2),
    ("a date in a nest table", after(NEST_DATES, "(row z free ((2028 2 29) noads) (5 shut))", "(row z noads ((1 1 1) free) ((1 5) free))"), len(NEST_DATES) + 2),
    ("a nest table in capitals", [line.upper() for line in NESTED], len(NESTED)),
    ("a nest table's keywords in capitals", [capital_keywords(line) for line in NESTED], len(NESTED)),
    ("a nest table's names in capitals on every other line", [capital_names(line) if n % 2 else line for n, line in enumerate(NESTED)], len(NESTED)),
    ("a nest table in mixed case", after(NEST[:-1], "(Table S nEst (Who name) (due Num))", "(Weak s NoAds)", "(stRong S Free)", "(row s FREE (Ida free) (40 nOAds))"), len(NEST) + 3),
    ("nest, weak and strong as names", ["(purpose nest)", "(role weak)", "(user strong weak)", "(label strong (allow nest) (deny))", "(label weak (allow) (deny nest))", "(table nest nest (nest name) (weak num))", "(weak nest weak)", "(strong nest strong)", "(row nest weak (weak strong) (5 weak))"], 9),
    # public lines (02, Q-2); a table without one is accepted all the same
    ("no public line", TABLES, len(TABLES)),
    ("a public line behind its table", after(LABELS, "(table x none (a num))", "(public x)"), len(LABELS) + 2),
    ("a public line behind other tables", after(TABLES, "(public n)"), len(TABLES) + 1),
    ("a public line between rows", after(TABLES, "(row n 1 x)", "(public n)", "(row n 2 y)"), len(TABLES) + 3),
    ("a public line behind rows", after(TABLES, "(row n 1 x)", "(row n 2 y)", "(public n)"), len(TABLES) + 3),
    ("public lines for labelled tables", after(TABLES, "(public t)", "(public c)", "(row r free 4 z)", "(public r)", "(public e)", "(row e (Ida free) (40 noads))"), len(TABLES) + 6),
    ("8 tables, all public", some(8, "(table t{} none (a num))") + some(8, "(public t{})"), 16),
    ("1,024 rows and a public line", row_fill(1024) + ["(public n)"], len(TABLES) + 1025),
    ("public as a name", ["(purpose public)", "(role public)", "(table public none (public name))", "(public public)", "(row public public)"], 5),
    ("a public line in capitals", after(TABLES, "(PUBLIC N)"), len(TABLES) + 1),
    # names without case (02, Q-8)
    ("a keyword in another case", ["(Purpose all)"], 1),
    ("all in capitals", [line.upper() for line in ROWS], len(ROWS)),
    ("keywords in capitals", [capital_keywords(line) for line in ROWS], len(ROWS)),
    ("names in capitals on every other line", [capital_names(line) if n % 2 else line for n, line in enumerate(ROWS)], len(ROWS)),
    ("a purpose in two cases", ["(purpose Ads)", "(purpose post ads)", "(role r)", "(cond-role c r (eq hour 1))", "(grant aDS c)", "(label l (allow ADS) (deny adS))"], 6),
    ("a type, a scheme and a set in another case", after(LABELS, "(table x COLUMN (a NUM free) (b Name free))", "(label l (Allow) (DENY))"), len(LABELS) + 2),
    ("operators in another case", after(BASE, "(cond-role c clerk (AND (Eq level 1) (NE team red) (lT level 1) (Le level 1) (GT level 1) (gE level 1) (Not (OR (eq level 1)))))"), len(BASE) + 1),
    ("the clock's names in another case", after(BASE, "(cond-role c desk (and (eq Year 1) (eq DAY 1) (eq houR 1)))"), len(BASE) + 1),
    ("attributes in another case", after(BASE, "(user ben CLERK (TEAM red) (Level 7))"), len(BASE) + 1),
    ("a label in another case in a row and in a cell", after(TABLES, "(row R Free 4 z)", "(row E (Ida FREE) (40 noAds))"), len(TABLES) + 2),
    ("a keyword in capitals as a name", ["(role ROW)", "(user None row)", "(table Row none (Num num))", "(row ROW 1)"], 4),
    ("names that differ in more than case", ["(role a-b)", "(role a_b)", "(role a0b)", "(role a1b)", "(role ab)", "(role abb)"], 6),
    ("values in any order", after(BASE, "(user ben clerk (level 7) (team red))"), len(BASE) + 1),
    ("user with a second role", after(USERS, "(user ana clerk (team red) (level 1))"), len(USERS) + 1),
    ("64 purposes", tree(64), 64),
    ("65 purposes", tree(65), 65),
    ("256 purposes", tree(256), 256),
    ("256 purposes, each below the one before it", chain(256), 256),
    ("a set of 256 purposes", tree(256) + ["(label l (allow" + "".join(some(256, " p{}")) + ") (deny p255 p192 p191 p128 p127 p64 p63 p0))"], 257),
    ("64 roles", some(64, "(role r{})"), 64),
    ("32 attributes", ["(role r)"] + some(32, "(attr r a{} num)"), 33),
    ("256 users", ["(role r)"] + some(256, "(user u{} r)"), 257),
    ("64 conditional roles", ["(role r)"] + some(64, "(cond-role c{} r (eq hour 1))"), 65),
    ("128 grants", ROLES + ["(grant ads senior)"] * 128, len(ROLES) + 128),
    ("64 labels", some(64, "(label l{} (allow) (deny))"), 64),
    ("8 tables", some(8, "(table t{} none (a num))"), 8),
    ("1,024 rows", row_fill(1024), len(TABLES) + 1024),
    ("60,000 bytes", None, None),
    # ---- 1
    ("60,001 bytes", None, None),
    ("60,001 bytes of anything", b"x" * 60001, (1, None, None)),
    # ---- 2
    ("blank line", ["(purpose all)", "", "(role r)"], (2, 1, None)),
    ("unfinished line", b"(purpose all)\n(role r)", (2, 1, None)),
    ("only a line feed", b"\n", (2, 0, None)),
    ("no form", ["(porpoise all)"], (2, 0, None)),
    ("two spaces", ["(purpose  all)"], (2, 0, None)),
    ("space before bracket", ["(purpose all )"], (2, 0, None)),
    ("space after bracket", ["( purpose all)"], (2, 0, None)),
    ("more behind the form", ["(purpose all) "], (2, 0, None)),
    ("three names", ["(purpose a b c)"], (2, 0, None)),
    ("name of 25", ["(purpose " + NAME24 + "b)"], (2, 0, None)),
    ("name that begins with a digit", ["(purpose 1all)"], (2, 0, None)),
    ("byte above 127", b"(purpose caf\xc3\xa9)\n", (2, 0, None)),
    ("carriage return", b"(purpose all)\r\n", (2, 0, None)),
    # bytes 32 apart that are no letters: 64 and 96, 91 and 123; 13 and 45, 95 and 127
    ("an at sign in a name", ["(purpose a@)"], (2, 0, None)),
    ("a backquote in a name", ["(purpose a`)"], (2, 0, None)),
    ("a square bracket in a name", ["(purpose a[)"], (2, 0, None)),
    ("a brace in a name", ["(purpose a{)"], (2, 0, None)),
    ("byte 127 in a name", b"(purpose a\x7f)\n", (2, 0, None)),
    ("bytes 193 and 225 in names", b"(purpose a\xc1)\n(purpose b a\xe1)\n", (2, 0, None)),
    ("a carriage return for the keyword's hyphen", b"(role r)\n(cond\rrole c r (eq hour 1))\n", (2, 1, None)),
    ("an underscore for the keyword's hyphen", ["(role r)", "(cond_role c r (eq hour 1))"], (2, 1, None)),
    ("attribute without type", after(BASE, "(attr desk extra)"), (2, len(BASE), None)),
    ("attribute of another type", after(BASE, "(attr desk extra date)"), (2, len(BASE), None)),
    ("user without role", after(BASE, "(user ana)"), (2, len(BASE), None)),
    ("value without attribute", after(BASE, "(user ana desk (5))"), (2, len(BASE), None)),
    ("no condition", after(BASE, "(cond-role c desk)"), (2, len(BASE), None)),
    ("and over nothing", after(BASE, "(cond-role c desk (and))"), (2, len(BASE), None)),
    ("not over two", after(BASE, "(cond-role c desk (not (eq level 1) (eq level 2)))"), (2, len(BASE), None)),
    ("nesting 17", after(BASE, f"(cond-role deep desk {nested(16)})"), (2, len(BASE), None)),
    ("label without deny", after(BASE, "(label l (allow))"), (2, len(BASE), None)),
    ("label turned", after(BASE, "(label l (deny) (allow))"), (2, len(BASE), None)),
    ("table without column", after(LABELS, "(table x none)"), (2, len(LABELS), None)),
    ("table of another scheme", after(LABELS, "(table x nested (a num))"), (2, len(LABELS), None)),
    ("column scheme without label", after(LABELS, "(table x column (a num))"), (2, len(LABELS), None)),
    ("public without a table", after(TABLES, "(public)"), (2, len(TABLES), None)),
    ("public with two tables", after(TABLES, "(public n t)"), (2, len(TABLES), None)),
    ("public with a number", after(TABLES, "(public 1)"), (2, len(TABLES), None)),
    ("public with a bracket", after(TABLES, "(public (n))"), (2, len(TABLES), None)),
    ("another word for public", after(TABLES, "(publick n)"), (2, len(TABLES), None)),
    ("an unfinished public line", ("\n".join(TABLES) + "\n(public n)").encode(), (2, len(TABLES), None)),
    ("one more than the largest number", after(TABLES, "(row t 9223372036854775808)"), (2, len(TABLES), None)),
    ("one less than the least number", after(TABLES, "(row t -9223372036854775809)"), (2, len(TABLES), None)),
    ("-0", after(TABLES, "(row t -0)"), (2, len(TABLES), None)),
    ("a blank for a value", after(TABLES, "(row t -)"), (2, len(TABLES), None)),
    ("a blank for a cell's value", after(TABLES, "(row e (- free) (40 free))"), (2, len(TABLES), None)),
    ("a blank for a name", after(TABLES, "(label - (allow) (deny))"), (2, len(TABLES), None)),
    ("a query for a line", after(TABLES, "(blank ana desk all e (who))"), (2, len(TABLES), None)),
    ("a range with one end", after(TABLES, "(row t (5))"), (2, len(TABLES), None)),
    ("a range with four ends", after(TABLES, "(row t (1 5 9 13))"), (2, len(TABLES), None)),
    ("a range that begins with a name", after(TABLES, "(row t (x 5))"), (2, len(TABLES), None)),
    ("a range with an end out of range", after(TABLES, "(row t (1 9223372036854775808))"), (2, len(TABLES), None)),
    ("a range that ends with -0", after(TABLES, "(row t (-1 -0))"), (2, len(TABLES), None)),
    ("a range with two spaces", after(TABLES, "(row t (1  5))"), (2, len(TABLES), None)),
    ("a range in a range", after(TABLES, "(row t ((1 5) 9))"), (2, len(TABLES), None)),
    ("a range labelled by a range", after(TABLES, "(row e (Ida free) ((1 5) (1 5)))"), (2, len(TABLES), None)),
    ("a range with two labels", after(TABLES, "(row e (Ida free) ((40 75) noads free))"), (2, len(TABLES), None)),
    ("a labelled value with a label", after(TABLES, "(row e (Ida free) ((40 noads) free))"), (2, len(TABLES), None)),
    ("a range for a table", after(TABLES, "(row (1 5) 1)"), (2, len(TABLES), None)),
    ("a range for a user's value", after(BASE, "(user ana desk (level (1 5)))"), (2, len(BASE), None)),
    ("a range in a condition", after(BASE, "(cond-role c desk (eq level (1 5)))"), (2, len(BASE), None)),
    ("a range for a purpose", after(TABLES, "(label l (allow (1 5)) (deny))"), (2, len(TABLES), None)),
    ("attribute of type date in capitals", after(BASE, "(attr desk extra DATE)"), (2, len(BASE), None)),
    ("another word for date", after(LABELS, "(table x none (a dates))"), (2, len(LABELS), None)),
    ("a date of four numbers", dates("(2028 2 9 1)"), (2, len(DATES), None)),
    ("a date with a month's name", dates("(2028 feb 9)"), (2, len(DATES), None)),
    ("a date that begins with a name", dates("(ad 2 9)"), (2, len(DATES), None)),
    ("a date that ends with a name", dates("(2028 2 ides)"), (2, len(DATES), None)),
    ("a date with leading zeros", dates("(2028 02 09)"), (2, len(DATES), None)),
    ("a date with -0", dates("(2028 2 -0)"), (2, len(DATES), None)),
    ("a date with a number out of range", dates("(2028 2 9223372036854775808)"), (2, len(DATES), None)),
    ("a date with two spaces", dates("(2028  2 9)"), (2, len(DATES), None)),
    ("a date with a space before its end", dates("(2028 2 9 )"), (2, len(DATES), None)),
    ("a date with hyphens", dates("2028-02-09"), (2, len(DATES), None)),
    ("a date in a bracket of its own", dates("((2028 2 9))"), (2, len(DATES), None)),
    ("a date in a date", dates("((2028 2 9) 2 9)"), (2, len(DATES), None)),
    ("a date labelled by a number", after(DATES, "(row e ((2028 2 9) 5) (1 free))"), (2, len(DATES), None)),
    ("a date labelled by a date", after(DATES, "(row e ((2028 2 9) (2028 2 9)) (1 free))"), (2, len(DATES), None)),
    ("a date with two labels", after(DATES, "(row e ((2028 2 9) free free) (1 free))"), (2, len(DATES), None)),
    ("a date for a table", after(DATES, "(row (2028 2 9) (2028 2 9))"), (2, len(DATES), None)),
    ("a date for a user's value", after(BASE, "(user ana desk (level (2028 2 9)))"), (2, len(BASE), None)),
    ("a date of no day for a user's value", after(BASE, "(user ana desk (level (0 0 0)))"), (2, len(BASE), None)),
    ("a date for an attribute", after(BASE, "(cond-role c desk (eq (2028 2 9) level))"), (2, len(BASE), None)),
    ("a date for a condition", after(BASE, "(cond-role c desk (2028 2 9))"), (2, len(BASE), None)),
    ("a date of four numbers in a condition", after(BASE, "(cond-role c desk (eq level (2028 2 9 1)))"), (2, len(BASE), None)),
    ("a date for a purpose", after(TABLES, "(label l (allow (2028 2 9)) (deny))"), (2, len(TABLES), None)),
    ("a date's bracket 17 deep in a condition", after(BASE, f"(cond-role deep desk {nested(15, '(eq level (2028 2 9))')})"), (2, len(BASE), None)),
    # of nest tables and their lines (02, Q-11)
    ("nest table without column", after(NEST, "(table x nest)"), (2, len(NEST), None)),
    ("nest table with a label", after(NEST, "(table x nest free (a num))"), (2, len(NEST), None)),
    ("nest table with a label at its column", after(NEST, "(table x nest (a num free))"), (2, len(NEST), None)),
    ("weak without a table", after(NEST, "(weak)"), (2, len(NEST), None)),
    ("weak without a label", after(NEST, "(weak s)"), (2, len(NEST), None)),
    ("strong without a label", after(NEST, "(strong s)"), (2, len(NEST), None)),
    ("weak with two labels", after(NEST, "(weak s free noads)"), (2, len(NEST), None)),
    ("strong with two labels", after(NEST, "(strong s free noads)"), (2, len(NEST), None)),
    ("weak with a bracket", after(NEST, "(weak s (free))"), (2, len(NEST), None)),
    ("strong with sets", after(NEST, "(strong s (allow all) (deny))"), (2, len(NEST), None)),
    ("weak with a number for its table", after(NEST, "(weak 1 free)"), (2, len(NEST), None)),
    ("strong with a number for its label", after(NEST, "(strong s 1)"), (2, len(NEST), None)),
    ("weak with a space before its end", after(NEST, "(weak s free )"), (2, len(NEST), None)),
    ("weak with two spaces", after(NEST, "(weak  s free)"), (2, len(NEST), None)),
    ("another word for weak", after(NEST, "(weaker s free)"), (2, len(NEST), None)),
    ("another word for strong", after(NEST, "(strongest s free)"), (2, len(NEST), None)),
    ("an unfinished weak line", ("\n".join(NEST) + "\n(weak s free)").encode(), (2, len(NEST), None)),
    ("a nest row's label in a bracket", after(NEST, "(row s (free) (Ida free) (40 free))"), (2, len(NEST), None)),
    ("a nest row's cell without a label", after(NEST, "(row s free (Ida) (40 free))"), (2, len(NEST), None)),
    ("a nest row's cell with two labels", after(NEST, "(row s free (Ida free noads) (40 free))"), (2, len(NEST), None)),
    ("a nest row's label before its value", after(NEST, "(row s free (Ida free) (free 40))"), (2, len(NEST), None)),
    ("a nest row's cells in one bracket", after(NEST, "(row s free ((Ida free) (40 free)))"), (2, len(NEST), None)),
    ("a nest row's value with a number for its label", after(NEST, "(row s free (Ida 5) (40 free))"), (2, len(NEST), None)),
    ("007", after(TABLES, "(row t 007)"), (2, len(TABLES), None)),
    ("12ab", after(TABLES, "(row t 12ab)"), (2, len(TABLES), None)),
    ("+5", after(TABLES, "(row t +5)"), (2, len(TABLES), None)),
    # ---- 3
    ("257th purpose", tree(257), (3, 256, None)),
    ("257th purpose, below the 256th", chain(257), (3, 256, None)),
    ("257th purpose, wrong in other ways too", tree(256) + ["(purpose p0 q)"], (3, 256, None)),
    ("65th role", some(65, "(role r{})"), (3, 64, None)),
    ("33rd attribute", ["(role r)"] + some(33, "(attr r a{} num)"), (3, 33, None)),
    ("257th user", ["(role r)"] + some(257, "(user u{} r)"), (3, 257, None)),
    ("65th conditional role", ["(role r)"] + some(65, "(cond-role c{} r (eq hour 1))"), (3, 65, None)),
    ("65 comparisons", after(USERS, MORE), (3, len(USERS), None)),
    ("129th grant", ROLES + ["(grant ads senior)"] * 129, (3, len(ROLES) + 128, None)),
    ("65th label", some(65, "(label l{} (allow) (deny))"), (3, 64, None)),
    ("9th table", some(9, "(table t{} none (a num))"), (3, 8, None)),
    ("17 columns", after(LABELS, WIDER), (3, len(LABELS), None)),
    ("1,025th row", row_fill(1025), (3, len(TABLES) + 1024, None)),
    ("9th table, a nest table", some(8, "(table t{} none (a num))") + ["(table s nest (a num))"], (3, 8, None)),
    ("17 columns of a nest table", after(LABELS, WIDER.replace("none", "nest")), (3, len(LABELS), None)),
    ("1,025th row, of a nest table", NOTED + [NEST_ROW] * 1025, (3, len(NOTED) + 1024, None)),
    # ---- 4
    ("the name of the first of 255 purposes taken", tree(255) + ["(purpose p0 p254)"], (4, 255, ("p0", 0))),
    ("the name of the last of 255 purposes taken", tree(255) + ["(purpose p254 p0)"], (4, 255, ("p254", 0))),
    ("purpose taken", after(BASE, "(purpose ads bill)"), (4, len(BASE), ("ads", 0))),
    ("taken right of unknown", after(BASE, "(attr nobody level num)"), (4, len(BASE), ("level", 0))),
    ("role taken", after(BASE, "(role desk)"), (4, len(BASE), ("desk", 0))),
    ("attribute taken by another role", after(BASE, "(attr other level num)"), (4, len(BASE), ("level", 0))),
    ("clock name as attribute", after(BASE, "(attr desk hour num)"), (4, len(BASE), ("hour", 0))),
    ("pair of user and role", after(USERS, "(user ana desk (level 9))"), (4, len(USERS), ("desk", 0))),
    ("conditional role taken", after(ROLES, "(cond-role senior clerk (eq hour 1))"), (4, len(ROLES), ("senior", 0))),
    ("label taken", after(LABELS, "(label free (allow) (deny))"), (4, len(LABELS), ("free", 0))),
    ("purpose twice in the allowed set", after(LABELS, "(label l (allow ads ads) (deny))"), (4, len(LABELS), ("ads", 1))),
    ("unknown name twice in the denied set", after(LABELS, "(label l (allow) (deny nix nix))"), (4, len(LABELS), ("nix", 1))),
    ("table taken", after(TABLES, "(table e none (a num))"), (4, len(TABLES), ("e", 0))),
    ("column twice", after(LABELS, "(table x none (aa num) (bb num) (aa name))"), (4, len(LABELS), ("aa", 1))),
    ("a second public line", after(TABLES, "(public n)", "(public n)"), (4, len(TABLES) + 1, ("n", 0))),
    ("a second public line in another case", after(TABLES, "(public n)", "(PUBLIC N)"), (4, len(TABLES) + 1, ("N", 0))),
    ("a second public line behind rows", after(ROWS, "(row n 2 y)", "(public n)"), (4, len(ROWS) + 1, ("n", 0))),
    ("a second public line for a table's label", after(TABLES, "(public t)", "(public t)"), (4, len(TABLES) + 1, ("t", 0))),
    ("a second public line for columns' labels", after(TABLES, "(public c)", "(public n)", "(public c)"), (4, len(TABLES) + 2, ("c", 0))),
    ("a second public line for rows' labels", after(TABLES, "(public r)", "(public R)"), (4, len(TABLES) + 1, ("R", 0))),
    ("a second public line for cells' labels", after(TABLES, "(public e)", "(row e (Ida free) (40 noads))", "(public e)"), (4, len(TABLES) + 2, ("e", 0))),
    ("purpose taken in another case", after(BASE, "(purpose Ads bill)"), (4, len(BASE), ("Ads", 0))),
    ("the root's name in another case", ["(purpose all)", "(purpose ALL)"], (4, 1, ("ALL", 0))),
    ("role taken in another case", after(BASE, "(role DESK)"), (4, len(BASE), ("DESK", 0))),
    ("attribute taken in another case", after(BASE, "(attr desk Level num)"), (4, len(BASE), ("Level", 0))),
    ("clock name in another case as attribute", after(BASE, "(attr desk Hour num)"), (4, len(BASE), ("Hour", 0))),
    ("pair of user and role in another case", after(USERS, "(user Ana DESK (level 9))"), (4, len(USERS), ("DESK", 0))),
    ("conditional role taken in another case", after(ROLES, "(cond-role Senior clerk (eq hour 1))"), (4, len(ROLES), ("Senior", 0))),
    ("label taken in another case", after(LABELS, "(label FREE (allow) (deny))"), (4, len(LABELS), ("FREE", 0))),
    ("purpose twice in a set, in two cases", after(LABELS, "(label l (allow ads Ads) (deny))"), (4, len(LABELS), ("Ads", 0))),
    ("unknown name twice in a set, in two cases", after(LABELS, "(label l (allow) (deny nix NIX))"), (4, len(LABELS), ("NIX", 0))),
    ("table taken in another case", after(TABLES, "(table E none (a num))"), (4, len(TABLES), ("E", 0))),
    ("a second public line for a nest table", after(NEST, "(public s)", NEST_ROW, "(public s)"), (4, len(NEST) + 2, ("s", 0))),
    ("table taken by a nest table", after(NEST, "(table E nest (a num))"), (4, len(NEST), ("E", 0))),
    ("column twice in a nest table", after(NEST, "(table x nest (aa num) (aa name))"), (4, len(NEST), ("aa", 1))),
    ("column twice in two cases", after(LABELS, "(table x none (aa num) (bb num) (aA name))"), (4, len(LABELS), ("aA", 0))),
    # ---- 5
    ("own name as parent in another case", ["(purpose all)", "(purpose self Self)"], (5, 1, ("Self", 0))),
    ("a hyphen for an underscore", ["(role a_b)", "(role c a-b)"], (5, 1, ("a-b", 0))),
    ("unknown parent among 255 purposes", chain(255) + ["(purpose p255 p256)"], (5, 255, ("p256", 0))),
    ("unknown parent", after(BASE, "(purpose more nix)"), (5, len(BASE), ("nix", 0))),
    ("own name as parent", ["(purpose all)", "(purpose self self)"], (5, 1, ("self", 1))),
    ("first purpose with a parent", ["(purpose a b)"], (5, 0, ("b", 0))),
    ("unknown parent role", after(BASE, "(role more nix)"), (5, len(BASE), ("nix", 0))),
    ("attribute of an unknown role", after(BASE, "(attr nix more num)"), (5, len(BASE), ("nix", 0))),
    ("user of an unknown role", after(BASE, "(user ana nix (level 5))"), (5, len(BASE), ("nix", 0))),
    ("user with an unknown attribute", after(BASE, "(user ana desk (lavel 5))"), (5, len(BASE), ("lavel", 0))),
    ("conditional role over an unknown role", after(BASE, "(cond-role c nix (eq hour 1))"), (5, len(BASE), ("nix", 0))),
    ("attribute of an unrelated role in a condition", after(BASE, "(cond-role c desk (or (eq level 1) (eq size 1)))"), (5, len(BASE), ("size", 0))),
    ("attribute of a role below in a condition", after(BASE, "(cond-role c desk (eq team red))"), (5, len(BASE), ("team", 0))),
    ("grant for an unknown purpose", after(ROLES, "(grant nix senior)"), (5, len(ROLES), ("nix", 0))),
    ("grant to an unknown conditional role", after(ROLES, "(grant ads nix)"), (5, len(ROLES), ("nix", 0))),
    ("label with an unknown purpose", after(BASE, "(label l (allow ads) (deny nix))"), (5, len(BASE), ("nix", 0))),
    ("table with an unknown label", after(LABELS, "(table x table nix (a num))"), (5, len(LABELS), ("nix", 0))),
    ("column with an unknown label", after(LABELS, "(table x column (a num free) (b num nix))"), (5, len(LABELS), ("nix", 0))),
    ("row of an unknown table", after(TABLES, "(row nix 1)"), (5, len(TABLES), ("nix", 0))),
    ("row with an unknown label", after(TABLES, "(row r nix 1 x)"), (5, len(TABLES), ("nix", 0))),
    ("row whose leading name is no label", after(TABLES, "(row r x)"), (5, len(TABLES), ("x", 0))),
    ("cell with an unknown label", after(TABLES, "(row e (Ida free) (40 nix))"), (5, len(TABLES), ("nix", 0))),
    ("a range with an unknown label", after(TABLES, "(row e (Ida free) ((40 75) nix))"), (5, len(TABLES), ("nix", 0))),
    ("an unknown label beside a bare range", after(TABLES, "(row e (Ida nix) (75 40))"), (5, len(TABLES), ("nix", 0))),
    ("a date with an unknown label", after(DATES, "(row e ((2028 2 9) nix) (1 free))"), (5, len(DATES), ("nix", 0))),
    ("an unknown label beside a bare date", after(DATES, "(row e (2028 2 9) (1 nix))"), (5, len(DATES), ("nix", 0))),
    ("a date of no day with an unknown label", after(DATES, "(row e ((2027 2 29) nix) (1 free))"), (5, len(DATES), ("nix", 0))),
    ("an unknown attribute compared with a date", after(BASE, "(cond-role c desk (eq nix (2028 2 9)))"), (5, len(BASE), ("nix", 0))),
    ("public with an unknown table", after(TABLES, "(public nix)"), (5, len(TABLES), ("nix", 0))),
    ("public with an unknown table twice", after(TABLES, "(public nix)", "(public nix)"), (5, len(TABLES), ("nix", 0))),
    ("public before its table", after(LABELS, "(public x)", "(table x none (a num))"), (5, len(LABELS), ("x", 0))),
    ("public with no table at all", ["(public t)"], (5, 0, ("t", 0))),
    ("public with a name of another kind", after(TABLES, "(public desk)"), (5, len(TABLES), ("desk", 0))),
    ("public with a table's name and more", after(TABLES, "(public nn)"), (5, len(TABLES), ("nn", 0))),
    # of a nest table's lines and rows (02, Q-11): T, then L; the row's own label and each bracket's, the leftmost first; before 7 and 25
    ("weak with an unknown table", after(NEST, "(weak nix free)"), (5, len(NEST), ("nix", 0))),
    ("strong with an unknown table", after(NEST, "(strong nix free)"), (5, len(NEST), ("nix", 0))),
    ("weak with an unknown label", after(NEST, "(weak s nix)"), (5, len(NEST), ("nix", 0))),
    ("strong with an unknown label", after(NEST, "(strong s nix)"), (5, len(NEST), ("nix", 0))),
    ("weak with both unknown", after(NEST, "(weak nix nox)"), (5, len(NEST), ("nix", 0))),
    ("strong with one name unknown twice", after(NEST, "(strong nix nix)"), (5, len(NEST), ("nix", 0))),
    ("weak before its table", after(LABELS, "(weak s free)", "(table s nest (a num))"), (5, len(LABELS), ("s", 0))),
    ("strong before its label", after(NEST, "(strong s late)", "(label late (allow) (deny))"), (5, len(NEST), ("late", 0))),
    ("weak with a label for its table", after(NEST, "(weak free free)"), (5, len(NEST), ("free", 0))),
    ("strong with a purpose for its label", after(NEST, "(strong s ads)"), (5, len(NEST), ("ads", 0))),
    ("an unknown label for a table of another scheme", after(NEST, "(weak e nix)"), (5, len(NEST), ("nix", 0))),
    ("an unknown label for a table without labels", after(NEST, "(strong n nix)"), (5, len(NEST), ("nix", 0))),
    ("an unknown label behind a row", after(NESTED, "(strong s nix)"), (5, len(NESTED), ("nix", 0))),
    ("an unknown label the second time", after(NOTED, "(weak s nix)"), (5, len(NOTED), ("nix", 0))),
    ("nest row of an unknown table", after(NEST, "(row nix nox (Ida nux) (40 free))"), (5, len(NEST), ("nix", 0))),
    ("nest row with an unknown label", after(NEST, "(row s nix (Ida free) (40 free))"), (5, len(NEST), ("nix", 0))),
    ("nest row with an unknown label at its first cell", after(NEST, "(row s free (Ida nix) (40 free))"), (5, len(NEST), ("nix", 0))),
    ("nest row with an unknown label at its last cell", after(NEST, "(row s free (Ida free) (40 nix))"), (5, len(NEST), ("nix", 0))),
    ("nest row with unknown labels everywhere", after(NEST, "(row s nix (Ida nox) (40 nux))"), (5, len(NEST), ("nix", 0))),
    ("nest row with unknown labels at its cells", after(NEST, "(row s free (Ida nox) (40 nux))"), (5, len(NEST), ("nox", 0))),
    ("nest row with a value for its label", after(NEST, "(row s Ida 40)"), (5, len(NEST), ("Ida", 0))),
    ("nest row of one unknown name", after(NEST, "(row s nix)"), (5, len(NEST), ("nix", 0))),
    ("nest row without its label, an unknown one at a cell", after(NEST, "(row s (Ida nix) (40 free))"), (5, len(NEST), ("nix", 0))),
    ("nest row with a number for its label, an unknown one at a cell", after(NEST, "(row s 5 (Ida free) (40 nix))"), (5, len(NEST), ("nix", 0))),
    ("nest row with an unknown label behind a bare range", after(NEST, "(row s free (1 5) (40 nix))"), (5, len(NEST), ("nix", 0))),
    ("nest row with an unknown label and too many cells", after(NEST, "(row s free (Ida free) (40 free) (5 nix))"), (5, len(NEST), ("nix", 0))),
    ("nest row with an unknown label at a range", after(NEST, "(row s free (Ida free) ((75 40) nix))"), (5, len(NEST), ("nix", 0))),
    ("nest row with an unknown label at a date", after(NEST_DATES, "(row z free ((2027 2 29) nix) (1 free))"), (5, len(NEST_DATES), ("nix", 0))),
    # ---- 6
    ("second root purpose", after(BASE, "(purpose more)"), (6, len(BASE), None)),
    # ---- 7
    ("attribute missing", after(BASE, "(user ana clerk (team red))"), (7, len(BASE), None)),
    ("attribute twice", after(BASE, "(user ana desk (level 5) (level 5))"), (7, len(BASE), None)),
    ("attribute twice in two cases", after(BASE, "(user ana desk (level 5) (LEVEL 5))"), (7, len(BASE), None)),
    ("clock name given in another case", after(BASE, "(user ana desk (level 5) (Hour 5))"), (7, len(BASE), None)),
    ("attribute of another role", after(BASE, "(user ana desk (size 5))"), (7, len(BASE), None)),
    ("clock name given", after(BASE, "(user ana desk (level 5) (hour 5))"), (7, len(BASE), None)),
    ("row with a value too few", after(TABLES, "(row n 1)"), (7, len(TABLES), None)),
    ("row with a value too many", after(TABLES, "(row n 1 x 2)"), (7, len(TABLES), None)),
    ("row without values", after(TABLES, "(row t)"), (7, len(TABLES), None)),
    ("bracket in a plain table", after(TABLES, "(row n (1 free) x)"), (7, len(TABLES), None)),
    ("row table without a label", after(TABLES, "(row r)"), (7, len(TABLES), None)),
    ("number for the row's label", after(TABLES, "(row r 1 2 x)"), (7, len(TABLES), None)),
    ("bracket for the row's label", after(TABLES, "(row r (1 free) 2 x)"), (7, len(TABLES), None)),
    ("plain value in a cell table", after(TABLES, "(row e (Ida free) 40)"), (7, len(TABLES), None)),
    ("bare range in a cell table", after(TABLES, "(row e (Ida free) (40 75))"), (7, len(TABLES), None)),
    ("bare reversed range in a cell table", after(TABLES, "(row e (Ida free) (75 40))"), (7, len(TABLES), None)),
    ("labelled range in a plain table", after(TABLES, "(row n ((1 5) free) x)"), (7, len(TABLES), None)),
    ("labelled range in a row table", after(TABLES, "(row r free ((1 5) free) x)"), (7, len(TABLES), None)),
    ("range for the row's label", after(TABLES, "(row r (1 5) 2 x)"), (7, len(TABLES), None)),
    ("a range too many", after(TABLES, "(row t (5 1) (1 5))"), (7, len(TABLES), None)),
    ("a range too few", after(TABLES, "(row r free (5 1))"), (7, len(TABLES), None)),
    ("bare date in a cell table", after(DATES, "(row e (2028 2 9) (1 free))"), (7, len(DATES), None)),
    ("bare date of no day in a cell table", after(DATES, "(row e (2027 2 29) (1 free))"), (7, len(DATES), None)),
    ("labelled date in a plain table", after(DATES, "(row t ((2028 2 9) free))"), (7, len(DATES), None)),
    ("labelled date in a row table", after(DATES, "(row r free ((2028 2 9) free) x)"), (7, len(DATES), None)),
    ("date for the row's label", after(DATES, "(row r (2028 2 9) (2028 2 9) x)"), (7, len(DATES), None)),
    ("a date too many", dates("(2028 2 9) (2027 2 29)"), (7, len(DATES), None)),
    ("a date too few", after(DATES, "(row two (2027 2 29))"), (7, len(DATES), None)),
    # rows not shaped for a nest table, and rows shaped for one (02, Q-11)
    ("nest row without items", after(NEST, "(row s)"), (7, len(NEST), None)),
    ("nest row of its label alone", after(NEST, "(row s free)"), (7, len(NEST), None)),
    ("nest row without its label", after(NEST, "(row s (Ida free) (40 free))"), (7, len(NEST), None)),
    ("nest row without its label, as many items as with it", after(NEST, "(row s (Ida free) (40 free) (5 free))"), (7, len(NEST), None)),
    ("nest row with a cell too few", after(NEST, "(row s free (Ida free))"), (7, len(NEST), None)),
    ("nest row with a cell too many", after(NEST, "(row s free (Ida free) (40 free) (5 free))"), (7, len(NEST), None)),
    ("nest row with plain values", after(NEST, "(row s free Ida 40)"), (7, len(NEST), None)),
    ("nest row with one plain value", after(NEST, "(row s free (Ida free) 40)"), (7, len(NEST), None)),
    ("nest row with a plain name that is no label", after(NEST, "(row s free nix (40 free))"), (7, len(NEST), None)),
    ("nest row with two labels of its own", after(NEST, "(row s free noads (Ida free) (40 free))"), (7, len(NEST), None)),
    ("nest row with its label behind the cells", after(NEST, "(row s (Ida free) (40 free) free)"), (7, len(NEST), None)),
    ("nest row with a number for its label", after(NEST, "(row s 5 (Ida free) (40 free))"), (7, len(NEST), None)),
    ("nest row with a range for its label", after(NEST, "(row s (1 5) (Ida free) (40 free))"), (7, len(NEST), None)),
    ("nest row with a date for its label", after(NEST, "(row s (2028 2 9) (Ida free) (40 free))"), (7, len(NEST), None)),
    ("nest row with a labelled label", after(NEST, "(row s (free free) (Ida free) (40 free))"), (7, len(NEST), None)),
    ("nest row with a bare range", after(NEST, "(row s free (Ida free) (40 75))"), (7, len(NEST), None)),
    ("nest row with a bare reversed range", after(NEST, "(row s free (Ida free) (75 40))"), (7, len(NEST), None)),
    ("nest row with a bare date", after(NEST_DATES, "(row z free (2028 2 9) (5 free))"), (7, len(NEST_DATES), None)),
    ("nest row with a bare date of no day", after(NEST_DATES, "(row z free (2027 2 29) (5 free))"), (7, len(NEST_DATES), None)),
    ("nest row, wrong types in too few cells", after(NEST, "(row s free (5 free))"), (7, len(NEST), None)),
    ("nest row in a table without labels", after(NEST, "(row n free (1 free) (x free))"), (7, len(NEST), None)),
    ("nest row in a table table", after(NEST, "(row t free (1 free))"), (7, len(NEST), None)),
    ("nest row in a column table", after(NEST, "(row c free (1 free) (x free))"), (7, len(NEST), None)),
    ("nest row in a row table", after(NEST, "(row r free (1 free) (x free))"), (7, len(NEST), None)),
    ("nest row in a cell table", after(NEST, "(row e free (Ida free) (40 free))"), (7, len(NEST), None)),
    ("nest row in a cell table, led by a name that is no label", after(NEST, "(row e nix (Ida free) (40 free))"), (7, len(NEST), None)),
    # ---- 8
    ("name for a number attribute", after(BASE, "(user ana desk (level high))"), (8, len(BASE), ("high", 0))),
    ("number for a name attribute", after(BASE, "(user ben clerk (level 7) (team 3))"), (8, len(BASE), ("3", 0))),
    ("operator that names do not take", after(BASE, "(cond-role c clerk (lt team 3))"), (8, len(BASE), ("lt", 0))),
    ("operator in capitals that names do not take", after(BASE, "(cond-role c clerk (LT Team red))"), (8, len(BASE), ("LT", 0))),
    ("value of the wrong type in a condition", after(BASE, "(cond-role c clerk (and (eq team red) (eq level x)))"), (8, len(BASE), ("x", 0))),
    ("name for the clock", after(BASE, "(cond-role c desk (eq hour noon))"), (8, len(BASE), ("noon", 0))),
    ("name in a number column", after(TABLES, "(row n x y)"), (8, len(TABLES), ("x", 0))),
    ("number in a name column of cells", after(TABLES, "(row e (7 free) (40 free))"), (8, len(TABLES), ("7", 0))),
    ("range in a name column", after(TABLES, "(row n 1 (1 5))"), (8, len(TABLES), ("(1 5)", 0))),
    ("reversed range in a name column", after(TABLES, "(row n 1 (5 1))"), (8, len(TABLES), ("(5 1)", 0))),
    ("range in a name column of cells", after(TABLES, "(row e ((1 5) free) ((75 40) free))"), (8, len(TABLES), ("(1 5)", 0))),
    ("8 right of a reversed range", after(TABLES, "(row n (5 1) 7)"), (8, len(TABLES), ("7", 0))),
    ("date in a number column", after(TABLES, "(row t (2028 2 9))"), (8, len(TABLES), ("(2028 2 9)", 0))),
    ("date of no day in a number column", after(TABLES, "(row t (1 5 9))", "(row t 1)"), (8, len(TABLES), ("(1 5 9)", 0))),
    ("date in a name column", after(TABLES, "(row n 1 (2028 2 9))"), (8, len(TABLES), ("(2028 2 9)", 0))),
    ("date in a name column of cells", after(TABLES, "(row e ((2028 2 9) free) (40 free))"), (8, len(TABLES), ("(2028 2 9)", 0))),
    ("number in a date column", dates("2028"), (8, len(DATES), ("2028", 0))),
    ("name in a date column", dates("today"), (8, len(DATES), ("today", 0))),
    ("range in a date column", dates("(1 5)"), (8, len(DATES), ("(1 5)", 0))),
    ("reversed range in a date column", dates("(5 1)"), (8, len(DATES), ("(5 1)", 0))),
    ("range in a date column of cells", after(DATES, "(row e ((1 5) free) (1 free))"), (8, len(DATES), ("(1 5)", 0))),
    ("8 right of a date of no day", after(DATES, "(row n (2027 2 29) x x)"), (8, len(DATES), ("x", 0))),
    ("8 left of a date of no day", after(DATES, "(row two 5 (2027 2 29))"), (8, len(DATES), ("5", 0))),
    ("date in a condition, no attribute being one", after(BASE, "(cond-role c desk (eq level (2028 2 9)))"), (8, len(BASE), ("(2028 2 9)", 0))),
    ("date of no day in a condition", after(BASE, "(cond-role c desk (or (eq level 1) (lt level (2027 2 29))))"), (8, len(BASE), ("(2027 2 29)", 0))),
    ("date for the clock", after(BASE, "(cond-role c desk (ge year (-1 13 0)))"), (8, len(BASE), ("(-1 13 0)", 0))),
    ("date for a name attribute", after(BASE, "(cond-role c clerk (ne team (2028 2 9)))"), (8, len(BASE), ("(2028 2 9)", 0))),
    ("operator and date for a name attribute", after(BASE, "(cond-role c clerk (lt team (2028 2 9)))"), (8, len(BASE), ("lt", 0))),
    ("a date's bracket 16 deep in a condition", after(BASE, f"(cond-role deep desk {nested(14, '(eq level (2028 2 9))')})"), (8, len(BASE), ("(2028 2 9)", 0))),
    ("number in a name column of a nest table", after(NEST, "(row s free (7 free) (40 free))"), (8, len(NEST), ("7", 0))),
    ("name in a number column of a nest table", after(NEST, "(row s free (free free) (shut free))"), (8, len(NEST), ("shut", 0))),
    ("range in a name column of a nest table", after(NEST, "(row s free ((1 5) free) ((75 40) free))"), (8, len(NEST), ("(1 5)", 0))),
    ("date in a number column of a nest table", after(NEST, "(row s free (Ida free) ((2028 2 9) free))"), (8, len(NEST), ("(2028 2 9)", 0))),
    ("number in a date column of a nest table", after(NEST_DATES, "(row z free (2028 free) ((5 1) free))"), (8, len(NEST_DATES), ("2028", 0))),
    # ---- 28
    ("reversed range in a nest table", after(NEST, "(row s free (Ida free) ((75 40) noads))"), (28, len(NEST), ("(75 40)", 0))),
    ("reversed range in a nest table right of a date of no day", after(NEST_DATES, "(row z free ((2027 2 29) free) ((5 1) free))"), (28, len(NEST_DATES), ("(5 1)", 0))),
    ("reversed range", after(TABLES, "(row t (5 1))"), (28, len(TABLES), ("(5 1)", 0))),
    ("reversed range below zero", after(TABLES, "(row t (-1 -2))"), (28, len(TABLES), ("(-1 -2)", 0))),
    ("reversed range of all numbers", after(TABLES, "(row t (9223372036854775807 -9223372036854775808))"), (28, len(TABLES), ("(9223372036854775807 -9223372036854775808)", 0))),
    ("reversed range in a table without labels", after(TABLES, "(row n (5 1) x)"), (28, len(TABLES), ("(5 1)", 0))),
    ("reversed range in a column table", after(TABLES, "(row c (0 -1) x)"), (28, len(TABLES), ("(0 -1)", 0))),
    ("reversed range in a row table", after(TABLES, "(row r free (6 5) x)"), (28, len(TABLES), ("(6 5)", 0))),
    ("reversed range in a cell table", after(TABLES, "(row e (Ida free) ((75 40) noads))"), (28, len(TABLES), ("(75 40)", 0))),
    ("two reversed ranges", after(TABLES, "(table x none (aa num) (bb num))", "(row x (5 1) (7 2))"), (28, len(TABLES) + 1, ("(5 1)", 0))),
    ("a reversed range behind another", after(TABLES, "(table x none (aa num) (bb num))", "(row x (1 5) (7 2))"), (28, len(TABLES) + 1, ("(7 2)", 0))),
    ("a reversed range, and a line that fails further down", after(TABLES, "(row t (5 1))", "(row t x)"), (28, len(TABLES), ("(5 1)", 0))),
    ("a reversed range right of a date of no day", after(DATES, "(row n (2027 2 29) (5 1) x)"), (28, len(DATES), ("(5 1)", 0))),
    ("a reversed range of cells right of a date of no day", after(DATES, "(row e ((0 1 1) free) ((5 1) free))"), (28, len(DATES), ("(5 1)", 0))),
    # ---- 31
    no_date("29 February of 1900", "(1900 2 29)"),
    no_date("29 February of 2100", "(2100 2 29)"),
    no_date("29 February of 2027", "(2027 2 29)"),
    no_date("30 February of 2000", "(2000 2 30)"),
    no_date("month 0", "(2028 0 1)"),
    no_date("month 13", "(2028 13 1)"),
    no_date("day 0", "(2028 1 0)"),
    no_date("32 January", "(2028 1 32)"),
    no_date("31 April", "(2028 4 31)"),
    no_date("31 June", "(2028 6 31)"),
    no_date("31 September", "(2028 9 31)"),
    no_date("31 November", "(2028 11 31)"),
    no_date("32 December", "(2028 12 32)"),
    no_date("year 0", "(0 1 1)"),
    no_date("year 10000", "(10000 1 1)"),
    no_date("a negative year", "(-1 1 1)"),
    no_date("a negative month", "(2028 -1 1)"),
    no_date("a negative day", "(2028 1 -1)"),
    no_date("29 February of the year -4", "(-4 2 29)"),
    no_date("all of it 0", "(0 0 0)"),
    no_date("the largest number for a year", "(9223372036854775807 1 1)"),
    no_date("the least number for a month", "(2028 -9223372036854775808 1)"),
    no_date("the largest number for a day", "(2028 1 9223372036854775807)"),
    no_date("a year 2^32 too large", "(4294969324 1 1)"),
    no_date("a month 256 too large", "(2028 257 1)"),
    no_date("a day 2^16 too large", "(2028 1 65537)"),
    ("31 in a table without labels", after(DATES, "(row n (2027 2 29) (1 5) x)"), (31, len(DATES), ("(2027 2 29)", 0))),
    ("31 in a column table", after(DATES, "(row c (2027 2 29) x)"), (31, len(DATES), ("(2027 2 29)", 0))),
    ("31 in a row table", after(DATES, "(row r noads (2027 2 29) x)"), (31, len(DATES), ("(2027 2 29)", 0))),
    ("31 in a cell table", after(DATES, "(row e ((2027 2 29) noads) (1 free))"), (31, len(DATES), ("(2027 2 29)", 0))),
    ("31 in a nest table", after(NEST_DATES, "(row z free ((2027 2 29) noads) (1 free))"), (31, len(NEST_DATES), ("(2027 2 29)", 0))),
    ("two dates of no day", after(DATES, "(row two (0 1 1) (0 0 0))"), (31, len(DATES), ("(0 1 1)", 0))),
    ("a date of no day behind another", after(DATES, "(row two (1 1 1) (0 0 0))"), (31, len(DATES), ("(0 0 0)", 0))),
    ("a date of no day, and a line that fails further down", dates("(0 1 1)", "5"), (31, len(DATES), ("(0 1 1)", 0))),
    # ---- 9
    ("attr line after a user line", after(USERS, "(attr desk extra num)"), (9, len(USERS), None)),
    ("attr line after a user line, with an unknown role", after(USERS, "(attr nix extra num)"), (5, len(USERS), ("nix", 0))),
    # ---- 25
    out_of_place("weak twice", NOTED, "(weak s noads)"),
    out_of_place("strong twice", NOTED, "(strong s shut)"),
    out_of_place("weak twice, another label", NOTED, "(weak s free)"),
    out_of_place("strong twice, another label", NOTED, "(strong s free)"),
    out_of_place("weak twice, without a strong line", after(NEST, "(weak s noads)"), "(weak s shut)"),
    out_of_place("strong twice, without a weak line", after(NEST, "(strong s noads)"), "(strong s noads)"),
    out_of_place("weak twice, of a label without purposes", after(NEST, "(weak s shut)"), "(weak s shut)"),
    out_of_place("weak twice in another case", NOTED, "(WEAK S NoAds)"),
    out_of_place("strong twice in another case", NOTED, "(Strong S free)"),
    out_of_place("weak twice, another table's line between", after(NOTED, "(table z nest (a num))", "(weak z free)"), "(weak s free)"),
    out_of_place("weak twice and after a row", NESTED, "(weak s noads)"),
    out_of_place("weak after a row", after(NEST, NEST_ROW), "(weak s noads)"),
    out_of_place("strong after a row", after(NEST, NEST_ROW), "(strong s noads)"),
    out_of_place("strong after a row, the weak line before it", after(NEST, "(weak s noads)", NEST_ROW), "(strong s noads)"),
    out_of_place("weak after a row, the strong line before it", after(NEST, "(strong s noads)", NEST_ROW), "(weak s noads)"),
    out_of_place("weak after a row and rows of other tables", after(NEST, NEST_ROW, "(row t 1)", "(row n 1 x)"), "(weak s noads)"),
    out_of_place("weak after the first of 1,024 rows", NEST + [NEST_ROW] + ["(row t 1)"] * 1023, "(weak s noads)"),
    out_of_place("strong after the last of 1,024 rows", NEST + ["(row t 1)"] * 1023 + [NEST_ROW], "(strong s noads)"),
    out_of_place("weak after a row and a public line", after(NEST, NEST_ROW, "(public s)"), "(weak s noads)"),
    *(out_of_place(f"{word} for table {table}", NEST, f"({word} {table} free)") for word in ("weak", "strong") for table in "ntcre"),
    out_of_place("weak for a public table", after(NEST, "(public n)"), "(weak n free)"),
    out_of_place("strong for a cell table with a row", ROWS, "(strong e free)"),
    ("25 and a line that fails further down", after(NOTED, "(weak s free)", "(strong nix free)"), (25, len(NOTED), None)),
    ("25 behind a line that fails", after(NOTED, "(row s free (Ida free))", "(weak s free)"), (7, len(NOTED), None)),
    ("9 and then 25", after(NOTED, "(attr desk extra num)", "(weak s free)"), (9, len(NOTED), None)),
    ("25 and then 9", after(NOTED, "(weak s free)", "(attr desk extra num)"), (25, len(NOTED), None)),
    # ---- the first failing line counts
    ("two failing lines", ["(purpose all)", "(purpose x nix)", "(porpoise)"], (5, 1, ("nix", 0))),
]


# 02, Q-9: (name, text, lines, reserve). A row of one value of one byte prints 8 bytes, and an end line of one digit 12.
SEVENS = "(table t none (a num))\n"
LETTERS = "abcdefghijklmnopqrstuvwx"
RESERVES = [
    ("reserve: a table without rows", SEVENS, 1, 12),
    ("reserve: nine rows", SEVENS + 9 * "(row t 7)\n", 10, 9 * 8 + 12),
    ("reserve: ten rows", SEVENS + 10 * "(row t 7)\n", 11, 10 * 8 + 13),
    ("reserve: 99 rows", SEVENS + 99 * "(row t 7)\n", 100, 99 * 8 + 13),
    ("reserve: 100 rows", SEVENS + 100 * "(row t 7)\n", 101, 100 * 8 + 14),
    ("reserve: 16 columns of 24 bytes", "(table t none" + "".join(f" ({c} name)" for c in LETTERS[:16]) + ")\n(row t" + 16 * (" " + LETTERS) + ")\n", 2, 418),
    ("reserve: the shorter table has more rows", SEVENS + "(table u none (a name))\n(row u " + LETTERS + ")\n" + 2 * "(row t 7)\n", 5, 43),
    ("reserve: the longer table stands first", "(table u none (a name))\n" + SEVENS + "(row u " + LETTERS + ")\n" + 2 * "(row t 7)\n", 5, 43),
    ("reserve: a row's label does not count", "(label shut (allow) (deny))\n(table t row (a num))\n(row t shut 7)\n", 3, 20),
    ("reserve: cells' labels do not count", "(label shut (allow) (deny))\n(table t cell (a num) (b name))\n(row t (7 shut) (x shut))\n", 3, 22),
    ("reserve: a table counts that no line declares public, and as much as one declared", SEVENS + "(table u none (a name))\n(public t)\n(row u ab)\n(row t 7)\n", 5, 21),
    ("reserve: a range as written", SEVENS + "(row t (1 5))\n", 2, 24),
    ("reserve: a labelled range", "(label shut (allow) (deny))\n(table t cell (a num))\n(row t ((-10 -5) shut))\n(ROW T (7 shut))\n", 4, 15 + 8 + 12),
    ("reserve: a date as written", "(table t none (a date))\n(row t (2028 2 9))\n", 2, 17 + 12),
    ("reserve: the longest date", "(table t none (a date))\n(row t (1 1 1))\n(row t (9999 12 31))\n", 3, 14 + 19 + 12),
    ("reserve: a labelled date beside a range", "(label shut (allow) (deny))\n(table t cell (a date) (b num))\n(row t ((2028 10 30) shut) ((1 5) shut))\n", 3, 5 + 12 + 1 + 5 + 2 + 12),
    ("reserve: a nest table's labels do not count", "(label shut (allow) (deny))\n(table t nest (a num) (b name))\n(strong t shut)\n(row t shut (7 shut) (x shut))\n", 4, 22),
    ("reserve: a nest table with a range and a date", "(label shut (allow) (deny))\n(table t nest (a num) (b date))\n(row t shut ((1 5) shut) ((2028 2 9) shut))\n(ROW T Shut (7 Shut) ((1 1 1) shut))\n", 4, 5 + 5 + 1 + 10 + 2 + 5 + 1 + 1 + 7 + 2 + 12),
    ("reserve: a nest table without rows", "(label shut (allow) (deny))\n(table t nest (a num))\n(weak t shut)\n", 3, 12),
    ("reserve: rows that name their table in two cases", "(table Sub none (a name))\n(row sub Ida)\n(ROW SUB ida)\n", 3, 2 * 10 + 12),
]


def reserve_of(text):
    """02, Q-9: the length of the longest answer among tables, each with all columns selected once and all rows passed; 0 without tables.
    Keywords and names go without case (02, Q-8), and a line that declares a table public changes nothing of it (02, Q-2)."""
    schemes, printed = {}, {}
    for line in text.split(b"\n"):
        if table := re.match(rb"\(table (\S+) (\S+) ", line, re.IGNORECASE):
            name = table[1].lower()
            schemes[name], printed[name] = table[2].lower(), []
        elif row := re.match(rb"\(row (\S+) (.*)\)", line, re.IGNORECASE):
            name = row[1].lower()
            # A range (02, Q-12) and a date (02, Q-14) count as written.
            items = re.findall(rb"\((\([^()]+\)|[^() ]+) [^() ]+\)", row[2]) if schemes[name] in (b"cell", b"nest") else row[2].split(b" ")
            printed[name].append(b"(row " + b" ".join(items[1:] if schemes[name] == b"row" else items) + b")\n")
    return max((len(b"".join(rows)) + len(b"(end %d 0 0)\n" % len(rows)) for rows in printed.values()), default=0)


def text_of(lines):
    return lines if isinstance(lines, bytes) else ("\n".join(lines) + "\n").encode()


def cases():
    """(name, text, what the program must print)"""
    for name, text, lines, reserve in RESERVES:
        yield name, text.encode(), b"(accepted %d %d)\n" % (lines, reserve)
    for name, lines, expected in CASES:
        if name == "60,000 bytes":
            text = wide(60000)
            yield name, text, b"(accepted %d %d)\n" % (text.count(b"\n"), reserve_of(text))
            continue
        if name == "60,001 bytes":
            yield name, wide(60001), b"(refused 1 document 0 0)\n"
            continue
        text = text_of(lines)
        if isinstance(expected, int):
            yield name, text, b"(accepted %d %d)\n" % (expected, reserve_of(text))
            continue
        number, line, item = expected
        if line is None:
            yield name, text, b"(refused %d document 0 0)\n" % number
            continue
        pieces = text.split(b"\n")
        start = sum(len(p) + 1 for p in pieces[:line])
        if item is None:
            yield name, text, b"(refused %d document %d %d)\n" % (number, start, len(pieces[line]))
            continue
        word, nth = item
        places = [m.start() for m in re.finditer(rb"(?<![A-Za-z0-9_-])" + re.escape(word.encode()) + rb"(?![A-Za-z0-9_-])", pieces[line])]
        yield name, text, b"(refused %d document %d %d)\n" % (number, start + places[nth], len(word))


def wide(size):
    """An accepted policy (bounds aside) of just this many bytes: rows of 16 names, the last made to fit."""
    text = "(table t none " + " ".join(f"(c{i} name)" for i in range(16)) + ")\n"
    row = lambda lengths: "(row t " + " ".join("x" * n for n in lengths) + ")\n"
    whole = row([24] * 16)
    while size - len(text) > len(whole) + 200:
        text += whole
    # two last rows share what is left
    left = size - len(text)
    for part in (left // 2, left - left // 2):
        letters = part - len(row([0] * 16))
        lengths = [letters // 16 + (1 if i < letters % 16 else 0) for i in range(16)]
        assert all(1 <= n <= 24 for n in lengths), lengths
        text += row(lengths)
    assert len(text) == size
    return text.encode()
