"""Sessions with joins (02, Q-3), written as those of sessions.py.

Rows that are not withheld are told by hand, by the labels of the policies below. Where they are many, the lines of the pairs and the three
counts follow from them by `answer`, which says no more than the request: a pair is withheld if either row is, unmatched if it doesn't
pair, and goes by the first table's row, then the second's.
"""
from sessions import ASKER, BLANKS, DAY, LEAP, NEST_LABELS, SAMPLE, WHOLE, chain, end, nots, one, ran, words

LABELS = BLANKS[: BLANKS.index("(table neg cell (k num) (n num))")]


def answer(first, second, pairs, values):
    """The answer over two lists of rows, each (row, whether it is shown)."""
    lines, withheld, unmatched = [], 0, 0
    for row, shown in first:
        for other, beside in second:
            if not (shown and beside):
                withheld += 1
            elif pairs(row, other):
                lines.append("(row " + " ".join(values(row, other)) + ")")
            else:
                unmatched += 1
    return lines + [end(len(lines), withheld, unmatched)]


# ---- every pair of schemes. Of each table: its lines, and by which of the query's columns are named there, the rows shown to post, or the
# column that is refused with 17. The labels are those of the nest sessions: mute says nothing, again opens to post what the weak label
# noads closes, nopost closes it.
SUBSCRIBERS = [("Ida", 40), ("Bo", 75), ("Cy", 60)]
SUBS = {
    "none": (["(table sub none (who name) (due num))", "(public sub)", "(row sub Ida 40)", "(row sub Bo 75)", "(row sub Cy 60)"], (1, 1, 1), (1, 1, 1)),
    "table": (["(table sub table free (who name) (due num))", "(row sub Ida 40)", "(row sub Bo 75)", "(row sub Cy 60)"], (1, 1, 1), (1, 1, 1)),
    "column": (["(table sub column (who name free) (due num noads))", "(row sub Ida 40)", "(row sub Bo 75)", "(row sub Cy 60)"], (1, 1, 1), "due"),
    "row": (["(table sub row (who name) (due num))", "(row sub free Ida 40)", "(row sub noads Bo 75)", "(row sub free Cy 60)"], (1, 0, 1), (1, 0, 1)),
    "cell": (
        ["(table sub cell (who name) (due num))", "(row sub (Ida free) (40 free))", "(row sub (Bo free) (75 noads))", "(row sub (Cy noads) (60 free))"],
        (1, 1, 0),
        (1, 0, 0),
    ),
    "nest": (
        ["(table sub nest (who name) (due num))", "(weak sub noads)", "(row sub mute (Ida mute) (40 mute))", "(row sub again (Bo mute) (75 mute))", "(row sub mute (Cy again) (60 mute))"],
        (0, 1, 1),
        (0, 1, 0),
    ),
}
ADDRESSES = [("ida", "Ulm"), ("BO", "Kiel"), ("Cy", "Bonn"), ("cY", "Trier")]
HOMES = {
    "none": (["(table home none (who name) (town name))", "(public home)", "(row home ida Ulm)", "(row home BO Kiel)", "(row home Cy Bonn)", "(row home cY Trier)"], (1, 1, 1, 1), (1, 1, 1, 1)),
    "table": (["(table home table free (who name) (town name))", "(row home ida Ulm)", "(row home BO Kiel)", "(row home Cy Bonn)", "(row home cY Trier)"], (1, 1, 1, 1), (1, 1, 1, 1)),
    "column": (["(table home column (who name free) (town name again))", "(row home ida Ulm)", "(row home BO Kiel)", "(row home Cy Bonn)", "(row home cY Trier)"], (1, 1, 1, 1), (1, 1, 1, 1)),
    "row": (["(table home row (who name) (town name))", "(row home free ida Ulm)", "(row home again BO Kiel)", "(row home noads Cy Bonn)", "(row home free cY Trier)"], (1, 1, 0, 1), (1, 1, 0, 1)),
    "cell": (
        ["(table home cell (who name) (town name))", "(row home (ida noads) (Ulm free))", "(row home (BO free) (Kiel noads))", "(row home (Cy free) (Bonn again))", "(row home (cY again) (Trier free))"],
        (0, 1, 1, 1),
        (0, 0, 1, 1),
    ),
    "nest": (
        ["(table home nest (who name) (town name))", "(weak home noads)", "(row home mute (ida again) (Ulm again))", "(row home again (BO mute) (Kiel mute))", "(row home mute (Cy again) (Bonn mute))", "(row home nopost (cY free) (Trier again))"],
        (1, 1, 1, 1),
        (1, 1, 0, 1),
    ),
}


def same(name, other):
    return name.lower() == other.lower()


def shown(rows, flags):
    return list(zip(rows, flags, strict=True))


def of_schemes(scheme, other):
    """A session over a table of subscribers and one of addresses: their names alone named in the first and names and towns in the second;
    the other way round, with the amounts named; and all of it named, with a condition on both."""
    (subs, by_who, by_both), (homes, by_name, by_town) = SUBS[scheme], HOMES[other]
    queries = [
        "(join ana desk post sub home who who ((of sub who) (of home town)))",
        "(join ana desk post home sub who who ((of sub due) (of home who)))",
        "(join ana desk post sub home who who ((of home town) (of sub who)) (or (gt (of sub due) 50) (eq (of home town) ulm)))",
    ]
    expected = [answer(shown(SUBSCRIBERS, by_who), shown(ADDRESSES, by_town), lambda sub, home: same(sub[0], home[0]), lambda sub, home: (sub[0], home[1]))]
    if by_both == "due":
        return (f"joined, {scheme} and {other}", NEST_LABELS + subs + homes, [DAY, *queries], expected + [(17, "due"), (17, "due")])
    expected += [
        answer(shown(ADDRESSES, by_name), shown(SUBSCRIBERS, by_both), lambda home, sub: same(sub[0], home[0]), lambda home, sub: (str(sub[1]), home[0])),
        answer(
            shown(SUBSCRIBERS, by_both),
            shown(ADDRESSES, by_town),
            lambda sub, home: same(sub[0], home[0]) and (sub[1] > 50 or home[1] == "Ulm"),
            lambda sub, home: (home[1], sub[0]),
        ),
    ]
    return (f"joined, {scheme} and {other}", NEST_LABELS + subs + homes, [DAY, *queries], expected)


# ---- a policy for most cases. To post the label noads is closed and free open; to bill both are open.
JOINED = LABELS + [
    "(table sub cell (who name) (due num) (since date))",
    "(table home row (who name) (town name) (due num) (since date))",
    "(table led table noads (who name) (due num))",
    "(table cols column (who name noads) (town name free) (due num noads) (tag name free))",
    "(table plain none (who name))",
    "(table open none (who name) (due num))",
    "(public open)",
    "(table bare cell (who name) (due num))",
    "(table est row (who name) (due num) (lot num))",
    "(row sub (Ida free) (40 free) ((2000 2 29) free))",
    "(row home free ida Ulm 1 (2028 1 1))",
    "(row sub (Bo free) (75 noads) ((1999 12 31) free))",
    "(row home free Cy Bonn 2 (2000 2 29))",
    "(row home noads Bo Kiel 3 (1999 12 31))",
    "(row sub (Cy free) (60 free) ((2028 1 1) noads))",
    "(row home free CY Trier 4 (1999 12 31))",
    "(row home free Dot Bern 40 (1999 12 31))",
    "(row led Ida 40)",
    "(row cols Ida Ulm 40 red)",
    "(row cols Bo Kiel 75 blue)",
    "(row plain Ida)",
    "(row open Ida 40)",
    "(row open Cy -7)",
    "(row est free Ida 5 (1 5))",
    "(row est free Cy (3 8) 7)",
]


def beside(*lines):
    """The same with other lines in place of the table without rows."""
    return [line for line in JOINED if not line.startswith("(table bare ")] + list(lines)


# closed to post, and in rows withheld from it: the same with other values
OTHERWISE = [
    line.replace("(75 noads)", "(41 noads)").replace("((2028 1 1) noads)", "((2000 2 29) noads)").replace("noads Bo Kiel 3 (1999 12 31)", "noads Ida Ulm 40 (2000 2 29)")
    for line in JOINED
]


def join(name, query, expected, policy=JOINED, clock=DAY):
    return one(f"join, {name}", query, expected, clock, policy)


def refused(name, number, item, query, policy=JOINED):
    return one(f"{number}, join, {name}", query, (number, item), DAY, policy)


def wrong(name, query):
    return refused(name, 11, WHOLE, query)


def twice(name, query, expected):
    """The same answer where what is closed has other values."""
    return [join(name, query, expected), join(f"{name}, what is closed having other values", query, expected, OTHERWISE)]


NAMES = "((of sub who) (of home town))"
HEAD = "(join ana desk post sub home who who"
BY_NAME = f"{HEAD} {NAMES})"
TOWNS = "((of home town))"

# ---- closed keys: each table has the keys 1 to 4, of which in the first the second and the last may be closed, in the second the third
# and the last.
def keyed(first, second, numbers=(1, 2, 3, 4), others=(1, 2, 3, 4)):
    """Two cell tables with these labels at the keys."""
    rows = [f"(row a ({key} {label}) ({value} free))" for key, label, value in zip(numbers, first, "ABCD", strict=True)]
    rows += [f"(row b ({key} {label}) ({value} free))" for key, label, value in zip(others, second, "PQRS", strict=True)]
    return LABELS + ["(table a cell (k num) (v name))", "(table b cell (k num) (v name))", *rows]


OPEN, HERE, THERE = ["free"] * 4, ["free", "noads", "free", "noads"], ["free", "free", "noads", "shut"]
KEY_QUERY = "(join ana desk post a b k k ((of a v) (of b v)))"
KEY_COUNT = "(join ana desk post a b k k ((of a v)) (ne (of b v) P))"


def lone(kind, keys, others):
    """Two public tables of one column each, the keys."""
    rows = [f"(row a {key})" for key in keys] + [f"(row b {key})" for key in others]
    return LABELS + [f"(table a none (k {kind}))", f"(table b none (k {kind}))", "(public a)", "(public b)", *rows]


KEYS_OF = "(join ana desk post a b k k ((of a k) (of b k)))"


def by_key(name, kind, keys, others, equal=lambda key, other: key == other):
    """A session over two lists of keys: which pairs are given, by a plain test of the texts."""
    return join(f"{name} as keys", KEYS_OF, answer([(key, True) for key in keys], [(key, True) for key in others], equal, lambda key, other: (key, other)), lone(kind, keys, others))


LONG = "a" * 23
NAME_KEYS = ["ada", "Bea", LONG + "x", LONG + "y", "a", "b-c", "b_c", "ada", "k0", "zz"]
OTHER_KEYS = ["ADA", "bEA", LONG.upper() + "X", "aa", "B-C", "B_C", "A", "k-", "aDa", "K0"]
NUMBER_KEYS = ["0", "1", "-1", "10", "-10", "9223372036854775807", "-9223372036854775808", "1", "-9223372036854775807", "100"]
OTHER_NUMBERS = ["-9223372036854775808", "9223372036854775807", "9223372036854775806", "10", "1", "0", "-1", "2", "1", "-100"]
DATE_KEYS = ["(1 1 1)", "(9999 12 31)", "(2000 2 29)", "(2000 3 1)", "(1999 12 31)", "(2000 12 1)", "(2000 1 12)", "(1 1 1)"]
OTHER_DATES = ["(2000 1 12)", "(2000 12 1)", "(2000 2 28)", "(9999 12 31)", "(1 1 1)", "(2000 2 29)", "(2001 3 1)", "(1 1 1)"]

# different names of one print (workspace `print_word`), by which keys are looked up, and numbers that differ by multiples of 1,021, the
# number of slots: such keys differ
PRINTED = ["xblkcayjlgng", "xobddayeelif", "xfllfaypainb", "xhbchayaoogc", "xmcghaydfgkc", "xijliayahpfg"]
SLOTTED = [str(1021 * n) for n in (0, 1, -1, 2, -9000000000000000, 9000000000000000, 1021)]


# ---- many rows
def many(keys, others, label="free", beside="free"):
    """Two row tables with these keys, a number and a name in each row, and a label for all rows of each."""
    rows = [f"(row a {label} {key} {i % 10} n{i})" for i, key in enumerate(keys)] + [f"(row b {beside} {key} {i % 10} m{i})" for i, key in enumerate(others)]
    return LABELS + ["(table a row (k name) (n num) (v name))", "(table b row (k name) (n num) (v name))", *rows]


ONES = [f"k{i}" for i in range(512)]
MANY_QUERY = "(join ana desk post a b k k ((of a v) (of b v)))"
MANY_WITH = "(join ana desk post a b k k ((of a v) (of b v)) (and (eq (of a v) n{}) (eq (of b v) m{})))"


def long(last, rows=741):
    """One row beside so many, all keys equal, so that each line has three names of 24 bytes but in the last row, of whose two the lengths
    are given: 81 bytes a line, and 4 + 25 + 1 + length + 1 + length + 2 the last, behind it `(end 741 0 0)`."""
    whole = [(LONG + "b", LONG + "c")] * (rows - 1) + [("b" * last[0], "c" * last[1])]
    policy = LABELS + ["(table a none (k num) (v name))", "(table b none (k num) (v name) (w name))", "(public a)", "(public b)", "(row a 7 " + LONG + "a)"]
    return policy + [f"(row b 7 {v} {w})" for v, w in whole], [f"(row {LONG}a {v} {w})" for v, w in whole] + [end(rows, 0, 0)]


LONG_QUERY = "(join ana desk post a b k k ((of a v) (of b v) (of b w)))"
JUST, JUST_ANSWER = long((17, 17))
OVER, OVER_ANSWER = long((17, 18))
assert (sum(len(line) + 1 for line in JUST_ANSWER), sum(len(line) + 1 for line in OVER_ANSWER)) == (60021, 60022)


# ---- bounds of the query
def sized(size):
    """A join with a condition that holds of every pair, of just this many bytes: fewer than 64 comparisons below four nots each."""
    least, most = (len(" " + nots(4, f"(ne (of sub who) {'x' * n})")) for n in (1, 24))
    begin = f"{HEAD} {NAMES} (or (eq (of sub who) Ida)"
    left, parts = size - len(begin) - len("))"), []
    while left > 0:
        part = most if left >= most + least else left if left <= most else left - least
        parts.append(" " + nots(4, f"(ne (of sub who) {'x' * (part - least + 1)})"))
        left -= part
    made = begin + "".join(parts) + "))"
    assert len(made) == size and len(parts) < 64
    return made


BOTH = ["(row Ida Ulm)", "(row Cy Bonn)", "(row Cy Trier)"]
MANY_TESTS = " ".join(["(ne (of home town) Rom)"] * 64)
SIXTEEN = " ".join(["(of sub who)", "(of home town)"] * 8)

# two nest tables, each with lines of its own, and a third
NESTS = NEST_LABELS + [
    "(table one nest (k num) (v name))",
    "(table two nest (k num) (v name))",
    "(strong two noads)",
    "(weak one noads)",
    "(row one again (1 mute) (A mute))",
    "(row two again (1 free) (P free))",
    "(row one mute (1 mute) (B again))",
    "(row two mute (2 mute) (Q mute))",
    "(row one mute (2 again) (C again))",
    "(table red nest (k num) (v name))",
    "(strong red strict)",
    "(row red mute (2 mute) (X mute))",
    "(row red mute (1 mute) (Y nopost))",
]

# names that are words of the language
WORDY = SAMPLE[:4] + ASKER + [
    "(grant all any)",
    "(table of none (of name) (join name))",
    "(table join none (of name) (and name))",
    "(public of)",
    "(public join)",
    "(row of and or)",
    "(row join AND eq)",
    "(row join or lt)",
]

# one table's name begins with the other's, and they stand in the other order
PREFIXES = LABELS + [
    "(table subs none (who name) (w num))",
    "(table sub none (who name) (wh num))",
    "(public sub)",
    "(public subs)",
    "(row subs Bo 1)",
    "(row sub Ida 7)",
    "(row subs Ida 2)",
    "(row sub Bo 8)",
    "(row subs Ida 3)",
    "(row sub Ida 9)",
]

SESSIONS = [
    *(of_schemes(scheme, other) for scheme in SUBS for other in HOMES),
    # ---- what is given. Of `sub` every name is open to post, Bo's amount and Cy's day closed; of `home` Bo's row is withheld.
    *twice("by name", BY_NAME, [*BOTH, end(3, 3, 9)]),
    join("for bill all is open", BY_NAME.replace("post", "bill"), ["(row Ida Ulm)", "(row Bo Kiel)", "(row Cy Bonn)", "(row Cy Trier)", end(4, 0, 11)]),
    *twice("the condition's cell is closed in the first", f"{HEAD} {TOWNS} (gt (of sub due) 50))", ["(row Bonn)", "(row Trier)", end(2, 7, 6)]),
    *twice("the condition's cell is closed in a branch not reached", f"{HEAD} {TOWNS} (or (ne (of sub who) Ida) (gt (of sub due) 90)))", ["(row Bonn)", "(row Trier)", end(2, 7, 6)]),
    *twice("a selected cell is closed", f"{HEAD} ((of sub since) (of sub who)))", ["(row (2000 2 29) Ida)", end(1, 7, 7)]),
    *twice("the condition fails everywhere", f"{HEAD} {TOWNS} (eq (of home town) Rom))", [end(0, 3, 12)]),
    *twice("a condition on both tables", f"{HEAD} {NAMES} (and (ne (of home town) Bonn) (gt (of sub due) 30)))", ["(row Ida Ulm)", "(row Cy Trier)", end(2, 7, 6)]),
    *twice("the same column name in both tables", f"{HEAD} ((of sub due) (of home due) (of sub due)))", ["(row 40 1 40)", "(row 60 2 60)", "(row 60 4 60)", end(3, 7, 5)]),
    *twice("the same column name, of the second alone", f"{HEAD} ((of home due)) (gt (of home due) 1))", ["(row 2)", "(row 4)", end(2, 3, 10)]),
    *twice("an of of the second table before one of the first", f"{HEAD} ((of home town) (of sub who)))", ["(row Ulm Ida)", "(row Bonn Cy)", "(row Trier Cy)", end(3, 3, 9)]),
    *twice("keys that are not selected", f"{HEAD} {TOWNS})", ["(row Ulm)", "(row Bonn)", "(row Trier)", end(3, 3, 9)]),
    *twice("keys alone selected, each as its own row wrote it", f"{HEAD} ((of home who) (of sub who)))", ["(row ida Ida)", "(row Cy Cy)", "(row CY Cy)", end(3, 3, 9)]),
    *twice("the tables the other way round", "(join ana desk post home sub who who ((of home town) (of sub who)))", ["(row Ulm Ida)", "(row Bonn Cy)", "(row Trier Cy)", end(3, 3, 9)]),
    *twice("numbers as keys", "(join ana desk post sub home due due ((of sub who) (of home who)))", ["(row Ida Dot)", end(1, 7, 7)]),
    *twice("dates as keys", "(join ana desk post sub home since since ((of sub who) (of home who)))", ["(row Ida Cy)", "(row Bo CY)", "(row Bo Dot)", end(3, 7, 5)]),
    join("dates as keys for bill", "(join ana desk bill sub home since since ((of sub who) (of home who)))", ["(row Ida Cy)", "(row Bo Bo)", "(row Bo CY)", "(row Bo Dot)", "(row Cy ida)", end(5, 0, 10)]),
    *twice("keys of other columns than those selected", "(join ana desk post sub home due due ((of home town)) (eq (of sub since) (2000 2 29)))", ["(row Bern)", end(1, 11, 3)]),
    join("a date in the condition, of the second table", f"{HEAD} {TOWNS} (lt (of home since) (2000 3 1)))", ["(row Bonn)", "(row Trier)", end(2, 3, 10)]),
    join("in capitals", BY_NAME.upper(), [*BOTH, end(3, 3, 9)]),
    join("in mixed case", "(Join ana desk Post Sub HOME Who wHO ((Of SUB who) (oF home Town)) (Or (Eq (OF Sub WHO) cy)))", ["(row Cy Bonn)", "(row Cy Trier)", end(2, 3, 10)]),
    join("a policy in capitals", BY_NAME, ["(row IDA ULM)", "(row CY BONN)", "(row CY TRIER)", end(3, 3, 9)], [line.upper() for line in JOINED]),
    join("an open column of a table with closed ones", "(join ana desk post home cols town town ((of home who) (of cols tag)))", ["(row ida red)", end(1, 2, 7)]),
    join("a table declared public", "(join ana desk post open sub who who ((of open due) (of sub who)))", ["(row 40 Ida)", "(row -7 Cy)", end(2, 0, 4)]),
    join("columns without ranges of a table with ranges", "(join ana desk post est home who who ((of est who) (of home due)) (gt (of home due) 0))", ["(row Ida 1)", "(row Cy 2)", "(row Cy 4)", end(3, 2, 5)]),
    join("several not of a pair", f"{HEAD} {NAMES} (not (and (eq (of sub who) IDA) (eq (of home town) ulm))))", ["(row Cy Bonn)", "(row Cy Trier)", end(2, 3, 10)]),
    # ---- the order of pairs, tables whose rows are mixed, and names that begin alike
    join("by the first table's row, then the second's", "(join ana desk post sub subs who who ((of sub wh) (of subs w)))", ["(row 7 2)", "(row 7 3)", "(row 8 1)", "(row 9 2)", "(row 9 3)", end(5, 0, 4)], PREFIXES),
    join("the same the other way round", "(join ana desk post subs sub who who ((of sub wh) (of subs w)))", ["(row 8 1)", "(row 7 2)", "(row 9 2)", "(row 7 3)", "(row 9 3)", end(5, 0, 4)], PREFIXES),
    refused("a column of the longer table's", 15, "w", "(join ana desk post sub subs who who ((of sub w)))", PREFIXES),
    join("names that are words", "(join ana desk post of join of of ((of of join) (of join and) (of of of)))", ["(row or eq and)", end(1, 0, 1)], WORDY),
    join("names that are words, a key by another column", "(join ana desk post of join join of ((of join and)) (eq (of of of) and))", ["(row lt)", end(1, 0, 1)], WORDY),
    # ---- closed keys
    join("no key closed", KEY_QUERY, ["(row A P)", "(row B Q)", "(row C R)", "(row D S)", end(4, 0, 12)], keyed(OPEN, OPEN)),
    join("keys closed in the first", KEY_QUERY, ["(row A P)", "(row C R)", end(2, 8, 6)], keyed(HERE, OPEN)),
    join("keys closed in the first, of other values", KEY_QUERY, ["(row A P)", "(row C R)", end(2, 8, 6)], keyed(HERE, OPEN, numbers=(1, 1, 3, 3))),
    join("keys closed in the second", KEY_QUERY, ["(row A P)", "(row B Q)", end(2, 8, 6)], keyed(OPEN, THERE)),
    join("keys closed in the second, of other values", KEY_QUERY, ["(row A P)", "(row B Q)", end(2, 8, 6)], keyed(OPEN, THERE, others=(1, 2, 1, 2))),
    join("keys closed in both", KEY_QUERY, ["(row A P)", end(1, 12, 3)], keyed(HERE, THERE)),
    join("keys closed in both, of other values", KEY_QUERY, ["(row A P)", end(1, 12, 3)], keyed(HERE, THERE, numbers=(1, 2, 3, 2), others=(1, 2, 2, 2))),
    join("keys closed in both, equal to open ones", KEY_QUERY, ["(row A P)", end(1, 12, 3)], keyed(HERE, THERE, numbers=(1, 1, 3, 1), others=(1, 2, 1, 3))),
    join("keys closed in both, with a condition", KEY_COUNT, [end(0, 12, 4)], keyed(HERE, THERE)),
    join("all keys closed in the first", KEY_QUERY, [end(0, 16, 0)], keyed(["noads"] * 4, OPEN)),
    join("all keys closed in the second", KEY_QUERY, [end(0, 16, 0)], keyed(OPEN, ["shut"] * 4)),
    join("keys open to bill", KEY_QUERY.replace("post", "bill"), ["(row A P)", "(row B Q)", "(row C R)", end(3, 4, 9)], keyed(HERE, THERE)),
    # ---- keys of every type
    by_key("names in two cases", "name", NAME_KEYS, OTHER_KEYS, same),
    by_key("names, the other way round", "name", OTHER_KEYS, NAME_KEYS, same),
    by_key("ten numbers", "num", NUMBER_KEYS, OTHER_NUMBERS),
    by_key("eight dates", "date", DATE_KEYS, OTHER_DATES),
    by_key("names of one print", "name", PRINTED, [name.upper() for name in PRINTED[::-1]], same),
    by_key("numbers of one slot", "num", SLOTTED, SLOTTED[::-1]),
    by_key("one name", "name", ["Ida"], ["iDA"], same),
    by_key("names, all the same", "name", ["ada", "ADA", "Ada"], ["aDA", "adA"], same),
    by_key("numbers, all the same", "num", ["-5"] * 3, ["-5"] * 4),
    by_key("dates, all the same", "date", ["(2028 2 29)"] * 2, ["(2028 2 29)"] * 3),
    # ---- empty tables
    join("two tables without rows", KEYS_OF, [end(0, 0, 0)], lone("num", [], [])),
    join("the first without rows", KEYS_OF, [end(0, 0, 0)], lone("num", [], [1, 2])),
    join("the second without rows", KEYS_OF, [end(0, 0, 0)], lone("num", [1, 2], [])),
    join("the second without rows, with a condition", f"{HEAD} {NAMES} (gt (of home due) 1))".replace("home", "bare").replace("town", "due"), [end(0, 0, 0)]),
    join("the first without rows, the second's withheld", "(join ana desk post bare home who who ((of home town)))", [end(0, 0, 0)]),
    # ---- nest tables. To post: of `one` A is open, B's name alone, C open; of `two`, whose strong label is noads, nothing; of `red`, whose
    # strong label is strict, everything. To bill: of `one` and `two` everything, of `red` nothing.
    join("two nest tables", "(join ana desk post one red k k ((of one v) (of red v)))", ["(row A Y)", "(row C X)", end(2, 2, 2)], NESTS),
    join("two nest tables, the other way round", "(join ana desk post red one k k ((of one v) (of red v)))", ["(row C X)", "(row A Y)", end(2, 2, 2)], NESTS),
    join("a nest table closed by its strong label", "(join ana desk post one two k k ((of one v) (of two v)))", [end(0, 6, 0)], NESTS),
    join("the same first", "(join ana desk post two red k k ((of red v)))", [end(0, 4, 0)], NESTS),
    join("two nest tables for bill", "(join ana desk bill one two k k ((of one v) (of two v)))", ["(row A P)", "(row B P)", "(row C Q)", end(3, 0, 3)], NESTS),
    join("a nest table closed to bill", "(join ana desk bill one red k k ((of one v)))", [end(0, 6, 0)], NESTS),
    # ---- many rows
    join("512 by 512, one to one", MANY_QUERY, [f"(row n{i} m{511 - i})" for i in range(512)] + [end(512, 0, 261632)], many(ONES, ONES[::-1])),
    join("512 by 512, no match", MANY_QUERY, [end(0, 0, 262144)], many(ONES, [f"j{i}" for i in range(512)])),
    join("512 by 512, all equal, one pair passing", MANY_WITH.format(511, 511), ["(row n511 m511)", end(1, 0, 262143)], many(["x"] * 512, ["X"] * 512)),
    join("512 by 512, all equal, no pair passing", MANY_WITH.format(511, 512), [end(0, 0, 262144)], many(["x"] * 512, ["X"] * 512)),
    join("512 by 512, the first withheld", MANY_QUERY, [end(0, 262144, 0)], many(["x"] * 512, ["x"] * 512, label="noads")),
    join("512 by 512, the second withheld", MANY_QUERY, [end(0, 262144, 0)], many(["x"] * 512, ["x"] * 512, beside="shut")),
    join("512 by 512, all equal, all passing", MANY_QUERY, (18, None), many(["x"] * 512, ["x"] * 512)),
    join("1 by 1,023", MANY_QUERY, [f"(row n0 m{i})" for i in range(0, 1023, 3)] + [end(341, 0, 682)], many(["x"], ["x", "y", "z"] * 341)),
    join("1,023 by 1", MANY_QUERY, [f"(row n{i} m0)" for i in range(1, 1023, 3)] + [end(341, 0, 682)], many(["x", "y", "z"] * 341, ["y"])),
    join("1 by 1,023, all equal", MANY_QUERY, [f"(row n0 m{i})" for i in range(1023)] + [end(1023, 0, 0)], many(["x"], ["x"] * 1023)),
    join("75 by 100, all of 7,500 passing in 60,015 bytes", "(join ana desk post a b k k ((of a n)))", [f"(row {i % 10})" for i in range(75) for _ in range(100)] + [end(7500, 0, 0)], many(["x"] * 75, ["x"] * 100)),
    # ---- 18
    join("an answer of 60,021 bytes", LONG_QUERY, JUST_ANSWER, JUST),
    refused("an answer of 60,022 bytes", 18, None, LONG_QUERY, OVER),
    refused("17 before 18", 17, ("b", 0), LONG_QUERY, [line for line in OVER if line != "(public b)"]),
    # ---- 11: what is no join
    wrong("a plain column", f"{HEAD} (who))"),
    wrong("a plain column behind an of", f"{HEAD} ((of sub who) town))"),
    wrong("a plain column in the condition", f"{HEAD} {NAMES} (gt due 50))"),
    wrong("a plain column deep in the condition", f"{HEAD} {NAMES} (and (eq (of sub who) Ida) (not (eq town Ulm))))"),
    wrong("a key with its table", f"(join ana desk post sub home (of sub who) who {NAMES})"),
    wrong("the second key with its table", f"(join ana desk post sub home who (of home who) {NAMES})"),
    wrong("one key", f"(join ana desk post sub home who {NAMES})"),
    wrong("no key", f"(join ana desk post sub home {NAMES})"),
    wrong("three keys", f"(join ana desk post sub home who who who {NAMES})"),
    wrong("a number for a key", f"(join ana desk post sub home who 5 {NAMES})"),
    wrong("one table", "(join ana desk post sub who ((of sub who)))"),
    wrong("a bracket of tables", f"(join ana desk post (sub home) who who {NAMES})"),
    wrong("no column bracket", f"{HEAD})"),
    wrong("no column bracket but a condition", f"{HEAD} (gt (of sub due) 50))"),
    wrong("no column", f"{HEAD} ())"),
    wrong("an of without its list", f"{HEAD} (of sub who))"),
    wrong("an of of one name", f"{HEAD} ((of who)))"),
    wrong("an of of three names", f"{HEAD} ((of sub who due)))"),
    wrong("another word for of", f"{HEAD} ((off sub who)))"),
    wrong("no word for of", f"{HEAD} ((sub who)))"),
    wrong("an of of a number", f"{HEAD} ((of sub 5)))"),
    wrong("an of of a numbered table", f"{HEAD} ((of 5 who)))"),
    wrong("an of within an of", f"{HEAD} ((of sub (of sub who))))"),
    wrong("an of of a name of 25 bytes", f"{HEAD} ((of sub {'w' * 25})))"),
    wrong("a space before of", f"{HEAD} (( of sub who)))"),
    wrong("two spaces in an of", f"{HEAD} ((of sub  who)))"),
    wrong("a space behind an of", f"{HEAD} ((of sub who) ))"),
    wrong("no space between two", f"{HEAD} ((of sub who)(of home town)))"),
    wrong("a range for a column", f"{HEAD} ((1 5)))"),
    wrong("an of for a value", f"{HEAD} {NAMES} (eq (of sub who) (of home who)))"),
    wrong("a range for a value", f"{HEAD} {NAMES} (eq (of sub due) (1 5)))"),
    wrong("an of for a condition", f"{HEAD} {NAMES} (of sub who))"),
    wrong("a number out of range", f"{HEAD} {NAMES} (eq (of sub due) 9223372036854775808))"),
    wrong("two conditions", f"{HEAD} {NAMES} (eq (of sub due) 1) (eq (of sub due) 2))"),
    wrong("the condition first", f"{HEAD} (eq (of sub due) 1) {NAMES})"),
    wrong("unfinished", BY_NAME[:-1]),
    wrong("one bracket too many", BY_NAME + ")"),
    wrong("another word for join", BY_NAME.replace("(join", "(joins")),
    wrong("a carriage return behind it", BY_NAME + "\r"),
    wrong("an of in a select", "(select ana desk post sub ((of sub who)))"),
    wrong("an of in a select's condition", "(select ana desk post sub (who) (gt (of sub due) 50))"),
    wrong("an of in a count", "(count ana desk post sub (gt (of sub due) 50))"),
    wrong("an of in a blank", "(blank ana desk post sub ((of sub who)))"),
    wrong("an of in a sure", "(sure ana desk post sub (who) (gt (of sub due) 50))"),
    wrong("an of in a possible", "(possible ana desk post sub ((of sub who) due))"),
    wrong("a select of two tables", f"(select ana desk post sub home who who {NAMES})"),
    wrong("17 columns", f"{HEAD} ({SIXTEEN} (of sub who)))"),
    join("16 columns", f"{HEAD} ({SIXTEEN}) (eq (of home town) Ulm))", ["(row" + " Ida Ulm" * 8 + ")", end(1, 3, 11)]),
    join("64 comparisons", f"{HEAD} {NAMES} (and {MANY_TESTS}))", [*BOTH, end(3, 3, 9)]),
    wrong("65 comparisons", f"{HEAD} {NAMES} (and {MANY_TESTS} (eq (of sub who) Ida)))"),
    join("4,096 bytes", sized(4096), [*BOTH, end(3, 3, 9)]),
    wrong("4,097 bytes", sized(4097)),
    join("nesting 16", f"{HEAD} {TOWNS} {nots(13, '(eq (of sub who) Ida)')})", ["(row Bonn)", "(row Trier)", end(2, 3, 10)]),
    wrong("nesting 17", f"{HEAD} {TOWNS} {nots(14, '(eq (of sub who) Ida)')})"),
    join("nesting 16 with a date", f"{HEAD} {TOWNS} {nots(13, '(eq (of home since) (2028 1 1))')})", ["(row Bonn)", "(row Trier)", end(2, 3, 10)]),
    wrong("nesting 17 with a date", f"{HEAD} {TOWNS} {nots(14, '(eq (of home since) (2028 1 1))')})"),
    # ---- 10, 12, 13, 14 as for select
    join("10 before 11", f"{HEAD} (who))", (10, None), JOINED, "(clock 2027 366 10)"),
    join("10 before 15", f"{HEAD} ((of nix who)))", (10, None), JOINED, "(clock 2028 0 10)"),
    join("at another clock", BY_NAME, [*BOTH, end(3, 3, 9)], JOINED, LEAP),
    refused("unknown user", 12, "zed", BY_NAME.replace("ana", "zed")),
    refused("unknown role", 12, "boss", BY_NAME.replace("desk", "boss")),
    refused("unknown purpose", 12, "sport", BY_NAME.replace("post", "sport")),
    refused("the leftmost, before 15 and 22", 12, "boss", "(join ana boss sport nix nix a b ((of c d)))"),
    refused("a role that is not the user's", 13, "lab", BY_NAME.replace("desk", "lab"), JOINED + ["(role lab)"]),
    refused("13 before 14 and 15", 13, "lab", BY_NAME.replace("desk", "lab").replace("home", "nix"), JOINED + ["(role lab)"]),
    refused("a purpose not granted", 14, "post", BY_NAME, [line.replace("(grant all any)", "(grant bill any)") for line in JOINED]),
    refused("14 before 15", 14, "post", BY_NAME.replace("home", "nix"), [line.replace("(grant all any)", "(grant bill any)") for line in JOINED]),
    # ---- 15: from left to right over T1, T2, C1, C2 and the columns, of an `of` T first
    refused("unknown first table", 15, "nix", BY_NAME.replace("sub home who", "nix home who")),
    refused("unknown second table", 15, "nix", BY_NAME.replace("sub home who", "sub nix who")),
    refused("both tables unknown", 15, "nix", "(join ana desk post nix nox who who ((of sub who)))"),
    refused("unknown second table before an unknown key", 15, "nix", "(join ana desk post sub nix what who ((of sub who)))"),
    refused("unknown first key", 15, "what", "(join ana desk post sub home what who ((of sub who)))"),
    refused("unknown second key", 15, "what", "(join ana desk post sub home who what ((of sub who)))"),
    refused("the first key is the second table's", 15, "town", "(join ana desk post sub home town town ((of sub who)))"),
    refused("the second key is the first table's", 15, "tag", "(join ana desk post cols home town tag ((of home who)))"),
    refused("keys the other way round", 15, ("town", 0), "(join ana desk post sub home town who ((of home town)))"),
    refused("an of of an unknown table", 15, "nix", f"{HEAD} ((of sub who) (of nix who)))"),
    refused("an of of a third table", 15, "open", f"{HEAD} ((of sub who) (of open who)))"),
    refused("an of of a third table that is closed", 15, "led", f"{HEAD} ((of led who)))"),
    refused("an of of a third table in the condition", 15, "est", f"{HEAD} {NAMES} (or (eq (of sub who) Ida) (gt (of est due) 5)))"),
    refused("an of of a third table with a column unknown there too", 15, "open", f"{HEAD} ((of open nix)))"),
    refused("an of of an unknown column", 15, "what", f"{HEAD} ((of sub what)))"),
    refused("an of of the other table's column", 15, "town", f"{HEAD} ((of sub town)))"),
    refused("an of of the first table's column", 15, ("tag", 0), "(join ana desk post cols home town town ((of home tag) (of cols tag)))"),
    refused("an of of an unknown column in the condition", 15, "what", f"{HEAD} {NAMES} (eq (of home what) 5))"),
    refused("the clock is no column", 15, "hour", f"{HEAD} {NAMES} (gt (of sub hour) 5))"),
    refused("the first key before an of's column", 15, "what", "(join ana desk post sub home what who ((of sub nix)))"),
    refused("the second key before an of's table", 15, "what", "(join ana desk post sub home who what ((of nix who)) (eq (of home nix) 5))"),
    refused("an of's column before the next one's table", 15, "what", f"{HEAD} ((of sub what) (of nix who)))"),
    refused("an of's table before the next one's column", 15, "nix", f"{HEAD} ((of nix who) (of sub what)))"),
    refused("the columns before the condition", 15, ("nix", 0), f"{HEAD} ((of home nix)) (eq (of nix who) 5))"),
    refused("in another case", 15, "WHAT", f"{HEAD} ((of SUB WHO) (of Sub WHAT)))"),
    refused("15 before 22", 15, ("town", 0), "(join ana desk post sub sub who town ((of sub who)))"),
    refused("15 in the condition before 22", 15, "nix", "(join ana desk post sub Sub who who ((of sub who)) (eq (of sub nix) 5))"),
    refused("a third table before 22", 15, "home", "(join ana desk post sub sub who who ((of home who)))"),
    refused("15 before 16", 15, "what", "(join ana desk post sub home due who ((of sub what)))"),
    refused("15 before 27, 31 and 17", 15, "what", "(join ana desk post est led due due ((of est lot)) (or (eq (of est lot) (0 0 0)) (eq (of led what) 1)))"),
    # ---- 22: after 15, before 16, at the second table
    refused("a table with itself", 22, ("sub", 1), "(join ana desk post sub sub who who ((of sub who)))"),
    refused("a table with itself in another case", 22, "Sub", "(join ana desk post sub Sub who who ((of sub who)))"),
    refused("a table with itself, both in another case", 22, "sUB", "(join ana desk post SUB sUB who who ((of sub who)) (gt (of sub due) 5))"),
    refused("22 before 16 of the keys", 22, ("sub", 1), "(join ana desk post sub sub who due ((of sub who)))"),
    refused("22 before 16 of the condition", 22, ("sub", 1), "(join ana desk post sub sub who who ((of sub who)) (gt (of sub who) Ida))"),
    refused("22 before 27", 22, ("est", 1), "(join ana desk post est est due lot ((of est due)))"),
    refused("22 before 31", 22, ("home", 1), "(join ana desk post home home who who ((of home who)) (eq (of home since) (0 1 1)))"),
    refused("22 before 17", 22, ("led", 1), "(join ana desk post led led who who ((of led who)))"),
    refused("22 before 17, undeclared", 22, "PLAIN", "(join ana desk post plain PLAIN who who ((of plain who)))"),
    refused("22 without rows", 22, ("bare", 1), "(join ana desk post bare bare who who ((of bare who)))"),
    # ---- 16: keys of different types at the second, then the condition
    refused("a number beside a name", 16, ("who", 0), f"(join ana desk post sub home due who {NAMES})"),
    refused("a name beside a number", 16, "due", f"(join ana desk post sub home who due {NAMES})"),
    refused("a date beside a number", 16, "due", f"(join ana desk post sub home since due {NAMES})"),
    refused("a number beside a date", 16, "since", f"(join ana desk post sub home due since {NAMES})"),
    refused("a name beside a date", 16, "since", f"(join ana desk post sub home who since {NAMES})"),
    refused("a date beside a name", 16, ("who", 0), f"(join ana desk post sub home since who {NAMES})"),
    refused("keys before the condition", 16, "due", f"(join ana desk post sub home who due {NAMES} (gt (of sub who) 5))"),
    refused("an order of names in the condition", 16, "gt", f"{HEAD} {NAMES} (gt (of sub who) Ida))"),
    refused("an order of names of the second table", 16, "le", f"{HEAD} {NAMES} (or (gt (of sub due) 5) (le (of home town) Ulm)))"),
    refused("a name for a number", 16, "Ida", f"{HEAD} {NAMES} (eq (of home due) Ida))"),
    refused("a number for a name", 16, "5", f"{HEAD} {NAMES} (ne (of home town) 5))"),
    refused("a number for a date", 16, "5", f"{HEAD} {NAMES} (ne (of home since) 5))"),
    refused("a date for a number", 16, "(2028 1 1)", f"{HEAD} {NAMES} (ne (of sub due) (2028 1 1)))"),
    refused("types by the table of the of", 16, "Ulm", "(join ana desk post sub home who who ((of sub who)) (and (eq (of home town) Ulm) (eq (of home due) Ulm)))".replace("town) Ulm", "town) Bonn")),
    refused("keys, 16 before 27", 16, ("who", 0), "(join ana desk post est home due who ((of est lot)))"),
    refused("the condition's, 16 before 27", 16, "lt", "(join ana desk post est home due due ((of est lot)) (lt (of home who) Ida))"),
    refused("16 before 31", 16, "since", f"(join ana desk post sub home who since {NAMES} (eq (of home since) (0 0 0)))"),
    refused("16 before 17", 16, ("who", 0), "(join ana desk post led home due who ((of led who)))"),
    refused("16 without rows", 16, "due", "(join ana desk post bare home who due ((of home who)))"),
    # ---- 27: of `est` both due and lot have a range in some row
    refused("a range in the first key", 27, ("due", 0), "(join ana desk post est home due due ((of est who)))"),
    refused("a range in the second key", 27, ("due", 1), "(join ana desk post home est due due ((of est who)))"),
    refused("a range in a selected column", 27, "lot", "(join ana desk post est home who who ((of home due) (of est lot)))"),
    refused("a range in a selected column of the second table", 27, ("due", 1), "(join ana desk post home est who who ((of home due) (of est due)))"),
    refused("a range in the condition", 27, "lot", "(join ana desk post est home who who ((of home due)) (or (eq (of home town) Ulm) (ne (of est lot) 5)))"),
    refused("a range in the condition, of the second table", 27, ("due", 1), "(join ana desk post home est who who ((of home due)) (ne (of est due) 5))"),
    refused("the leftmost range", 27, "lot", "(join ana desk post est home who who ((of est lot) (of est due)) (gt (of est due) 1))"),
    refused("a key's range before a selected one", 27, ("due", 0), "(join ana desk post est home due due ((of est lot)))"),
    refused("a range in another case", 27, "LOT", "(join ana desk post est home who who ((of EST LOT)))"),
    refused("a range in a withheld row", 27, "due", "(join ana desk post home ran who who ((of ran due)))", beside("(table ran row (who name) (due num))", "(row ran shut Ida (1 5))")),
    refused("a range in a nest table", 27, "due", "(join ana desk post home ran who who ((of ran due)))", beside("(table ran nest (who name) (due num))", "(row ran shut (Ida shut) ((1 5) shut))")),
    refused("27 before 31", 27, "lot", "(join ana desk post est home who who ((of est lot)) (eq (of home since) (0 0 0)))"),
    refused("27 before 17", 27, "lot", "(join ana desk post est led who who ((of est lot)))"),
    refused("27 before 17 of the first table", 27, ("due", 0), "(join ana desk post ran home due due ((of home who)))", beside("(table ran table noads (due num))", "(row ran (1 5))")),
    # ---- 31
    refused("a date of no day", 31, "(1900 2 29)", f"{HEAD} {NAMES} (eq (of home since) (1900 2 29)))"),
    refused("a date of no day of the first table", 31, "(2028 13 1)", f"{HEAD} {NAMES} (or (eq (of home since) (2000 2 29)) (lt (of sub since) (2028 13 1))))"),
    refused("the leftmost date of no day", 31, "(0 1 1)", f"{HEAD} {NAMES} (or (eq (of home since) (0 1 1)) (lt (of sub since) (2028 13 1))))"),
    refused("31 before 17", 31, "(0 1 1)", "(join ana desk post led home who who ((of home town)) (eq (of home since) (0 1 1)))"),
    refused("31 without rows", 31, "(0 1 1)", "(join ana desk post bare home who who ((of home town)) (eq (of home since) (0 1 1)))"),
    # ---- 17: the leftmost of the tables and the columns named
    refused("the first table closed", 17, ("led", 0), "(join ana desk post led home who who ((of led who)))"),
    refused("the second table closed", 17, ("led", 0), "(join ana desk post home led who who ((of led who)))"),
    refused("the second table closed, nothing of it selected", 17, "led", "(join ana desk post home led who who ((of home who)))"),
    refused("the first table undeclared", 17, ("plain", 0), "(join ana desk post plain home who who ((of plain who)))"),
    refused("the second table undeclared", 17, "plain", "(join ana desk post home plain who who ((of home who)))"),
    refused("both tables closed", 17, "plain", "(join ana desk post plain led who who ((of led who)))"),
    refused("the second table before the first key", 17, "led", "(join ana desk post cols led who who ((of cols town)))"),
    refused("the first key's column", 17, ("who", 0), "(join ana desk post cols home who who ((of cols town)))"),
    refused("the second key's column", 17, ("who", 1), "(join ana desk post home cols who who ((of cols town)))"),
    refused("a selected column", 17, ("due", 0), "(join ana desk post cols home town town ((of cols tag) (of cols due) (of cols who)))"),
    refused("a selected column of the second table", 17, ("who", 1), "(join ana desk post home cols town town ((of home who) (of cols who)))"),
    refused("a column in the condition", 17, "due", "(join ana desk post cols home town town ((of cols tag)) (gt (of cols due) 5))"),
    refused("a column in a branch not reached", 17, "due", "(join ana desk post home cols town town ((of cols tag)) (or (ne (of home town) Rom) (gt (of cols due) 5)))"),
    refused("the key before a selected column", 17, ("who", 0), "(join ana desk post cols home who who ((of cols due)))"),
    refused("a closed column in another case", 17, "DUE", "(join ana desk post cols home town town ((of COLS DUE)))"),
    refused("a closed table without rows", 17, "void", "(join ana desk post home void who who ((of home who)))", beside("(table void table shut (who name))")),
    refused("two closed columns tables", 17, ("who", 0), "(join ana desk post cols seco who who ((of cols town)))", beside("(table seco column (who name shut))")),
    join("a closed column of the name of an open one", "(join ana desk post cols home town town ((of home due) (of home who)))", ["(row 1 ida)", end(1, 2, 7)]),
    join("the closed columns for bill", "(join ana desk bill cols home who who ((of cols due) (of home due)))", ["(row 40 1)", "(row 75 3)", end(2, 0, 8)]),
    join("a nest table gives no 17", "(join ana desk post home dark who who ((of home who)))", [end(0, 5, 0)], beside("(table dark nest (who name))", "(strong dark shut)", "(row dark noads (Ida shut))")),
    # ---- 256 purposes
    (
        "join, a chain of 256 purposes",
        chain("p0") + ["(table town row (who name) (at name))", "(row town low ada Ulm)", "(row town top BEA Bonn)", "(row town top cleo Bern)"],
        [DAY, *(f"(join ana desk {purpose} recs town who who ((of recs who) (of town at)))" for purpose in ("p0", "p254", "p255"))],
        [[end(0, 7, 2)], [end(0, 7, 2)], ["(row Ada Ulm)", "(row Bea Bonn)", end(2, 3, 4)]],
    ),
    (
        "join, four words",
        words("p0") + ["(table town cell (who name) (at name))", "(row town (Dora four) (Ulm free))", "(row town (Cleo third) (Bonn nolast))"],
        [DAY, *(f"(join ana desk {purpose} recs town who who ((of recs who) (of town at)))" for purpose in ("p1", "p193", "p254", "p255"))],
        [["(row Dora Ulm)", end(1, 5, 2)], ["(row Cleo Bonn)", end(1, 5, 2)], ["(row Cleo Bonn)", "(row Dora Ulm)", end(2, 0, 6)], ["(row Dora Ulm)", end(1, 5, 2)]],
    ),
    # ---- the program
    (
        "several joins and selects",
        JOINED,
        [DAY, BY_NAME, "(count ana desk post sub)", "", BY_NAME.replace("home", "nix"), f"{HEAD} {TOWNS})", "(select ana desk post home (town))", BY_NAME],
        [
            [*BOTH, end(3, 3, 9)],
            [end(3, 0, 0)],
            (11, WHOLE),
            (15, "nix"),
            ["(row Ulm)", "(row Bonn)", "(row Trier)", end(3, 3, 9)],
            ["(row Ulm)", "(row Bonn)", "(row Trier)", "(row Bern)", end(4, 1, 0)],
            [*BOTH, end(3, 3, 9)],
        ],
    ),
]


def cases():
    return ran(SESSIONS)
