"""Sessions of the asking program with what it must print, derived by hand from the request.

A session is (name, policy, input, expected). A policy is a list of lines or bytes, the input a clock line and query lines.
Expected is a list, for each query: the answer's lines, or (number, item) for a refusal, the item being the text of the offending
word or (text, occurrence counted from 0), None for an empty part at the query's start, and WHOLE for the whole query.
"""
import re

WHOLE = object()

SAMPLE = [
    "(purpose all)",
    "(purpose bill all)",
    "(purpose ads all)",
    "(purpose post ads)",
    "(role desk)",
    "(attr desk level num)",
    "(user ana desk (level 5))",
    "(cond-role senior desk (and (ge level 5) (lt hour 17)))",
    "(grant ads senior)",
    "(label free (allow all) (deny))",
    "(label noads (allow all) (deny ads))",
    "(table sub cell (who name) (due num))",
    "(row sub (Ida free) (40 free))",
    "(row sub (Bo free) (75 noads))",
    "(row sub (Cy free) (60 free))",
]

RICH = [
    "(purpose all)",
    "(purpose bill all)",
    "(purpose ads all)",
    "(purpose post ads)",
    "(purpose mail post)",
    "(role staff)",
    "(role desk staff)",
    "(role night desk)",
    "(role lab)",
    "(attr staff level num)",
    "(attr desk team name)",
    "(attr lab score num)",
    "(user ana desk (level 5) (team red))",
    "(user ana lab (score -3))",
    "(user bob night (team blue) (level 2))",
    "(user cyd staff (level 9))",
    "(cond-role senior staff (and (ge level 5) (lt hour 17)))",
    "(cond-role reds desk (eq team red))",
    "(cond-role late staff (or (gt hour 20) (eq day 366)))",
    "(cond-role labs lab (lt score 0))",
    "(grant ads senior)",
    "(grant bill reds)",
    "(grant all late)",
    "(grant bill labs)",
    "(label free (allow all) (deny))",
    "(label noads (allow all) (deny ads))",
    "(label billing (allow bill) (deny))",
    "(label shut (allow) (deny))",
    "(label rootless (allow all) (deny all))",
    "(label nopost (allow all) (deny post))",
    "(table plain none (who name) (due num))",
    "(public plain)",
    "(table led table noads (who name) (due num))",
    "(table cols column (who name free) (due num billing) (tag name nopost))",
    "(table recs row (who name) (due num))",
    "(table sub cell (who name) (due num))",
    "(table nums none (n num))",
    "(table dark table rootless (n num))",
    "(row plain Ida 40)",
    "(row plain Bo -75)",
    "(row led Cy 1)",
    "(row cols Dee 7 x)",
    "(row recs free Fay 10)",
    "(row recs noads Gus 20)",
    "(row cols Eve 8 y)",
    "(row recs billing Hal 30)",
    "(row recs shut Ivy 40)",
    "(row sub (Ida free) (40 free))",
    "(row sub (Bo free) (75 noads))",
    "(row nums -9223372036854775808)",
    "(row nums 0)",
    "(public nums)",
    "(row nums 9223372036854775807)",
    "(row sub (Cy noads) (60 free))",
    "(row sub (Dot free) (50 shut))",
]

# who asks where a policy is about its purposes alone; behind it stands a grant
ASKER = ["(role desk)", "(user ana desk)", "(cond-role any desk (ge hour 0))"]


def chain(granted):
    """256 purposes, each below the one before it; one is granted, and two labels allow the first and the last."""
    return ["(purpose p0)"] + [f"(purpose p{i} p{i - 1})" for i in range(1, 256)] + ASKER + [
        f"(grant {granted} any)",
        "(label top (allow p0) (deny))",
        "(label low (allow p255) (deny))",
        "(label shut (allow p0) (deny p255))",
        "(table recs row (who name))",
        "(row recs top Ada)",
        "(row recs low Bea)",
        "(row recs shut Cleo)",
    ]


def words(granted):
    """256 purposes: p64, p128, p192 and all before p64 below p0, the others below the nearest of these three before them. So the
    words of 64 bits hold a branch each, but the first; the sets of the label `four` have members in each of the four."""
    above = lambda i: 0 if i < 64 or i % 64 == 0 else i - i % 64
    return ["(purpose p0)"] + [f"(purpose p{i} p{above(i)})" for i in range(1, 256)] + ASKER + [
        f"(grant {granted} any)",
        "(label free (allow p0) (deny))",
        "(label nolast (allow p0) (deny p255))",
        "(label third (allow p192) (deny))",
        "(label four (allow p1 p64 p128 p192) (deny p2 p65 p129 p193))",
        "(table recs row (who name))",
        "(row recs free Ada)",
        "(row recs nolast Bea)",
        "(row recs third Cleo)",
        "(row recs four Dora)",
    ]


def of_words(purpose, names):
    """A session over `words` with the root granted: which of the four rows are printed for a purpose."""
    answer = [f"(row {name})" for name in names] + [end(len(names), 4 - len(names), 0)]
    return one(f"four words, asked for {purpose}", f"(select ana desk {purpose} recs (who))", answer, DAY, words("p0"))


# tables without labels (02, Q-2): none declared public, and every other table declared public too
UNDECLARED = [line for line in RICH if not line.startswith("(public ")]
LABELLED = RICH + ["(public led)", "(public cols)", "(public recs)", "(public sub)", "(PUBLIC Dark)"]


def declared(*lines):
    """A policy with a table without labels and one more, and these lines behind them."""
    return SAMPLE[:4] + ASKER + ["(grant all any)", "(table open none (k num))", "(table other none (k num))", *lines]


# names without case (02, Q-8)
CAPITALS = [line.upper() for line in SAMPLE]
TWO_CASES = ["(purpose All)", "(purpose Ads ALL)"] + ASKER + [
    "(grant aDS ANY)",
    "(label Free (allow adS) (deny))",
    "(label Shut (allow ALL) (deny ads))",
    "(table Recs row (Who name))",
    "(row recs FREE Fay)",
    "(row RECS shut Gus)",
]
HOURS = [
    "(purpose p)",
    "(role desk)",
    "(attr desk Team name)",
    "(user ana desk (TEAM Blue))",
    "(user bob desk (team RED))",
    "(cond-role c desk (or (lt Hour 17) (eq teaM red)))",
    "(grant p C)",
    "(table t none (k num))",
    "(public t)",
]
MIXED = SAMPLE[:4] + ASKER + ["(grant all any)", "(table names none (k name))", "(public names)"] + [
    f"(row names {name})" for name in ["ada", "Ada", "ADA", "ad", "ada-", "ada_", "ada0", "adA-z"]
]

# blanks (02, Q-10): to `post` the label noads is closed and free open, to `bill` both are open; shut is closed to all
BLANKS = SAMPLE[:4] + ASKER + [
    "(grant all any)",
    "(label free (allow all) (deny))",
    "(label noads (allow all) (deny ads))",
    "(label shut (allow) (deny))",
    "(table neg cell (k num) (n num))",
    "(row neg (-1 free) (-2 noads))",
    "(row neg (-3 noads) (-4 free))",
    "(row neg (-9223372036854775808 noads) (0 free))",
    "(table dark cell (a num) (b name))",
    "(row dark (7 shut) (x shut))",
    "(row dark (-7 shut) (y noads))",
    "(table bare cell (a num))",
]

# ranges (02, Q-12), under the same labels
RANGES = BLANKS[: BLANKS.index("(table neg cell (k num) (n num))")] + [
    "(table est row (who name) (due num))",
    "(row est free Ida 5)",
    "(row est free Bo (3 8))",
    "(row est free Cy (5 5))",
    "(row est free Dot (-3 -3))",
    "(row est free Eve (-9223372036854775808 9223372036854775807))",
    "(row est noads Fay (6 7))",
    "(table cel cell (who name) (due num))",
    "(row cel (Ida free) ((1 4) free))",
    "(row cel (Bo free) ((1 9) noads))",
    "(row cel (Cy noads) (7 free))",
    "(table open none (due num) (lot num))",
    "(public open)",
    "(row open (1 5) 7)",
    "(row open 3 9)",
    "(table bare none (due num))",
    "(row bare (1 5))",
    "(table led table noads (due num))",
    "(row led (1 5))",
    "(table cols column (due num noads) (who name free))",
    "(row cols (1 5) Gus)",
]
# the only range of the table stands in a row that is withheld for post
ONE_RANGE = RANGES[: RANGES.index("(row est free Bo (3 8))")] + ["(row est noads Fay (6 7))"]
# closed to post, the same in other ends
OTHER_ENDS = [line.replace("(6 7)", "(-6 70)").replace("(1 9)", "(9 9)") for line in RANGES]

# dates (02, Q-14), under the same labels
DATES = BLANKS[: BLANKS.index("(table neg cell (k num) (n num))")] + [
    "(table sub row (who name) (born date) (due num))",
    "(row sub free Ida (2000 2 29) 5)",
    "(row sub free Bo (1999 12 31) 7)",
    "(row sub free Cy (2000 3 1) 7)",
    "(row sub free Dot (1 1 1) 0)",
    "(row sub free Eve (9999 12 31) 1)",
    "(row sub noads Fay (2000 2 29) 3)",
    "(table cel cell (who name) (born DATE))",
    "(row cel (Ida free) ((2028 2 9) free))",
    "(row cel (Bo free) ((2028 10 1) noads))",
    "(row cel (Cy noads) ((2027 12 31) free))",
    "(table open none (born date) (due num))",
    "(public open)",
    "(row open (2024 2 29) (1 5))",
    "(row open (2028 2 29) 3)",
    "(table bare none (born date))",
    "(row bare (2028 2 29))",
    "(table led table noads (born date))",
    "(row led (2028 2 29))",
    "(table cols column (born date noads) (who name free))",
    "(row cols (2028 2 29) Gus)",
]
# closed to post, the same with other dates
OTHER_DATES = [
    line.replace("Fay (2000 2 29)", "Fay (1 12 31)").replace("(2028 10 1)", "(9999 1 1)").replace("led (2028 2 29)", "led (2028 3 1)").replace("(2028 2 29) Gus", "(1 1 1) Gus")
    for line in DATES
]

# labels that come down (02, Q-11): mute says nothing, again allows what the table's weak label denies, nopost denies it
NEST_LABELS = SAMPLE[:4] + ASKER + [
    "(grant all any)",
    "(label mute (allow) (deny))",
    "(label free (allow all) (deny))",
    "(label noads (allow all) (deny ads))",
    "(label again (allow post) (deny))",
    "(label nopost (allow) (deny post))",
    "(label strict (allow ads) (deny bill))",
]
PEOPLE = [
    "(row sub mute (Ida mute) (40 mute))",
    "(row sub again (Bo mute) (75 mute))",
    "(row sub mute (Cy again) (60 mute))",
    "(row sub again (Dot nopost) (50 mute))",
    "(row sub nopost (Eve free) (30 again))",
]


def nest(*lines):
    """A policy with a nest table, these lines about it, and its people."""
    return NEST_LABELS + ["(table sub nest (who name) (due num))", *lines] + PEOPLE


# To post: of Bo and Eve both cells are open, of Cy the name, of Dot the amount, of Ida neither. To ads and all: Eve's name alone. To
# bill: everything. The strong label strict opens everything to ads and post and closes everything to all and bill; where noads is the
# strong one, everything is open to bill and nothing to the others. Without any line the same is open to post, and Eve's name to every purpose.
WEAK = nest("(weak sub noads)")
STRONG = nest("(strong sub strict)", "(weak sub noads)")
BOTH = nest("(weak sub free)", "(strong sub noads)")
BARE = nest()
# closed to post, the same with other values
OTHER_PEOPLE = [line.replace("(Ida mute) (40", "(Zoe mute) (-9").replace("(60 mute)", "(9223372036854775807 mute)").replace("Dot", "Dan") for line in WEAK]
NEST_VALUES = NEST_LABELS + [
    "(table est nest (who name) (due num) (born date))",
    "(weak est noads)",
    "(row est again (Ida mute) ((3 8) mute) ((2000 2 29) mute))",
    "(row est mute (Bo again) (5 again) ((2001 1 1) mute))",
    "(row est free (Cy mute) ((1 9) nopost) ((1999 12 31) mute))",
]
# closed to post, the same with another date and other ends
OTHER_VALUES = [line.replace("(2001 1 1)", "(1 1 1)").replace("(1 9)", "(5 5)") for line in NEST_VALUES]
# two nest tables, a line each, and a cell table under the same labels, their rows mixed
TWO_NESTS = NEST_LABELS + [
    "(table one nest (k num))",
    "(table two nest (k num))",
    "(table cel cell (k num))",
    "(strong two noads)",
    "(row cel (7 again))",
    "(weak one noads)",
    "(row one again (1 mute))",
    "(row two again (2 free))",
    "(row one mute (3 mute))",
    "(row cel (8 mute))",
    "(row two mute (4 mute))",
    "(row one mute (5 again))",
]
COLUMNS16 = " ".join(f"c{i}" for i in range(16))
SIXTEEN_CELLS = NEST_LABELS + [
    "(table wide nest " + " ".join(f"(c{i} num)" for i in range(16)) + ")",
    "(weak wide noads)",
    "(row wide mute " + " ".join(f"({i} mute)" for i in range(15)) + " (15 again))",
    "(row wide again " + " ".join(f"({i} mute)" for i in range(15)) + " (15 nopost))",
]


def of_64(strong, weak, row, cell):
    """64 labels, of which the last allows all, the one before it denies it, and the others say nothing; those of a nest table by number."""
    silent = [f"(label l{n} (allow) (deny))" for n in range(62)]
    said = ["(label l62 (allow) (deny all))", "(label l63 (allow all) (deny))"]
    lines = ["(table sub nest (k num))", f"(strong sub l{strong})", f"(weak sub l{weak})", f"(row sub l{row} (7 l{cell}))"]
    return SAMPLE[:4] + ASKER + ["(grant all any)"] + silent + said + lines


def nest_of(policy, *lines):
    """One of the policies of 256 purposes, its rows taken out, with a nest table."""
    return [line for line in policy if not line.startswith(("(row ", "(table "))] + ["(table sub nest (k num))", *lines]


DAY = "(clock 2026 100 10)"
NIGHT = "(clock 2026 100 21)"
LEAP = "(clock 2028 366 10)"


def one(name, query, expected, clock=DAY, policy=RICH):
    return (name, policy, [clock, query], [expected])


def end(passed, withheld, unmatched):
    return f"(end {passed} {withheld} {unmatched})"


def nested(depth):
    """A condition on due of so many brackets, true of every value where the number of `not` is even."""
    return "(not " * (depth - 1) + "(ge due 0)" + ")" * (depth - 1)


def nots(count, comparison):
    """A comparison below so many `not`."""
    return "(not " * count + comparison + ")" * count


def wide(n):
    """A policy with n rows of a name of 24 bytes."""
    return SAMPLE[:11] + ["(table long none (who name))", "(public long)"] + ["(row long " + "a" * 24 + ")"] * n


def dashed(long, blank):
    """A policy with so many rows of a name of 24 bytes, and so many closed ones."""
    shut = ["(label shut (allow) (deny))", "(table long cell (who name))"]
    return SAMPLE[:11] + shut + ["(row long (" + "a" * 24 + " free))"] * long + ["(row long (" + "b" * 24 + " shut))"] * blank


LONG_RANGE = "(-9223372036854775808 -9223372036854775807)"


def long_ranges(n):
    """A policy with n rows of a range of 43 bytes."""
    return SAMPLE[:11] + ["(table long none (who num))", "(public long)"] + [f"(row long {LONG_RANGE})"] * n


def both(name, condition, sure, possible):
    """Two sessions over `est`, of whose six rows one is withheld: who is given by sure, and who by possible."""
    return [
        one(f"{word}, {name}", f"({word} ana desk post est (who) {condition})", [f"(row {who})" for who in names] + [end(len(names), 1, 5 - len(names))], DAY, RANGES)
        for word, names in (("sure", sure), ("possible", possible))
    ]


def dated(name, condition, names):
    """Five sessions over `sub`, of whose six rows one is withheld: who is given, by each word that asks, and how many are counted."""
    ended = end(len(names), 1, 5 - len(names))
    return [
        one(f"{word}, {name}", f"({word} ana desk post sub (who) {condition})", [f"(row {who})" for who in names] + [ended], DAY, DATES)
        for word in ("select", "blank", "sure", "possible")
    ] + [one(f"count, {name}", f"(count ana desk post sub {condition})", [ended], DAY, DATES)]


MUTE = "(allow) (deny)"


def come_down(name, opened, cell=MUTE, row=MUTE, weak=None, strong=None):
    """A session over a nest table of one cell, whose labels are given by their sets: to which of the four purposes the cell is open.
    Of the others its row is withheld, and the table is never refused."""
    labels = {"strong": strong, "weak": weak, "row": row, "cell": cell}
    policy = SAMPLE[:4] + ASKER + ["(grant all any)"] + [f"(label l-{at} {sets})" for at, sets in labels.items() if sets is not None]
    policy += ["(table sub nest (k num))"] + [f"({at} sub l-{at})" for at in ("weak", "strong") if labels[at] is not None]
    purposes = ["all", "bill", "ads", "post"]
    queries = [f"(select ana desk {purpose} sub (k))" for purpose in purposes]
    answers = [["(row 7)", end(1, 0, 0)] if purpose in opened.split() else [end(0, 1, 0)] for purpose in purposes]
    return (f"labels come down, {name}", policy + ["(row sub l-row (7 l-cell))"], [DAY, *queries], answers)


def no_date(name, date):
    """A constant that is no date is 31 at its bracket."""
    return one(f"31, {name}", f"(count ana desk post sub (eq born {date}))", (31, date), DAY, DATES)


LONG_DATE = "(2028 12 31)"


def long_dates(n):
    """A policy with n rows of a date of 12 bytes."""
    return SAMPLE[:11] + ["(table long none (who date))", "(public long)"] + [f"(row long {LONG_DATE})"] * n


SIXTEEN = " ".join(["who"] * 16)
LONG_ROW = "(row" + (" " + "a" * 24) * 16 + ")"
DASHES = "(row" + " -" * 16 + ")"
MANY = "(and " + " ".join(["(ge due 0)"] * 64) + ")"
TOO_MANY = "(and " + " ".join(["(ge due 0)"] * 65) + ")"
SAMPLE_QUERY = "(select ana desk post sub (who) (gt due 50))"

SESSIONS = [
    # the sample session and the cases named with it
    one("sample", SAMPLE_QUERY, ["(row Cy)", end(1, 1, 1)], LEAP, SAMPLE),
    one("Bo's 75 made 10", SAMPLE_QUERY, ["(row Cy)", end(1, 1, 1)], LEAP, [x.replace("(75 noads)", "(10 noads)") for x in SAMPLE]),
    one("no condition", "(select ana desk post sub (who))", ["(row Ida)", "(row Bo)", "(row Cy)", end(3, 0, 0)], LEAP, SAMPLE),
    one("for bill", SAMPLE_QUERY.replace("post", "bill"), (14, "bill"), LEAP, SAMPLE),
    one("hour 17", SAMPLE_QUERY, (14, "post"), "(clock 2028 366 17)", SAMPLE),
    one("hour 16", SAMPLE_QUERY, ["(row Cy)", end(1, 1, 1)], "(clock 2028 366 16)", SAMPLE),
    one("day 366 of a common year", SAMPLE_QUERY, (10, None), "(clock 2027 366 10)", SAMPLE),
    # the clock line
    one("year 0", SAMPLE_QUERY, (10, None), "(clock 0 1 10)", SAMPLE),
    one("year 1", SAMPLE_QUERY, ["(row Cy)", end(1, 1, 1)], "(clock 1 1 0)", SAMPLE),
    one("year 9999", SAMPLE_QUERY, ["(row Cy)", end(1, 1, 1)], "(clock 9999 365 10)", SAMPLE),
    one("year 10000", SAMPLE_QUERY, (10, None), "(clock 10000 1 10)", SAMPLE),
    one("1900 is no leap year", SAMPLE_QUERY, (10, None), "(clock 1900 366 10)", SAMPLE),
    one("2000 is one", SAMPLE_QUERY, ["(row Cy)", end(1, 1, 1)], "(clock 2000 366 10)", SAMPLE),
    one("day 0", SAMPLE_QUERY, (10, None), "(clock 2028 0 10)", SAMPLE),
    one("day 367", SAMPLE_QUERY, (10, None), "(clock 2028 367 10)", SAMPLE),
    one("hour 24", SAMPLE_QUERY, (10, None), "(clock 2028 1 24)", SAMPLE),
    one("hour 23", SAMPLE_QUERY, (14, "post"), "(clock 2028 1 23)", SAMPLE),
    one("a year beyond 2^64", SAMPLE_QUERY, (10, None), "(clock 18446744073709553644 1 10)", SAMPLE),
    one("a negative day", SAMPLE_QUERY, (10, None), "(clock 2028 -1 10)", SAMPLE),
    one("a leading zero", SAMPLE_QUERY, (10, None), "(clock 2028 01 10)", SAMPLE),
    one("two spaces", SAMPLE_QUERY, (10, None), "(clock 2028  1 10)", SAMPLE),
    one("a fourth number", SAMPLE_QUERY, (10, None), "(clock 2028 1 10 0)", SAMPLE),
    one("no clock", SAMPLE_QUERY, (10, None), SAMPLE_QUERY, SAMPLE),
    one("an empty clock line", SAMPLE_QUERY, (10, None), "", SAMPLE),
    one("a clock line of 5,000 bytes", SAMPLE_QUERY, (10, None), "(clock 2028 1 10" + " " * 5000 + ")", SAMPLE),
    one("10 before 11", "(select", (10, None), "(clock 0 0 0)", SAMPLE),
    # 11
    one("a blank line", "", (11, WHOLE)),
    one("no form", "select", (11, WHOLE)),
    one("unfinished", "(count ana desk post sub", (11, WHOLE)),
    one("a space behind it", "(count ana desk post sub) ", (11, WHOLE)),
    one("a carriage return behind it", "(count ana desk post sub)\r", (11, WHOLE)),
    one("no column", "(select ana desk post sub ())", (11, WHOLE)),
    one("no column bracket", "(select ana desk post sub)", (11, WHOLE)),
    one("17 columns", "(select ana desk post sub (" + SIXTEEN + " who))", (11, WHOLE)),
    one("16 columns", "(select ana desk bill plain (" + SIXTEEN + ") (eq who Bo))", ["(row" + " Bo" * 16 + ")", end(1, 0, 1)]),
    one("64 comparisons", "(count ana desk bill plain " + MANY + ")", [end(1, 0, 1)]),
    one("65 comparisons", "(count ana desk bill plain " + TOO_MANY + ")", (11, WHOLE)),
    one("nesting 16", "(count ana desk bill plain " + nested(15) + ")", [end(1, 0, 1)]),
    one("nesting 17", "(count ana desk bill plain " + nested(16) + ")", (11, WHOLE)),
    one("a number out of range", "(count ana desk bill plain (eq due 9223372036854775808))", (11, WHOLE)),
    one("a name of 25 bytes", "(count ana desk bill " + "a" * 25 + ")", (11, WHOLE)),
    one("4,096 bytes", "(count ana desk bill " + "a" * 4074 + ")", (11, WHOLE)),
    one("4,097 bytes", "(count ana desk bill plain)" + " " * 4070, (11, WHOLE)),
    one("70,000 bytes", "(" * 70000, (11, WHOLE)),
    one("another keyword", "(delete ana desk bill plain)", (11, WHOLE)),
    # 12
    one("unknown user", "(count zed desk post sub)", (12, "zed")),
    one("unknown role", "(count ana boss post sub)", (12, "boss")),
    one("unknown purpose", "(count ana desk sport sub)", (12, "sport")),
    one("the leftmost counts", "(count ana boss sport nowhere)", (12, "boss")),
    one("12 before 15", "(count ana desk sport nowhere)", (12, "sport")),
    one("a user whose name is longer", "(count anna desk post sub)", (12, "anna")),
    # 13
    one("a role below the user's", "(count ana night post sub)", (13, "night")),
    one("a role above the user's", "(count ana staff post sub)", (13, "staff")),
    one("another user's role", "(count cyd desk post sub)", (13, "desk")),
    # 14
    one("granted above", "(count ana desk mail plain)", [end(2, 0, 0)]),
    one("granted below only", "(count ana desk all plain)", (14, "all")),
    one("the condition fails", "(count bob night ads plain)", (14, "ads")),
    one("the role is not below", "(count cyd staff bill plain)", (14, "bill")),
    one("the user in another role", "(count ana lab bill plain)", [end(2, 0, 0)]),
    one("that role has no other grant", "(count ana lab ads plain)", (14, "ads")),
    one("at night all is granted", "(count bob night all plain)", [end(2, 0, 0)], NIGHT),
    one("on day 366 too", "(count bob night bill plain)", [end(2, 0, 0)], LEAP),
    one("14 before 15", "(count ana desk all nowhere)", (14, "all")),
    # 15
    one("unknown table", "(count ana desk post nowhere)", (15, "nowhere")),
    one("unknown column", "(select ana desk post sub (who what due))", (15, "what")),
    one("unknown column in the condition", "(select ana desk post sub (who) (or (eq who Ida) (eq what 3)))", (15, "what")),
    one("the clock is no column", "(count ana desk post sub (gt hour 5))", (15, "hour")),
    one("a column of another table", "(count ana desk post sub (eq tag x))", (15, "tag")),
    one("15 before 16", "(count ana desk post sub (and (gt who 5) (eq what 1)))", (15, "what")),
    # 16
    one("an order of names", "(count ana desk post sub (gt who Ida))", (16, "gt")),
    one("a name for a number", "(count ana desk post sub (eq due Ida))", (16, "Ida")),
    one("a number for a name", "(count ana desk post sub (ne who 5))", (16, "5")),
    one("the operator comes first", "(count ana desk post sub (le who 5))", (16, "le")),
    one("16 before 17", "(count ana desk post led (lt who Cy))", (16, "lt")),
    # 17
    one("table closed", "(select ana desk post led (who))", (17, "led")),
    one("table closed to a count", "(count ana desk mail led)", (17, "led")),
    one("table closed to an ancestor of what is denied", "(count bob night all led)", (17, "led"), NIGHT),
    one("denied root", "(count ana desk bill dark)", (17, "dark")),
    one("column closed", "(select ana desk post cols (who tag due))", (17, "tag")),
    one("column closed in the condition", "(select ana desk post cols (who) (gt due 7))", (17, "due")),
    one("column closed in a branch not reached", "(count ana desk post cols (or (eq who Dee) (eq tag x)))", (17, "tag")),
    # 18
    one("an answer of 59,696 bytes", "(select ana desk post long (" + SIXTEEN + "))", [LONG_ROW] * 147 + [end(147, 0, 0)], DAY, wide(147)),
    one("an answer of 60,102 bytes", "(select ana desk post long (" + SIXTEEN + "))", (18, None), DAY, wide(148)),
    # scheme none: 17 until it is declared public (02, Q-2)
    one("undeclared", "(select ana desk post plain (due who))", (17, "plain"), DAY, UNDECLARED),
    one("undeclared, count", "(count ana desk bill plain)", (17, "plain"), DAY, UNDECLARED),
    one("undeclared, count with a condition", "(count ana desk bill plain (lt due 0))", (17, "plain"), DAY, UNDECLARED),
    one("undeclared, the root", "(count bob night all plain)", (17, "plain"), NIGHT, UNDECLARED),
    one("undeclared, the lowest purpose", "(count ana desk mail nums)", (17, "nums"), DAY, UNDECLARED),
    one("undeclared, in another case", "(count ana desk bill PLAIN)", (17, "PLAIN"), DAY, UNDECLARED),
    one("undeclared, no rows", "(count ana desk bill other)", (17, "other"), DAY, declared("(public open)")),
    one("undeclared, a name of the query before the table's", "(count ana desk bill desk)", (17, ("desk", 1)), DAY, declared("(table desk none (k num))")),
    one("undeclared, 14 before 17", "(count ana desk all plain)", (14, "all"), DAY, UNDECLARED),
    one("undeclared, 15 before 17", "(select ana desk bill plain (who tag))", (15, "tag"), DAY, UNDECLARED),
    one("undeclared, 16 before 17", "(count ana desk bill plain (eq due Ida))", (16, "Ida"), DAY, UNDECLARED),
    one("undeclared, 17 before 18", "(select ana desk post long (" + SIXTEEN + "))", (17, "long"), DAY, [line for line in wide(148) if line != "(public long)"]),
    one("undeclared, the labelled tables as ever", "(select ana desk bill recs (who) (gt due 15))", ["(row Gus)", "(row Hal)", end(2, 1, 1)], DAY, UNDECLARED),
    ("declared before the rows", declared("(public open)", "(row open 1)", "(row open 2)"), [DAY, "(select ana desk all open (k))", "(count ana desk post open (gt k 1))"], [["(row 1)", "(row 2)", end(2, 0, 0)], [end(1, 0, 1)]]),
    ("declared between the rows", declared("(row open 1)", "(public open)", "(row open 2)"), [DAY, "(select ana desk bill open (k))"], [["(row 1)", "(row 2)", end(2, 0, 0)]]),
    ("declared behind the rows", declared("(row open 1)", "(row other 3)", "(row open 2)", "(public open)"), [DAY, "(select ana desk ads open (k))"], [["(row 1)", "(row 2)", end(2, 0, 0)]]),
    ("declared in capitals", declared("(row open 1)", "(PUBLIC OPEN)"), [DAY, "(select ana desk post open (k))"], [["(row 1)", end(1, 0, 0)]]),
    ("one of two declared", declared("(public other)", "(row other 3)", "(row open 1)"), [DAY, "(count ana desk post open)", "(count ana desk post other)"], [(17, "open"), [end(1, 0, 0)]]),
    ("both declared", declared("(public other)", "(row other 3)", "(public open)", "(row open 1)"), [DAY, "(count ana desk post open)", "(select ana desk post other (k))"], [[end(1, 0, 0)], ["(row 3)", end(1, 0, 0)]]),
    # on a labelled table the line does nothing
    one("public and closed by the table's label", "(count ana desk mail led)", (17, "led"), DAY, LABELLED),
    one("public and a denied root", "(count ana desk bill dark)", (17, "dark"), DAY, LABELLED),
    one("public and open by the table's label", "(select ana desk bill led (who due))", ["(row Cy 1)", end(1, 0, 0)], DAY, LABELLED),
    one("public and a column closed", "(select ana desk post cols (who tag due))", (17, "tag"), DAY, LABELLED),
    one("public and the open columns", "(select ana desk post cols (who))", ["(row Dee)", "(row Eve)", end(2, 0, 0)], DAY, LABELLED),
    one("public and rows closed", "(select ana desk post recs (who due))", ["(row Fay 10)", end(1, 3, 0)], DAY, LABELLED),
    one("public and cells closed", "(select ana desk post sub (who) (gt due 50))", [end(0, 3, 1)], DAY, LABELLED),
    one("public and no cell named", "(count ana desk post sub)", [end(4, 0, 0)], DAY, LABELLED),
    # scheme none, declared public
    one("none", "(select ana desk post plain (due who))", ["(row 40 Ida)", "(row -75 Bo)", end(2, 0, 0)]),
    one("none, count", "(count ana desk post plain (lt due 0))", [end(1, 0, 1)]),
    one("repeats", "(select ana desk bill plain (who who due who) (eq due -75))", ["(row Bo Bo -75 Bo)", end(1, 0, 1)]),
    # scheme table
    one("table", "(select ana desk bill led (who due))", ["(row Cy 1)", end(1, 0, 0)]),
    one("table, count", "(count ana desk bill led (eq who Bo))", [end(0, 0, 1)]),
    # scheme column
    one("column, open ones", "(select ana desk post cols (who))", ["(row Dee)", "(row Eve)", end(2, 0, 0)]),
    one("column, nothing named", "(count ana desk post cols)", [end(2, 0, 0)]),
    one("column, all", "(select ana desk bill cols (tag due who) (ne tag x))", ["(row y 8 Eve)", end(1, 0, 1)]),
    # scheme row
    one("row", "(select ana desk post recs (who due))", ["(row Fay 10)", end(1, 3, 0)]),
    one("row, nothing named", "(count ana desk post recs)", [end(1, 3, 0)]),
    one("row, withheld whatever the condition says", "(count ana desk post recs (gt due 15))", [end(0, 3, 1)]),
    one("row, another purpose", "(select ana desk bill recs (who) (gt due 15))", ["(row Gus)", "(row Hal)", end(2, 1, 1)]),
    one("row, an ancestor of what is denied", "(count bob night all recs)", [end(1, 3, 0)], NIGHT),
    # scheme cell
    one("cell", "(select ana desk post sub (who))", ["(row Ida)", "(row Bo)", "(row Dot)", end(3, 1, 0)]),
    one("cell, the other column", "(select ana desk post sub (due))", ["(row 40)", "(row 60)", end(2, 2, 0)]),
    one("cell, the condition's cell closed", "(select ana desk post sub (who) (gt due 50))", [end(0, 3, 1)]),
    one("cell, nothing named", "(count ana desk post sub)", [end(4, 0, 0)]),
    one("cell, count", "(count ana desk post sub (ge due 50))", [end(1, 2, 1)]),
    one("cell, a branch not reached", "(count ana desk post sub (or (ge due 0) (eq who Ida)))", [end(1, 3, 0)]),
    one("cell, another purpose", "(select ana desk bill sub (who due))", ["(row Ida 40)", "(row Bo 75)", "(row Cy 60)", end(3, 1, 0)]),
    # blanks instead of missing rows (02, Q-10)
    one("blank", "(blank ana desk post sub (who due))", ["(row Ida 40)", "(row Bo -)", "(row - 60)", "(row Dot -)", end(4, 0, 0)]),
    one("blank, the sample", "(blank ana desk post sub (who due))", ["(row Ida 40)", "(row Bo -)", "(row Cy 60)", end(3, 0, 0)], LEAP, SAMPLE),
    one("blank, the sample's condition", "(blank ana desk post sub (who) (gt due 50))", ["(row Cy)", end(1, 1, 1)], LEAP, SAMPLE),
    one("blank, another purpose", "(blank ana desk bill sub (who due))", ["(row Ida 40)", "(row Bo 75)", "(row Cy 60)", "(row Dot -)", end(4, 0, 0)]),
    one("blank, open columns alone", "(blank ana desk bill sub (who))", ["(row Ida)", "(row Bo)", "(row Cy)", "(row Dot)", end(4, 0, 0)]),
    one("blank, a condition", "(blank ana desk post sub (who) (gt due 50))", ["(row -)", end(1, 2, 1)]),
    one("blank, a condition on the other column", "(blank ana desk post sub (due) (ne who Ida))", ["(row -)", "(row -)", end(2, 1, 1)]),
    one("blank, a cell selected and in the condition", "(blank ana desk post sub (who due) (ge due 50))", ["(row - 60)", end(1, 2, 1)]),
    one("blank, both selected and in the condition", "(blank ana desk post sub (who due) (and (ge due 0) (ne who Bo)))", ["(row Ida 40)", end(1, 3, 0)]),
    one("blank, a branch not reached", "(blank ana desk post sub (who) (or (ge due 0) (eq who Ida)))", ["(row Ida)", end(1, 3, 0)]),
    one("blank, withheld whatever the condition says", "(blank ana desk post sub (who) (gt due 100))", [end(0, 2, 2)]),
    one("blank, no row matches", "(blank ana desk bill sub (due) (eq who Zoe))", [end(0, 0, 4)]),
    one("blank beside negative numbers", "(blank ana desk post neg (k n))", ["(row -1 -)", "(row - -4)", "(row - 0)", end(3, 0, 0)], DAY, BLANKS),
    one("blank, the same numbers open", "(blank ana desk bill neg (k n))", ["(row -1 -2)", "(row -3 -4)", "(row -9223372036854775808 0)", end(3, 0, 0)], DAY, BLANKS),
    one("blank, a column again", "(blank ana desk post neg (n k n))", ["(row - -1 -)", "(row -4 - -4)", "(row 0 - 0)", end(3, 0, 0)], DAY, BLANKS),
    one("blank, a column again in another case", "(blank ana desk post neg (n N))", ["(row - -)", "(row -4 -4)", "(row 0 0)", end(3, 0, 0)], DAY, BLANKS),
    one("blank, every cell closed", "(blank ana desk post dark (a b))", ["(row - -)", "(row - -)", end(2, 0, 0)], DAY, BLANKS),
    one("blank, every cell closed and one in the condition", "(blank ana desk post dark (b) (gt a 0))", [end(0, 2, 0)], DAY, BLANKS),
    one("blank, every cell closed but one", "(blank ana desk bill dark (a b) (eq b Y))", ["(row - y)", end(1, 1, 0)], DAY, BLANKS),
    one("blank, sixteen columns", "(blank ana desk post dark (" + " ".join(["a", "b"] * 8) + "))", [DASHES, DASHES, end(2, 0, 0)], DAY, BLANKS),
    one("blank, no rows", "(blank ana desk post bare (a))", [end(0, 0, 0)], DAY, BLANKS),
    one("select where a blank has gaps", "(select ana desk post dark (a b))", [end(0, 2, 0)], DAY, BLANKS),
    # blank over the other schemes
    one("blank, undeclared", "(blank ana desk post plain (due who))", (17, "plain"), DAY, UNDECLARED),
    one("blank, public", "(blank ana desk post plain (due who))", ["(row 40 Ida)", "(row -75 Bo)", end(2, 0, 0)]),
    one("blank, table closed", "(blank ana desk post led (who))", (17, "led")),
    one("blank, table open", "(blank ana desk bill led (who due) (eq who cy))", ["(row Cy 1)", end(1, 0, 0)]),
    one("blank, a closed column that is only selected", "(blank ana desk post cols (who tag due))", (17, "tag")),
    one("blank, a closed column in the condition", "(blank ana desk post cols (who) (gt due 7))", (17, "due")),
    one("blank, open columns", "(blank ana desk post cols (who) (ne who dee))", ["(row Eve)", end(1, 0, 1)]),
    one("blank, rows closed", "(blank ana desk post recs (who due))", ["(row Fay 10)", end(1, 3, 0)]),
    one("blank, rows closed whatever the condition says", "(blank ana desk post recs (who) (gt due 15))", [end(0, 3, 1)]),
    one("blank, rows of another purpose", "(blank ana desk bill recs (due who))", ["(row 10 Fay)", "(row 20 Gus)", "(row 30 Hal)", end(3, 1, 0)]),
    # blank refused as a select is, and in other cases
    one("blank without columns", "(blank ana desk post sub ())", (11, WHOLE)),
    one("blank without a column bracket", "(blank ana desk post sub)", (11, WHOLE)),
    one("blank of 17 columns", "(blank ana desk post sub (" + SIXTEEN + " who))", (11, WHOLE)),
    one("blank of 65 comparisons", "(blank ana desk post sub (who) " + TOO_MANY + ")", (11, WHOLE)),
    one("blank with two conditions", "(blank ana desk post sub (who) (gt due 0) (gt due 0))", (11, WHOLE)),
    one("a blank is no column", "(blank ana desk post sub (-))", (11, WHOLE)),
    one("a blank is no value", "(blank ana desk post sub (who) (eq who -))", (11, WHOLE)),
    one("blanks, a longer word", "(blanks ana desk post sub (who))", (11, WHOLE)),
    one("blank, unknown user", "(blank zed desk post sub (who))", (12, "zed")),
    one("blank, a role that is not the user's", "(blank ana night post sub (who))", (13, "night")),
    one("blank, a purpose not granted", "(blank ana desk all sub (who))", (14, "all")),
    one("blank, unknown table", "(blank ana desk post nowhere (who))", (15, "nowhere")),
    one("blank, unknown column", "(blank ana desk post sub (who what))", (15, "what")),
    one("blank, unknown column in the condition", "(blank ana desk post sub (who) (not (eq what 1)))", (15, "what")),
    one("blank, an order of names", "(blank ana desk post sub (due) (lt who Ida))", (16, "lt")),
    one("blank, 16 before 17", "(blank ana desk post led (who) (eq due x))", (16, "x")),
    one("blank in capitals", "(BLANK ANA DESK POST SUB (WHO DUE) (NE WHO IDA))", ["(row Bo -)", "(row Dot -)", end(2, 1, 1)]),
    one("blank in mixed case", "(Blank ana desk post sub (Who due) (Gt Due 50))", ["(row - 60)", end(1, 2, 1)]),
    one("blank, an answer of 60,000 bytes", "(blank ana desk post long (" + SIXTEEN + "))", [LONG_ROW] * 147 + [DASHES] * 8 + [end(155, 0, 0)], DAY, dashed(147, 8)),
    one("blank, an answer of 60,038 bytes", "(blank ana desk post long (" + SIXTEEN + "))", (18, None), DAY, dashed(147, 9)),
    # ranges (02, Q-12)
    *both("lt", "(lt due 5)", ["Dot"], ["Bo", "Dot", "Eve"]),
    *both("le", "(le due 5)", ["Ida", "Cy", "Dot"], ["Ida", "Bo", "Cy", "Dot", "Eve"]),
    *both("gt", "(gt due 5)", [], ["Bo", "Eve"]),
    *both("ge", "(ge due 5)", ["Ida", "Cy"], ["Ida", "Bo", "Cy", "Eve"]),
    *both("eq", "(eq due 5)", ["Ida", "Cy"], ["Ida", "Bo", "Cy", "Eve"]),
    *both("ne", "(ne due 5)", ["Dot"], ["Bo", "Dot", "Eve"]),
    *both("an end that is in it", "(ge due 3)", ["Ida", "Bo", "Cy"], ["Ida", "Bo", "Cy", "Eve"]),
    *both("beyond an end", "(lt due 3)", ["Dot"], ["Dot", "Eve"]),
    *both("the upper end", "(le due 8)", ["Ida", "Bo", "Cy", "Dot"], ["Ida", "Bo", "Cy", "Dot", "Eve"]),
    *both("eq of one number below zero", "(eq due -3)", ["Dot"], ["Dot", "Eve"]),
    *both("ne of one number below zero", "(ne due -3)", ["Ida", "Bo", "Cy"], ["Ida", "Bo", "Cy", "Eve"]),
    *both("all numbers", "(ge due -9223372036854775808)", ["Ida", "Bo", "Cy", "Dot", "Eve"], ["Ida", "Bo", "Cy", "Dot", "Eve"]),
    *both("the largest number", "(gt due 9223372036854775806)", [], ["Eve"]),
    *both("the least number", "(eq due -9223372036854775808)", [], ["Eve"]),
    *both("not", "(not (lt due 5))", ["Ida", "Cy"], ["Ida", "Bo", "Cy", "Eve"]),
    *both("not twice", "(not (not (lt due 5)))", ["Dot"], ["Bo", "Dot", "Eve"]),
    *both("or of a comparison and its contrary", "(or (lt due 5) (ge due 5))", ["Ida", "Cy", "Dot"], ["Ida", "Bo", "Cy", "Dot", "Eve"]),
    *both("and of a comparison and its contrary", "(and (lt due 5) (ge due 5))", [], ["Bo", "Eve"]),
    *both("not of that and", "(not (and (lt due 5) (ge due 5)))", ["Ida", "Cy", "Dot"], ["Ida", "Bo", "Cy", "Dot", "Eve"]),
    *both("names", "(ne who IDA)", ["Bo", "Cy", "Dot", "Eve"], ["Bo", "Cy", "Dot", "Eve"]),
    *both("names and ranges", "(not (or (eq who bo) (gt due 0)))", ["Dot"], ["Dot", "Eve"]),
    one("sure without a condition", "(sure ana desk post est (who due))", ["(row Ida 5)", "(row Bo (3 8))", "(row Cy (5 5))", "(row Dot (-3 -3))", "(row Eve (-9223372036854775808 9223372036854775807))", end(5, 1, 0)], DAY, RANGES),
    one("possible without a condition, columns again", "(possible ana desk bill cel (due who DUE))", ["(row (1 4) Ida (1 4))", "(row (1 9) Bo (1 9))", "(row 7 Cy 7)", end(3, 0, 0)], DAY, RANGES),
    one("sure, another purpose", "(sure ana desk bill est (who due) (ge due 6))", ["(row Fay (6 7))", end(1, 0, 5)], DAY, RANGES),
    one("sure over cells", "(sure ana desk post cel (who due))", ["(row Ida (1 4))", end(1, 2, 0)], DAY, RANGES),
    one("sure over cells, a condition", "(sure ana desk post cel (who) (gt due 3))", [end(0, 2, 1)], DAY, RANGES),
    one("possible over cells, a condition", "(possible ana desk post cel (who) (gt due 3))", ["(row Ida)", end(1, 2, 0)], DAY, RANGES),
    one("possible over cells, one column", "(possible ana desk post cel (due) (gt due 3))", ["(row (1 4))", "(row 7)", end(2, 1, 0)], DAY, RANGES),
    one("sure over a public table", "(sure ana desk post open (due lot) (eq due 3))", ["(row 3 9)", end(1, 0, 1)], DAY, RANGES),
    one("possible over a public table", "(possible ana desk post open (due lot) (eq due 3))", ["(row (1 5) 7)", "(row 3 9)", end(2, 0, 0)], DAY, RANGES),
    one("sure, undeclared", "(sure ana desk post bare (due))", (17, "bare"), DAY, RANGES),
    one("possible, table closed", "(possible ana desk post led (due))", (17, "led"), DAY, RANGES),
    one("possible, table open", "(possible ana desk bill led (due) (ge due 5))", ["(row (1 5))", end(1, 0, 0)], DAY, RANGES),
    one("sure, column closed", "(sure ana desk post cols (who due))", (17, "due"), DAY, RANGES),
    one("sure, column open", "(sure ana desk bill cols (who due) (le due 5))", ["(row Gus (1 5))", end(1, 0, 0)], DAY, RANGES),
    one("sure where there is no range", "(sure ana desk post sub (who) (gt due 50))", ["(row Cy)", end(1, 1, 1)], LEAP, SAMPLE),
    one("possible where there is no range", "(possible ana desk post sub (who) (gt due 50))", ["(row Cy)", end(1, 1, 1)], LEAP, SAMPLE),
    one("closed ranges in other ends, sure", "(sure ana desk post est (who) (le due 5))", ["(row Ida)", "(row Cy)", "(row Dot)", end(3, 1, 2)], DAY, OTHER_ENDS),
    one("closed ranges in other ends, possible", "(possible ana desk post cel (due) (gt due 3))", ["(row (1 4))", "(row 7)", end(2, 1, 0)], DAY, OTHER_ENDS),
    # 27
    one("27, selected", "(select ana desk post est (who due))", (27, "due"), DAY, RANGES),
    one("27, the leftmost", "(select ana desk post est (due who DUE))", (27, "due"), DAY, RANGES),
    one("27, in the condition", "(select ana desk post est (who) (or (eq who Ida) (eq Due 5)))", (27, "Due"), DAY, RANGES),
    one("27, count", "(count ana desk post est (gt due 3))", (27, "due"), DAY, RANGES),
    one("27, blank", "(blank ana desk post cel (who due))", (27, "due"), DAY, RANGES),
    one("27, the one column with a range", "(select ana desk post open (lot due))", (27, "due"), DAY, RANGES),
    one("27, a range in a withheld row alone", "(count ana desk post est (gt due 3))", (27, "due"), DAY, ONE_RANGE),
    one("27, the same, asked by sure", "(sure ana desk post est (who due))", ["(row Ida 5)", end(1, 1, 0)], DAY, ONE_RANGE),
    one("27 before 17, a closed table", "(select ana desk post led (due))", (27, "due"), DAY, RANGES),
    one("27 before 17, a closed column", "(select ana desk post cols (who due))", (27, "due"), DAY, RANGES),
    one("27 before 17, an undeclared table", "(count ana desk post bare (eq due 1))", (27, "due"), DAY, RANGES),
    one("17 where no column with a range is named", "(count ana desk post led)", (17, "led"), DAY, RANGES),
    one("27 before 18", "(select ana desk post long (" + SIXTEEN + "))", (27, "who"), DAY, long_ranges(85)),
    one("15 before 27", "(select ana desk post est (due what))", (15, "what"), DAY, RANGES),
    one("16 before 27", "(select ana desk post est (due) (eq due x))", (16, "x"), DAY, RANGES),
    one("16 before 27, an operator", "(select ana desk post est (due) (lt who Ida))", (16, "lt"), DAY, RANGES),
    one("no column with a range named", "(select ana desk post est (who) (eq who ida))", ["(row Ida)", end(1, 1, 4)], DAY, RANGES),
    one("no column with a range named, a blank", "(blank ana desk post cel (who))", ["(row Ida)", "(row Bo)", "(row -)", end(3, 0, 0)], DAY, RANGES),
    one("ranges and nothing named", "(count ana desk post est)", [end(5, 1, 0)], DAY, RANGES),
    one("a number beside a column of ranges", "(select ana desk post open (lot) (gt lot 7))", ["(row 9)", end(1, 0, 1)], DAY, RANGES),
    # forms of sure and possible
    one("sure without columns", "(sure ana desk post est)", (11, WHOLE), DAY, RANGES),
    one("possible with an empty bracket", "(possible ana desk post est ())", (11, WHOLE), DAY, RANGES),
    one("sure of 17 columns", "(sure ana desk post est (" + SIXTEEN + " who))", (11, WHOLE), DAY, RANGES),
    one("a range in a comparison", "(sure ana desk post est (who) (eq due (1 5)))", (11, WHOLE), DAY, RANGES),
    one("a range for a column", "(possible ana desk post est ((1 5)))", (11, WHOLE), DAY, RANGES),
    one("another word for sure", "(surely ana desk post est (who))", (11, WHOLE), DAY, RANGES),
    one("sure, unknown user", "(sure zed desk post est (who))", (12, "zed"), DAY, RANGES),
    one("possible, unknown purpose", "(possible ana desk sport est (who))", (12, "sport"), DAY, RANGES),
    one("sure, unknown column", "(sure ana desk post est (who what))", (15, "what"), DAY, RANGES),
    one("possible, a name for a number", "(possible ana desk post est (who) (not (eq due Ida)))", (16, "Ida"), DAY, RANGES),
    one("sure in capitals", "(SURE ANA DESK POST EST (WHO) (LT DUE 5))", ["(row Dot)", end(1, 1, 4)], DAY, RANGES),
    one("possible in mixed case", "(Possible ana desk post Est (Who) (Gt Due 8))", ["(row Eve)", end(1, 1, 4)], DAY, RANGES),
    one("sure, an answer of 59,653 bytes", "(sure ana desk post long (" + SIXTEEN + "))", ["(row" + (" " + LONG_RANGE) * 16 + ")"] * 84 + [end(84, 0, 0)], DAY, long_ranges(84)),
    one("sure, an answer of 60,363 bytes", "(sure ana desk post long (" + SIXTEEN + "))", (18, None), DAY, long_ranges(85)),
    # dates (02, Q-14)
    *dated("dates eq", "(eq born (2000 2 29))", ["Ida"]),
    *dated("dates ne", "(ne born (2000 2 29))", ["Bo", "Cy", "Dot", "Eve"]),
    *dated("dates lt", "(lt born (2000 2 29))", ["Bo", "Dot"]),
    *dated("dates le", "(le born (2000 2 29))", ["Ida", "Bo", "Dot"]),
    *dated("dates gt", "(gt born (2000 2 29))", ["Cy", "Eve"]),
    *dated("dates ge", "(ge born (2000 2 29))", ["Ida", "Cy", "Eve"]),
    *dated("the year before the day", "(lt born (2000 1 1))", ["Bo", "Dot"]),
    *dated("the month before the day", "(gt born (2000 2 28))", ["Ida", "Cy", "Eve"]),
    *dated("the first date", "(ge born (1 1 1))", ["Ida", "Bo", "Cy", "Dot", "Eve"]),
    *dated("before the first date", "(lt born (1 1 1))", []),
    *dated("the last date", "(eq born (9999 12 31))", ["Eve"]),
    *dated("a year of dates", "(and (ge born (2000 1 1)) (le born (2000 12 31)))", ["Ida", "Cy"]),
    *dated("dates and not", "(not (ge born (2000 2 29)))", ["Bo", "Dot"]),
    *dated("dates and numbers", "(or (eq born (1 1 1)) (gt due 5))", ["Bo", "Cy", "Dot"]),
    *dated("dates in capitals", "(NOT (OR (EQ Born (1 1 1)) (NOT (GT DUE 5))))", ["Bo", "Cy"]),
    one("dates as written", "(select ana desk post sub (born who))", ["(row (2000 2 29) Ida)", "(row (1999 12 31) Bo)", "(row (2000 3 1) Cy)", "(row (1 1 1) Dot)", "(row (9999 12 31) Eve)", end(5, 1, 0)], DAY, DATES),
    one("a date twice", "(select ana desk post cel (born BORN))", ["(row (2028 2 9) (2028 2 9))", "(row (2027 12 31) (2027 12 31))", end(2, 1, 0)], DAY, DATES),
    one("dates of cells", "(select ana desk post cel (who born))", ["(row Ida (2028 2 9))", end(1, 2, 0)], DAY, DATES),
    one("dates of cells, another purpose", "(select ana desk bill cel (born) (gt born (2027 12 31)))", ["(row (2028 2 9))", "(row (2028 10 1))", end(2, 0, 1)], DAY, DATES),
    one("a date for a gap", "(blank ana desk post cel (who born))", ["(row Ida (2028 2 9))", "(row Bo -)", "(row - (2027 12 31))", end(3, 0, 0)], DAY, DATES),
    one("a closed date in a blank's condition", "(blank ana desk post cel (who) (lt born (2028 1 1)))", ["(row -)", end(1, 1, 1)], DAY, DATES),
    one("a date beside a range, sure", "(sure ana desk post open (born due) (and (eq born (2024 2 29)) (gt due 0)))", ["(row (2024 2 29) (1 5))", end(1, 0, 1)], DAY, DATES),
    one("a date beside a range, possible", "(possible ana desk post open (due) (not (lt born (2028 2 29))))", ["(row 3)", end(1, 0, 1)], DAY, DATES),
    one("a date beside a range, select", "(select ana desk post open (born))", ["(row (2024 2 29))", "(row (2028 2 29))", end(2, 0, 0)], DAY, DATES),
    one("dates of a table open as a whole", "(select ana desk bill led (born) (le born (2028 2 29)))", ["(row (2028 2 29))", end(1, 0, 0)], DAY, DATES),
    one("dates of an open column", "(select ana desk bill cols (who born))", ["(row Gus (2028 2 29))", end(1, 0, 0)], DAY, DATES),
    one("closed dates made others, select", "(select ana desk post sub (who born) (ge born (2000 3 1)))", ["(row Cy (2000 3 1))", "(row Eve (9999 12 31))", end(2, 1, 3)], DAY, OTHER_DATES),
    one("closed dates made others, blank", "(blank ana desk post cel (born who))", ["(row (2028 2 9) Ida)", "(row - Bo)", "(row (2027 12 31) -)", end(3, 0, 0)], DAY, OTHER_DATES),
    one("closed dates made others, a closed table", "(count ana desk post led (eq born (2028 2 29)))", (17, "led"), DAY, OTHER_DATES),
    one("dates, an answer of 59,934 bytes", "(select ana desk post long (" + SIXTEEN + "))", ["(row" + (" " + LONG_DATE) * 16 + ")"] * 280 + [end(280, 0, 0)], DAY, long_dates(280)),
    one("dates, an answer of 60,148 bytes", "(select ana desk post long (" + SIXTEEN + "))", (18, None), DAY, long_dates(281)),
    # 31
    no_date("29 February of 1900", "(1900 2 29)"),
    no_date("29 February of 2100", "(2100 2 29)"),
    no_date("30 February of 2000", "(2000 2 30)"),
    no_date("month 0", "(2028 0 1)"),
    no_date("month 13", "(2028 13 1)"),
    no_date("day 0", "(2028 1 0)"),
    no_date("31 April", "(2028 4 31)"),
    no_date("year 0", "(0 1 1)"),
    no_date("year 10000", "(10000 1 1)"),
    no_date("negative numbers", "(-2028 -2 -9)"),
    no_date("numbers of all sizes", "(9223372036854775807 -9223372036854775808 0)"),
    one("29 February of 2000 and 2024", "(count ana desk post sub (or (eq born (2000 2 29)) (eq born (2024 2 29))))", [end(1, 1, 4)], DAY, DATES),
    one("31, the leftmost", "(count ana desk post sub (or (eq born (1 1 1)) (eq born (0 1 1)) (eq born (0 0 0))))", (31, "(0 1 1)"), DAY, DATES),
    one("31, a comparison that is not reached", "(select ana desk post sub (who) (or (ge due 0) (eq born (0 1 1))))", (31, "(0 1 1)"), DAY, DATES),
    one("31 where all rows are withheld", "(count ana desk all cel (eq born (0 1 1)))", (31, "(0 1 1)"), DAY, DATES),
    one("31 of a blank", "(blank ana desk post cel (born) (lt born (2027 2 29)))", (31, "(2027 2 29)"), DAY, DATES),
    one("31 of sure", "(sure ana desk post open (due) (lt born (2027 2 29)))", (31, "(2027 2 29)"), DAY, DATES),
    one("31 of possible", "(possible ana desk post open (due) (not (lt born (2027 2 29))))", (31, "(2027 2 29)"), DAY, DATES),
    one("15 before 31", "(count ana desk post sub (or (eq born (0 1 1)) (eq what 1)))", (15, "what"), DAY, DATES),
    one("16 before 31", "(count ana desk post sub (or (eq born (0 1 1)) (eq due x)))", (16, "x"), DAY, DATES),
    one("27 before 31", "(select ana desk post open (due) (eq born (0 1 1)))", (27, "due"), DAY, DATES),
    one("31 before 17, a closed table", "(count ana desk post led (eq born (0 1 1)))", (31, "(0 1 1)"), DAY, DATES),
    one("31 before 17, a closed column", "(select ana desk post cols (who) (eq born (0 1 1)))", (31, "(0 1 1)"), DAY, DATES),
    one("31 before 17, an undeclared table", "(count ana desk post bare (eq born (0 1 1)))", (31, "(0 1 1)"), DAY, DATES),
    one("17 behind a date that there is", "(select ana desk post cols (who) (eq born (1 1 1)))", (17, "born"), DAY, DATES),
    one("31 before 18", "(select ana desk post long (" + SIXTEEN + ") (ne who (0 1 1)))", (31, "(0 1 1)"), DAY, long_dates(281)),
    # 16 and 11 of dates
    one("a number for a date", "(count ana desk post sub (eq born 2000))", (16, "2000"), DAY, DATES),
    one("a name for a date", "(count ana desk post sub (eq born today))", (16, "today"), DAY, DATES),
    one("a date for a number", "(count ana desk post sub (eq due (2000 2 29)))", (16, "(2000 2 29)"), DAY, DATES),
    one("a date of no day for a number", "(count ana desk post sub (eq due (0 1 1)))", (16, "(0 1 1)"), DAY, DATES),
    one("a date for a name", "(count ana desk post sub (ne who (2000 2 29)))", (16, "(2000 2 29)"), DAY, DATES),
    one("an operator and a date for a name", "(count ana desk post sub (lt who (2000 2 29)))", (16, "lt"), DAY, DATES),
    one("a range for a date", "(count ana desk post sub (eq born (1 5)))", (11, WHOLE), DAY, DATES),
    one("a date of four numbers", "(count ana desk post sub (eq born (2000 2 29 1)))", (11, WHOLE), DAY, DATES),
    one("a date with a month's name", "(count ana desk post sub (eq born (2000 feb 29)))", (11, WHOLE), DAY, DATES),
    one("a date with leading zeros", "(count ana desk post sub (eq born (2000 02 29)))", (11, WHOLE), DAY, DATES),
    one("a date with a number out of range", "(count ana desk post sub (eq born (2000 2 9223372036854775808)))", (11, WHOLE), DAY, DATES),
    one("a date in a bracket of its own", "(count ana desk post sub (eq born ((2000 2 29))))", (11, WHOLE), DAY, DATES),
    one("a date for a column", "(select ana desk post sub ((2000 2 29)))", (11, WHOLE), DAY, DATES),
    one("a date for a condition", "(count ana desk post sub (2000 2 29))", (11, WHOLE), DAY, DATES),
    one("a date left in a comparison", "(count ana desk post sub (eq (2000 2 29) born))", (11, WHOLE), DAY, DATES),
    one("a date's bracket 16 deep", "(count ana desk post sub " + nots(13, "(eq born (2000 2 29))") + ")", [end(4, 1, 1)], DAY, DATES),
    one("a date's bracket 16 deep, 31", "(count ana desk post sub " + nots(13, "(eq born (0 1 1))") + ")", (31, "(0 1 1)"), DAY, DATES),
    one("a date's bracket 17 deep", "(count ana desk post sub " + nots(14, "(eq born (2000 2 29))") + ")", (11, WHOLE), DAY, DATES),
    # labels that come down (02, Q-11): each place alone, the others silent
    come_down("nothing said anywhere", ""),
    come_down("nothing said, a weak line", "", weak=MUTE),
    come_down("nothing said, a strong line", "", strong=MUTE),
    come_down("nothing said, both lines", "", weak=MUTE, strong=MUTE),
    come_down("allowed at the cell", "all bill ads post", cell="(allow all) (deny)"),
    come_down("allowed at the row", "all bill ads post", row="(allow all) (deny)"),
    come_down("allowed by the weak line", "all bill ads post", weak="(allow all) (deny)"),
    come_down("allowed by the strong line", "all bill ads post", strong="(allow all) (deny)"),
    come_down("denied at the cell", "", cell="(allow) (deny bill)"),
    come_down("denied at the row", "", row="(allow) (deny bill)"),
    come_down("denied by the weak line", "", weak="(allow) (deny bill)"),
    come_down("denied by the strong line", "", strong="(allow) (deny bill)"),
    come_down("both sets at the cell", "bill", cell="(allow all) (deny ads)"),
    come_down("both sets at the row", "bill", row="(allow all) (deny ads)"),
    come_down("both sets in the weak line", "bill", weak="(allow all) (deny ads)"),
    come_down("both sets in the strong line", "bill", strong="(allow all) (deny ads)"),
    come_down("one purpose in both sets of the cell", "", cell="(allow ads) (deny ads)"),
    come_down("one purpose in both sets of the row", "", row="(allow ads) (deny ads)"),
    come_down("one purpose in both sets of the weak line", "", weak="(allow ads) (deny ads)"),
    come_down("one purpose in both sets of the strong line", "", strong="(allow ads) (deny ads)"),
    come_down("both lines, the strong one without purposes", "bill", weak="(allow all) (deny ads)", strong=MUTE),
    come_down("both lines, the weak one without purposes", "bill", weak=MUTE, strong="(allow all) (deny ads)"),
    # a lower label opens again, downwards from what it allows, what a higher weak one denied; merged sets are not closed again
    come_down("post opened again at the row", "bill post", row="(allow post) (deny)", weak="(allow all) (deny ads)"),
    come_down("post opened again at the cell", "bill post", cell="(allow post) (deny)", weak="(allow all) (deny ads)"),
    come_down("ads opened again at the row", "bill ads post", row="(allow ads) (deny)", weak="(allow all) (deny ads)"),
    come_down("ads opened again at the cell", "bill ads post", cell="(allow ads) (deny)", weak="(allow all) (deny ads)"),
    come_down("all opened again at the row", "all bill ads post", row="(allow all) (deny)", weak="(allow all) (deny ads)"),
    come_down("ads opened again at the cell, denied at the row", "bill ads post", cell="(allow ads) (deny)", row="(allow all) (deny ads)"),
    come_down("post opened again where nothing else is allowed", "post", row="(allow post) (deny)", weak="(allow) (deny ads)"),
    come_down("ads opened again, post denied", "bill ads post", row="(allow ads) (deny)", weak="(allow all) (deny post)"),
    come_down("post opened again, post denied", "bill post", row="(allow post) (deny)", weak="(allow all) (deny post)"),
    come_down("post opened again, the root denied", "post", cell="(allow post) (deny)", weak="(allow) (deny all)"),
    come_down("all opened again, the root denied", "all bill ads post", row="(allow all) (deny)", weak="(allow) (deny all)"),
    come_down("another purpose allowed again", "bill", row="(allow bill) (deny)", weak="(allow all) (deny ads)"),
    come_down("denied twice, opened once", "bill post", cell="(allow post) (deny)", row="(allow) (deny ads)", weak="(allow all) (deny ads)"),
    # a lower denied set is added last
    come_down("opened at the row, denied again at the cell", "bill", cell="(allow) (deny post)", row="(allow post) (deny)", weak="(allow all) (deny ads)"),
    come_down("ads opened at the row, post denied again at the cell", "bill", cell="(allow) (deny post)", row="(allow ads) (deny)", weak="(allow all) (deny ads)"),
    come_down("opened at the row, another denied at the cell", "ads post", cell="(allow) (deny bill)", row="(allow ads) (deny)", weak="(allow all) (deny ads)"),
    come_down("opened and denied again by one row", "bill", row="(allow ads) (deny post)", weak="(allow all) (deny ads)"),
    come_down("allowed above, denied at the row", "ads post", row="(allow) (deny bill)", weak="(allow all) (deny)"),
    come_down("allowed above, denied at the cell", "bill", cell="(allow) (deny ads)", weak="(allow all) (deny)"),
    come_down("allowed at the row, denied at the cell", "ads post", cell="(allow) (deny bill)", row="(allow all) (deny)"),
    # allowed sets unite
    come_down("allowed at two places", "bill ads post", row="(allow bill) (deny)", weak="(allow ads) (deny)"),
    come_down("allowed at three places", "bill ads post", cell="(allow bill) (deny)", row="(allow post) (deny)", weak="(allow ads) (deny)"),
    come_down("allowed at two places, denied at a third", "ads post", cell="(allow) (deny bill)", row="(allow bill) (deny)", weak="(allow ads) (deny)"),
    # what a strong label says comes first, denied before allowed, and no lower label takes from it
    come_down("strongly denied, allowed at the cell", "bill", cell="(allow all) (deny)", strong="(allow) (deny ads)"),
    come_down("strongly denied, allowed everywhere", "bill", cell="(allow post) (deny)", row="(allow post) (deny)", weak="(allow all) (deny)", strong="(allow) (deny ads)"),
    come_down("strongly denied, nothing allowed", "", weak="(allow) (deny bill)", strong="(allow) (deny ads)"),
    come_down("strongly denied root", "", cell="(allow all) (deny)", row="(allow all) (deny)", weak="(allow all) (deny)", strong="(allow all) (deny all)"),
    come_down("strongly and weakly denied alike, allowed at the row", "bill", row="(allow post) (deny)", weak="(allow all) (deny ads)", strong="(allow all) (deny ads)"),
    come_down("strongly allowed, denied everywhere", "ads post", cell="(allow) (deny all)", row="(allow) (deny all)", weak="(allow) (deny all)", strong="(allow ads) (deny)"),
    come_down("strongly allowed root, denied everywhere", "all bill ads post", cell="(allow) (deny all)", row="(allow) (deny all)", weak="(allow) (deny all)", strong="(allow all) (deny)"),
    come_down("strongly allowed, and nothing else said", "post", strong="(allow post) (deny)"),
    come_down("strongly allowed and strongly denied below it", "bill", cell="(allow all) (deny)", strong="(allow ads) (deny post)"),
    come_down("strongly allowed here and strongly denied there", "bill", row="(allow post) (deny)", weak="(allow all) (deny)", strong="(allow bill) (deny post)"),
    come_down("strongly allowed and weakly denied, another weakly allowed", "bill ads post", weak="(allow ads) (deny bill)", strong="(allow bill) (deny)"),
    come_down("strongly denied and weakly allowed, another opened again", "ads post", row="(allow ads) (deny)", weak="(allow all) (deny ads)", strong="(allow) (deny bill)"),
    # queries of a nest table: a row is withheld for a closed named cell only, and there is no 17
    one("nest, one column", "(select ana desk post sub (who))", ["(row Bo)", "(row Cy)", "(row Eve)", end(3, 2, 0)], DAY, WEAK),
    one("nest, the other column", "(select ana desk post sub (due))", ["(row 75)", "(row 50)", "(row 30)", end(3, 2, 0)], DAY, WEAK),
    one("nest, both columns", "(select ana desk post sub (who due))", ["(row Bo 75)", "(row Eve 30)", end(2, 3, 0)], DAY, WEAK),
    one("nest, a condition", "(select ana desk post sub (who) (gt due 40))", ["(row Bo)", end(1, 3, 1)], DAY, WEAK),
    one("nest, a branch not reached", "(count ana desk post sub (or (ge due 0) (eq who Ida)))", [end(2, 3, 0)], DAY, WEAK),
    one("nest, withheld whatever the condition says", "(count ana desk post sub (gt due 1000))", [end(0, 2, 3)], DAY, WEAK),
    one("nest, count", "(count ana desk post sub (gt due 40))", [end(2, 2, 1)], DAY, WEAK),
    one("nest, nothing named", "(count ana desk post sub)", [end(5, 0, 0)], DAY, WEAK),
    one("nest, nothing named, a purpose to which rows are closed", "(count ana desk ads sub)", [end(5, 0, 0)], DAY, WEAK),
    one("nest, denied above what is opened again", "(select ana desk ads sub (who))", ["(row Eve)", end(1, 4, 0)], DAY, WEAK),
    one("nest, the root", "(select ana desk all sub (who))", ["(row Eve)", end(1, 4, 0)], DAY, WEAK),
    one("nest, every named cell closed", "(select ana desk ads sub (due))", [end(0, 5, 0)], DAY, WEAK),
    one("nest, another purpose", "(select ana desk bill sub (who due))", ["(row Ida 40)", "(row Bo 75)", "(row Cy 60)", "(row Dot 50)", "(row Eve 30)", end(5, 0, 0)], DAY, WEAK),
    one("nest, a blank", "(blank ana desk post sub (who due))", ["(row - -)", "(row Bo 75)", "(row Cy -)", "(row - 50)", "(row Eve 30)", end(5, 0, 0)], DAY, WEAK),
    one("nest, a blank with a condition", "(blank ana desk post sub (who) (gt due 40))", ["(row Bo)", "(row -)", end(2, 2, 1)], DAY, WEAK),
    one("nest, a blank that tests and shows a column", "(blank ana desk post sub (who due who) (ne who bo))", ["(row Cy - Cy)", "(row Eve 30 Eve)", end(2, 2, 1)], DAY, WEAK),
    one("nest, a blank of closed cells", "(blank ana desk ads sub (due who))", ["(row - -)", "(row - -)", "(row - -)", "(row - -)", "(row - Eve)", end(5, 0, 0)], DAY, WEAK),
    one("nest, a blank whose condition is closed", "(blank ana desk ads sub (who) (ge due 0))", [end(0, 5, 0)], DAY, WEAK),
    one("nest, sure without ranges", "(sure ana desk post sub (who) (gt due 40))", ["(row Bo)", end(1, 3, 1)], DAY, WEAK),
    one("nest, possible without ranges", "(possible ana desk post sub (due) (not (gt due 40)))", ["(row 30)", end(1, 2, 2)], DAY, WEAK),
    one("nest, strongly open", "(select ana desk post sub (who due) (ge due 50))", ["(row Bo 75)", "(row Cy 60)", "(row Dot 50)", end(3, 0, 2)], DAY, STRONG),
    one("nest, strongly open to a purpose above", "(count ana desk ads sub (ge due 50))", [end(3, 0, 2)], DAY, STRONG),
    one("nest, strongly closed", "(select ana desk bill sub (who))", [end(0, 5, 0)], DAY, STRONG),
    one("nest, strongly closed above what is open", "(select ana desk all sub (who))", [end(0, 5, 0)], DAY, STRONG),
    one("nest, strongly closed and nothing named", "(count ana desk bill sub)", [end(5, 0, 0)], DAY, STRONG),
    one("nest, strongly closed, a blank", "(blank ana desk bill sub (who who))", ["(row - -)"] * 5 + [end(5, 0, 0)], DAY, STRONG),
    one("nest, strongly denied, opened again further down", "(select ana desk post sub (who))", [end(0, 5, 0)], DAY, BOTH),
    one("nest, strongly allowed", "(select ana desk bill sub (due))", ["(row 40)", "(row 75)", "(row 60)", "(row 50)", "(row 30)", end(5, 0, 0)], DAY, BOTH),
    one("nest, no lines", "(blank ana desk post sub (who due))", ["(row - -)", "(row Bo 75)", "(row Cy -)", "(row - 50)", "(row Eve 30)", end(5, 0, 0)], DAY, BARE),
    one("nest, no lines, another purpose", "(select ana desk bill sub (who))", ["(row Eve)", end(1, 4, 0)], DAY, BARE),
    one("nest, no lines, both columns", "(select ana desk bill sub (who due))", [end(0, 5, 0)], DAY, BARE),
    # a public line does nothing
    one("nest, public behind the rows", "(select ana desk ads sub (who))", ["(row Eve)", end(1, 4, 0)], DAY, WEAK + ["(public sub)"]),
    one("nest, public before the rows", "(select ana desk bill sub (who))", ["(row Eve)", end(1, 4, 0)], DAY, nest("(public sub)")),
    one("nest, public and strongly closed", "(select ana desk bill sub (who))", [end(0, 5, 0)], DAY, STRONG + ["(PUBLIC Sub)"]),
    # what is closed has no influence
    one("nest, closed values made others", "(select ana desk post sub (who due))", ["(row Bo 75)", "(row Eve 30)", end(2, 3, 0)], DAY, OTHER_PEOPLE),
    one("nest, closed values made others, a condition", "(count ana desk post sub (gt due 40))", [end(2, 2, 1)], DAY, OTHER_PEOPLE),
    one("nest, closed values made others, a blank", "(blank ana desk post sub (who due))", ["(row - -)", "(row Bo 75)", "(row Cy -)", "(row - 50)", "(row Eve 30)", end(5, 0, 0)], DAY, OTHER_PEOPLE),
    # ranges and dates in a nest table
    one("nest, sure", "(sure ana desk post est (who) (ge due 5))", ["(row Bo)", end(1, 1, 1)], DAY, NEST_VALUES),
    one("nest, sure of both", "(sure ana desk post est (who due) (ge due 3))", ["(row Ida (3 8))", "(row Bo 5)", end(2, 1, 0)], DAY, NEST_VALUES),
    one("nest, possible", "(possible ana desk post est (who) (ge due 5))", ["(row Ida)", "(row Bo)", end(2, 1, 0)], DAY, NEST_VALUES),
    one("nest, possible without a condition", "(possible ana desk bill est (due who))", ["(row (3 8) Ida)", "(row 5 Bo)", "(row (1 9) Cy)", end(3, 0, 0)], DAY, NEST_VALUES),
    one("nest, sure of other ends that are closed", "(sure ana desk post est (who) (ge due 5))", ["(row Bo)", end(1, 1, 1)], DAY, OTHER_VALUES),
    one("nest, 27 of a select", "(select ana desk post est (due))", (27, "due"), DAY, NEST_VALUES),
    one("nest, 27 of a blank", "(blank ana desk post est (who due))", (27, "due"), DAY, NEST_VALUES),
    one("nest, 27 of a count where every row is withheld", "(count ana desk ads est (gt due 0))", (27, "due"), DAY, NEST_VALUES),
    one("nest, dates", "(select ana desk post est (who born))", ["(row Ida (2000 2 29))", "(row Cy (1999 12 31))", end(2, 1, 0)], DAY, NEST_VALUES),
    one("nest, a date compared", "(select ana desk post est (who) (lt born (2000 1 1)))", ["(row Cy)", end(1, 1, 1)], DAY, NEST_VALUES),
    one("nest, a date for a gap", "(blank ana desk post est (who born))", ["(row Ida (2000 2 29))", "(row Bo -)", "(row Cy (1999 12 31))", end(3, 0, 0)], DAY, NEST_VALUES),
    one("nest, another date that is closed", "(blank ana desk post est (who) (lt born (2000 1 1)))", ["(row Cy)", end(1, 1, 1)], DAY, OTHER_VALUES),
    one("nest, 31", "(count ana desk post est (eq born (2001 2 29)))", (31, "(2001 2 29)"), DAY, NEST_VALUES),
    # refused as any table is, 17 aside
    one("nest, unknown column", "(select ana desk ads sub (who what))", (15, "what"), DAY, WEAK),
    one("nest, a name for a number", "(count ana desk ads sub (eq due Ida))", (16, "Ida"), DAY, WEAK),
    one("nest, an order of names", "(blank ana desk ads sub (due) (lt who Ida))", (16, "lt"), DAY, WEAK),
    one("nest, a purpose not granted", "(count ana desk bill sub)", (14, "bill"), DAY, [line.replace("(grant all any)", "(grant ads any)") for line in WEAK]),
    one("nest, unknown purpose", "(count ana desk sport sub)", (12, "sport"), DAY, WEAK),
    one("nest, no rows", "(select ana desk ads sub (who))", [end(0, 0, 0)], DAY, [line for line in STRONG if not line.startswith("(row ")]),
    one("weak is no query", "(weak sub noads)", (11, WHOLE), DAY, WEAK),
    one("strong is no query", "(strong ana desk post sub (who))", (11, WHOLE), DAY, WEAK),
    # several tables, 16 columns, 64 labels, 256 purposes
    ("nest, two tables and one of cells", TWO_NESTS, [DAY, "(select ana desk post one (k))", "(select ana desk post two (k))", "(select ana desk bill two (k))", "(select ana desk post cel (k))", "(select ana desk bill one (k))", "(blank ana desk ads one (k))"], [["(row 1)", "(row 5)", end(2, 1, 0)], [end(0, 2, 0)], ["(row 2)", "(row 4)", end(2, 0, 0)], ["(row 7)", end(1, 1, 0)], ["(row 1)", "(row 3)", "(row 5)", end(3, 0, 0)], ["(row -)", "(row -)", "(row -)", end(3, 0, 0)]]),
    one("nest, the last of 16 cells", "(select ana desk post wide (c15))", ["(row 15)", end(1, 1, 0)], DAY, SIXTEEN_CELLS),
    one("nest, the last but one of 16 cells", "(select ana desk post wide (c14))", ["(row 14)", end(1, 1, 0)], DAY, SIXTEEN_CELLS),
    one("nest, 16 cells", "(blank ana desk post wide (" + COLUMNS16 + "))", ["(row" + " -" * 15 + " 15)", "(row " + " ".join(map(str, range(15))) + " -)", end(2, 0, 0)], DAY, SIXTEEN_CELLS),
    one("64 labels, the last at the cell", "(select ana desk all sub (k))", ["(row 7)", end(1, 0, 0)], DAY, of_64(0, 1, 2, 63)),
    one("64 labels, the last at the row", "(select ana desk all sub (k))", ["(row 7)", end(1, 0, 0)], DAY, of_64(0, 1, 63, 2)),
    one("64 labels, the last in the weak line", "(select ana desk all sub (k))", ["(row 7)", end(1, 0, 0)], DAY, of_64(0, 63, 1, 2)),
    one("64 labels, the last in the strong line", "(select ana desk all sub (k))", ["(row 7)", end(1, 0, 0)], DAY, of_64(63, 62, 62, 62)),
    one("64 labels, the last but one in the strong line", "(select ana desk post sub (k))", [end(0, 1, 0)], DAY, of_64(62, 63, 63, 63)),
    one("64 labels, the last but one at the row, the last at the cell", "(select ana desk bill sub (k))", ["(row 7)", end(1, 0, 0)], DAY, of_64(0, 1, 62, 63)),
    one("64 labels, the last at the row, the last but one at the cell", "(select ana desk bill sub (k))", [end(0, 1, 0)], DAY, of_64(0, 1, 63, 62)),
    ("nest, a chain of 256 purposes", nest_of(chain("p0"), "(weak sub shut)", "(row sub low (1 low))", "(row sub shut (2 shut))"), [DAY, *(f"(select ana desk {p} sub (k))" for p in ("p255", "p254", "p0"))], [["(row 1)", end(1, 1, 0)], [end(0, 2, 0)], [end(0, 2, 0)]]),
    ("nest, four words", nest_of(words("p0"), "(weak sub four)", "(row sub third (1 third))"), [DAY, *(f"(select ana desk p{n} sub (k))" for n in (0, 1, 2, 63, 64, 65, 66, 129, 130, 192, 193, 255))], [["(row 1)", end(1, 0, 0)] if n in (1, 66, 130, 192, 193, 255) else [end(0, 1, 0)] for n in (0, 1, 2, 63, 64, 65, 66, 129, 130, 192, 193, 255)]),
    # names without case, and a long answer
    one("nest in capitals", "(SELECT ANA DESK POST SUB (WHO DUE))", ["(row BO 75)", "(row EVE 30)", end(2, 3, 0)], DAY, [line.upper() for line in WEAK]),
    one("nest in mixed case", "(Blank ana desk Post Sub (Who) (Gt Due 40))", ["(row Bo)", "(row -)", end(2, 2, 1)], DAY, [line.replace("(weak sub noads)", "(Weak SUB NoAds)").replace(" again", " AGAIN").replace("nest", "NeSt") for line in WEAK]),
    one("nest, an answer of 59,696 bytes", "(select ana desk post long (" + SIXTEEN + "))", [LONG_ROW] * 147 + [end(147, 0, 0)], DAY, NEST_LABELS + ["(table long nest (who name))", "(weak long free)"] + ["(row long mute (" + "a" * 24 + " mute))"] * 147),
    one("nest, an answer of 60,102 bytes", "(select ana desk post long (" + SIXTEEN + "))", (18, None), DAY, NEST_LABELS + ["(table long nest (who name))", "(weak long free)"] + ["(row long mute (" + "a" * 24 + " mute))"] * 148),
    # names without case (02, Q-8)
    one("user, role, purpose and table in another case", "(count Ana DESK Post SUB)", [end(4, 0, 0)]),
    one("a purpose in another case than its definition, grant and label", "(select ana desk ADS Recs (who))", ["(row Fay)", end(1, 1, 0)], DAY, TWO_CASES),
    one("the same, as it was defined", "(select ana desk Ads recs (who))", ["(row Fay)", end(1, 1, 0)], DAY, TWO_CASES),
    one("a policy in capitals", SAMPLE_QUERY, ["(row CY)", end(1, 1, 1)], LEAP, CAPITALS),
    one("a query in capitals", SAMPLE_QUERY.upper(), ["(row Cy)", end(1, 1, 1)], LEAP, SAMPLE),
    one("both in capitals", SAMPLE_QUERY.upper(), ["(row CY)", end(1, 1, 1)], LEAP, CAPITALS),
    one("a keyword in capitals", "(SELECT ana desk post sub (who) (GT due 50))", ["(row Cy)", end(1, 1, 1)], LEAP, SAMPLE),
    one("keywords in mixed case", "(Count ana desk post sub (Or (Not (Eq due 40)) (aND (nE due 40) (lE due 40))))", [end(1, 1, 1)], LEAP, SAMPLE),
    one("the clock line in capitals", SAMPLE_QUERY, ["(row Cy)", end(1, 1, 1)], "(CLOCK 2028 366 10)", SAMPLE),
    one("the clock line in mixed case", SAMPLE_QUERY, ["(row Cy)", end(1, 1, 1)], "(cLocK 2028 366 10)", SAMPLE),
    one("another word for the clock", SAMPLE_QUERY, (10, None), "(CLOCKS 2028 366 10)", SAMPLE),
    one("a byte for a letter of the clock", SAMPLE_QUERY, (10, None), "(cloc{ 2028 366 10)", SAMPLE),
    one("the hour in another case in a condition", "(count ana desk p t)", (14, "p"), "(clock 2028 1 17)", HOURS),
    one("the hour in another case in a condition, earlier", "(count ana desk P T)", [end(0, 0, 0)], "(clock 2028 1 16)", HOURS),
    one("a user's name value in another case", "(count bob desk p t)", [end(0, 0, 0)], "(clock 2028 1 17)", HOURS),
    one("eq on a cell in another case, printed as written", "(select ana desk bill names (k) (eq k aDa))", ["(row ada)", "(row Ada)", "(row ADA)", end(3, 0, 5)], DAY, MIXED),
    one("ne on a cell in another case", "(select ana desk bill names (k) (ne k ADA))", ["(row ad)", "(row ada-)", "(row ada_)", "(row ada0)", "(row adA-z)", end(5, 0, 3)], DAY, MIXED),
    one("hyphen and underscore have no case", "(select ana desk bill names (k) (or (eq k ADA-) (eq k Ada_)))", ["(row ada-)", "(row ada_)", end(2, 0, 6)], DAY, MIXED),
    one("a value with letters behind a hyphen", "(select ana desk bill names (K) (eq K Ada-Z))", ["(row adA-z)", end(1, 0, 7)], DAY, MIXED),
    one("a column twice in two cases", "(select ana desk bill plain (who WHO Due) (eq WHO bo))", ["(row Bo Bo -75)", end(1, 0, 1)]),
    one("a closed table in another case", "(count ana desk post LED)", (17, "LED")),
    one("a closed column in another case", "(select ana desk post cols (Who Tag DUE))", (17, "Tag")),
    one("a closed column in another case in the condition", "(select ana desk post cols (who) (gt DUE 7))", (17, "DUE")),
    one("a cell in another case is closed all the same", "(select ana desk post SUB (WHO) (gt Due 50))", [end(0, 3, 1)]),
    one("an operator in capitals that names do not take", "(count ana desk post sub (GT Who Ida))", (16, "GT")),
    one("unknown in every case", "(count ANA DESK SPORT sub)", (12, "SPORT")),
    one("a role in another case that is not the user's", "(count ana NIGHT post sub)", (13, "NIGHT")),
    one("a purpose in another case that is not granted", "(count ana desk ALL plain)", (14, "ALL")),
    one("a backquote in a name", "(count an` desk post sub)", (11, WHOLE)),
    one("an at sign in a name", "(count @na desk post sub)", (11, WHOLE)),
    one("a square bracket in a keyword", "(selec[ ana desk post sub (who))", (11, WHOLE)),
    # 256 purposes
    one("granted at the root, asked 255 below", "(select ana desk p255 recs (who))", ["(row Ada)", "(row Bea)", end(2, 1, 0)], DAY, chain("p0")),
    one("granted at the root, asked at the root", "(select ana desk p0 recs (who))", ["(row Ada)", end(1, 2, 0)], DAY, chain("p0")),
    one("granted 255 below, asked at the root", "(select ana desk p0 recs (who))", (14, "p0"), DAY, chain("p255")),
    one("granted 255 below, asked one above", "(count ana desk p254 recs)", (14, "p254"), DAY, chain("p255")),
    one("granted and asked at the bottom", "(count ana desk p255 recs)", [end(2, 1, 0)], DAY, chain("p255")),
    one("a purpose that is not there", "(count ana desk p256 recs)", (12, "p256"), DAY, chain("p0")),
    of_words("p0", ["Ada"]),
    of_words("p1", ["Ada", "Bea", "Dora"]),
    of_words("p2", ["Ada", "Bea"]),
    of_words("p63", ["Ada", "Bea"]),
    of_words("p64", ["Ada", "Bea"]),
    of_words("p65", ["Ada", "Bea"]),
    of_words("p66", ["Ada", "Bea", "Dora"]),
    of_words("p128", ["Ada", "Bea"]),
    of_words("p129", ["Ada", "Bea"]),
    of_words("p191", ["Ada", "Bea", "Dora"]),
    of_words("p192", ["Ada", "Cleo"]),
    of_words("p193", ["Ada", "Bea", "Cleo"]),
    of_words("p254", ["Ada", "Bea", "Cleo", "Dora"]),
    of_words("p255", ["Ada", "Cleo", "Dora"]),
    one("granted in the fourth word, asked below", "(count ana desk p255 recs)", [end(3, 1, 0)], DAY, words("p192")),
    one("granted in the fourth word, asked in the third", "(count ana desk p191 recs)", (14, "p191"), DAY, words("p192")),
    one("granted in the first word, asked in the fourth", "(count ana desk p193 recs)", (14, "p193"), DAY, words("p1")),
    # comparisons
    one("lt", "(select ana desk bill nums (n) (lt n 0))", ["(row -9223372036854775808)", end(1, 0, 2)]),
    one("le", "(select ana desk bill nums (n) (le n 0))", ["(row -9223372036854775808)", "(row 0)", end(2, 0, 1)]),
    one("gt", "(select ana desk bill nums (n) (gt n 9223372036854775806))", ["(row 9223372036854775807)", end(1, 0, 2)]),
    one("ge", "(select ana desk bill nums (n) (ge n -9223372036854775808))", ["(row -9223372036854775808)", "(row 0)", "(row 9223372036854775807)", end(3, 0, 0)]),
    one("eq", "(count ana desk bill nums (eq n 9223372036854775807))", [end(1, 0, 2)]),
    one("ne", "(count ana desk bill nums (ne n 0))", [end(2, 0, 1)]),
    one("not, and, or", "(count ana desk bill nums (not (and (or (eq n 1) (le n 0)) (ge n 0))))", [end(2, 0, 1)]),
    # the program
    ("several queries", RICH, [DAY, "(count ana desk bill plain)", "", "(count ana desk bill nowhere)", "(count ana desk bill recs)"], [[end(2, 0, 0)], (11, WHOLE), (15, "nowhere"), [end(3, 1, 0)]]),
    ("a long line between two", RICH, [DAY, "(count ana desk bill plain)", "x" * 10000, "(count ana desk bill plain)"], [[end(2, 0, 0)], (11, WHOLE), [end(2, 0, 0)]]),
    ("the clock alone", RICH, [DAY], []),
    ("an empty policy", [], [DAY, "(count ana desk bill plain)"], [(12, "ana")]),
]


def printed(query, expected):
    """What is printed for a query."""
    if isinstance(expected, list):
        return "".join(line + "\n" for line in expected)
    number, item = expected
    start = length = 0
    if item is WHOLE:
        length = len(query.encode())
    elif item is not None:
        word, nth = item if isinstance(item, tuple) else (item, 0)
        places = [found.start() for found in re.finditer(rf"(?<![\w-]){re.escape(word)}(?![\w-])", query)]
        start, length = places[nth], len(word)
    return f"(refused {number} query {start} {length})\n"


def ran(sessions):
    """(name, policy, standard input, what must be printed) of some sessions, in bytes; each without its last line feed too."""
    for name, policy, lines, expected in sessions:
        document = "".join(line + "\n" for line in policy).encode()
        wanted = "".join(printed(q, e) for q, e in zip(lines[1:], expected, strict=True)).encode()
        full = "\n".join(lines).encode()
        yield name, document, full + b"\n", wanted
        if lines[-1]:
            yield name + ", without the last line feed", document, full, wanted


def cases():
    """All sessions, and what takes a policy or an input of other bytes."""
    yield from ran(SESSIONS)
    sample = "".join(line + "\n" for line in SAMPLE).encode()
    yield "no input", sample, b"", b""
    yield "refused policy", sample + b"(purpose x)\n", (DAY + "\n" + SAMPLE_QUERY + "\n").encode(), f"(refused 6 document {len(sample)} 11)\n".encode()
    most = "".join(line + "\n" for line in chain("p0")[:256])
    yield "257 purposes", (most + "(purpose p256 p255)\n").encode(), b"", f"(refused 3 document {len(most)} 19)\n".encode()
    yield "unfinished policy", sample + b"(purpose", (DAY + "\n" + SAMPLE_QUERY + "\n").encode(), f"(refused 2 document {len(sample)} 8)\n".encode()
    yield "policy of 60,001 bytes", b"x" * 60001, b"", b"(refused 1 document 0 0)\n"
    yield "a refused policy with no input", sample + b"(grant ads nobody)\n", b"", f"(refused 5 document {len(sample) + 11} 6)\n".encode()
    once = "".join(line + "\n" for line in declared("(public open)", "(row open 1)"))
    yield "a second public line", (once + "(public open)\n").encode(), (DAY + "\n").encode(), f"(refused 4 document {len(once) + 8} 4)\n".encode()
    yield "a second public line in another case", (once + "(PUBLIC Open)\n").encode(), (DAY + "\n").encode(), f"(refused 4 document {len(once) + 8} 4)\n".encode()
    yield "a public line for an unknown table", (once + "(public nowhere)\n").encode(), (DAY + "\n").encode(), f"(refused 5 document {len(once) + 8} 7)\n".encode()
    ranges = "".join(line + "\n" for line in RANGES)
    yield "a reversed range", (ranges + "(row est free Gus (7 6))\n").encode(), (DAY + "\n").encode(), f"(refused 28 document {len(ranges) + 18} 5)\n".encode()
    dates = "".join(line + "\n" for line in DATES)
    yield "a date of no day", (dates + "(row sub free Gus (1900 2 29) 1)\n").encode(), (DAY + "\n").encode(), f"(refused 31 document {len(dates) + 18} 11)\n".encode()
    weak = "".join(line + "\n" for line in WEAK[: WEAK.index("(weak sub noads)") + 1])
    yield "a second weak line", (weak + "(weak sub free)\n").encode(), (DAY + "\n").encode(), f"(refused 25 document {len(weak)} 15)\n".encode()
    rows = weak + "".join(line + "\n" for line in PEOPLE)
    yield "a strong line behind rows", (rows + "(strong sub free)\n").encode(), (DAY + "\n").encode(), f"(refused 25 document {len(rows)} 17)\n".encode()
    yield "a weak line for an unknown label", (rows + "(weak sub nix)\n").encode(), (DAY + "\n").encode(), f"(refused 5 document {len(rows) + 10} 3)\n".encode()
    yield "a zero byte in a query", sample, LEAP.encode() + b"\n(count ana desk post sub\0)\n", b"(refused 11 query 0 26)\n"
    yield "bytes above 127", sample, LEAP.encode() + b"\n\xff\xfe\xc3\xa9\n", b"(refused 11 query 0 4)\n"
