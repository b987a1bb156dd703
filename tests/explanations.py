"""Sessions of the explaining program (02, Q-7) with what it must print.

A session is (name, policy, lines, expected), expected as in tests/sessions.py: for each line the printed line in a list, or
(number, item) for a refusal. Those of SESSIONS are derived by hand from the request. `every_cell` asks a policy for every cell and every
purpose; what it expects comes from the small model below, which reads the policy's lines by itself and follows the request's words.
"""
import sessions
from sessions import RICH, SAMPLE, WHOLE

OPEN, ALLOW, NONE = ["(open)"], ["(closed allow)"], ["(closed none)"]


def deny(purpose):
    return [f"(closed deny {purpose})"]


# all above bill and ads, ads above post and calls, post above mail
TREE = ["(purpose all)", "(purpose bill all)", "(purpose ads all)", "(purpose post ads)", "(purpose mail post)", "(purpose calls ads)"]
LABELS = TREE + [
    "(label free (allow all) (deny))",
    "(label noads (allow all) (deny ads))",
    "(label some (allow post bill) (deny))",
    "(label shut (allow) (deny))",
    "(label up (allow all) (deny mail POST Ads))",
    "(label down (allow all) (deny Ads POST mail))",
    "(label aside (allow all) (deny bill calls Mail))",
    "(label own (allow post) (deny post))",
    "(label root (allow all) (deny all))",
]
SCHEMES = LABELS + [
    "(table bare none (k num))",
    "(table known none (k num))",
    "(table led table noads (k num) (n name))",
    "(table cols column (a num free) (b num noads) (c num some) (d num shut))",
    "(table recs row (k num) (n name))",
    "(table cells cell (k num) (n name))",
    "(table nests nest (k num))",
    "(table empty cell (k num))",
    "(public known)",
    "(row bare 1)",
    "(row known 2)",
    "(row led 3 x)",
    "(row cols 1 2 3 4)",
    "(row recs free 1 x)",
    "(row cells (1 some) (x free))",
    "(row recs up 2 y)",
    "(row cells (2 down) (y aside))",
    "(row nests free (7 free))",
    "(row recs own 3 z)",
    "(row cells (3 shut) (z root))",
]
# the same in other cases: D is printed as the label's line wrote it, whatever the purpose's line or the why line have
CASES = [line.upper() if line.startswith("(purpose") else line for line in SCHEMES]


def of_labels(name, column, row, reasons):
    """For each purpose in the order of TREE, a cell of the table `cells` or `recs`."""
    table = "recs" if column == "row" else "cells"
    purposes = [line.strip("()").split()[1] for line in TREE]
    lines = [f"(why {p} {table} {row} {'k' if column == 'row' else column})" for p in purposes]
    return (f"the label {name}", SCHEMES, lines, reasons)


def one(name, line, expected, policy=SCHEMES):
    return (name, policy, [line], [expected])


NAME = "a" * 24
LONGEST = LABELS[:1] + [f"(purpose {NAME} all)", "(label free (allow all) (deny))", f"(table {NAME} table free ({NAME} num))", f"(row {NAME} 1)"]
LONGEST_LINE = f"(why {NAME} {NAME} -9223372036854775808 {NAME})"
assert len(LONGEST_LINE) == 101

SESSIONS = [
    # the sample's policy: Bo's 75 is labelled noads
    ("sample", SAMPLE, ["(why post sub 1 due)", "(why post sub 0 due)", "(why post sub 1 who)", "(why bill sub 1 due)", "(why all sub 1 due)"], [deny("ads"), OPEN, OPEN, OPEN, deny("ads")]),
    # each label, for all, bill, ads, post, mail, calls
    of_labels("free", "row", 0, [OPEN] * 6),
    of_labels("up", "row", 1, [deny("mail"), OPEN, deny("mail"), deny("mail"), deny("mail"), deny("Ads")]),
    of_labels("down", "k", 1, [deny("Ads"), OPEN, deny("Ads"), deny("Ads"), deny("Ads"), deny("Ads")]),
    of_labels("aside", "n", 1, [deny("bill"), deny("bill"), deny("calls"), deny("Mail"), deny("Mail"), deny("calls")]),
    of_labels("own", "row", 2, [deny("post"), ALLOW, deny("post"), deny("post"), deny("post"), ALLOW]),
    of_labels("some", "k", 0, [ALLOW, OPEN, ALLOW, OPEN, OPEN, ALLOW]),
    of_labels("shut", "k", 2, [ALLOW] * 6),
    of_labels("root", "n", 2, [deny("all")] * 6),
    # each scheme
    ("no labels, not public", SCHEMES, ["(why all bare 0 k)", "(why mail bare 0 k)"], [NONE, NONE]),
    ("no labels, public", SCHEMES, ["(why all known 0 k)", "(why mail known 0 k)"], [OPEN, OPEN]),
    ("no labels, declared behind its rows", SCHEMES + ["(PUBLIC Bare)"], ["(why all bare 0 k)"], [OPEN]),
    ("a table's label", SCHEMES, ["(why post led 0 k)", "(why post led 0 n)", "(why bill led 0 n)"], [deny("ads"), deny("ads"), OPEN]),
    ("columns' labels", SCHEMES, [f"(why post cols 0 {c})" for c in "abcd"] + ["(why calls cols 0 c)"], [OPEN, deny("ads"), OPEN, ALLOW, ALLOW]),
    ("rows' labels", SCHEMES, ["(why calls recs 0 n)", "(why calls recs 1 n)", "(why calls recs 2 n)"], [OPEN, deny("Ads"), ALLOW]),
    ("cells' labels", SCHEMES, ["(why post cells 0 k)", "(why calls cells 0 k)", "(why calls cells 0 n)", "(why calls cells 1 n)"], [OPEN, ALLOW, OPEN, deny("calls")]),
    ("a public line on a labelled table", SCHEMES + ["(public led)", "(public recs)"], ["(why post led 0 k)", "(why calls recs 1 k)"], [deny("ads"), deny("Ads")]),
    # names without case; D as the label's line wrote it
    one("the line in capitals", "(WHY CALLS RECS 1 K)", deny("Ads")),
    one("the keyword in mixed case", "(wHy calls recs 1 k)", deny("Ads")),
    ("a policy whose purposes are in capitals", CASES, ["(why calls recs 1 k)", "(why mail recs 1 k)", "(why MAIL cells 1 n)", "(why Ads led 0 k)"], [deny("Ads"), deny("mail"), deny("Mail"), deny("ads")]),
    one("the sample in capitals", "(why post sub 1 due)", deny("ADS"), [line.upper() for line in SAMPLE]),
    # 11
    one("a blank line", "", (11, WHOLE)),
    one("a join", "(join ana desk post cells recs (k n) k)", (11, WHOLE)),
    one("a select", "(select ana desk post cells (k))", (11, WHOLE)),
    one("a count", "(count ana desk post cells)", (11, WHOLE)),
    one("a clock line", "(clock 2028 366 10)", (11, WHOLE)),
    one("another word", "(whys post cells 0 k)", (11, WHOLE)),
    one("a shorter word", "(wh post cells 0 k)", (11, WHOLE)),
    one("no bracket", "why post cells 0 k", (11, WHOLE)),
    one("unfinished", "(why post cells 0 k", (11, WHOLE)),
    one("a bracket more", "(why post cells 0 k))", (11, WHOLE)),
    one("a space behind it", "(why post cells 0 k) ", (11, WHOLE)),
    one("a space before it", " (why post cells 0 k)", (11, WHOLE)),
    one("a space in the bracket", "( why post cells 0 k)", (11, WHOLE)),
    one("a space before the closing one", "(why post cells 0 k )", (11, WHOLE)),
    one("a carriage return behind it", "(why post cells 0 k)\r", (11, WHOLE)),
    one("two spaces before the purpose", "(why  post cells 0 k)", (11, WHOLE)),
    one("two spaces before the table", "(why post  cells 0 k)", (11, WHOLE)),
    one("two spaces before the row", "(why post cells  0 k)", (11, WHOLE)),
    one("two spaces before the column", "(why post cells 0  k)", (11, WHOLE)),
    one("a tab", "(why post cells\t0 k)", (11, WHOLE)),
    one("no column", "(why post cells 0)", (11, WHOLE)),
    one("a word more", "(why post cells 0 k n)", (11, WHOLE)),
    one("columns in brackets", "(why post cells 0 (k))", (11, WHOLE)),
    one("a name for the row", "(why post cells x k)", (11, WHOLE)),
    one("a number for the purpose", "(why 1 cells 0 k)", (11, WHOLE)),
    one("a number for the table", "(why post 1 0 k)", (11, WHOLE)),
    one("a number for the column", "(why post cells 0 0)", (11, WHOLE)),
    one("a row out of range", "(why post cells 9223372036854775808 k)", (11, WHOLE)),
    one("a row out of range below", "(why post cells -9223372036854775809 k)", (11, WHOLE)),
    one("a row of 2^64", "(why post cells 18446744073709551616 k)", (11, WHOLE)),
    one("a row with a leading zero", "(why post cells 00 k)", (11, WHOLE)),
    one("a row of minus zero", "(why post cells -0 k)", (11, WHOLE)),
    one("a row with a plus", "(why post cells +0 k)", (11, WHOLE)),
    one("a purpose of 25 bytes", f"(why {NAME}a cells 0 k)", (11, WHOLE)),
    one("11 before 23", "(why nowhere nothing 0 k", (11, WHOLE)),
    # lines of every length: the longest right one has 101 bytes, and 102 are kept
    one("the longest line", LONGEST_LINE, (24, "-9223372036854775808"), LONGEST),
    one("the longest line, with a row that is there", f"(why {NAME} {NAME} 0 {NAME})", OPEN, LONGEST),
    *(one(f"a line of {n} bytes", "(why post cells 0 k)".ljust(n), (11, WHOLE)) for n in (100, 101, 102, 103, 104, 4095, 4096, 4097, 70000)),
    *(one(f"the longest line and {n} bytes", LONGEST_LINE + ")" * n, (11, WHOLE), LONGEST) for n in (1, 2, 3, 5000)),
    one("a line of 70,000 brackets", "(" * 70000, (11, WHOLE)),
    one("a name without an end", "(why " + "a" * 70000, (11, WHOLE)),
    # 23
    one("unknown purpose", "(why sport cells 0 k)", (23, "sport")),
    one("unknown table", "(why post nowhere 0 k)", (23, "nowhere")),
    one("unknown column", "(why post cells 0 due)", (23, "due")),
    one("a column of another table", "(why post recs 0 d)", (23, "d")),
    one("the purpose first", "(why sport nowhere 0 due)", (23, "sport")),
    one("the table before the column", "(why post nowhere 0 due)", (23, "nowhere")),
    one("purpose and column", "(why sport cells 0 due)", (23, "sport")),
    one("unknown in capitals", "(why post cells 0 DUE)", (23, "DUE")),
    one("the purpose's name for the table", "(why post post 0 k)", (23, ("post", 1))),
    one("a label is no purpose", "(why free cells 0 k)", (23, "free")),
    one("23 before 24, at the column behind the row", "(why post cells 3 due)", (23, "due")),
    one("23 before 24, a negative row", "(why post cells -1 due)", (23, "due")),
    one("23 before 24, at the table", "(why post nowhere -1 k)", (23, "nowhere")),
    one("23 before 24, an empty table", "(why sport empty 0 k)", (23, "sport")),
    one("23 before 26", "(why post nests 0 due)", (23, "due")),
    # 24
    one("a negative row", "(why post cells -1 k)", (24, "-1")),
    one("one row too many", "(why post cells 3 k)", (24, "3")),
    one("the last row", "(why calls cells 2 k)", ALLOW),
    one("a row of another table is not counted", "(why post bare 1 k)", (24, "1")),
    one("an empty table", "(why post empty 0 k)", (24, "0")),
    one("the largest row", "(why post cells 9223372036854775807 k)", (24, "9223372036854775807")),
    one("the least row", "(why post cells -9223372036854775808 k)", (24, "-9223372036854775808")),
    one("a row beside a name of the same bytes", "(why post cells 10 k)", (24, "10")),
    # 26
    one("a nest table", "(why post nests 0 k)", (26, "nests")),
    one("a nest table in capitals", "(why post NESTS 0 k)", (26, "NESTS")),
    one("24 before 26", "(why post nests 1 k)", (24, "1")),
    one("24 before 26, a negative row", "(why post nests -1 k)", (24, "-1")),
    one("24 before 26, no rows", "(why post empty 0 k)", (24, "0"), [line.replace("(table empty cell", "(table empty nest") for line in SCHEMES]),
    one("a nest table declared public", "(why post nests 0 k)", (26, "nests"), SCHEMES + ["(public nests)"]),
    # the program
    ("several lines", SCHEMES, ["(why post led 0 k)", "", "(why post led 1 k)", "(why bill led 0 k)", "x" * 5000, "(why post bare 0 k)"], [deny("ads"), (11, WHOLE), (24, "1"), OPEN, (11, WHOLE), NONE]),
    ("500 lines", SCHEMES, ["(why calls recs 1 n)", "(why post cells 0 n)"] * 250, [deny("Ads"), OPEN] * 250),
    ("a name of 24 bytes is printed whole", TREE + [f"(purpose {NAME} all)", f"(label l (allow all) (deny {NAME.upper()}))", "(table t table l (k num))", "(row t 1)"], ["(why all t 0 k)"], [deny(NAME.upper())]),
    ("an empty policy", [], ["(why all t 0 k)", ""], [(23, "all"), (11, WHOLE)]),
]


# ---- the model

def items(line):
    """A line of a policy as nested lists of words."""
    lists = [[]]
    for word in line.replace("(", " ( ").replace(")", " ) ").split():
        if word == "(":
            lists.append([])
        elif word == ")":
            lists[-2].append(lists.pop())
        else:
            lists[-1].append(word)
    return lists[0][0]


class Model:
    """A policy without faults, as far as reasons go; names are held in small letters, denied ones beside it as they are written."""

    def __init__(self, policy):
        self.parent, self.labels, self.tables, self.public, self.rows = {}, {}, {}, set(), {}
        for line in policy:
            keyword, name, *rest = [x.lower() if isinstance(x, str) and at < 2 else x for at, x in enumerate(items(line))]
            if keyword == "purpose":
                self.parent[name] = rest[0].lower() if rest else None
            elif keyword == "label":
                self.labels[name] = [[p for p in given[1:]] for given in rest]
            elif keyword == "table":
                self.tables[name] = self.table(*rest)
            elif keyword == "public":
                self.public.add(name)
            elif keyword == "row":
                self.rows.setdefault(name, []).append(rest)

    @staticmethod
    def table(scheme, *rest):
        scheme = scheme.lower()
        label, columns = (rest[0].lower(), rest[1:]) if scheme == "table" else (None, rest)
        return scheme, label, columns

    def above(self, purpose):
        """The purpose and its ancestors."""
        return [purpose] + (self.above(self.parent[purpose]) if self.parent[purpose] else [])

    def reason(self, purpose, table, number, column):
        """The line for a cell that is there."""
        scheme, label, columns = self.tables[table]
        row = self.rows[table][number]
        if scheme == "none":
            return OPEN if table in self.public else NONE
        if scheme == "column":
            label = columns[column][2]
        elif scheme == "row":
            label = row[0]
        elif scheme == "cell":
            label = row[column][1]
        allowed, denied = self.labels[label.lower()]
        for d in denied:
            if d.lower() in self.above(purpose) or purpose in self.above(d.lower()):
                return deny(d)
        return OPEN if any(a.lower() in self.above(purpose) for a in allowed) else ALLOW

    def asked(self, purposes):
        """Every cell for each of these purposes, and a row too many; of nest tables the refusals."""
        for purpose in purposes:
            for table, (scheme, _, columns) in self.tables.items():
                count = len(self.rows.get(table, []))
                for column, given in enumerate(columns):
                    for number in range(count):
                        line = f"(why {purpose} {table} {number} {given[0]})"
                        start = len(f"(why {purpose} ")
                        nest = f"(refused 26 query {start} {len(table)})"
                        yield line, [nest] if scheme == "nest" else self.reason(purpose, table, number, column)
                    start = len(f"(why {purpose} {table} ")
                    yield f"(why {purpose} {table} {count} {given[0]})", [f"(refused 24 query {start} {len(str(count))})"]


def every_cell(name, policy, purposes=None):
    """A session that asks for every cell of a policy, for every purpose or for some."""
    model = Model(policy)
    lines, expected = zip(*model.asked(purposes or list(model.parent)))
    return (f"every cell, {name}", policy, list(lines), list(expected))


SESSIONS += [
    every_cell("the sample", SAMPLE),
    every_cell("the sample in capitals", sessions.CAPITALS),
    every_cell("each scheme", SCHEMES),
    every_cell("each scheme, purposes in capitals", CASES),
    every_cell("the rich policy", RICH),
    every_cell("none declared", sessions.UNDECLARED),
    every_cell("all declared", sessions.LABELLED),
    every_cell("two cases", sessions.TWO_CASES),
    every_cell("blanks", sessions.BLANKS),
    every_cell("ranges", sessions.RANGES),
    every_cell("dates", sessions.DATES),
    every_cell("nest tables", sessions.TWO_NESTS),
    every_cell("16 cells", sessions.SIXTEEN_CELLS),
    every_cell("a chain of 256 purposes", sessions.chain("p0")),
    every_cell("four words of purposes", sessions.words("p0")),
]


def cases():
    """(name, policy, standard input, what must be printed), in bytes."""
    for name, policy, lines, expected in SESSIONS:
        document = "".join(line + "\n" for line in policy).encode()
        wanted = "".join(sessions.printed(q, e) for q, e in zip(lines, expected, strict=True)).encode()
        full = "\n".join(lines).encode()
        yield name, document, full + b"\n", wanted
        if lines[-1]:
            yield name + ", without the last line feed", document, full, wanted
    given = "".join(line + "\n" for line in SCHEMES).encode()
    asked = b"(why post led 0 k)\n"
    yield "no input", given, b"", b""
    yield "a line feed alone", given, b"\n", b"(refused 11 query 0 0)\n"
    yield "a blank line at the end", given, asked + b"\n", b"(closed deny ads)\n(refused 11 query 0 0)\n"
    yield "a zero byte", given, b"(why post led 0 k\0)\n", b"(refused 11 query 0 19)\n"
    yield "bytes above 127", given, b"\xff\xfe\xc3\xa9\n", b"(refused 11 query 0 4)\n"
    yield "refused policy", given + b"(purpose x)\n", asked, f"(refused 6 document {len(given)} 11)\n".encode()
    yield "refused policy, no input", given + b"(purpose x)\n", b"", f"(refused 6 document {len(given)} 11)\n".encode()
    yield "refused policy, a line that is none", given + b"(purpose x)\n", b"nothing\n\n", f"(refused 6 document {len(given)} 11)\n".encode()
    yield "unfinished policy", given + b"(purpose", asked, f"(refused 2 document {len(given)} 8)\n".encode()
    yield "policy of 60,001 bytes", b"x" * 60001, asked, b"(refused 1 document 0 0)\n"
    yield "no policy", None, asked + b"nothing", b"(refused 23 query 5 4)\n(refused 11 query 0 7)\n"
    yield "no policy, no input", None, b"", b""
    # no words belong to the command; tests/faults holds what is said of them
    yield "words of the command", given, asked, b"", b"policy.txt", b"--help"
