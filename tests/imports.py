"""Comma-separated files with what the importing program must print, derived by hand from the request (02, Q-1), RFC 4180 and the
readings in docs/DECISIONS.md.

A case is (name, file, expected) for table `sub` and label `free`, or (name, file, expected, table, label); all but names in bytes.
Expected is a list with the values of each row line, or (number, start) for a refusal, whose part is always empty.

tests/files has lists that other programs wrote, byte for byte; what each wrote, and how, stands at WRITTEN below.
"""
import pathlib

files = pathlib.Path(__file__).resolve().parent / "files"

LONGEST = b"a23456789-123456789_1234"
MOST, LEAST = b"9223372036854775807", b"-9223372036854775808"

CASES = [
    # one row line a record
    ("one record", b"Ida,40\n", [b"Ida 40"]),
    ("three records in order", b"Ida,40\nBo,75\nCy,60\n", [b"Ida 40", b"Bo 75", b"Cy 60"]),
    ("one field", b"Ida\n", [b"Ida"]),
    ("one byte", b"a", [b"a"]),
    ("equal records", b"a,1\na,1\n", [b"a 1", b"a 1"]),
    ("sixteen fields", b"a,b,c,d,e,f,g,h,i,j,k,l,m,n,o,p\n", [b"a b c d e f g h i j k l m n o p"]),
    ("more fields than a table has columns", b",".join([b"7"] * 40) + b"\n", [b" ".join([b"7"] * 40)]),
    ("more records than a document has rows", b"x\n" * 1025, [b"x"] * 1025),
    ("another table and label", b"1\n", b"(row T-1 L_2 1)\n", b"T-1", b"L_2"),
    ("table and label of 24 bytes", b"1\n", b"(row %s %s 1)\n" % (LONGEST, LONGEST), LONGEST, LONGEST),
    ("table and label of one byte", b"1\n", b"(row t l 1)\n", b"t", b"l"),
    ("table and label of one name, a keyword", b"row\n", b"(row row row row)\n", b"row", b"row"),
    # an empty file has no records
    ("an empty file", b"", []),
    # every record is data
    ("a header is a record", b"who,due\nIda,40\n", [b"who due", b"Ida 40"]),
    ("a header that is no name", b"amount due\n40\n", (20, 0)),
    # both line endings
    ("CRLF", b"Ida,40\r\nBo,75\r\n", [b"Ida 40", b"Bo 75"]),
    ("LF and CRLF mixed", b"a\r\nb\nc\r\nd\n", [b"a", b"b", b"c", b"d"]),
    ("no line ending at the end", b"Ida,40\nBo,75", [b"Ida 40", b"Bo 75"]),
    ("no line ending at the end, CRLF before", b"Ida,40\r\nBo,75", [b"Ida 40", b"Bo 75"]),
    ("quoted, CRLF", b'"Ida","40"\r\n"Bo","75"\r\n', [b"Ida 40", b"Bo 75"]),
    ("quoted, no line ending at the end", b'"Ida","40"', [b"Ida 40"]),
    # quoted fields
    ("quoted fields", b'"Ida","40"\n', [b"Ida 40"]),
    ("some quoted", b'"Ida",40\nBo,"75"\n', [b"Ida 40", b"Bo 75"]),
    ("a quoted number is a number", b'"-1"\n', [b"-1"]),
    ("a comma in quotes", b'"a,b"\n', (20, 0)),
    ("a comma in quotes makes no field", b'x,y\n"a,b",c\n', (20, 4)),
    ("a space in quotes", b'"a b"\n', (20, 0)),
    ("an empty quoted field", b'a,""\n', (20, 0)),
    # doubled quotes
    ("a doubled quote", b'"a""b"\n', (20, 0)),
    ("a doubled quote alone", b'""""\n', (20, 0)),
    ("doubled quotes around", b'"""a"""\n', (20, 0)),
    ("a doubled quote in the second record", b'a\n"b""c"\n', (20, 2)),
    ("a doubled quote before a comma and a line ending in quotes", b'"a"",\n",b\nc,d\n', (20, 0)),
    # a field is a name or a number
    ("a name of 24 bytes", LONGEST + b"\n", [LONGEST]),
    ("a name of 25 bytes", b"x\n" + LONGEST + b"5\n", (20, 2)),
    ("a quoted name of 24 bytes", b'"' + LONGEST + b'"\n', [LONGEST]),
    ("a quoted name of 25 bytes", b'"' + LONGEST + b'5"\n', (20, 0)),
    ("the ends of the numbers", MOST + b"," + LEAST + b"\n", [MOST + b" " + LEAST]),
    ("one more than the most", b"9223372036854775808\n", (20, 0)),
    ("one less than the least", b"-9223372036854775809\n", (20, 0)),
    ("a number of 40 digits", b"9" * 40 + b"\n", (20, 0)),
    ("zero", b"0\n", [b"0"]),
    ("minus zero", b"-0\n", (20, 0)),
    ("a leading zero", b"a,1\nb,02\n", (20, 4)),
    ("a plus sign", b"+1\n", (20, 0)),
    ("a fraction", b"1.5\n", (20, 0)),
    ("a date", b"2028-02-29\n", (20, 0)),
    # 02, Q-14: "The comma-separated reader takes no dates."
    ("a date as a row line has it", b"(2028 2 29)\n", (20, 0)),
    ("a date in quotes as a row line has it", b'Ida,40\nBo,"(2028 2 29)"\n', (20, 7)),
    ("a date's three numbers in one field", b"2028 2 29\n", (20, 0)),
    ("a date's three numbers in three fields", b"2028,2,29\n", [b"2028 2 29"]),
    ("a range", b"(1 5)\n", (20, 0)),
    ("a hyphen alone", b"-\n", (20, 0)),
    ("a name that begins with a hyphen", b"-a\n", (20, 0)),
    ("a name that begins with an underscore", b"_a\n", (20, 0)),
    ("a name that begins with a digit", b"9a\n", (20, 0)),
    ("hyphen and underscore in a name", b"a-_9\n", [b"a-_9"]),
    ("case is kept", b"Ida,IDA,ida\n", [b"Ida IDA ida"]),
    ("the case of table and label is kept", b"Ida,40\nbO,2\n", [b"Ida 40", b"bO 2"], b"SuB", b"FREE"),
    ("a space before a field", b"a, b\n", (20, 0)),
    ("a space behind a field", b"a ,b\n", (20, 0)),
    ("a semicolon", b"a;b\n", (20, 0)),
    ("a bracket", b"a)\n", (20, 0)),
    ("an empty field", b"a,,b\n", (20, 0)),
    ("a comma at the end of a line", b"a,b,\n", (20, 0)),
    ("a comma alone", b",\n", (20, 0)),
    # of several unfit fields the first record's
    ("two unfit records", b"a\n?\nb\n!\n", (20, 2)),
    ("an unfit field behind good ones", b"a,1\nb,2\nc,?\n", (20, 8)),
    # malformed: another count of fields
    ("a field too few", b"a,b\nc\n", (19, 4)),
    ("a field too many", b"a\nb,c\n", (19, 2)),
    ("a comma at the end makes a field", b"a\nb,\n", (19, 2)),
    ("another count, CRLF", b"a,b\r\nc,d\r\ne,f,g\r\n", (19, 10)),
    ("another count in the last record, without its line ending", b"a,b\nc,d\ne", (19, 8)),
    ("the first of two other counts", b"a,b\nc\nd,e,f\n", (19, 4)),
    ("a comma in quotes is not counted", b'a,b\n"c,d"\n', (19, 4)),
    # malformed: quotes
    ("a quote inside a plain field", b'a"b\n', (19, 0)),
    ("a quote at the end of a plain field", b'a"\n', (19, 0)),
    ("a doubled quote in a plain field", b'a""b\n', (19, 0)),
    ("a space before a quote", b' "a"\n', (19, 0)),
    ("a byte behind a closing quote", b'"a"b\n', (19, 0)),
    ("a space behind a closing quote", b'"a" ,b\n', (19, 0)),
    ("an open quote at the end", b'a\n"b', (19, 2)),
    ("a quote alone", b'"', (19, 0)),
    ("three quotes", b'"""\n', (19, 0)),
    ("an open quote takes the rest of the file", b'a\n"b\nc\nd\n', (19, 2)),
    ("an open quote that a later one closes", b'a\n"b\n"c"\n', (19, 2)),
    ("single quotes are no quotes", b"'a'\n", (20, 0)),
    # malformed: a lone carriage return
    ("a carriage return in a field", b"a\rb\n", (19, 0)),
    ("a carriage return at the file's end", b"a\r", (19, 0)),
    ("a carriage return alone", b"\r", (19, 0)),
    ("two carriage returns and a line feed", b"a\r\r\n", (19, 0)),
    ("a carriage return behind a quoted field", b'"a"\rb\n', (19, 0)),
    ("a carriage return behind the last line ending", b"a\n\r", (19, 2)),
    ("carriage returns as line endings", b"a,1\rb,2\r", (19, 0)),
    ("a carriage return in the second record", b"a,1\r\nb\r,2\r\n", (19, 5)),
    # blank lines
    ("a line feed alone", b"\n", (20, 0)),
    ("a CRLF alone", b"\r\n", (20, 0)),
    ("a blank line at the end, one field", b"a\n\n", (20, 2)),
    ("a blank line at the end, two fields", b"a,b\n\n", (19, 4)),
    ("a blank line between, one field", b"a\n\nb\n", (20, 2)),
    ("a blank line between, two fields, CRLF", b"a,b\r\n\r\nc,d\r\n", (19, 5)),
    ("a blank line first, one field", b"\na\n", (20, 0)),
    ("a blank line first, two fields", b"\na,b\n", (19, 1)),
    # line endings in quotes
    ("a line feed in quotes", b'"a\nb"\n', (20, 0)),
    ("a CRLF in quotes", b'"a\r\nb"\r\n', (20, 0)),
    ("a carriage return in quotes", b'"a\rb"\n', (20, 0)),
    ("a line feed in quotes starts no record", b'"a\nb"\nc,d\n', (19, 6)),
    # bytes that the RFC's TEXTDATA lacks
    ("a tab", b"a\tb\n", (20, 0)),
    ("a zero byte", b"a\n\0\n", (20, 2)),
    ("a zero byte in quotes", b'a\n"b\0"\n', (20, 2)),
    ("bytes above 127", b"Zo\xc3\xab\n", (20, 0)),
    ("the byte 127", b"a\x7f\n", (20, 0)),
    ("a byte order mark", b"\xef\xbb\xbfIda,40\n", (20, 0)),
    ("a byte order mark before a quote", b'\xef\xbb\xbf"Ida",40\n', (19, 0)),
    # the order over the whole file
    ("19 behind 20", b"?\na,b\n", (19, 2)),
    ("19 far behind 20", b"?,1\n" + b"a,1\n" * 1000 + b'"\n', (19, 4004)),
    ("19 and 20 in one record", b'a,b\n?,"c"d\n', (19, 4)),
    ("19 before 20 for the table", b"a\nb,c\n", (19, 2), b"1", b"free"),
    ("19 before 20 for the label", b'a\n"\n', (19, 2), b"sub", b"?"),
    # a table or label that is no name
    ("a table that is a number", b"a\n", (20, 0), b"1", b"free"),
    ("a label that is a number", b"a\n", (20, 0), b"sub", b"-1"),
    ("an empty table", b"a\n", (20, 0), b"", b"free"),
    ("an empty label", b"a\n", (20, 0), b"sub", b""),
    ("a table of 25 bytes", b"a\n", (20, 0), LONGEST + b"5", b"free"),
    ("a label of 25 bytes", b"a\n", (20, 0), b"sub", LONGEST + b"5"),
    ("a table in brackets", b"a\n", (20, 0), b"(sub)", b"free"),
    ("a table of two words", b"a\n", (20, 0), b"sub free", b"free"),
    ("a label of bytes above 127", b"a\n", (20, 0), b"sub", b"fr\xc3\xa9e"),
    ("a label with a line feed", b"a\n", (20, 0), b"sub", b"free\n"),
    ("a table that is no name, and no record", b"", (20, 0), b"1", b"free"),
    ("a label that is no name, and no record", b"", (20, 0), b"sub", b""),
    ("20 for the table before that of a field", b"a\n?\n", (20, 0), b"1", b"free"),
    ("20 for the label before that of a field", b"a\n?\n", (20, 0), b"sub", b"1"),
    # what the program lends: 60,000 bytes; "(row t l x)" and its line feed are 12
    ("lines of 60,000 bytes", b"x\n" * 5000, b"(row t l x)\n" * 5000, b"t", b"l"),
    ("lines of 60,001 bytes", b"x\n" * 4999 + b"xy\n", (21, 0), b"t", b"l"),
    ("lines of 60,012 bytes", b"x\n" * 5001, (21, 0), b"t", b"l"),
    ("19 before 21", b"x\n" * 5001 + b"x,y\n", (19, 10002), b"t", b"l"),
    ("20 before 21", b"x\n" * 5001 + b"?\n", (20, 10002), b"t", b"l"),
    # how long a file may be: 262,144 bytes
    ("a file of 262,144 bytes", b"x" * 262144, (20, 0)),
    ("a file of 262,145 bytes", b"x" * 262145, b""),
    ("a malformed record at the end of 262,144 bytes", b"x\n" * 131070 + b"x,x\n", (19, 262140)),
]

# What wrote the lists of tests/files, all of them on Debian 12:
# - sqlite.csv, sqlite-header.csv, sqlite-text.csv: SQLite 3.40.1, its program sqlite3, which ends lines with CRLF:
#     CREATE TABLE subscriber (who TEXT, due INTEGER, town TEXT);
#     INSERT INTO subscriber VALUES ('Ida', 40, 'Ulm'), ('Bo', -75, 'Bad-Aibling'), ('Cy', 9223372036854775807, 'Ulm'),
#         ('Zoe_2', -9223372036854775808, 'Clavendorp');
#     .mode csv
#     .output sqlite.csv
#     SELECT * FROM subscriber;
#     .headers on
#     .output sqlite-header.csv
#     SELECT who, due FROM subscriber;
#     .headers off
#     .output sqlite-text.csv
#     SELECT who, due FROM subscriber WHERE due > 0 UNION ALL SELECT 'Lee, Ann', 3 UNION ALL SELECT 'say "so"', 4;
# - postgresql.csv, postgresql-text.csv: PostgreSQL 15.18, psql, from a table with a fourth column `since` and a fifth row:
#     \copy subscriber TO 'postgresql.csv' (FORMAT csv, FORCE_QUOTE (who, town))
#     \copy (SELECT who, due FROM subscriber UNION ALL SELECT 'Ann "Nan" Lee', 7 UNION ALL SELECT 'Max', NULL) TO
#         'postgresql-text.csv' (FORMAT csv)
# - python.csv: Python 3.11.7, as spreadsheets write, with every field quoted and CRLF:
#     csv.writer(open("python.csv", "w", newline=""), quoting=csv.QUOTE_ALL).writerows(...)
SUBSCRIBERS = [b"Ida 40 Ulm", b"Bo -75 Bad-Aibling", b"Cy %s Ulm" % MOST, b"Zoe_2 %s Clavendorp" % LEAST]
WRITTEN = [
    ("sqlite.csv", SUBSCRIBERS),
    ("sqlite-header.csv", [b"who due", b"Ida 40", b"Bo -75", b"Cy " + MOST, b"Zoe_2 " + LEAST]),
    # the third record begins behind "Ida,40" and "Cy,9223372036854775807" with their line endings, 8 and 24 bytes
    ("sqlite-text.csv", (20, 32)),
    ("postgresql.csv", [b"Ida 40 Ulm 2019", b"Bo -75 Bad-Aibling 2021", b"Cy %s Ulm 2028" % MOST, b"Zoe_2 %s Clavendorp 1999" % LEAST, b"Abcdefghijklmnopqrstuvwx 0 Ulm 2000"]),
    # five records of 7, 7, 23, 27 and 27 bytes stand before the doubled quotes
    ("postgresql-text.csv", (20, 91)),
    ("python.csv", SUBSCRIBERS),
]


def printed(expected, table, label):
    """What is printed."""
    if isinstance(expected, bytes):
        return expected
    if isinstance(expected, tuple):
        return b"(refused %d file %d 0)\n" % expected
    return b"".join(b"(row %s %s %s)\n" % (table, label, values) for values in expected)


def cases():
    """(name, file, table, label, what must be printed); all but the name in bytes."""
    for name, file, expected, *names in CASES:
        table, label = names or (b"sub", b"free")
        yield name, file, table, label, printed(expected, table, label)
    for name, expected in WRITTEN:
        yield name, (files / name).read_bytes(), b"sub", b"free", printed(expected, b"sub", b"free")
