//! 02, Q-1: each sentence of the request, and each reading of it (NOTES.md).

use reference::{ask, check, import, measure_import, Clock, Refusal, Source};

/// The lines that a file gives with table `sub` and label `free`; measuring gives their length, and one byte less is 21.
fn lines(file: &[u8]) -> String {
    let mut out = vec![b'#'; 100_000];
    let length = import(file, b"sub", b"free", &mut out).unwrap_or_else(|refusal| panic!("{refusal:?} of {}", file.escape_ascii()));
    assert!(out[length..].iter().all(|&byte| byte == b'#'));
    assert_eq!(measure_import(file, b"sub", b"free"), Ok(length));
    let mut exact = vec![b'#'; length];
    assert_eq!(import(file, b"sub", b"free", &mut exact), Ok(length));
    assert_eq!(exact, out[..length]);
    if length > 0 {
        let mut short = vec![b'#'; length - 1];
        assert_eq!(import(file, b"sub", b"free", &mut short), Err(of_file(21, 0)));
        assert!(short.iter().all(|&byte| byte == b'#'));
    }
    String::from_utf8(out[..length].to_vec()).unwrap()
}

fn of_file(number: u32, start: usize) -> Refusal {
    Refusal { number, source: Source::File, start, len: 0 }
}

/// A refusal's number and start, with buffers of several lengths untouched, and measuring the same.
fn refused_for(file: &[u8], table: &[u8], label: &[u8]) -> (u32, usize) {
    let mut out = vec![b'#'; 1_000];
    let refusal = import(file, table, label, &mut out).expect_err("lines");
    assert!(out.iter().all(|&byte| byte == b'#'));
    assert_eq!(refusal, of_file(refusal.number, refusal.start));
    assert_eq!(measure_import(file, table, label), Err(refusal));
    // 19 and 20 come before 21.
    assert_eq!(import(file, table, label, &mut []), Err(refusal));
    (refusal.number, refusal.start)
}

fn refused(file: &[u8]) -> (u32, usize) {
    refused_for(file, b"sub", b"free")
}

#[test]
fn one_row_line_a_record() {
    assert_eq!(lines(b"Ida,40\n"), "(row sub free Ida 40)\n");
    assert_eq!(lines(b"Ida,40\nBo,75\nCy,60\n"), "(row sub free Ida 40)\n(row sub free Bo 75)\n(row sub free Cy 60)\n");
    assert_eq!(lines(b"a"), "(row sub free a)\n");
    // Equal records are as many lines.
    assert_eq!(lines(b"a\na\na\n"), "(row sub free a)\n".repeat(3));
    // The table and the label as given, of 1 and of 24 bytes.
    let mut out = [0; 200];
    let long = b"a23456789-123456789_1234";
    let length = import(b"1", long, b"L", &mut out).unwrap();
    assert_eq!(&out[..length], b"(row a23456789-123456789_1234 L 1)\n");
    let length = import(b"1", b"t", long, &mut out).unwrap();
    assert_eq!(&out[..length], b"(row t a23456789-123456789_1234 1)\n");
}

#[test]
fn quoted_fields_are_read() {
    assert_eq!(lines(b"\"Ida\",\"40\"\n\"Bo\",75\n"), "(row sub free Ida 40)\n(row sub free Bo 75)\n");
    assert_eq!(lines(b"\"-1\""), "(row sub free -1)\n");
    // A comma inside quotes is data: one field, which is no name.
    assert_eq!(refused(b"\"a,b\"\n"), (20, 0));
    assert_eq!(refused(b"x,y\n\"a,b\",c\n"), (20, 4));
}

#[test]
fn doubled_quotes_are_read() {
    // Read as one quote, which no name has: 20, and not 19.
    assert_eq!(refused(b"\"a\"\"b\"\n"), (20, 0));
    assert_eq!(refused(b"\"\"\"\"\n"), (20, 0));
    assert_eq!(refused(b"\"\"\"a\"\"\"\n"), (20, 0));
    assert_eq!(refused(b"a\n\"\"\"\"\"\"\n"), (20, 2));
    // Two quotes alone are an empty field.
    assert_eq!(refused(b"\"\"\n"), (20, 0));
    // Three are one that opens and one doubled: nothing closes.
    assert_eq!(refused(b"\"\"\"\n"), (19, 0));
}

#[test]
fn both_line_endings_are_read() {
    assert_eq!(lines(b"a,1\r\nb,2\r\n"), "(row sub free a 1)\n(row sub free b 2)\n");
    assert_eq!(lines(b"a,1\r\nb,2"), "(row sub free a 1)\n(row sub free b 2)\n");
    // Mixed, in one file.
    assert_eq!(lines(b"a\r\nb\nc\r\nd\n\"e\"\r\n\"f\"\ng"), "abcdefg".chars().map(|c| format!("(row sub free {c})\n")).collect::<String>());
}

#[test]
fn a_field_is_a_name_or_a_number() {
    for good in ["a", "Z-9_", "a23456789-123456789_1234", "0", "-1", "7", "9223372036854775807", "-9223372036854775808", "row", "select", "year"] {
        assert_eq!(lines(good.as_bytes()), format!("(row sub free {good})\n"));
        assert_eq!(lines(format!("\"{good}\"").as_bytes()), format!("(row sub free {good})\n"));
    }
    for bad in [
        "", "a23456789-123456789_12345", "9223372036854775808", "-9223372036854775809", "99999999999999999999999", "-0", "00", "01", "-01", "-",
        "--1", "+1", "1.5", "1e3", "_a", "-a", "9a", "a b", " a", "a ", "a.b", "(a)", "(1 2)", "a'b", "a;b", "#a", "\u{e9}", "2028-02-29",
    ] {
        assert_eq!(refused(format!("x\n{bad}\n").as_bytes()), (20, 2), "{bad}");
        assert_eq!(refused(format!("x\n\"{bad}\"\n").as_bytes()), (20, 2), "{bad}");
        assert_eq!(refused(format!("x,y\n1,2\nz,{bad}\n").as_bytes()), (20, 8), "{bad}");
    }
}

#[test]
fn an_empty_file_has_no_records() {
    assert_eq!(lines(b""), "");
    let mut none: [u8; 0] = [];
    assert_eq!(import(b"", b"t", b"l", &mut none), Ok(0));
    assert_eq!(measure_import(b"", b"t", b"l"), Ok(0));
}

#[test]
fn every_record_is_data() {
    // A header is a row like any other, or refused as one.
    assert_eq!(lines(b"who,due\nIda,40\n"), "(row sub free who due)\n(row sub free Ida 40)\n");
    assert_eq!(refused(b"amount due\n40\n"), (20, 0));
}

#[test]
fn malformed_by_its_field_count() {
    assert_eq!(refused(b"a,b\nc\n"), (19, 4));
    assert_eq!(refused(b"a\nb,c\n"), (19, 2));
    assert_eq!(refused(b"a,b\r\nc,d\r\ne,f,g\r\n"), (19, 10));
    // A comma at the end makes an empty field more.
    assert_eq!(refused(b"a\nb,\n"), (19, 2));
    assert_eq!(refused(b"a,b\n,\n"), (20, 4));
    assert_eq!(refused(b",\n"), (20, 0));
    assert_eq!(refused(b"a,b,\n"), (20, 0));
    // The first's count, whatever it is.
    assert_eq!(refused(b"a,\nb\n"), (19, 3));
}

#[test]
fn malformed_by_its_quotes() {
    for bad in [
        &b"a\"b\n"[..], b"a\"\n", b"a\"b\"\n", b"\"a\"b\n", b"\"a\" \n", b" \"a\"\n", b"\"a\n", b"\"\n", b"\"", b"\"a", b"\"a\"\"", b"\"a\"\"\n", b"\"a\"\"b\n",
        b"\"a\"x,\"b\"\n", b"a,b\"c\n", b"a,\"b\n", b"a,\"b\"c\n", b"\"a\"\"b\"c\n", b"a\"\"b\n", b"a\"\"\n",
    ] {
        assert_eq!(refused(bad), (19, 0), "{}", bad.escape_ascii());
        // Behind a record that is right, with a count that fits.
        let behind = [if bad.contains(&b',') { &b"x,y\n"[..] } else { b"x\n" }, bad].concat();
        assert_eq!(refused(&behind), (19, behind.len() - bad.len()), "{}", bad.escape_ascii());
    }
    // A quote that nothing closes takes the rest of the file with it.
    assert_eq!(refused(b"a\n\"b\nc\nd\n"), (19, 2));
}

#[test]
fn malformed_by_a_lone_carriage_return() {
    for bad in [&b"a\rb\n"[..], b"a\r", b"\r", b"\ra\n", b"a\r\r\n", b"\r\r\n", b"\"a\"\r", b"\"a\"\rb\n", b"\"a\"\r\r\n", b"a\r,b\n"] {
        assert_eq!(refused(bad), (19, 0), "{}", bad.escape_ascii());
        let behind = [if bad.contains(&b',') { &b"x,y\r\n"[..] } else { b"x\r\n" }, bad].concat();
        assert_eq!(refused(&behind), (19, behind.len() - bad.len()), "{}", bad.escape_ascii());
    }
    // Behind a line ending at the end it is a record's beginning.
    assert_eq!(refused(b"a\n\r"), (19, 2));
    assert_eq!(refused(b"a\r\n\r"), (19, 3));
    assert_eq!(refused(b"a\n\rb"), (19, 2));
}

#[test]
fn the_first_malformed_record_counts() {
    assert_eq!(refused(b"a,b\nc\n\"\n"), (19, 4));
    assert_eq!(refused(b"a,b\n\"c\"d,e\nf\n"), (19, 4));
    assert_eq!(refused(b"a\nb\rc\nd,e\n"), (19, 2));
}

#[test]
fn a_refusal_leaves_the_buffer_untouched() {
    // A long list with its fault at the end: nothing of the good part is written.
    let mut file = b"Ida,40\n".repeat(100);
    file.extend(b"Bo,?\n");
    assert_eq!(refused(&file), (20, 700));
    file.extend(b"Cy\n");
    assert_eq!(refused(&file), (19, 705));
}

#[test]
fn numbers_in_order_over_the_whole_file() {
    // 19 anywhere before 20 anywhere, be it of a field, the table or the label.
    assert_eq!(refused(b"?\na,b\n"), (19, 2));
    assert_eq!(refused(b"?\n??\n\"\n"), (19, 5));
    assert_eq!(refused_for(b"a\n\"\n", b"1", b"?"), (19, 2));
    // 20 for table or label before any field.
    assert_eq!(refused_for(b"a\n?\n", b"1", b"l"), (20, 0));
    assert_eq!(refused_for(b"a\n?\n", b"t", b"1"), (20, 0));
    assert_eq!(refused_for(b"a\n?\n", b"t", b"l"), (20, 2));
    // Of several fields the first record's.
    assert_eq!(refused(b"a\n?\nb\n??\n"), (20, 2));
}

#[test]
fn a_table_or_label_that_is_no_name() {
    for bad in [&b""[..], b"1", b"-1", b"a b", b"(a)", b"_a", b"a\n", b"\xc3\xa9", b"a23456789-123456789_12345", b"\"a\"", b"a,b"] {
        // For a file without records too.
        for file in [&b""[..], b"a\n", b"a\nb"] {
            assert_eq!(refused_for(file, bad, b"l"), (20, 0), "{}", bad.escape_ascii());
            assert_eq!(refused_for(file, b"t", bad), (20, 0), "{}", bad.escape_ascii());
            assert_eq!(refused_for(file, bad, bad), (20, 0), "{}", bad.escape_ascii());
        }
    }
}

#[test]
fn blank_lines_are_records_of_one_empty_field() {
    assert_eq!(refused(b"\n"), (20, 0));
    assert_eq!(refused(b"\r\n"), (20, 0));
    assert_eq!(refused(b"\n\n"), (20, 0));
    assert_eq!(refused(b"a\n\n"), (20, 2));
    assert_eq!(refused(b"a\n\nb\n"), (20, 2));
    assert_eq!(refused(b"a\r\n\r\n"), (20, 3));
    assert_eq!(refused(b"a,b\n\n"), (19, 4));
    assert_eq!(refused(b"\na,b\n"), (19, 1));
    assert_eq!(refused(b"\na\n"), (20, 0));
}

#[test]
fn a_line_ending_at_the_end_starts_no_record() {
    for file in [&b"a\nb"[..], b"a\nb\n", b"a\r\nb\r\n", b"a\nb\r\n"] {
        assert_eq!(lines(file), "(row sub free a)\n(row sub free b)\n");
    }
}

#[test]
fn line_endings_in_quotes_are_data() {
    assert_eq!(refused(b"\"a\nb\"\n"), (20, 0));
    assert_eq!(refused(b"\"a\r\nb\"\n"), (20, 0));
    assert_eq!(refused(b"\"a\rb\"\n"), (20, 0));
    assert_eq!(refused(b"x,y\n\"a\nb\",c\n"), (20, 4));
    // They start no record: the next begins behind the quoted field's line.
    assert_eq!(refused(b"\"a\nb\"\nc,d\n"), (19, 6));
}

#[test]
fn bytes_that_the_rfc_has_not_are_data() {
    for byte in (0..=255u8).filter(|byte| !b"\r\n\",".contains(byte)) {
        let value = [b'a', byte, b'b'];
        let is_name = byte.is_ascii_alphanumeric() || byte == b'-' || byte == b'_';
        for file in [[&value[..], b"\n"].concat(), [b"\"", &value[..], b"\"\r\n"].concat()] {
            if is_name {
                assert_eq!(lines(&file), format!("(row sub free a{}b)\n", char::from(byte)));
            } else {
                assert_eq!(refused(&file), (20, 0), "{byte}");
            }
        }
    }
    // A byte order mark is no part of a name; before a quote it makes that quote one inside a plain field.
    assert_eq!(refused(b"\xef\xbb\xbfIda,40\n"), (20, 0));
    assert_eq!(refused(b"\xef\xbb\xbf\"Ida\",40\n"), (19, 0));
}

#[test]
fn a_buffer_one_byte_short_is_21() {
    // "(row sub free Ida 40)" and its line feed are 22 bytes; `lines` tries each file with one byte less.
    let mut out = [b'#'; 22];
    assert_eq!(import(b"Ida,40", b"sub", b"free", &mut out), Ok(22));
    let mut out = [b'#'; 21];
    assert_eq!(import(b"Ida,40", b"sub", b"free", &mut out), Err(of_file(21, 0)));
    assert_eq!(out, [b'#'; 21]);
    // Behind records that would fit, too.
    let mut out = [b'#'; 43];
    assert_eq!(import(b"Ida,40\nIda,40\n", b"sub", b"free", &mut out), Err(of_file(21, 0)));
    assert_eq!(out, [b'#'; 43]);
}

#[test]
fn reading_the_lines_gives_the_values() {
    // Through a document and a select over all columns: the values come back in order.
    let records = [["Ida", "40", "x"], ["Bo", "-75", "a23456789-123456789_1234"], ["row", "9223372036854775807", "sub"], ["Ida", "40", "x"]];
    let quoted = |value: &str, some: bool| if some { format!("\"{value}\"") } else { value.to_string() };
    for style in 0..16usize {
        let line = |(place, record): (usize, &[&str; 3])| {
            let fields: Vec<String> = record.iter().enumerate().map(|(n, value)| quoted(value, (style >> n) & 1 == 1)).collect();
            fields.join(",") + if (place + style / 8) % 2 == 0 { "\r\n" } else { "\n" }
        };
        let file: String = records.iter().enumerate().map(line).collect();
        let doc = "(purpose all)\n(role desk)\n(user ana desk)\n(cond-role any desk (ge hour 0))\n(grant all any)\n\
                   (label free (allow all) (deny))\n(table sub row (who name) (due num) (tag name))\n"
            .to_string()
            + &lines(file.as_bytes());
        assert_eq!(check(doc.as_bytes()).unwrap().lines, 7 + records.len());
        let mut out = vec![0; 60_021];
        let clock = Clock { year: 2028, day: 1, hour: 1 };
        let answer = ask(doc.as_bytes(), b"(select ana desk all sub (who due tag))", clock, &mut out).unwrap();
        let expected: String = records.iter().map(|record| format!("(row {})\n", record.join(" "))).collect();
        assert_eq!(String::from_utf8_lossy(&out[..answer.len]), expected + "(end 4 0 0)\n");
    }
}

#[test]
fn document_bounds_aside() {
    // More fields than a table has columns, more records than a document has rows.
    let wide = vec!["7"; 1_000].join(",");
    assert_eq!(lines(wide.as_bytes()), format!("(row sub free {})\n", vec!["7"; 1_000].join(" ")));
    assert_eq!(lines("x\n".repeat(2_000).as_bytes()), "(row sub free x)\n".repeat(2_000));
}

#[test]
fn the_program() {
    let run = |file: &[u8], table: &[u8], label: &[u8]| {
        let mut output = Vec::new();
        reference::program::run_import(file, table, label, &mut output).unwrap();
        String::from_utf8(output).unwrap()
    };
    assert_eq!(run(b"Ida,40\r\n", b"sub", b"free"), "(row sub free Ida 40)\n");
    assert_eq!(run(b"", b"sub", b"free"), "");
    assert_eq!(run(b"a,b\nc\n", b"sub", b"free"), "(refused 19 file 4 0)\n");
    assert_eq!(run(b"a\n?\n", b"sub", b"free"), "(refused 20 file 2 0)\n");
    // A line of "(row t l x)" is 12 bytes: 5,000 are lent exactly, one more is too many.
    assert_eq!(run(&b"x\n".repeat(5_000), b"t", b"l").len(), 60_000);
    assert_eq!(run(&b"x\n".repeat(5_001), b"t", b"l"), "(refused 21 file 0 0)\n");
}

/// A plain generator of numbers (xorshift), the same on every run.
struct Dice(u64);

impl Dice {
    fn below(&mut self, limit: usize) -> usize {
        self.0 ^= self.0 << 13;
        self.0 ^= self.0 >> 7;
        self.0 ^= self.0 << 17;
        (self.0 % limit as u64) as usize
    }
}

#[test]
fn arbitrary_files() {
    let mut dice = Dice(0x1ea5);
    let pieces: [&[u8]; 20] = [
        b",", b",", b"\n", b"\r\n", b"\r", b"\"", b"\"\"", b"a", b"b", b"7", b"-", b"0", b" ", b"\"x\"", b"a,b\n", b"1,2\r\n", b"\"a\",\"1\"\n", b"\0",
        b"\xff", b"9223372036854775808",
    ];
    let mut seen = [0; 22];
    for _ in 0..40_000 {
        let mut file = Vec::new();
        for _ in 0..dice.below(9) {
            file.extend_from_slice(pieces[dice.below(pieces.len())]);
        }
        let mut out = vec![b'#'; dice.below(60)];
        let outcome = import(&file, b"t", b"l", &mut out);
        let measured = measure_import(&file, b"t", b"l");
        match outcome {
            Ok(length) => {
                seen[0] += 1;
                assert_eq!(measured, Ok(length));
                assert!(out[length..].iter().all(|&byte| byte == b'#'));
                assert!(length == 0 || out[..length].starts_with(b"(row t l ") && out[..length].ends_with(b")\n"));
            }
            Err(refusal) => {
                seen[refusal.number as usize] += 1;
                assert!(out.iter().all(|&byte| byte == b'#'));
                assert_eq!(refusal, of_file(refusal.number, refusal.start));
                // A record starts at the file's beginning or behind a line feed.
                assert!(refusal.start == 0 || file[refusal.start - 1] == b'\n');
                assert!(refusal.start == 0 || refusal.start < file.len());
                if refusal.number == 21 {
                    assert!(measured.is_ok_and(|length| length > out.len()));
                } else {
                    assert_eq!(measured, Err(refusal));
                }
            }
        }
    }
    assert!([0, 19, 20, 21].iter().all(|&number| seen[number] > 100), "{seen:?}");
}
