//! Documents that are dear to check: as many names of one kind as there may be, of 24 bytes each, alike but for a few bytes, of one
//! hash, or in mixed case; and rows full of dates. The gate's check beside the reference's.

use crate::samples::Samples;
use crate::{gate, plain, taken};
use std::hint::black_box;
use std::time::{Duration, Instant};

/// How long each document is measured.
const SECONDS: f64 = 1.0;
/// 01: a document has at most so many bytes.
const LONGEST: usize = 60_000;

/// Where names differ, the rest being alike.
#[derive(Clone, Copy, PartialEq, Eq)]
enum Differing {
    End,
    Middle,
    Front,
    /// Anywhere, but the hash by which purposes and roles are looked up is one.
    Hash,
    /// The same of the print by which users, conditional roles and the names within a line are told apart.
    Print,
    /// As at the end, and each name in another case wherever it stands (02, Q-8).
    Case,
}

const DIFFERING: [(&str, Differing); 6] = [
    ("end", Differing::End),
    ("middle", Differing::Middle),
    ("front", Differing::Front),
    ("hash", Differing::Hash),
    ("print", Differing::Print),
    ("case", Differing::Case),
];

fn letter(place: usize) -> char {
    (b'a' + (place % 16) as u8) as char
}

/// Two letters, the first of which turns last.
fn two(number: usize) -> String {
    [letter(number / 16), letter(number)].into_iter().collect()
}

/// index `hash_by`.
fn hash(name: &[u8], factor: u64, bound: u64) -> u64 {
    name.iter().fold(0, |hash, &byte| (factor * hash + u64::from(byte)) % bound)
}

/// Names of 24 bytes with the hash 0: halves are put together that make it so.
pub fn of_one_hash(so_many: usize, factor: u64, bound: u64) -> Vec<String> {
    let half = |lead: char, number: usize| {
        let tail: String = (0..6).map(|place| letter(number >> (4 * place))).collect();
        format!("{lead}-half{tail}")
    };
    // A second half adds its own hash to that of the first times the factor to the power of 12.
    let shift = (0..12).fold(1, |power, _| factor * power % bound);
    let mut seconds = std::collections::HashMap::new();
    for number in 0..1 << 18 {
        let name = half('y', number);
        seconds.entry(hash(name.as_bytes(), factor, bound)).or_insert(name);
    }
    let mut names = Vec::new();
    for number in 0.. {
        let first = half('x', number);
        let wanted = (bound - hash(first.as_bytes(), factor, bound) * shift % bound) % bound;
        if let Some(second) = seconds.get(&wanted) {
            names.push(format!("{first}{second}"));
            if names.len() == so_many {
                break;
            }
        }
    }
    assert!(names.iter().all(|name| name.len() == 24 && hash(name.as_bytes(), factor, bound) == 0));
    names
}

/// So many names of 24 bytes, 256 at most.
fn names(so_many: usize, differing: Differing) -> Vec<String> {
    let made = |made: fn(String) -> String| (0..so_many).map(|number| made(two(number))).collect();
    match differing {
        Differing::End | Differing::Case => made(|word| format!("a-name-that-is-so-long{word}")),
        Differing::Middle => made(|word| format!("a-name-that{word}is-so-long")),
        Differing::Front => made(|word| format!("{word}a-name-that-is-so-long")),
        Differing::Hash => of_one_hash(so_many, 105, 1 << 10),
        Differing::Print => of_one_hash(so_many, 2_654_435_761, 1 << 32),
    }
}

/// The text with every third letter in capitals, counted over the whole of it, so that few uses of a name are alike.
fn mixed(text: Vec<u8>) -> Vec<u8> {
    text.iter().enumerate().map(|(place, byte)| if place % 3 == 0 { byte.to_ascii_uppercase() } else { *byte }).collect()
}

const HEAD: &str = "(purpose all)\n(role desk)\n";

/// One line after the other, as long as there is room.
fn filled(mut text: String, lines: impl Iterator<Item = String>) -> Vec<u8> {
    for line in lines {
        if text.len() + line.len() > LONGEST {
            break;
        }
        text.push_str(&line);
    }
    text.into_bytes()
}

/// 17 labels with 64 purposes in either set.
fn sets(names: &[String]) -> Vec<u8> {
    let mut text = format!("(purpose {})\n", names[0]);
    for name in &names[1..64] {
        text.push_str(&format!("(purpose {name} {})\n", names[0]));
    }
    let set = names[..64].join(" ");
    filled(text, (0..17).map(|number| format!("(label l{number} (allow {set}) (deny {set}))\n")))
}

/// Sets of all 256 purposes.
fn full_sets(names: &[String]) -> Vec<u8> {
    let mut text = format!("(purpose {})\n", names[0]);
    for name in &names[1..] {
        text.push_str(&format!("(purpose {name} {})\n", names[0]));
    }
    let set = names.join(" ");
    filled(text, (0..).map(|number| format!("(label l{number} (allow {set}) (deny))\n")))
}

/// Labels with eight purposes in either set: lines of ordinary length.
fn short_sets(names: &[String]) -> Vec<u8> {
    let mut text = format!("(purpose {})\n", names[0]);
    for name in &names[1..64] {
        text.push_str(&format!("(purpose {name} {})\n", names[0]));
    }
    let lines = (0..64).map(|number| {
        let set = names[number % 56..number % 56 + 8].join(" ");
        format!("(label l{number} (allow {set}) (deny {set}))\n")
    });
    filled(text, lines)
}

/// Each purpose below the one before it.
fn purposes(names: &[String]) -> Vec<u8> {
    let mut text = format!("(purpose {})\n", names[0]);
    for pair in names.windows(2) {
        text.push_str(&format!("(purpose {} {})\n", pair[1], pair[0]));
    }
    text.into_bytes()
}

/// Each role below the one before it, and an attribute of it while there may be one.
fn roles(names: &[String]) -> Vec<u8> {
    let mut text = format!("(purpose all)\n(role {})\n", names[0]);
    for pair in names[..64].windows(2) {
        text.push_str(&format!("(role {} {})\n", pair[1], pair[0]));
    }
    for (number, name) in names[..32].iter().enumerate() {
        text.push_str(&format!("(attr {name} a{number} num)\n"));
    }
    text.into_bytes()
}

/// 256 users of one role.
fn users(names: &[String]) -> Vec<u8> {
    filled(HEAD.into(), names.iter().map(|name| format!("(user {name} desk)\n")))
}

/// 64 roles, and 4 users of each.
fn users_of_roles(names: &[String]) -> Vec<u8> {
    let mut text = String::from("(purpose all)\n(role desk)\n");
    for name in &names[1..64] {
        text.push_str(&format!("(role {name} desk)\n"));
    }
    let users = (1..64).flat_map(|role| names[..4].iter().map(move |user| format!("(user {user} {} )\n", names[role]).replace(" )", ")")));
    filled(text, users)
}

/// 32 attributes, and users that have them all.
fn attributes(names: &[String]) -> Vec<u8> {
    let mut text = String::from(HEAD);
    for name in &names[..32] {
        text.push_str(&format!("(attr desk {name} num)\n"));
    }
    let values: String = names[..32].iter().map(|name| format!(" ({name} 1)")).collect();
    filled(text, (0..).map(|number| format!("(user u{number} desk{values})\n")))
}

/// 32 attributes, and conditional roles that compare them twice each.
fn conditions(names: &[String]) -> Vec<u8> {
    let mut text = String::from(HEAD);
    for name in &names[..32] {
        text.push_str(&format!("(attr desk {name} num)\n"));
    }
    let tests: String = (0..64).map(|number| format!(" (ge {} {number})", names[number % 32])).collect();
    filled(text, (0..64).map(|number| format!("(cond-role c{number} desk (and{tests}))\n")))
}

/// 64 conditional roles and 128 grants.
fn cond_roles(names: &[String]) -> Vec<u8> {
    let mut text = String::from(HEAD);
    for name in &names[..64] {
        text.push_str(&format!("(cond-role {name} desk (ge hour 0))\n"));
    }
    filled(text, (0..128).map(|number| format!("(grant all {})\n", names[number % 64])))
}

/// 64 labels, which columns and rows and cells of rows have.
fn labels(names: &[String], table: &str, row: impl Fn(usize) -> String) -> Vec<u8> {
    let mut text = String::from(HEAD);
    for name in &names[..64] {
        text.push_str(&format!("(label {name} (allow all) (deny))\n"));
    }
    text.push_str(table);
    filled(text, (0..1_024).map(row))
}

fn labelled_cells(names: &[String]) -> Vec<u8> {
    let columns: String = (0..16).map(|column| format!(" (c{column} num)")).collect();
    labels(names, &format!("(table sub cell{columns})\n"), |row| {
        let cells: String = (0..16).map(|column| format!(" (1 {})", names[(16 * row + column) % 64])).collect();
        format!("(row sub{cells})\n")
    })
}

fn labelled_rows(names: &[String]) -> Vec<u8> {
    labels(names, "(table sub row (c num))\n", |row| format!("(row sub {} 1)\n", names[row % 64]))
}

/// 8 tables of 16 columns, under as many labels.
fn columns(names: &[String]) -> Vec<u8> {
    let mut text = String::from(HEAD);
    for name in &names[..16] {
        text.push_str(&format!("(label {name} (allow all) (deny))\n"));
    }
    let columns: String = names[..16].iter().map(|name| format!(" ({name} num {name})")).collect();
    filled(text, (0..8).map(|number| format!("(table t{number} column{columns})\n")))
}

/// 8 tables, all of them public, and rows of each in turn.
fn tables(names: &[String]) -> Vec<u8> {
    let mut text = String::from(HEAD);
    for name in &names[..8] {
        text.push_str(&format!("(table {name} none (c num))\n"));
    }
    for name in &names[..8] {
        text.push_str(&format!("(public {name})\n"));
    }
    filled(text, (0..1_024).map(|number| format!("(row {} 1)\n", names[number % 8])))
}

/// A label line of short names that are no purposes; with `repeats`, the last is the first again.
fn long_line(repeats: bool) -> Vec<u8> {
    let mut text = String::from("(purpose p)\n(label l (allow");
    // The digits of the number times an odd factor: no order that a hash might like.
    let name = |number: usize| -> String {
        // Without capitals: no two names may be the same but for case.
        const BYTES: &[u8] = b"abcdefghijklmnopqrstuvwxyz0123456789-_";
        let mixed = number * 7_919 % (26 * 38 * 38);
        [mixed / (38 * 38), mixed / 38 % 38, mixed % 38].map(|place| char::from(BYTES[place])).iter().collect()
    };
    let mut number = 0;
    while text.len() + 20 <= LONGEST {
        text.push_str(&format!(" {}", name(number)));
        number += 1;
    }
    if repeats {
        text.push_str(&format!(" {}", name(0)));
    }
    text.push_str(") (deny))\n");
    text.into_bytes()
}

/// Rows of 16 equal values, as long as there is room.
fn wide_rows(kind: &str, value: &str) -> Vec<u8> {
    let columns: String = (0..16).map(|column| format!(" (c{column} {kind})")).collect();
    let row = format!("(row sub{})\n", format!(" {value}").repeat(16));
    filled(format!("(table sub none{columns})\n"), std::iter::repeat_n(row, 1_024))
}

/// A nest table whose weak line stands behind its one row, which is the last of 1,024.
fn late_note() -> Vec<u8> {
    let mut text = String::from("(label l (allow) (deny))\n(table sub nest (c num))\n(table t none (c num))\n");
    text.push_str(&"(row t 1)\n".repeat(1_023));
    text.push_str("(row sub l (1 l))\n(weak sub l)\n");
    text.into_bytes()
}

/// What a row of the table is called, and its document.
fn documents() -> Vec<(String, Vec<u8>)> {
    type Kind = (&'static str, fn(&[String]) -> Vec<u8>);
    const KINDS: [Kind; 14] = [
        ("17 labels of 2 x 64 purposes", sets),
        ("sets of 256 purposes", full_sets),
        ("64 labels of 2 x 8 purposes", short_sets),
        ("256 purposes, a chain", purposes),
        ("64 roles, a chain", roles),
        ("256 users", users),
        ("4 users of 63 roles", users_of_roles),
        ("users with 32 attributes", attributes),
        ("conditions on 32 attributes", conditions),
        ("64 conditional roles, 128 grants", cond_roles),
        ("64 labels of cells", labelled_cells),
        ("64 labels of rows", labelled_rows),
        ("8 tables of 16 columns", columns),
        ("8 tables, rows of each", tables),
    ];
    let mut documents = Vec::new();
    for (alike, differing) in DIFFERING {
        let names = names(256, differing);
        for (kind, document) in KINDS {
            let text = document(&names);
            documents.push((format!("{kind}; {alike}"), if differing == Differing::Case { mixed(text) } else { text }));
        }
    }
    documents.push(("a line of 14,990 names; refused with 5".into(), long_line(false)));
    documents.push(("the same, and the first again; refused with 4".into(), long_line(true)));
    // 02, Q-14: long dates beside numbers as long, and short ones.
    documents.push(("rows of 16 dates".into(), wide_rows("date", "(9999 12 31)")));
    documents.push(("rows of 16 numbers, as long as the dates".into(), wide_rows("num", "999912319999")));
    documents.push(("rows of 16 short dates".into(), wide_rows("date", "(1 1 1)")));
    // 02, Q-11: lines about a table are looked up among tables, labels and rows; one that is out of place is found behind all rows.
    documents.push(("a weak line behind 1,024 rows; refused with 25".into(), late_note()));
    documents
}

/// Measures those whose name has the word in it, and prints a table.
pub fn measure(word: &str) {
    println!("Microseconds of a check, 10th percentile; names of 24 bytes that differ in two bytes (hash, print: that have one of these; case: in mixed case).\n");
    println!("{:50}{:>7}{:>9}{:>11}{:>11}{:>10}", "document", "bytes", "refusal", "gate", "reference", "gate/ref");
    for (name, text) in documents().iter().filter(|(name, _)| name.contains(word)) {
        let (number, _) = gate::check(text);
        let theirs = plain::reference_check(text).map_or_else(|refusal| u64::from(refusal.number), |_| 0);
        assert_eq!(number, theirs, "{name}: one refusal");
        let (mut gate, mut reference) = (Samples::default(), Samples::default());
        let start = Instant::now();
        while gate.len() < 3 || start.elapsed() < Duration::from_secs_f64(SECONDS) {
            gate.add(taken(|| gate::check(black_box(text))));
            reference.add(taken(|| plain::reference_check(black_box(text)).is_ok()));
        }
        let (gate, reference) = (gate.time(), reference.time());
        println!("{name:50}{:>7}{number:>9}{gate:>11.1}{reference:>11.1}{:>10.2}", text.len(), gate / reference);
    }
}
