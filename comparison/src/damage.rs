//! Damage to texts: bytes, words and lines changed, taken out, put in, moved.

use crate::random::Random;

/// Bytes at the edges of the byte classes, and some outside all of them.
const BYTES: &[u8] = b"\0\n\r\t ()-_0989aAzZ/:@[`{\x7f\x80\xc3\xff.";

/// Words at the edges of names and numbers, keywords, and pieces of brackets.
const WORDS: [&str; 77] = [
    "a23456789-123456789_1234", "a23456789-123456789_12345", "9223372036854775807", "9223372036854775808",
    "-9223372036854775808", "-9223372036854775809", "18446744073709551616", "18446744073709551617",
    "99999999999999999999999", "-0", "00", "01", "-", "-1", "0", "7", "_a", "9a", "a", "year", "day", "hour", "num", "name",
    "()", "(a)", "(a b)", "((a b))", "(5 a)", "allow", "deny", "row", "cell", "none", "eq", "lt", "not", "and", "or", "(not (eq a 1))",
    "A", "Year", "HOUR", "NUM", "Name", "ALLOW", "Row", "EQ", "Not", "oR", "public", "Public", "blank", "BLANK", "sure", "Possible",
    "(1 5)", "(5 1)", "(5 5)", "((1 5) a)", "(-1 1)", "(1 5 7)",
    "date", "DATE", "(2028 2 29)", "(2027 2 29)", "(2000 2 29)", "((2028 2 29) a)", "(1 5 7 9)", "(-1 0 13)", "(2028 2 a)",
    "nest", "NEST", "weak", "Weak", "strong", "STRONG",
];

fn is_word_byte(byte: u8) -> bool {
    byte.is_ascii_alphanumeric() || byte == b'-' || byte == b'_'
}

/// The words of a text, as start and end.
pub fn words(text: &[u8]) -> Vec<(usize, usize)> {
    let mut words = Vec::new();
    let mut start = None;
    for (place, &byte) in text.iter().enumerate() {
        match (is_word_byte(byte), start) {
            (true, None) => start = Some(place),
            (false, Some(from)) => {
                words.push((from, place));
                start = None;
            }
            _ => {}
        }
    }
    if let Some(from) = start {
        words.push((from, text.len()));
    }
    words
}

fn replace(text: &mut Vec<u8>, from: usize, to: usize, with: &[u8]) {
    text.splice(from..to, with.iter().copied());
}

/// The word that stands at a place of a text or ends before it.
fn word_at(text: &[u8], place: usize) -> &[u8] {
    let mut end = place.min(text.len());
    while end > 0 && !is_word_byte(text[end - 1]) {
        end -= 1;
    }
    let start = text[..end].iter().rposition(|&byte| !is_word_byte(byte)).map_or(0, |before| before + 1);
    let length = text[start..].iter().position(|&byte| !is_word_byte(byte)).unwrap_or(text.len() - start);
    &text[start..start + length]
}

/// One damage anywhere in the text.
pub fn once(random: &mut Random, text: &mut Vec<u8>) {
    match random.below(20) {
        0..=9 => {
            let pool = text.clone();
            word(random, text, &pool, 0)
        }
        10..=13 => line(random, text),
        _ => byte(random, text),
    }
}

/// A byte or a run of bytes.
fn byte(random: &mut Random, text: &mut Vec<u8>) {
    let any = if random.chance(3, 4) { *random.pick(BYTES) } else { random.next() as u8 };
    let place = random.below(text.len() + 1);
    if place == text.len() {
        text.push(any);
        return;
    }
    match random.below(9) {
        0..=2 => text[place] = any,
        3 | 4 => text.insert(place, any),
        5 | 6 => {
            text.remove(place);
        }
        // A letter's other case; of no other byte is it one (02, Q-8).
        7 => text[place] ^= 32,
        _ => text.truncate(place),
    }
}

/// A word against another word: of the text, of the pool, or of the list above. The first `spared` words stay.
pub fn word(random: &mut Random, text: &mut Vec<u8>, pool: &[u8], spared: usize) {
    let words = words(text);
    if words.len() <= spared {
        return byte(random, text);
    }
    let (from, to) = *random.pick(&words[spared..]);
    // Another word from near by, or anywhere in the pool.
    let here = words.iter().position(|&(start, _)| start == from).unwrap_or(0);
    let near = words[random.between(here.saturating_sub(6), (here + 6).min(words.len() - 1))];
    let far = word_at(pool, random.below(pool.len().max(1)));
    let other = if far.is_empty() || random.chance(1, 3) { &text[near.0..near.1] } else { far }.to_vec();
    match random.below(10) {
        0..=3 => replace(text, from, to, &other),
        4 | 5 => replace(text, from, to, random.pick(&WORDS).as_bytes()),
        6 => {
            // The word goes with the space before it, if there is one.
            let from = if from > 0 && text[from - 1] == b' ' { from - 1 } else { from };
            replace(text, from, to, b"");
        }
        7 => replace(text, to, to, &[b" ", &other[..]].concat()),
        8 => replace(text, to, to, &[b" ", random.pick(&WORDS).as_bytes()].concat()),
        _ => {
            let inner = text[from..to].to_vec();
            replace(text, from, to, &[b"(", &inner[..], b" ", &other[..], b")"].concat());
        }
    }
}

/// A line taken out, repeated, swapped, moved or made blank.
fn line(random: &mut Random, text: &mut Vec<u8>) {
    let mut lines: Vec<Vec<u8>> = text.split_inclusive(|&byte| byte == b'\n').map(|line| line.to_vec()).collect();
    if lines.is_empty() {
        return text.push(b'\n');
    }
    let one = random.below(lines.len());
    let two = random.below(lines.len());
    match random.below(6) {
        0 => {
            lines.remove(one);
        }
        1 => lines.insert(two, lines[one].clone()),
        2 => lines.swap(one, two),
        3 => {
            let moved = lines.remove(one);
            lines.insert(two.min(lines.len()), moved);
        }
        4 => lines.insert(one, b"\n".to_vec()),
        _ => {
            // Two lines run together.
            lines[one].pop();
        }
    }
    *text = lines.concat();
}

/// Bytes without any plan: all of them, or those of brackets and words.
pub fn noise(random: &mut Random) -> Vec<u8> {
    let length = match random.below(4) {
        0 => random.below(4),
        1 => random.below(40),
        _ => random.below(400),
    };
    let mut text = Vec::new();
    match random.below(3) {
        0 => text.extend((0..length).map(|_| random.next() as u8)),
        1 => text.extend((0..length).map(|_| *random.pick(BYTES))),
        _ => {
            const HEADS: [&str; 17] = [
                "purpose", "role", "attr", "user", "cond-role", "grant", "label", "table", "row", "Purpose", "ROLE", "cond_role", "public", "PUBLIC",
                "weak", "strong", "Strong",
            ];
            for _ in 0..random.between(1, 8) {
                text.extend_from_slice(format!("({}", random.pick(&HEADS)).as_bytes());
                for _ in 0..random.below(4) {
                    text.push(b' ');
                    text.extend_from_slice(random.pick(&WORDS).as_bytes());
                }
                text.extend_from_slice(b")\n");
            }
        }
    }
    text
}
