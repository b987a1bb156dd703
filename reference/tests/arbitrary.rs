//! Arbitrary bytes: no panic, parts inside their text, the buffer untouched by a refusal and past an answer.

mod common;
use common::*;
use reference::{ask, check, Clock, Source};

/// A plain generator of numbers (xorshift), the same on every run.
struct Dice(u64);

impl Dice {
    fn next(&mut self) -> u64 {
        self.0 ^= self.0 << 13;
        self.0 ^= self.0 >> 7;
        self.0 ^= self.0 << 17;
        self.0
    }

    fn below(&mut self, limit: usize) -> usize {
        (self.next() % limit.max(1) as u64) as usize
    }
}

/// Pieces that texts are made of, so that many random texts come close to forms.
const PIECES: [&str; 72] = [
    "(", ")", " ", "\n", "(purpose a)\n", "(purpose b a)\n", "(role r)\n", "(role s r)\n", "(attr r k num)\n", "(attr s w name)\n",
    "(user u r (k 5))\n", "(user u s (k 5) (w x))\n", "(cond-role c r (gt k 1))\n", "(grant a c)\n", "(grant b c)\n",
    "(label l (allow a) (deny))\n", "(label m (allow a) (deny b))\n", "(table t cell (p num) (q name))\n", "(table v row (p num))\n", "(table n none (p num))\n", "(public n)\n", "(public t)\n", "(count u r a n)",
    "(table y column (p num l) (q num m))\n", "(row t (1 l) (x m))\n", "(row v m 4)\n", "(row y 1 2)\n", "(select u r a t (p q))",
    "(select u r b t (p) (eq q x))", "(count u s b v (gt p 3))", "(count u r a y)", "(blank u r b t (q p))", "(blank u r b t (q) (gt p 0))", "blank", "(row t ((1 5) l) (x m))\n", "(row v m (-2 4))\n", "(sure u r a t (p q) (gt p 0))", "(possible u r b v (p) (eq p 3))", "(9 1)", "(table d cell (p date) (q num))\n",
    "(row d ((2028 2 29) l) (1 m))\n", "(row d ((2027 2 29) l) (1 m))\n", "(select u r a d (p) (lt p (2028 3 1)))", "(count u r a d (eq p (1900 2 29)))", "(2000 2 29)", "date", "(table e nest (p num) (q name))\n", "(weak e m)\n", "(strong e l)\n",
    "(row e m (1 l) (x m))\n", "(row e l (-2 m) (x l))\n", "(select u r b e (p q))", "(blank u r b e (q p))", "nest", "(weak t l)\n", "purpose", "role", "row", "table", "(eq p 1)",
    "(not ", "(and ", "a", "b", "t", "-1", "0", "01", "9223372036854775808", "\u{0}", "\u{e9}", "year",
];

fn assemble(dice: &mut Dice, most: usize) -> Vec<u8> {
    let mut text = Vec::new();
    for _ in 0..dice.below(most) {
        text.extend_from_slice(PIECES[dice.below(PIECES.len())].as_bytes());
    }
    text
}

fn disturb(dice: &mut Dice, text: &mut Vec<u8>) {
    for _ in 0..dice.below(4) {
        let place = dice.below(text.len() + 1);
        match dice.below(3) {
            0 if place < text.len() => {
                text.remove(place);
            }
            1 if place < text.len() => text[place] = dice.next() as u8,
            _ => text.insert(place, b"() \n-0a9"[dice.below(8)]),
        }
    }
}

fn try_one(doc: &[u8], query: &[u8], clock: Clock, room: usize) -> u32 {
    let mut out = vec![b'#'; room];
    let result = ask(doc, query, clock, &mut out);
    let checked = check(doc);
    match result {
        Ok(answer) => {
            assert!(checked.is_ok() && answer.len <= room);
            assert!(out[answer.len..].iter().all(|&byte| byte == b'#'));
            let end = format!("(end {} {} {})\n", answer.passed, answer.withheld, answer.unmatched);
            assert!(out[..answer.len].ends_with(end.as_bytes()));
            0
        }
        Err(refusal) => {
            assert!(out.iter().all(|&byte| byte == b'#'));
            let text = match refusal.source {
                Source::Document => doc,
                Source::Query => query,
                Source::File => panic!("a file where none was given"),
            };
            assert!(refusal.start + refusal.len <= text.len());
            let of_document = refusal.source == Source::Document;
            // 31 is given of both.
            assert!(refusal.number == 31 || of_document == (refusal.number <= 9 || matches!(refusal.number, 25 | 28)));
            assert_eq!(of_document, checked == Err(refusal));
            refusal.number
        }
    }
}

#[test]
fn arbitrary_texts() {
    let mut dice = Dice(0x5eed);
    let mut seen = [0usize; 32];
    for round in 0..30_000 {
        let mut doc = if round % 2 == 0 { assemble(&mut dice, 24) } else { SAMPLE.as_bytes().to_vec() };
        let mut query = if round % 3 == 0 { assemble(&mut dice, 6) } else { QUERY.as_bytes().to_vec() };
        if round % 4 < 2 {
            disturb(&mut dice, &mut doc);
        }
        if round % 5 < 4 {
            disturb(&mut dice, &mut query);
        }
        let clock = if round % 7 == 0 { Clock { year: dice.next(), day: dice.next(), hour: dice.next() } } else { CLOCK };
        seen[try_one(&doc, &query, clock, dice.below(64)) as usize] += 1;
    }
    // Answers, wrong forms, clocks, shapes, names and short buffers have all come up.
    for number in [0, 2, 4, 5, 10, 11, 12, 18] {
        assert!(seen[number] > 0, "{number} in {seen:?}");
    }
}

#[test]
fn raw_bytes() {
    let mut dice = Dice(0xbead);
    for _ in 0..2_000 {
        let doc: Vec<u8> = (0..dice.below(200)).map(|_| dice.next() as u8).collect();
        let query: Vec<u8> = (0..dice.below(200)).map(|_| dice.next() as u8).collect();
        try_one(&doc, &query, CLOCK, 64);
        try_one(SAMPLE.as_bytes(), &query, CLOCK, 64);
    }
}

#[test]
fn long_runs() {
    for byte in 0..=255u8 {
        for len in [4_096, 4_097, 60_000, 60_001] {
            try_one(&vec![byte; len], QUERY.as_bytes(), CLOCK, 64);
            try_one(SAMPLE.as_bytes(), &vec![byte; len], CLOCK, 64);
        }
    }
}
