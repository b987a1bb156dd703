//! 02, Q-8: "Names that differ only in the case of ASCII letters are now the same name". Which names the generator holds for one, and
//! texts with their letters turned to the other case.

use crate::damage::words;
use crate::random::Random;

/// Whether two names are one.
pub fn same(one: &str, other: &str) -> bool {
    one.eq_ignore_ascii_case(other)
}

/// Whether a name is in a list.
pub fn listed(names: &[&str], name: &str) -> bool {
    names.iter().any(|one| same(one, name))
}

/// The byte of a letter in the other case; any other byte as it is.
fn turned(byte: u8) -> u8 {
    if byte.is_ascii_alphabetic() {
        byte ^ 32
    } else {
        byte
    }
}

/// The name with at least one letter turned (the first byte of a name is a letter).
pub fn name(random: &mut Random, name: &str) -> String {
    let all = random.chance(1, 2);
    let sure = if random.chance(1, 2) { 0 } else { name.bytes().rposition(|byte| byte.is_ascii_alphabetic()).unwrap_or(0) };
    let letter = |(place, byte)| char::from(if all || place == sure || random.chance(1, 3) { turned(byte) } else { byte });
    name.bytes().enumerate().map(letter).collect()
}

/// Which letters of a text are turned: by the place of their word and their place in it alone. So two documents that differ in values
/// alone, each value being as many words as the other, still differ in these alone.
#[derive(Clone, Copy)]
pub struct Recasing {
    key: u64,
    /// How many words in eight.
    words: usize,
    /// How many letters in eight.
    letters: usize,
}

impl Recasing {
    /// None half of the time; else half of the words whole, half of all letters, or a few words.
    pub fn any(random: &mut Random) -> Recasing {
        let (words, letters) = *random.pick(&[(0, 0), (0, 0), (0, 0), (4, 8), (8, 4), (1, 4)]);
        Recasing { key: random.next(), words, letters }
    }

    pub fn turn(&self, text: &[u8]) -> Vec<u8> {
        let mut text = text.to_vec();
        if self.words == 0 {
            return text;
        }
        for (place, (from, to)) in words(&text).into_iter().enumerate() {
            let mut random = Random::new(self.key, place as u64);
            if random.chance(self.words, 8) {
                text[from..to].iter_mut().filter(|_| random.chance(self.letters, 8)).for_each(|byte| *byte = turned(*byte));
            }
        }
        text
    }
}

/// A text in another case, half of the time; and whether it is another text now.
pub fn any(random: &mut Random, text: Vec<u8>) -> (Vec<u8>, bool) {
    let recased = Recasing::any(random).turn(&text);
    let other = recased != text;
    (recased, other)
}
