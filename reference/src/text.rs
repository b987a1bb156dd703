//! 01, "Bracket texts": bytes to items. Nothing here knows what a form means.

/// 01: "Nesting is at most 16 deep, the form's own bracket being 1."
pub const DEEPEST: usize = 16;
/// 01: "a name has 1 to 24" name bytes.
pub const LONGEST_NAME: usize = 24;

/// A part of a text.
#[derive(Clone, Copy, Debug, PartialEq, Eq)]
pub struct Span {
    pub start: usize,
    pub len: usize,
}

/// An item of a bracket.
#[derive(Clone, Debug, PartialEq, Eq)]
pub struct Item<'a> {
    pub span: Span,
    pub kind: Kind<'a>,
}

/// A name as its text wrote it. 02, Q-8: "Names that differ only in the case of ASCII letters are now the same name", so `==` has no
/// case wherever names meet, and the bytes are had by `written` alone.
#[derive(Clone, Copy, Debug)]
pub struct Name<'a> {
    bytes: &'a [u8],
}

impl<'a> Name<'a> {
    pub const fn of(bytes: &'a [u8]) -> Name<'a> {
        Name { bytes }
    }

    /// 02, Q-8: "Answers print a cell as its row line wrote it."
    pub fn written(&self) -> &'a [u8] {
        self.bytes
    }

    /// The name in small letters, for keywords.
    pub fn small(&self) -> Vec<u8> {
        self.bytes.to_ascii_lowercase()
    }
}

/// 02, Q-8: "the case of ASCII letters": the 26 have two, and no other byte has.
impl PartialEq for Name<'_> {
    fn eq(&self, other: &Name) -> bool {
        self.bytes.eq_ignore_ascii_case(other.bytes)
    }
}

impl Eq for Name<'_> {}

/// A name, a number or a bracket.
#[derive(Clone, Debug, PartialEq, Eq)]
pub enum Kind<'a> {
    Name(Name<'a>),
    Number(i64),
    Bracket(Vec<Item<'a>>),
}

/// 01: "A name byte is a letter, a digit, `-` or `_`".
fn is_name_byte(byte: u8) -> bool {
    match byte {
        b'a'..=b'z' | b'A'..=b'Z' | b'0'..=b'9' | b'-' | b'_' => true,
        _ => false,
    }
}

/// 01: "a name has 1 to 24, the first a letter".
pub fn is_name(word: &[u8]) -> bool {
    let starts_well = match word.first() {
        Some(byte) => byte.is_ascii_alphabetic(),
        None => false,
    };
    starts_well && word.len() <= LONGEST_NAME && word.iter().all(|&byte| is_name_byte(byte))
}

/// 01: "A number is decimal, from -2^63 to 2^63-1, no leading zeros, no `-0`."
fn number(word: &[u8]) -> Option<i64> {
    let (negative, digits) = match word.split_first() {
        Some((b'-', rest)) => (true, rest),
        _ => (false, word),
    };
    if digits.is_empty() || !digits.iter().all(|byte| byte.is_ascii_digit()) {
        return None;
    }
    if digits[0] == b'0' && (digits.len() > 1 || negative) {
        return None;
    }
    // 2^63 has 19 digits, so 20 or more are out of range, and 19 fit an i128.
    if digits.len() > 19 {
        return None;
    }
    let mut size: i128 = 0;
    for &digit in digits {
        size = size * 10 + i128::from(digit - b'0');
    }
    i64::try_from(if negative { -size } else { size }).ok()
}

/// 01: "`v` for a name or a number".
pub fn is_value(word: &[u8]) -> bool {
    is_name(word) || number(word).is_some()
}

/// The items of a text that is exactly one bracket; positions are counted from `base`.
pub fn read_form(text: &[u8], base: usize) -> Option<Vec<Item<'_>>> {
    let (items, end) = read_bracket(text, 0, 1, base)?;
    if end == text.len() {
        Some(items)
    } else {
        None
    }
}

/// 01: "Items in a bracket are separated by one space, with none after `(` or before `)`."
fn read_bracket(text: &[u8], at: usize, depth: usize, base: usize) -> Option<(Vec<Item<'_>>, usize)> {
    if depth > DEEPEST || text.get(at) != Some(&b'(') {
        return None;
    }
    let mut items = Vec::new();
    let mut here = at + 1;
    if text.get(here) == Some(&b')') {
        return Some((items, here + 1));
    }
    loop {
        let (item, after) = read_item(text, here, depth, base)?;
        items.push(item);
        match text.get(after) {
            Some(b' ') => here = after + 1,
            Some(b')') => return Some((items, after + 1)),
            _ => return None,
        }
    }
}

/// One name, number or bracket inside a bracket of the given depth, and where it ends.
fn read_item(text: &[u8], at: usize, depth: usize, base: usize) -> Option<(Item<'_>, usize)> {
    if text.get(at) == Some(&b'(') {
        let (items, end) = read_bracket(text, at, depth + 1, base)?;
        let span = Span { start: base + at, len: end - at };
        return Some((Item { span, kind: Kind::Bracket(items) }, end));
    }
    let mut end = at;
    while text.get(end).is_some_and(|&byte| is_name_byte(byte)) {
        end += 1;
    }
    let word = text.get(at..end)?;
    let kind = if is_name(word) { Kind::Name(Name::of(word)) } else { Kind::Number(number(word)?) };
    Some((Item { span: Span { start: base + at, len: end - at }, kind }, end))
}

#[cfg(test)]
mod tests {
    use super::*;

    #[test]
    fn numbers_by_01() {
        assert_eq!(number(b"0"), Some(0));
        assert_eq!(number(b"-1"), Some(-1));
        assert_eq!(number(b"9223372036854775807"), Some(i64::MAX));
        assert_eq!(number(b"9223372036854775808"), None);
        assert_eq!(number(b"-9223372036854775808"), Some(i64::MIN));
        assert_eq!(number(b"-9223372036854775809"), None);
        assert_eq!(number(b"9999999999999999999"), None);
        assert_eq!(number(b"10000000000000000000"), None);
        for bad in [&b""[..], b"-", b"-0", b"00", b"01", b"-01", b"1a", b"--1", b"1-", b"_1"] {
            assert_eq!(number(bad), None);
        }
    }

    #[test]
    fn names_by_01() {
        assert!(is_name(b"a"));
        assert!(is_name(b"Z-9_"));
        assert!(is_name(&[b'a'; 24]));
        assert!(!is_name(&[b'a'; 25]));
        for bad in [&b""[..], b"-a", b"_a", b"9a", b"a.b", b"\xc3\xa9"] {
            assert!(!is_name(bad));
        }
    }

    #[test]
    fn names_without_case() {
        let same = |one: &[u8], other: &[u8]| Name::of(one) == Name::of(other);
        assert!(same(b"abcdefghijklmnopqrstuvwxyz", b"ABCDEFGHIJKLMNOPQRSTUVWXYZ"));
        assert!(same(b"Ads", b"aDS"));
        assert!(!same(b"ads", b"adss"));
        assert!(!same(b"ads", b"adr"));
        // No byte but a letter has another case: each byte is the same as itself, and a letter as one more.
        for one in 0..=255u8 {
            let alike: Vec<u8> = (0..=255u8).filter(|&other| same(&[one], &[other])).collect();
            let expected = match one {
                b'A'..=b'Z' => vec![one, one + 32],
                b'a'..=b'z' => vec![one - 32, one],
                _ => vec![one],
            };
            assert_eq!(alike, expected);
        }
        assert_eq!(Name::of(b"Cond-Role_9").small(), b"cond-role_9");
        assert_eq!(Name::of(b"Ada").written(), b"Ada");
    }

    #[test]
    fn brackets_by_01() {
        for good in ["(a)", "(a b)", "(a (b 1) -2)", "((a))"] {
            assert!(read_form(good.as_bytes(), 0).is_some(), "{good}");
        }
        for bad in ["", "a", "(", ")", "(a", "a)", "( a)", "(a )", "(a  b)", "(a)(b)", "(a) ", " (a)", "(a(b))", "(a\tb)", "(a\n)", "(a\r)", "(a 01)"] {
            assert!(read_form(bad.as_bytes(), 0).is_none(), "{bad}");
        }
    }

    #[test]
    fn depth_by_01() {
        let nest = |n: usize| format!("{}a{}", "(".repeat(n), ")".repeat(n));
        assert!(read_form(nest(16).as_bytes(), 0).is_some());
        assert!(read_form(nest(17).as_bytes(), 0).is_none());
        assert!(read_form(&[b'('; 60_000], 0).is_none());
    }

    #[test]
    fn positions_are_counted_from_the_base() {
        let items = read_form(b"(ab (c 1))", 100).unwrap();
        assert_eq!(items[0].span, Span { start: 101, len: 2 });
        assert_eq!(items[1].span, Span { start: 104, len: 5 });
    }
}
