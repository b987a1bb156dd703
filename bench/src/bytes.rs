//! One pass of byte classes over a text: what looking at each byte once costs.

/// Whether a byte may stand in a name, by ranges: the class that the gate's token reader asks for most.
fn is_name_byte(byte: u8) -> u64 {
    match byte {
        b'-' | b'0'..=b'9' | b'A'..=b'Z' | b'_' | b'a'..=b'z' => 1,
        _ => 0,
    }
}

/// Each class that a reader of bracket texts has to tell apart, by ranges.
fn class(byte: u8) -> u64 {
    match byte {
        b'\n' => 1,
        b' ' => 2,
        b'(' => 3,
        b')' => 4,
        b'-' => 5,
        b'0'..=b'9' => 6,
        b'A'..=b'Z' | b'a'..=b'z' => 7,
        b'_' => 8,
        _ => 0,
    }
}

/// The byte pass of the table: two classes, summed.
#[no_mangle]
#[inline(never)]
pub fn byte_pass(text: &[u8]) -> u64 {
    text.iter().map(|&byte| is_name_byte(byte)).sum()
}

/// The same with nine classes.
#[no_mangle]
#[inline(never)]
pub fn byte_pass_nine(text: &[u8]) -> u64 {
    text.iter().map(|&byte| class(byte)).sum()
}
