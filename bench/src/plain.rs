//! The plain Rust reference, by functions that an instruction counter can name.

use crate::documents::CLOCK;
use reference::{Accepted, Answer, Clock, Refusal};

#[no_mangle]
#[inline(never)]
pub fn reference_check(doc: &[u8]) -> Result<Accepted, Refusal> {
    reference::check(doc)
}

#[no_mangle]
#[inline(never)]
pub fn reference_ask(doc: &[u8], query: &[u8], out: &mut [u8]) -> Result<Answer, Refusal> {
    let (year, day, hour) = CLOCK;
    reference::ask(doc, query, Clock { year, day, hour }, out)
}
