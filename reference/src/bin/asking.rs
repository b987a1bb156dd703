//! 01, "Sample session": reads `policy.txt`, "taken as empty if there is none", and standard input.

use std::fs;
use std::io::{self, ErrorKind};

fn main() -> io::Result<()> {
    let doc = match fs::read("policy.txt") {
        Ok(bytes) => bytes,
        Err(error) if error.kind() == ErrorKind::NotFound => Vec::new(),
        Err(error) => return Err(error),
    };
    reference::program::run(&doc, io::stdin().lock(), io::stdout().lock())
}
