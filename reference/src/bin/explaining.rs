//! 02, Q-7, as a program: reads `policy.txt`, "taken as empty if there is none" as by the asking program, and why lines.

use std::fs;
use std::io::{self, ErrorKind};

fn main() -> io::Result<()> {
    let doc = match fs::read("policy.txt") {
        Ok(bytes) => bytes,
        Err(error) if error.kind() == ErrorKind::NotFound => Vec::new(),
        Err(error) => return Err(error),
    };
    reference::program::run_why(&doc, io::stdin().lock(), io::stdout().lock())
}
