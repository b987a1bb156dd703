//! 02, Q-1, as a program: the file on standard input, table and label as two arguments, rows on standard output.

use std::ffi::OsString;
use std::io::{self, Read};
use std::os::unix::ffi::OsStrExt;

fn main() -> io::Result<()> {
    let words: Vec<OsString> = std::env::args_os().skip(1).collect();
    let [table, label] = &words[..] else {
        eprintln!("usage: importing TABLE LABEL < FILE");
        return Ok(());
    };
    let mut file = Vec::new();
    io::stdin().lock().take(reference::program::LONGEST_FILE as u64 + 1).read_to_end(&mut file)?;
    if file.len() > reference::program::LONGEST_FILE {
        eprintln!("importing: the file is longer than {} bytes", reference::program::LONGEST_FILE);
        return Ok(());
    }
    reference::program::run_import(&file, table.as_bytes(), label.as_bytes(), io::stdout().lock())
}
