//! 01, "Sample session": the asking program, called as a function and as a program.

mod common;
use common::*;
use std::fs;
use std::io::Write;
use std::process::{Command, Stdio};

fn run(doc: &str, input: &[u8]) -> String {
    let mut output = Vec::new();
    reference::program::run(doc.as_bytes(), input, &mut output).unwrap();
    String::from_utf8(output).unwrap()
}

#[test]
fn the_sample_session() {
    let input = format!("(clock 2028 366 10)\n{QUERY}\n");
    assert_eq!(run(SAMPLE, input.as_bytes()), "(row Cy)\n(end 1 1 1)\n");
    // The last line may lack its line feed.
    assert_eq!(run(SAMPLE, input.trim_end().as_bytes()), "(row Cy)\n(end 1 1 1)\n");
}

#[test]
fn several_queries() {
    let bill = QUERY.replace("post", "bill");
    let input = format!("(clock 2028 366 10)\n{bill}\n\n(count ana desk post sub)\nx");
    assert_eq!(run(SAMPLE, input.as_bytes()), "(refused 14 query 17 4)\n(refused 11 query 0 0)\n(end 3 0 0)\n(refused 11 query 0 1)\n");
}

#[test]
fn a_first_line_that_is_no_clock() {
    for first in ["", "(clock 2028 366)", "(clock 2028 366 10 )", "(clock 2028 366 10)\r", QUERY, "(clock 2027 366 10)", "(clock 2028 366 -1)"] {
        let input = format!("{first}\n{QUERY}\n(\n");
        assert_eq!(run(SAMPLE, input.as_bytes()), "(refused 10 query 0 0)\n(refused 10 query 0 0)\n", "{first}");
    }
}

#[test]
fn no_queries() {
    assert_eq!(run(SAMPLE, b""), "");
    assert_eq!(run(SAMPLE, b"(clock 2028 366 10)"), "");
    assert_eq!(run(SAMPLE, b"(clock 2028 366 10)\n"), "");
    assert_eq!(run(SAMPLE, b"nonsense"), "");
}

#[test]
fn a_refused_document_is_one_line() {
    let input = format!("(clock 2028 366 10)\n{QUERY}\n{QUERY}\n");
    assert_eq!(run("(purpose a)\n(purpose b)\n", input.as_bytes()), "(refused 6 document 12 11)\n");
    assert_eq!(run("(purpose a)\n(purpose b)\n", b""), "(refused 6 document 12 11)\n");
    assert_eq!(run(&"(".repeat(60_001), input.as_bytes()), "(refused 1 document 0 0)\n");
}

#[test]
fn long_lines() {
    let mut input = b"(clock 2028 366 10)\n".to_vec();
    input.extend(vec![b'('; 200_000]);
    input.extend(format!("\n{QUERY}").bytes());
    assert_eq!(run(SAMPLE, &input), "(refused 11 query 0 200000)\n(row Cy)\n(end 1 1 1)\n");
}

#[test]
fn an_answer_over_60021_bytes() {
    // 16 times a name of 24 bytes: "(row" and 16 * 25 and ")\n" are 406 bytes; 147 rows are 59,682 and 148 are 60,088.
    let name = "n".repeat(24);
    let doc = |rows: usize| format!("{BASE}(table t none (k name))\n(public t)\n{}", format!("(row t {name})\n").repeat(rows));
    let query = format!("(select u r root t ({}))", ["k"; 16].join(" "));
    let input = format!("(clock 2028 366 10)\n{query}\n");
    assert!(run(&doc(147), input.as_bytes()).ends_with("(end 147 0 0)\n"));
    assert_eq!(run(&doc(148), input.as_bytes()), "(refused 18 query 0 0)\n");
}

/// The program itself, in a folder with or without a policy.
fn run_program(folder: &str, policy: Option<&str>, input: &[u8]) -> String {
    let folder = std::path::Path::new(env!("CARGO_TARGET_TMPDIR")).join(folder);
    let _ = fs::remove_dir_all(&folder);
    fs::create_dir_all(&folder).unwrap();
    if let Some(policy) = policy {
        fs::write(folder.join("policy.txt"), policy).unwrap();
    }
    let mut child = Command::new(env!("CARGO_BIN_EXE_asking"))
        .current_dir(&folder)
        .stdin(Stdio::piped())
        .stdout(Stdio::piped())
        .spawn()
        .unwrap();
    child.stdin.take().unwrap().write_all(input).unwrap();
    let output = child.wait_with_output().unwrap();
    assert!(output.status.success());
    String::from_utf8(output.stdout).unwrap()
}

#[test]
fn the_program_with_a_policy() {
    let input = format!("(clock 2028 366 10)\n{QUERY}");
    assert_eq!(run_program("with", Some(SAMPLE), input.as_bytes()), "(row Cy)\n(end 1 1 1)\n");
}

#[test]
fn the_program_without_a_policy() {
    // Taken as empty: nobody is known; ana stands at 8.
    let input = format!("(clock 2028 366 10)\n{QUERY}");
    assert_eq!(run_program("without", None, input.as_bytes()), "(refused 12 query 8 3)\n");
}
