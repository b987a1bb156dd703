//! Links libgate.a from the folder in GATE_LIB, or from ../target/staticlib; the calls on a loaded document, which are inline functions
//! of gate.h; and SQLite where its library for development is there.

use std::path::{Path, PathBuf};
use std::process::{Command, Stdio};

/// Whether a program that calls SQLite can be linked. BENCH_SQLITE=no leaves it out.
fn links_sqlite(out: &Path) -> bool {
    let program = out.join("sqlite.c");
    let text = "int sqlite3_libversion_number(void);\nint main(void) { return sqlite3_libversion_number() == 0; }\n";
    std::fs::write(&program, text).expect("cargo's folder for what is built can be written");
    let linked = Command::new("cc").arg(&program).arg("-lsqlite3").arg("-o").arg(out.join("sqlite")).stderr(Stdio::null()).status();
    std::env::var("BENCH_SQLITE").map_or(true, |word| word != "no") && linked.is_ok_and(|status| status.success())
}

/// Makes libloaded.a of loaded.c.
fn make_loaded(here: &Path, out: &Path) {
    let include = here.join("../include");
    println!("cargo:rerun-if-changed={}", include.join("gate.h").display());
    println!("cargo:rerun-if-changed=loaded.c");
    let object = out.join("loaded.o");
    let run = |command: &mut Command| assert!(command.status().is_ok_and(|status| status.success()), "loaded.c is made a library");
    run(Command::new("cc").args(["-O2", "-c"]).arg(here.join("loaded.c")).arg("-I").arg(&include).arg("-o").arg(&object));
    run(Command::new("ar").arg("rcs").arg(out.join("libloaded.a")).arg(&object));
}

fn main() {
    println!("cargo:rerun-if-env-changed=GATE_LIB");
    println!("cargo:rerun-if-env-changed=BENCH_SQLITE");
    println!("cargo:rerun-if-changed=build.rs");
    println!("cargo:rustc-check-cfg=cfg(sqlite)");
    let here = PathBuf::from(std::env::var("CARGO_MANIFEST_DIR").unwrap());
    let out = PathBuf::from(std::env::var("OUT_DIR").unwrap());
    let folder = match std::env::var("GATE_LIB") {
        Ok(folder) => here.join(Path::new(&folder)),
        Err(_) => here.join("../target/staticlib"),
    };
    make_loaded(&here, &out);
    println!("cargo:rustc-link-search=native={}", out.display());
    println!("cargo:rustc-link-lib=static=loaded");
    println!("cargo:rerun-if-changed={}", folder.join("libgate.a").display());
    println!("cargo:rustc-link-search=native={}", folder.display());
    println!("cargo:rustc-link-lib=static=gate");
    if links_sqlite(&out) {
        println!("cargo:rustc-cfg=sqlite");
        println!("cargo:rustc-link-lib=sqlite3");
    }
}
