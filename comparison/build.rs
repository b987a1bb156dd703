//! Links `libgate.a` from the folder GATE_LIB (by default ../target/staticlib), unless the feature `stub` is on.

use std::env;
use std::path::Path;

fn main() {
    println!("cargo:rerun-if-env-changed=GATE_LIB");
    if env::var_os("CARGO_FEATURE_STUB").is_some() {
        return;
    }
    let package = env::var("CARGO_MANIFEST_DIR").unwrap_or_default();
    let given = env::var("GATE_LIB").unwrap_or("../target/staticlib".to_string());
    // A relative folder is counted from this package.
    let folder = Path::new(&package).join(given);
    println!("cargo:rerun-if-changed={}", folder.join("libgate.a").display());
    if !folder.join("libgate.a").is_file() {
        println!("cargo::error=no libgate.a: first run `tools/library`");
        return;
    }
    // For the binary alone: the library of mutants needs no gate.
    println!("cargo:rustc-link-search=native={}", folder.display());
    println!("cargo:rustc-link-arg-bins={}", folder.join("libgate.a").display());
}
