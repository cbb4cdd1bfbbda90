//! Compiles and links the table automaton in C. The engine comes with its crate.

use std::env;
use std::path::PathBuf;
use std::process::Command;

const TABLE: &str = "src/table.c";

fn main() {
    println!("cargo:rerun-if-changed={TABLE}");
    let object =
        PathBuf::from(env::var_os("OUT_DIR").expect("a build has a folder")).join("table.o");
    let compiled = Command::new("cc")
        .args([
            "-std=c99", "-Wall", "-Wextra", "-O3", "-fPIC", "-c", TABLE, "-o",
        ])
        .arg(&object)
        .status();
    assert!(
        compiled.is_ok_and(|status| status.success()),
        "cc refuses {TABLE}"
    );
    println!("cargo:rustc-link-arg-bins={}", object.display());
}
