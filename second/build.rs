//! Links the engine's static library where the feature `compare` is on, and does nothing otherwise.

use std::env;
use std::path::{self, Path};

const VARIABLE: &str = "MEADWHISTLE_LIB";
const FILE_NAME: &str = "libmeadwhistle.a";

fn main() {
    println!("cargo:rerun-if-changed=build.rs");
    if env::var_os("CARGO_FEATURE_COMPARE").is_none() {
        return;
    }
    println!("cargo:rerun-if-env-changed={VARIABLE}");
    let Some(named) = env::var_os(VARIABLE) else {
        panic!("the feature `compare` needs {VARIABLE}, the path of {FILE_NAME}");
    };
    let library = match path::absolute(&named) {
        Ok(path) if path.ends_with(FILE_NAME) && path.is_file() => path,
        _ => panic!(
            "{VARIABLE} is {}: no such {FILE_NAME}",
            Path::new(&named).display()
        ),
    };
    let folder = library.parent().unwrap_or(Path::new("/"));
    println!("cargo:rerun-if-changed={}", library.display());
    println!("cargo:rustc-link-search=native={}", folder.display());
    println!("cargo:rustc-link-lib=static=meadwhistle");
}
