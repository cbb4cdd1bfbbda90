//! Links the engine's static library: the one that the variable MEADWHISTLE_LIB names, else the repository's own.

use std::env;
use std::path::{self, Path, PathBuf};

const VARIABLE: &str = "MEADWHISTLE_LIB";
const FILE_NAME: &str = "libmeadwhistle.a";
const REPOSITORYS_OWN: &str = "../../target/staticlib/libmeadwhistle.a";

fn main() {
    println!("cargo::rerun-if-changed=build.rs");
    println!("cargo::rerun-if-env-changed={VARIABLE}");
    let named = env::var_os(VARIABLE).map(PathBuf::from);
    let library = named.as_deref().unwrap_or(Path::new(REPOSITORYS_OWN));
    // A build script runs in the folder of its package.
    let library = path::absolute(library).unwrap_or_else(|_| library.to_path_buf());
    println!("cargo::rerun-if-changed={}", library.display());

    let folder = library.parent().filter(|_| library.is_file());
    match folder {
        Some(folder) if library.ends_with(FILE_NAME) => {
            println!("cargo::rustc-link-search=native={}", folder.display());
            println!("cargo::rustc-link-lib=static=meadwhistle");
        }
        _ => println!(
            "cargo::error=no {FILE_NAME} at {}: `./build archive` in the repository writes it, \
             and {VARIABLE} names one that stands elsewhere",
            library.display()
        ),
    }
}
