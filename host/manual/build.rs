//! Finds libcoffee.a.

use std::env;
use std::path::{Path, PathBuf};

/// The directory that holds libcoffee.a, if not crates/coffee/out of the repository.
const VARIABLE: &str = "COFFEE_STATICLIB";

fn main() {
    println!("cargo:rerun-if-changed=build.rs");
    println!("cargo:rerun-if-env-changed={VARIABLE}");
    let crate_root = env::var("CARGO_MANIFEST_DIR").expect("cargo sets it");
    let directory = match env::var_os(VARIABLE) {
        Some(directory) => PathBuf::from(directory),
        None => Path::new(&crate_root).join("../../crates/coffee/out"),
    };
    let library = directory.join("libcoffee.a");
    println!("cargo:rerun-if-changed={}", library.display());
    if !library.is_file() {
        eprintln!("{} is absent: make it with `rt lib` in crates/coffee, or name its directory in {VARIABLE}", library.display());
        std::process::exit(1);
    }
    println!("cargo:rustc-link-arg-bins={}", library.display());
}
