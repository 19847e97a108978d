//! Finds libcoffee.a for the comparison.

use std::env;
use std::path::{Path, PathBuf};

/// The directory that holds libcoffee.a, if not crates/coffee/out of the repository.
const VARIABLE: &str = "COFFEE_STATICLIB";

fn main() {
    println!("cargo:rerun-if-changed=build.rs");
    if env::var_os("CARGO_FEATURE_COFFEE").is_some() {
        let crate_root = env::var("CARGO_MANIFEST_DIR").expect("cargo sets it");
        link(Path::new(&crate_root));
    }
}

/// Links libcoffee.a to the comparison.
fn link(crate_root: &Path) {
    println!("cargo:rerun-if-env-changed={VARIABLE}");
    let directory = match env::var_os(VARIABLE) {
        Some(directory) => PathBuf::from(directory),
        // The repository's root is two levels above host/fuzz.
        None => crate_root
            .ancestors()
            .nth(2)
            .unwrap_or(crate_root)
            .join("crates/coffee/out"),
    };
    let library = directory.join("libcoffee.a");
    println!("cargo:rerun-if-changed={}", library.display());
    if !library.is_file() {
        eprintln!();
        eprintln!(
            "fuzz compares the COFFEE library, and {} is absent.",
            library.display()
        );
        eprintln!("Make it with `rt lib` in crates/coffee, or name its");
        eprintln!("directory in {VARIABLE}. Without it, only the check of the comparison itself");
        eprintln!("can be run: cargo run --release --offline --no-default-features");
        eprintln!("--features faults --bin faults");
        std::process::exit(1);
    }
    println!("cargo:rustc-link-arg-bin=fuzz={}", library.display());
}
