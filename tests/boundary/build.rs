//! Links the library under test: `libshiftsum.a` in the folder that the
//! environment variable SHIFTSUM_ARCHIVE names.

use std::env;
use std::path::PathBuf;

/// Where the library is made, seen from this package.
const DEFAULT: &str = "../../target/staticlib";

fn main() {
    println!("cargo::rerun-if-env-changed=SHIFTSUM_ARCHIVE");
    let folder = env::var_os("SHIFTSUM_ARCHIVE").unwrap_or(DEFAULT.into());
    let package = env::var_os("CARGO_MANIFEST_DIR").unwrap_or_default();
    let folder = PathBuf::from(package).join(folder);
    let archive = folder.join("libshiftsum.a");
    println!("cargo::rerun-if-changed={}", archive.display());
    if !archive.is_file() {
        println!("cargo::error=no library at {}", archive.display());
    }
    // It comes last, so that nothing it may bring along takes the place of
    // what the tests are made with.
    println!("cargo::rustc-link-arg={}", archive.display());
}
