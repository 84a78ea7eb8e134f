//! Links `libfield_probe.a`, which exports the field operations for this test alone.

use std::env;
use std::path::PathBuf;

fn main() {
    let package = env::var_os("CARGO_MANIFEST_DIR").unwrap_or_default();
    let archive = PathBuf::from(package).join("../../target/staticlib/libfield_probe.a");
    println!("cargo::rerun-if-changed={}", archive.display());
    if !archive.is_file() {
        println!("cargo::error=no library at {}", archive.display());
    }
    println!("cargo::rustc-link-arg={}", archive.display());
}
