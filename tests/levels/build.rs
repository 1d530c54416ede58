//! Says where `tests/levels/build` leaves the archive of the two comparisons.
use std::{env, path::Path};

/// The archive's folder, from this crate's.
const LEFT_IN: &str = "../../target/tests/lib";

fn main() {
    println!("cargo:rerun-if-changed=build.rs");
    let folder = Path::new(&env::var_os("CARGO_MANIFEST_DIR").expect("cargo names the crate's folder")).join(LEFT_IN);
    let archive = folder.join("libcomparisons.a");
    // No more than a warning: whoever builds the other crates need not have it.
    if !archive.exists() {
        println!("cargo:warning={} is missing: tests/levels/build builds it", archive.display());
    }
    println!("cargo:rerun-if-changed={}", archive.display());
    println!("cargo:rustc-link-search=native={}", folder.display());
}
