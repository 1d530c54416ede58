//! Says where the archive of the step without the check is, which `bench/run` leaves beside that of the desk, and notes which compiler makes the
//! ordinary side.
use std::{env, path::PathBuf, process::Command};

/// What the compiler says of itself, or that it says nothing.
fn compiler() -> String {
    let named = env::var_os("RUSTC").unwrap_or_else(|| "rustc".into());
    let said = Command::new(named).arg("--version").output();
    said.ok().and_then(|said| String::from_utf8(said.stdout).ok()).unwrap_or_else(|| "rustc, version unknown".into())
}

fn main() {
    println!("cargo:rerun-if-changed=build.rs");
    let folder = PathBuf::from(env::var_os("DEP_MMS_FOLDER").expect("the crate mms says where its archive lies"));
    let archive = folder.join("libadvance.a");
    // No more than a warning: the tests of the library are run without the archive. The program can't be linked then.
    if !archive.exists() {
        println!("cargo:warning={} is missing: bench/run builds it", archive.display());
    }
    println!("cargo:rerun-if-changed={}", archive.display());
    println!("cargo:rustc-link-search=native={}", folder.display());
    println!("cargo:rustc-env=BENCH_COMPILER={}", compiler().trim());
}
