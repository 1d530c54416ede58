//! Links the archive that `bindings/build` leaves, or one in the folder that `MMS_LIB_DIR` names. A crate that depends on this one and has a
//! build script of its own is told the folder as `DEP_MMS_FOLDER`.
use std::{env, path::Path, path::PathBuf, process};

/// Where `bindings/build` leaves the archive, from this crate's folder.
const LEFT_IN: &str = "../../target/bindings/lib";

fn main() {
    println!("cargo:rerun-if-env-changed=MMS_LIB_DIR");
    let folder = folder();
    let archive = folder.join("libmms.a");
    println!("cargo:rerun-if-changed={}", archive.display());
    if !archive.is_file() {
        fail(&format!(
            "there is no {}: run bindings/build, or name the archive's folder in MMS_LIB_DIR",
            archive.display()
        ));
    }
    if env::var("CARGO_CFG_TARGET_ARCH").as_deref() != Ok("x86_64") {
        fail("the archive is x86-64: build with --target x86_64-unknown-linux-gnu, as bindings/build does");
    }
    println!("cargo:folder={}", folder.display());
    println!("cargo:rustc-link-search=native={}", folder.display());
    println!("cargo:rustc-link-lib=static=mms");
}

/// The archive's folder, by its whole path. Cargo tells a build script nowhere in which folder the command was typed, so a path that starts
/// there cannot be followed.
fn folder() -> PathBuf {
    match env::var_os("MMS_LIB_DIR").map(PathBuf::from) {
        Some(named) if named.is_relative() => {
            fail(&format!("MMS_LIB_DIR is {}: name the folder by its whole path, which begins with /", named.display()))
        }
        Some(named) => named,
        None => Path::new(&env::var_os("CARGO_MANIFEST_DIR").expect("cargo names the crate's folder")).join(LEFT_IN),
    }
}

/// Ends the build with one sentence.
fn fail(why: &str) -> ! {
    eprintln!("{}", why);
    process::exit(1);
}
