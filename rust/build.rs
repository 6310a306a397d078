//! Finds Curspan's library: in the folder that `CURSPAN_LIB_DIR` names, or in `lib/` of the one that
//! `CURSPAN_PREFIX` names, or else in `lib/` of the crate itself, which has a folder for each target.
//! The archive is taken where the folder has it, so that the program needs no library to run, and
//! else the shared library.

use std::env;
use std::path::{Path, PathBuf};
use std::process;

/// What names the folder of a library to be used in place of the crate's own, and what names the one
/// where all of Curspan was installed.
const FOLDER: &str = "CURSPAN_LIB_DIR";
const PREFIX: &str = "CURSPAN_PREFIX";

/// The folder of the library.
fn folder() -> PathBuf {
    let of_cargo = |name| env::var(name).unwrap_or_default();
    let named = env::var_os(FOLDER).map(PathBuf::from);
    let installed = || env::var_os(PREFIX).map(|prefix| Path::new(&prefix).join("lib"));
    named.or_else(installed).unwrap_or_else(|| {
        Path::new(&of_cargo("CARGO_MANIFEST_DIR"))
            .join("lib")
            .join(of_cargo("TARGET"))
    })
}

/// How the library in a folder is linked.
fn kind_in(folder: &Path) -> Option<&'static str> {
    for (file, kind) in [("libcurspan.a", "static"), ("libcurspan.so", "dylib")] {
        if folder.join(file).exists() {
            println!("cargo:rerun-if-changed={}", folder.join(file).display());
            return Some(kind);
        }
    }
    None
}

fn main() {
    println!("cargo:rerun-if-changed=build.rs");
    for variable in [FOLDER, PREFIX, "DOCS_RS"] {
        println!("cargo:rerun-if-env-changed={variable}");
    }
    // Documentation is made without the library.
    if env::var_os("DOCS_RS").is_some() {
        return;
    }
    let folder = folder();
    match kind_in(&folder) {
        Some(kind) => {
            println!("cargo:rustc-link-search=native={}", folder.display());
            println!("cargo:rustc-link-lib={kind}=curspan");
        }
        None => {
            let folder = folder.display();
            eprintln!("curspan: there is no libcurspan.a and no libcurspan.so in {folder}");
            eprintln!("curspan: the crate of ./package has one for Linux on x86-64 and ARM;");
            eprintln!("curspan: {FOLDER} names the folder of another,");
            eprintln!("curspan: and {PREFIX} the folder into which ./install put all");
            process::exit(1);
        }
    }
}
