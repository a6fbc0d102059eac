//! Finds the static library of the crate `exports`: in the folder that BRUNCADORZA_LIB names, else in crates/exports/out at
//! the repository's top.

use std::env;
use std::path::PathBuf;

fn main() {
    println!("cargo:rerun-if-env-changed=BRUNCADORZA_LIB");
    let folder = match env::var_os("BRUNCADORZA_LIB") {
        Some(folder) => PathBuf::from(folder),
        None => PathBuf::from(env!("CARGO_MANIFEST_DIR")).join("../../crates/exports/out"),
    };
    let archive = folder.join("libexports.a");
    println!("cargo:rerun-if-changed={}", archive.display());
    if !archive.is_file() {
        eprintln!("bruncadorza: there is no {}", archive.display());
        eprintln!("Build it in the repository's crates/exports by `rt lib`, or let bindings/test do it;");
        eprintln!("or name the folder of libexports.a, as an absolute path, in BRUNCADORZA_LIB.");
        std::process::exit(1);
    }
    println!("cargo:rustc-link-search=native={}", folder.display());
    println!("cargo:rustc-link-lib=static=exports");
}
