//! Links libcapi.a from COSVINT_LIB_DIR, by default from where `tools/archive` writes it.
use std::path::{Path, PathBuf};
use std::{env, process};

fn main() {
    let made = || Path::new(env!("CARGO_MANIFEST_DIR")).join("../../target/staticlib");
    let folder = env::var_os("COSVINT_LIB_DIR").map_or_else(made, PathBuf::from);
    let archive = folder.join("libcapi.a");
    println!("cargo:rerun-if-env-changed=COSVINT_LIB_DIR");
    println!("cargo:rerun-if-changed={}", archive.display());
    if !archive.is_file() {
        eprintln!("{} is missing.", archive.display());
        eprintln!("Make it with `tools/archive` at the top of the repository,");
        eprintln!("or set COSVINT_LIB_DIR to the folder that holds libcapi.a.");
        process::exit(1);
    }
    println!("cargo:rustc-link-search=native={}", folder.display());
    println!("cargo:rustc-link-lib=static=capi");
}
