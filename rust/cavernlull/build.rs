//! Finds the archive of the exported functions and has it linked, where the
//! crate is built for x86-64. The archive is looked for in `target/staticlib`,
//! or in the folder that `CAVERNLULL_LIB_DIR` names.

use std::env;
use std::path::{Path, PathBuf};
use std::process::exit;

fn main() {
    println!("cargo:rerun-if-changed=build.rs");
    println!("cargo:rerun-if-env-changed=CAVERNLULL_LIB_DIR");
    if env::var("CARGO_CFG_TARGET_ARCH").as_deref() != Ok("x86_64") {
        return;
    }
    let folder = folder();
    let archive = folder.join("libcavernlull.a");
    println!("cargo:rerun-if-changed={}", archive.display());
    if !archive.is_file() {
        eprintln!(
            "cavernlull: {} is not there: `scripts/build-archive` writes it, or \
             CAVERNLULL_LIB_DIR names the folder where it is",
            archive.display()
        );
        exit(1);
    }
    println!("cargo:rustc-link-search=native={}", folder.display());
    println!("cargo:rustc-link-lib=static=cavernlull");
}

/// The folder that has the archive.
fn folder() -> PathBuf {
    match env::var_os("CAVERNLULL_LIB_DIR") {
        Some(folder) => folder.into(),
        None => Path::new(env!("CARGO_MANIFEST_DIR")).join("../../target/staticlib"),
    }
}
