//! The proved programs, ready to be run by a test.
//!
//! `rt ci`, and `rt run` in a program's folder, leave each in the folder `out`
//! of its crate. They are x86-64 programs: such a machine runs them as they
//! are, and any other under an emulator, with the toolchain's loader.

#![forbid(unsafe_code)]
#![warn(missing_docs)]

use std::env;
use std::ffi::OsString;
use std::path::{Path, PathBuf};
use std::process::Command;

/// The loader that a program asks for.
const LOADER: &str = "/lib64/ld-linux-x86-64.so.2";

/// A command that runs the program of this name.
///
/// # Panics
///
/// Where the program was not built, or this machine cannot run it: the test of
/// a program that is not there must fail.
pub fn command(name: &str) -> Command {
    let folder = root().join("crates").join(name);
    let program = folder.join("out").join(name);
    assert!(
        program.is_file(),
        "{} is not there: `rt ci`, or `rt run` in crates/{name}, builds it",
        program.display()
    );
    let mut command = if cfg!(target_arch = "x86_64") && Path::new(LOADER).is_file() {
        Command::new(program)
    } else {
        by_the_toolchain(&program)
    };
    for variable in emulator_variables() {
        command.env_remove(variable);
    }
    command
}

/// The root of the repository.
fn root() -> PathBuf {
    Path::new(env!("CARGO_MANIFEST_DIR")).join("../..")
}

/// The command that runs the program with the loader and the C library of the
/// toolchain.
fn by_the_toolchain(program: &Path) -> Command {
    let tools = toolchain();
    let loader = tools.join("lib/ld-linux-x86-64.so.2");
    let mut command = if cfg!(target_arch = "x86_64") {
        Command::new(loader)
    } else {
        let mut command = Command::new(emulator(&tools));
        command.arg(loader);
        command
    };
    command
        .arg("--library-path")
        .arg(tools.join("lib"))
        .arg(program);
    command
}

/// What runs x86-64 programs: the toolchain's emulator if it has one, or else
/// the one on the path.
fn emulator(tools: &Path) -> PathBuf {
    let own = tools.join("bin/qemu-x86_64");
    if own.is_file() {
        own
    } else {
        "qemu-x86_64".into()
    }
}

/// The part of the Rattle toolchain, found by the `rt` on the path, that links
/// programs.
fn toolchain() -> PathBuf {
    let path = env::var_os("PATH").unwrap_or_default();
    let rt = env::split_paths(&path)
        .map(|folder| folder.join("rt"))
        .find(|rt| rt.is_file())
        .expect("`rt`, of the Rattle toolchain, is on the path");
    let rt = rt.canonicalize().expect("`rt` is a file or leads to one");
    rt.ancestors()
        .nth(2)
        .expect("`rt` stands in the toolchain's folder bin")
        .join("toolchain")
}

/// The variables that would change what the emulator does.
fn emulator_variables() -> impl Iterator<Item = OsString> {
    env::vars_os()
        .map(|(variable, _)| variable)
        .filter(|variable| variable.to_string_lossy().starts_with("QEMU_"))
}
