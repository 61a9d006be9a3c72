//! The header, the README, the change log and every Rust crate have the same
//! version.

use std::fs;
use std::path::Path;

const VERSION: &str = env!("CARGO_PKG_VERSION");

/// A file of the repository.
fn read(path: &str) -> String {
    let path = Path::new(env!("CARGO_MANIFEST_DIR"))
        .join("../..")
        .join(path);
    fs::read_to_string(&path).unwrap_or_else(|error| panic!("{}: {error}", path.display()))
}

/// What stands after the name of a macro in the header.
fn macro_in(header: &str, name: &str) -> String {
    let start = format!("#define {name} ");
    let value = header.lines().find_map(|line| line.strip_prefix(&start));
    value.unwrap_or_else(|| panic!("no {name}")).to_string()
}

#[test]
fn the_header_has_the_version() {
    let header = read("include/cavernlull.h");
    let number = |part| macro_in(&header, &format!("CAVERNLULL_VERSION_{part}"));
    let numbers = ["MAJOR", "MINOR", "PATCH"].map(number).join(".");
    assert_eq!(numbers, VERSION);
    assert_eq!(
        macro_in(&header, "CAVERNLULL_VERSION"),
        format!("\"{VERSION}\"")
    );
}

#[test]
fn the_readme_has_the_version() {
    assert!(read("README.md").contains(&format!("version {VERSION};")));
}

/// The newest version in the change log is that of its first heading with a
/// version, `## 1.0.0 - DATE` or `## [1.0.0] - DATE`.
#[test]
fn the_change_log_has_the_version_as_its_newest() {
    let log = read("CHANGELOG.md");
    let newest = log
        .lines()
        .filter_map(|line| line.strip_prefix("## ")?.split_whitespace().next())
        .map(|word| word.trim_matches(|c| c == '[' || c == ']'))
        .find(|word| word.starts_with(|c: char| c.is_ascii_digit()));
    assert_eq!(newest, Some(VERSION));
}

/// `Cargo.lock` has the version of every crate, since all of them are of this
/// workspace; `cargo --locked` sees that it has what each `Cargo.toml` says.
#[test]
fn every_crate_has_the_version() {
    let lock = read("rust/Cargo.lock");
    let versions: Vec<&str> = lock
        .lines()
        .filter_map(|line| line.strip_prefix("version = \"")?.strip_suffix('"'))
        .collect();
    assert!(!versions.is_empty());
    assert!(versions.iter().all(|version| *version == VERSION));
}
