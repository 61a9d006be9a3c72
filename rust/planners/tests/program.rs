//! The program `returns`, run as a planner runs it.

mod calls;

use calls::{give_back, lent, WEEK, WEEK_ALL, WEEK_IN_JSON, WEEK_IN_WORDS};
use planners::HELP;
use std::io::Write as _;
use std::path::PathBuf;
use std::process::{Command, Output, Stdio};
use std::{fs, thread};

/// Where the sample is.
const WEEK_FILE: &str = concat!(env!("CARGO_MANIFEST_DIR"), "/samples/week.txt");

/// Runs the program with these arguments and this standard input.
fn run(arguments: &[&str], input: &[u8]) -> Output {
    let mut child = Command::new(env!("CARGO_BIN_EXE_returns"))
        .args(arguments)
        .stdin(Stdio::piped())
        .stdout(Stdio::piped())
        .stderr(Stdio::piped())
        .spawn()
        .expect("the program starts");
    let (mut stdin, input) = (child.stdin.take().expect("a pipe"), input.to_vec());
    // It may end without having read its input.
    let writer = thread::spawn(move || drop(stdin.write_all(&input)));
    let output = child.wait_with_output().expect("the program ends");
    writer.join().expect("the input is written");
    output
}

/// What the program prints where nothing is wrong.
fn printed(arguments: &[&str], input: &[u8]) -> String {
    let output = run(arguments, input);
    assert_eq!(output.status.code(), Some(0), "{arguments:?}");
    assert_eq!(output.stderr, b"", "{arguments:?}");
    String::from_utf8(output.stdout).expect("a report is text")
}

/// Asserts that the program prints no report, and this to standard error.
fn assert_mistaken(arguments: &[&str], input: &[u8], mistake: &str) {
    let output = run(arguments, input);
    assert_eq!(output.status.code(), Some(2), "{arguments:?}");
    assert_eq!(output.stdout, b"", "{arguments:?}");
    let said = String::from_utf8_lossy(&output.stderr);
    assert!(said.starts_with(&format!("returns: {mistake}")), "{said}");
    assert_eq!(said.lines().count(), 1, "{said}");
}

/// A file of this name, with these bytes, for one test.
fn file(name: &str, bytes: &[u8]) -> PathBuf {
    let path = PathBuf::from(env!("CARGO_TARGET_TMPDIR")).join(name);
    fs::write(&path, bytes).expect("the file can be written");
    path
}

#[test]
fn a_recording_is_a_file_or_standard_input() {
    for (option, expected) in [
        (None, WEEK_IN_WORDS),
        (Some("--all"), WEEK_ALL),
        (Some("--json"), WEEK_IN_JSON),
    ] {
        let with = |rest: &[&'static str]| option.iter().chain(rest).copied().collect();
        let (from_file, dash, none): (Vec<&str>, Vec<&str>, Vec<&str>) =
            (with(&[WEEK_FILE]), with(&["-"]), with(&[]));
        assert_eq!(printed(&from_file, b""), expected);
        assert_eq!(printed(&dash, WEEK.as_bytes()), expected);
        assert_eq!(printed(&none, WEEK.as_bytes()), expected);
    }
}

#[test]
fn a_card_is_read_and_not_written() {
    let image = lent(&[Some(9)]).into_table();
    let path = file("lent.card", &image);
    let path_text = path.to_str().expect("a path of letters");
    let text = give_back(0x41, Some(4));
    let report = printed(&["--card", path_text], text.as_bytes());
    assert!(report.contains("is back, 5 starts used; total -5 in 1 return"));
    assert!(fs::read(&path).expect("it is there") == image);
    assert_mistaken(
        &["--card", path_text, "--slots", "1"],
        text.as_bytes(),
        "--card and --slots exclude one another",
    );
    let worn = file("worn.card", &vec![1; image.len()]);
    let worn = worn.to_str().expect("a path of letters");
    assert_mistaken(&["--card", worn], b"", "the card is refused: 103");
    let cut = file("cut.card", &image[1..]);
    let cut = cut.to_str().expect("a path of letters");
    assert_mistaken(&["--card", cut], b"", "the card is refused: 102");
}

#[test]
fn slots_are_those_of_a_blank_card() {
    let three = printed(&["--slots", "3", WEEK_FILE], b"");
    assert_eq!(three, WEEK_IN_WORDS);
    let two = printed(&["--all", "--slots", "2", WEEK_FILE], b"");
    assert!(two.contains("CUTTING-03: Not Enough Space"), "{two}");
    for slots in ["0", "16", "18446744073709551615"] {
        assert_mistaken(&["--slots", slots], b"", "a card has 1 to 15 slots");
    }
}

#[test]
fn a_total_is_taken_up() {
    let options = ["--total", "-40", "--returns", "29999", WEEK_FILE];
    let report = printed(&options, b"");
    assert!(report.contains("taken up     total -40 in 29999 returns"));
    assert!(report.contains("total -43 in 30000 returns\n  The total is full"));
    assert!(report.ends_with("total -5 in 3 returns\n"), "{report}");
    for (total, returns) in [("1", "0"), ("65536", "1"), ("0", "30001")] {
        let options = ["--returns", returns, "--total", total];
        assert_mistaken(&options, b"", "total ");
    }
}

#[test]
fn mistakes_are_named() {
    let (recording, card) = ("no-such-recording", "no-such-card");
    assert_mistaken(&[], b"25 c0\n\nno hex\n", "line 3: 'n' is no hex digit");
    assert_mistaken(&[], b"25 \xFF\n", "standard input: ");
    assert_mistaken(&[recording], b"", "no-such-recording: ");
    assert_mistaken(&["--card", card], b"", "no-such-card: ");
    assert_mistaken(&["--jason"], b"", "there is no --jason");
    assert_mistaken(&["--card"], b"", "--card needs a value");
    assert_mistaken(&["a", "b"], b"", "the recording is given twice");
    for value in ["", "x", "2147483648", "1.5"] {
        let mistake = format!("--total is a number that it has room for, not {value}");
        assert_mistaken(&["--total", value], b"", &mistake);
    }
    assert_mistaken(&["--returns", "-1"], b"", "--returns is a number");
    assert_mistaken(&["--total", "0"], b"", "--total and --returns go together");
    let twice = ["--total", "0", "--total", "0"];
    assert_mistaken(&twice, b"", "--total is given twice");
}

#[test]
fn help_is_printed_and_fits_a_screen() {
    assert_eq!(printed(&["--help"], b""), HELP);
    assert_eq!(printed(&["--json", "--help", WEEK_FILE], b""), HELP);
    assert!(HELP.lines().all(|line| line.len() <= 84));
}
