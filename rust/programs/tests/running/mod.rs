//! A program run on an input, and what it prints.

use programs::command;
use std::io::{ErrorKind, Write};
use std::process::{ChildStdin, Output, Stdio};
use std::thread;
use std::time::Duration;

/// What a program printed.
#[derive(Debug, PartialEq, Eq)]
pub struct Printed {
    /// To standard output.
    pub out: Vec<u8>,
    /// To standard error.
    pub errors: String,
}

/// Runs a program on the input that `feed` writes. It must end with status 0.
fn run(name: &str, feed: impl FnOnce(&mut ChildStdin) + Send + 'static) -> Printed {
    let mut child = command(name)
        .stdin(Stdio::piped())
        .stdout(Stdio::piped())
        .stderr(Stdio::piped())
        .spawn()
        .unwrap_or_else(|error| panic!("{name} does not start: {error}"));
    let mut input = child.stdin.take().expect("its input is a pipe");
    let feeder = thread::spawn(move || feed(&mut input));
    let Output {
        status,
        stdout,
        stderr,
    } = child.wait_with_output().expect("it ends");
    feeder.join().expect("its input was written");
    let errors = String::from_utf8(stderr).expect("what it says is text");
    assert!(status.success(), "{name} gave {status}: {errors}");
    Printed {
        out: stdout,
        errors,
    }
}

/// Writes bytes to a program that may have stopped reading.
fn write(input: &mut ChildStdin, bytes: &[u8]) {
    if let Err(error) = input.write_all(bytes).and_then(|()| input.flush()) {
        assert_eq!(error.kind(), ErrorKind::BrokenPipe, "{error}");
    }
}

/// What a program prints for these bytes.
pub fn printed_by(name: &str, bytes: &[u8]) -> Printed {
    let bytes = bytes.to_vec();
    run(name, move |input| write(input, &bytes))
}

/// What a program prints where its input comes in these pieces, with a pause
/// after each.
pub fn printed_in_pieces_by(name: &str, pieces: &[&[u8]]) -> Printed {
    let pieces: Vec<Vec<u8>> = pieces.iter().map(|piece| piece.to_vec()).collect();
    run(name, move |input| {
        for piece in &pieces {
            write(input, piece);
            thread::sleep(Duration::from_millis(2));
        }
    })
}
