//! The program `returns`: a report for course planners, from recorded calls.

use cavernlull::Card;
use planners::options::{read, CardSource, Options};
use planners::{report, HELP};
use std::io::{self, Read as _, Write as _};
use std::process::ExitCode;
use std::{env, fs};

fn main() -> ExitCode {
    let printed = run(env::args().skip(1)).and_then(|text| {
        let printed = io::stdout().lock().write_all(text.as_bytes());
        printed.map_err(|error| format!("the report cannot be printed: {error}"))
    });
    match printed {
        Ok(()) => ExitCode::SUCCESS,
        Err(mistake) => {
            eprintln!("returns: {mistake}");
            ExitCode::from(2)
        }
    }
}

/// The text to be printed.
fn run(arguments: impl Iterator<Item = String>) -> Result<String, String> {
    let options = read(arguments)?;
    if options.help {
        return Ok(HELP.to_owned());
    }
    report(
        &recording(&options)?,
        card(&options)?,
        options.totals,
        options.form,
    )
}

fn recording(options: &Options) -> Result<String, String> {
    match &options.recording {
        Some(file) => fs::read_to_string(file).map_err(|error| format!("{file}: {error}")),
        None => {
            let mut text = String::new();
            let read = io::stdin().lock().read_to_string(&mut text);
            read.map(|_| text)
                .map_err(|error| format!("standard input: {error}"))
        }
    }
}

fn card(options: &Options) -> Result<Card, String> {
    match &options.card {
        CardSource::Blank(slots) => Ok(Card::blank(*slots)),
        CardSource::Image(file) => fs::read(file)
            .map(Card::from)
            .map_err(|error| format!("{file}: {error}")),
    }
}
