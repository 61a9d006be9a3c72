//! A report for course planners: what returns did to the counts of courses.
//!
//! A recording has the request frames that a card was sent. The program `returns`
//! makes these calls again, on a card as it was before them, and totals what the
//! returns did: the change of each, and a running total with the number of
//! returns in it (PROFILE 4.4, 4.5). It makes each call through [`Totals`], so the
//! numbers are those of the proved archive.
//!
//! ```sh
//! cargo run --release --manifest-path rust/Cargo.toml --package planners -- rust/planners/samples/week.txt
//! ```
//!
//! [`HELP`] has its options. The report is either in words, for people, or in JSON
//! lines ([`json`]), for a spreadsheet. Neither has anything of a key, of a
//! payload or of a hash in it.
//!
//! A return that would raise a count has status 9, Count Raised (PROFILE 5.5): it
//! hands back more starts than were lent, or begins or ends a count. Nothing is
//! returned and nothing is counted then; the course stays lent until it is returned
//! with another count. So no change is above 0, and the report says how many
//! returns were refused so.
//!
//! Cards of versions before 7.0.0 took such returns. In a recording of such a card
//! they are refused here all the same, since a recording has the requests and not
//! the replies; what the report says of the course after that is not what that
//! card did. The program of version 6.2.0 reports such a recording as it was.
//!
//! A total has room for 30,000 returns. After these the *period* ends: the report
//! gives its summary and goes on with a new period, which begins with 0 and 0.
//! Each period is noted by itself; their totals may be added up where there is
//! room for larger numbers, as in a spreadsheet.
//!
//! | | |
//! |---|---|
//! | [`recording`] | the recorded frames, read from text |
//! | [`walk`] | makes the calls, and gives the rows of the report |
//! | [`row`] | what a report says of one call |
//! | [`summary`] | what it says of one period |
//! | [`words`], [`json`] | the rows as text |
//! | [`options`] | what the program was told |

#![forbid(unsafe_code)]
#![deny(missing_docs)]

pub mod json;
pub mod options;
pub mod recording;
pub mod row;
pub mod summary;
pub mod walk;
pub mod words;

pub use options::HELP;

use cavernlull::{Card, Totals};

/// In what form a report is.
#[derive(Clone, Copy, Debug, PartialEq, Eq)]
pub enum Form {
    /// In words: a line for each return and for each call without a reply, and a
    /// summary.
    Words,
    /// In words, with a line for every call.
    AllInWords,
    /// An object on each line: one for every call, and one for each summary.
    Json,
}

/// The report of a recording, from a card as it was before the first call and
/// from totals that are taken up.
///
/// # Errors
///
/// A sentence that says what is wrong with the recording, by its line, with the
/// card or with the totals. No call is made then.
///
/// ```
/// use cavernlull::{Card, Totals};
/// use planners::{report, Form};
///
/// let nothing = report("# no calls\n", Card::blank(1), Totals::new(), Form::Words);
/// assert!(nothing.unwrap().starts_with("Period 1, 0 calls\n"));
/// let mistake = report("25 C0\n25 xy\n", Card::blank(1), Totals::new(), Form::Words);
/// assert_eq!(mistake.unwrap_err(), "line 2: 'x' is no hex digit");
/// ```
pub fn report(recording: &str, card: Card, totals: Totals, form: Form) -> Result<String, String> {
    let calls = recording::read(recording)?;
    let rows = walk::rows(&calls, card, totals)?;
    Ok(match form {
        Form::Words => words::report(&rows, false),
        Form::AllInWords => words::report(&rows, true),
        Form::Json => json::report(&rows),
    })
}
