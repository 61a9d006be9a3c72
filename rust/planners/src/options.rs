//! What the program was told.

use crate::Form;
use cavernlull::{Totals, MOST_SLOTS};

/// What `returns --help` prints.
pub const HELP: &str = "\
returns [OPTION]... [RECORDING]

Makes recorded calls on a card and reports what returns did to counts.

RECORDING has a request frame in hex on each line. Spaces may stand anywhere, `#`
begins a comment, and lines without a digit are skipped. Without a RECORDING, or
where it is `-`, standard input is read.

  --json        an object on each line: one for every call, and one for each
                summary
  --all         in words, a line for every call and not for returns alone
  --card FILE   the card before the first call: the image of its table, which is
                read and not written
  --slots N     a blank card of 1 to 15 slots; without either option, one of 15
  --total T     the total of an earlier report, to be taken up
  --returns N   the returns of the same report; the two go together
  --help        this page

A return that would raise a count is refused with Count Raised: nothing is returned,
and nothing is counted.

After 30,000 returns the total is full: the report gives a summary and goes on with
a new period, from total 0 in 0 returns.

It ends with 0, or with 2 where an option, a line of the recording, the card or the
total is wrong. There is no report then.
";

/// The card that the calls are made on.
#[derive(Clone, Debug, PartialEq, Eq)]
pub enum CardSource {
    /// A blank card of so many slots.
    Blank(usize),
    /// The image of a table, in this file.
    Image(String),
}

/// What the program was told.
#[derive(Clone, Debug, PartialEq, Eq)]
pub struct Options {
    /// The form of the report.
    pub form: Form,
    /// The card.
    pub card: CardSource,
    /// The totals that are taken up.
    pub totals: Totals,
    /// The file of the recording; standard input where there is none.
    pub recording: Option<String>,
    /// Whether the help is asked for, and no report.
    pub help: bool,
}

/// Options as they are read, one after the other.
#[derive(Default)]
struct Given {
    json: bool,
    all: bool,
    help: bool,
    card: Option<String>,
    slots: Option<usize>,
    total: Option<i32>,
    returns: Option<u16>,
    recording: Option<String>,
}

/// Reads the arguments of the program, without its name.
///
/// # Errors
///
/// A sentence that says which argument is wrong.
///
/// ```
/// use planners::options::{read, CardSource};
///
/// let options = read(["--slots", "4", "week.txt"].map(String::from)).unwrap();
/// assert_eq!(options.card, CardSource::Blank(4));
/// assert_eq!(options.recording.as_deref(), Some("week.txt"));
/// assert!(read(["--total".to_owned(), "5".to_owned()]).is_err());
/// ```
pub fn read(arguments: impl IntoIterator<Item = String>) -> Result<Options, String> {
    let (mut given, mut arguments) = (Given::default(), arguments.into_iter());
    while let Some(argument) = arguments.next() {
        given.take(argument, &mut arguments)?;
    }
    given.options()
}

impl Given {
    fn take(
        &mut self,
        argument: String,
        rest: &mut impl Iterator<Item = String>,
    ) -> Result<(), String> {
        let mut value = || rest.next().ok_or(format!("{argument} needs a value"));
        match argument.as_str() {
            "--json" => self.json = true,
            "--all" => self.all = true,
            "--help" => self.help = true,
            "--card" => once(&mut self.card, &argument, value()?)?,
            "--slots" => once(&mut self.slots, &argument, number(&argument, &value()?)?)?,
            "--total" => once(&mut self.total, &argument, number(&argument, &value()?)?)?,
            "--returns" => once(&mut self.returns, &argument, number(&argument, &value()?)?)?,
            other if other.starts_with("--") => return Err(format!("there is no {other}")),
            _ => once(&mut self.recording, "the recording", argument)?,
        }
        Ok(())
    }

    fn options(self) -> Result<Options, String> {
        let card = match (self.card, self.slots) {
            (Some(_), Some(_)) => return Err("--card and --slots exclude one another".to_owned()),
            (Some(file), None) => CardSource::Image(file),
            (None, slots) => CardSource::Blank(slots.unwrap_or(MOST_SLOTS)),
        };
        if matches!(card, CardSource::Blank(slots) if slots == 0 || slots > MOST_SLOTS) {
            return Err(format!("a card has 1 to {MOST_SLOTS} slots"));
        }
        let totals = match (self.total, self.returns) {
            (None, None) => Totals::new(),
            (Some(total), Some(returns)) => Totals::from_parts(total, returns),
            _ => return Err("--total and --returns go together".to_owned()),
        };
        let form = match (self.json, self.all) {
            (true, _) => Form::Json,
            (false, true) => Form::AllInWords,
            (false, false) => Form::Words,
        };
        Ok(Options {
            form,
            card,
            totals,
            recording: self.recording.filter(|file| file != "-"),
            help: self.help,
        })
    }
}

/// Puts in a value that may be given only once.
fn once<V>(place: &mut Option<V>, what: &str, value: V) -> Result<(), String> {
    match place.replace(value) {
        Some(_) => Err(format!("{what} is given twice")),
        None => Ok(()),
    }
}

/// A number that its type has room for.
fn number<N: std::str::FromStr>(option: &str, text: &str) -> Result<N, String> {
    let number = text.parse();
    number.map_err(|_| format!("{option} is a number that it has room for, not {text}"))
}
