//! A report in words.
//!
//! Each return has a line, and so has each call without a reply, since the
//! recording has a fault there. A blank line and the summary of its period follow.

use crate::row::{name, Entry, Outcome, Returned, Row};
use crate::summary::{Part, Summary};
use cavernlull::{Handle, Kind, Totals};

/// The report of these rows, with a line for every call or for returns alone.
pub fn report(rows: &[Row], all: bool) -> String {
    let lines = rows.iter().filter_map(|row| match row {
        Row::Call(entry) => {
            let wanted = all || entry.returned.is_some() || entry.outcome.status().is_none();
            wanted.then(|| line(entry) + "\n")
        }
        Row::Summary(period) => Some(summary(period)),
    });
    let text: String = lines.collect();
    text.trim_start_matches('\n').to_owned()
}

/// So many of something, in words.
fn many(number: usize, what: &str) -> String {
    let s = if number == 1 { "" } else { "s" };
    format!("{number} {what}{s}")
}

/// A handle as letters, or else in hex.
fn called(handle: &Handle) -> String {
    name(handle).unwrap_or_else(|| handle.to_string())
}

/// One call in a line.
fn line(entry: &Entry) -> String {
    let Entry { call, line, .. } = entry;
    let said = match (entry.returned, entry.outcome) {
        (_, Outcome::NoReply(error)) => format!("no reply: {} {error}", error.number()),
        (Some(returned), Outcome::Reply(_)) => said_of_return(entry, returned),
        (None, Outcome::Reply(status)) => format!("{}: {status}", said_of_request(entry)),
    };
    format!("call {call}, line {line}: {said}")
}

/// A request of another kind than a return.
fn said_of_request(entry: &Entry) -> String {
    let kind = match Kind::from_number(entry.kind) {
        Some(kind) => kind.to_string(),
        None => format!("kind {}", entry.kind),
    };
    match (&entry.handle, &entry.new_handle) {
        (None, _) => kind,
        (Some(handle), None) => format!("{kind}, {}", called(handle)),
        (Some(handle), Some(new)) => format!("{kind}, {} as {}", called(handle), called(new)),
    }
}

/// A return, and what it did.
fn said_of_return(entry: &Entry, returned: Returned) -> String {
    let course = entry.handle.as_ref().map_or("a course".to_owned(), called);
    match returned {
        Returned::Counted => format!("{course} is back, {}; {}", did(entry.change), entry.totals),
        Returned::Again => format!("{course} is back already: not counted"),
        Returned::NoCount => format!("{course} is back without a count: not counted"),
        Returned::Raised | Returned::Refused => format!("{course} is not back: {}", entry.outcome),
    }
}

/// What a counted return did to the count, which it does not raise.
fn did(change: i32) -> String {
    match change.unsigned_abs() {
        0 => "no start used".to_owned(),
        used => format!("{} used", many(used as usize, "start")),
    }
}

/// The summary of a period, after a blank line.
fn summary(period: &Summary) -> String {
    let mut text = format!(
        "\nPeriod {}, {}\n",
        period.period,
        many(period.calls, "call")
    );
    if period.from != Totals::new() {
        text += &format!("  taken up     {}\n", period.from);
    }
    text += &used(&period.used);
    text += &format!("  unchanged    {}\n", many(period.unchanged, "return"));
    text += &format!(
        "  not counted  {} back already, {} without a count\n",
        period.again, period.no_count
    );
    let raised = many(period.raised, "return");
    text += &format!(
        "  refused      {raised} with Count Raised, {} with another status\n",
        period.refused
    );
    text += &format!("  no reply     {}\n", many(period.no_reply, "call"));
    text += &format!("  {}\n", period.totals);
    if period.totals.is_full() {
        text +=
            "  The total is full: note it. The next period begins with total 0 in 0 returns.\n\n";
    }
    text
}

/// The line of the starts that were used, and of the returns that they were in.
fn used(part: &Part) -> String {
    let starts = many(part.starts as usize, "start");
    format!(
        "  used         {starts}, in {}\n",
        many(part.returns, "return")
    )
}
