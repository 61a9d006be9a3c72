//! A report in JSON lines, for a spreadsheet: an object on each line, with the
//! same members in the same order on every line of its sort.
//!
//! `"row"` tells the two sorts apart. Every call has a line:
//!
//! | member | |
//! |---|---|
//! | `row` | `"call"` |
//! | `period`, `call`, `line` | the period, the call and the line of the recording, each counted from 1 |
//! | `kind`, `request` | the kind's number, 0 to 31, and its name, or null where there is no such kind |
//! | `handle`, `name` | the handle in hex, and as letters where it is printable; else null |
//! | `new_handle`, `new_name` | the handle under which a course is lent, in the same way |
//! | `number`, `status`, `outcome` | the archive's number; the status, or null without a reply; either in words |
//! | `return` | null unless it is a Rights Enablement with a reply; else `"counted"`, `"sent again"`, `"no count"`, `"count raised"` (status 9) or `"refused"` (another status) |
//! | `change`, `counted` | what the call did to the count, which is never above 0; true where it is counted |
//! | `total`, `returns` | the totals after the call |
//!
//! Every period ends with a line:
//!
//! | member | |
//! |---|---|
//! | `row` | `"summary"` |
//! | `period`, `calls` | the period, and how many calls it has |
//! | `from_total`, `from_returns` | the totals at its beginning |
//! | `used`, `used_returns` | starts used, and in how many returns |
//! | `unchanged_returns` | counted returns with a change of 0 |
//! | `sent_again`, `no_count` | returns that are not counted |
//! | `count_raised`, `refused` | returns that the card refused with status 9, and those that it refused with another |
//! | `no_reply` | calls without a reply |
//! | `total`, `returns`, `full` | the totals at its end; true where they are full |

use crate::row::{name, Entry, Returned, Row};
use crate::summary::Summary;
use cavernlull::{Handle, Kind, Status};
use std::fmt::Display;

/// The report of these rows.
pub fn report(rows: &[Row]) -> String {
    let lines = rows.iter().map(|row| match row {
        Row::Call(entry) => call(entry),
        Row::Summary(period) => summary(period),
    });
    lines.map(|line| line + "\n").collect()
}

fn call(entry: &Entry) -> String {
    let kind = Kind::from_number(entry.kind).map(|kind| kind.to_string());
    let hex = |handle: Option<Handle>| handle.map(|handle| handle.to_string());
    let status = entry.outcome.status().map(Status::number);
    let returned = entry.returned.map(|returned| returned.to_string());
    Object::begin("call")
        .plain("period", entry.period)
        .plain("call", entry.call)
        .plain("line", entry.line)
        .plain("kind", entry.kind)
        .text("request", kind)
        .text("handle", hex(entry.handle))
        .text("name", entry.handle.as_ref().and_then(name))
        .text("new_handle", hex(entry.new_handle))
        .text("new_name", entry.new_handle.as_ref().and_then(name))
        .plain("number", entry.outcome.number())
        .plain("status", status.map_or("null".into(), |n| n.to_string()))
        .text("outcome", Some(entry.outcome.to_string()))
        .text("return", returned)
        .plain("change", entry.change)
        .plain("counted", entry.returned == Some(Returned::Counted))
        .plain("total", entry.totals.total())
        .plain("returns", entry.totals.returns())
        .end()
}

fn summary(period: &Summary) -> String {
    Object::begin("summary")
        .plain("period", period.period)
        .plain("calls", period.calls)
        .plain("from_total", period.from.total())
        .plain("from_returns", period.from.returns())
        .plain("used", period.used.starts)
        .plain("used_returns", period.used.returns)
        .plain("unchanged_returns", period.unchanged)
        .plain("sent_again", period.again)
        .plain("no_count", period.no_count)
        .plain("count_raised", period.raised)
        .plain("refused", period.refused)
        .plain("no_reply", period.no_reply)
        .plain("total", period.totals.total())
        .plain("returns", period.totals.returns())
        .plain("full", period.totals.is_full())
        .end()
}

/// An object that is being written.
struct Object(String);

impl Object {
    /// An object whose first member says what sort of row it is.
    fn begin(row: &str) -> Object {
        Object(format!("{{\"row\":{}", quoted(row)))
    }

    /// A member that is a number, true, false or null: what Rust shows is JSON.
    fn plain(self, key: &str, value: impl Display) -> Object {
        Object(format!("{},{}:{value}", self.0, quoted(key)))
    }

    /// A member that is a string, or null.
    fn text(self, key: &str, value: Option<String>) -> Object {
        let value = value.map_or("null".to_owned(), |text| quoted(&text));
        self.plain(key, value)
    }

    fn end(self) -> String {
        self.0 + "}"
    }
}

/// A string as JSON has it: in quotes, with quotes, backslashes and control
/// characters escaped.
///
/// ```
/// use planners::json::quoted;
///
/// assert_eq!(quoted("a \"b\" \\ c\n"), r#""a \"b\" \\ c\u000a""#);
/// ```
pub fn quoted(text: &str) -> String {
    let escaped = text.chars().map(|c| match c {
        '"' | '\\' => format!("\\{c}"),
        c if u32::from(c) < 0x20 => format!("\\u{:04x}", u32::from(c)),
        c => c.to_string(),
    });
    format!("\"{}\"", escaped.collect::<String>())
}
