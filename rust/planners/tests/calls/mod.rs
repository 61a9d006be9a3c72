//! Recordings and cards for the tests of the report.

#![allow(dead_code)] // no test file uses all of it

use cavernlull::{Card, Handle, Request, Totals, SLOT_BYTES};
use planners::row::{Entry, Row};
use planners::summary::Summary;
use planners::{recording, walk};

/// The sample, and the reports of it that are kept beside it.
pub const WEEK: &str = include_str!("../../samples/week.txt");
pub const WEEK_IN_WORDS: &str = include_str!("../../samples/week.words.txt");
pub const WEEK_ALL: &str = include_str!("../../samples/week.all.txt");
pub const WEEK_IN_JSON: &str = include_str!("../../samples/week.jsonl");

/// A handle of ten such bytes.
pub fn handle(byte: u8) -> Handle {
    Handle([byte; 10])
}

/// A line of a recording.
pub fn line(request: &Request) -> String {
    let frame = request.to_frame().expect("it can be written");
    let hex: Vec<String> = frame.iter().map(|byte| format!("{byte:02x}")).collect();
    hex.join(" ") + "\n"
}

/// The line of a return.
pub fn give_back(under: u8, count: Option<u16>) -> String {
    let handle = handle(under);
    line(&Request::RightsEnablement { handle, count })
}

/// A card with a lent right for each of these counts, under handles of ten bytes
/// `41`, `42` and so on (PROFILE 2.2).
pub fn lent(counts: &[Option<u16>]) -> Card {
    let mut table = vec![0; counts.len() * SLOT_BYTES];
    let slots = table.chunks_mut(SLOT_BYTES).zip(counts).zip(0x41..);
    for ((slot, count), handle) in slots {
        slot[0] = 0xC0 | u8::from(count.is_some()) << 1;
        slot[1..11].fill(handle);
        slot[27..29].copy_from_slice(&count.unwrap_or(0).to_be_bytes());
        slot[30] = 1;
    }
    Card::from(table)
}

/// The rows of a recording.
pub fn rows(text: &str, card: Card, from: Totals) -> Vec<Row> {
    let calls = recording::read(text).expect("it is hex");
    walk::rows(&calls, card, from).expect("card and totals are in order")
}

/// What rows say of calls, and of periods.
pub fn parted(rows: Vec<Row>) -> (Vec<Entry>, Vec<Summary>) {
    let (mut entries, mut summaries) = (Vec::new(), Vec::new());
    for row in rows {
        match row {
            Row::Call(entry) => entries.push(entry),
            Row::Summary(summary) => summaries.push(summary),
        }
    }
    (entries, summaries)
}
