//! What the program `cardlist` prints.

use crate::slot::{self, SlotBytes};
use crate::table;

const HEADER: &str = "slot place hashes count length\n";

/// The output for a table: a header, then a line for each slot with its index
/// (counted from 0), its place as a word, and its hash count, count and payload
/// length in decimal, with one space between two of them (PROFILE 7.1). A
/// reserved slot's length is the room asked for; a count is shown as its number,
/// which is 0 both where none is kept and where it is used up.
///
/// A table that is refused has one line instead, `refused 102` or
/// `refused 103`; 102 is tested first (PROFILE 7.2). Every line ends with a
/// newline.
pub fn listing(table: &[u8]) -> Vec<u8> {
    match table::check(table) {
        Ok(()) => lines(table::slots(table)),
        Err(number) => format!("refused {number}\n"),
    }
    .into_bytes()
}

fn lines(slots: &[SlotBytes]) -> String {
    let mut text = String::from(HEADER);
    for (index, slot) in slots.iter().enumerate() {
        text.push_str(&line(index, slot));
    }
    text
}

fn line(index: usize, slot: &SlotBytes) -> String {
    format!(
        "{index} {} {} {} {}\n",
        slot::place(slot).word(),
        slot::hash_count(slot),
        slot::count_number(slot),
        slot::length(slot)
    )
}
