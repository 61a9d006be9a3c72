//! What the program `cardsalvage` prints of what it found.

use crate::salvage::{salvage, Finding};
use crate::{table, MAX_SLOTS};

/// The report on a table in words: a line for each slot with its index, counted
/// from 0, and what was found of it, and a last line with the number of cleared
/// slots (PROFILE 2.11).
///
/// A table that is refused has one line instead, `refused 102`. Every line ends
/// with a newline.
pub fn salvage_text(table: &[u8]) -> Vec<u8> {
    let mut report = [0; MAX_SLOTS];
    let slots = table::slots(table).len();
    match salvage(&mut table.to_vec(), &mut report) {
        cleared if usize::from(cleared) <= MAX_SLOTS => lines(&report[..slots], cleared),
        number => format!("refused {number}\n"),
    }
    .into_bytes()
}

fn lines(report: &[u8], cleared: u16) -> String {
    let mut text = String::new();
    for (index, &number) in report.iter().enumerate() {
        let found = Finding::from_number(number).expect("a report has findings");
        text.push_str(&format!("{index} {}\n", found.word()));
    }
    text + &format!("cleared {cleared}\n")
}
