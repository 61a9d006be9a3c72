//! The salvage of damaged tables (PROFILE 2.10).

use crate::number::REPORT_BUFFER_SHORT;
use crate::slot::{self, Place, SlotBytes};
use crate::table;

/// What a salvage finds of a slot, with its number in the report.
#[derive(Clone, Copy, Debug, PartialEq, Eq, PartialOrd, Ord)]
#[repr(u8)]
pub enum Finding {
    /// The slot is in order, or empty, and every byte of it stays.
    Kept = 0,
    /// The slot was not well formed by itself, and was cleared.
    Damaged = 1,
    /// A lower slot has the handle of this one, which was cleared.
    Repeated = 2,
}

impl Finding {
    /// All findings.
    pub const ALL: [Finding; 3] = [Finding::Kept, Finding::Damaged, Finding::Repeated];

    /// The number that stands in the report.
    pub fn number(self) -> u8 {
        self as u8
    }

    /// The finding with this number.
    pub fn from_number(number: u8) -> Option<Finding> {
        Finding::ALL
            .into_iter()
            .find(|finding| finding.number() == number)
    }

    /// The finding as the report in words has it.
    pub fn word(self) -> &'static str {
        match self {
            Finding::Kept => "kept",
            Finding::Damaged => "damaged",
            Finding::Repeated => "repeated",
        }
    }
}

/// Salvages a table in place and gives the number of slots that it cleared, 0 to
/// 15; or refuses, tested in this order, with 102 where the table is not 1 to 15
/// whole slots and with 107 where the report buffer has fewer bytes than the table
/// has slots, and changes no byte of either then.
///
/// A byte of the report for each slot says what was found of it; the bytes after
/// that of the last slot stay. What is damaged is cleared before handles are
/// compared, so it makes no other slot a repeated one.
pub fn salvage(table: &mut [u8], report: &mut [u8]) -> u16 {
    if let Err(number) = check(table, report) {
        return number;
    }
    let slots = table::slots_mut(table);
    let report = &mut report[..slots.len()];
    report.fill(Finding::Kept.number());
    clear_damaged(slots, report);
    clear_repeated(slots, report);
    cleared(report)
}

/// Tests a table and a report buffer: 102 as for any table, then 107 where there
/// is not a byte for each slot.
fn check(table: &[u8], report: &[u8]) -> Result<(), u16> {
    table::check_length(table)?;
    if report.len() < table::slots(table).len() {
        return Err(REPORT_BUFFER_SHORT);
    }
    Ok(())
}

/// The first step: each slot by itself (PROFILE 2.4).
fn clear_damaged(slots: &mut [SlotBytes], report: &mut [u8]) {
    for (slot, found) in slots.iter_mut().zip(report) {
        if !slot::well_formed(slot) {
            slot::clear(slot);
            *found = Finding::Damaged.number();
        }
    }
}

/// The second step, from the lowest slot up: of the slots that have one handle,
/// the first that it comes to stays, whatever their places.
fn clear_repeated(slots: &mut [SlotBytes], report: &mut [u8]) {
    for (index, found) in report.iter_mut().enumerate() {
        let (lower, others) = slots.split_at_mut(index);
        if is_repeated(lower, &others[0]) {
            slot::clear(&mut others[0]);
            *found = Finding::Repeated.number();
        }
    }
}

/// Whether a slot has a handle that one of the lower slots has. An empty slot has
/// none.
fn is_repeated(lower: &[SlotBytes], slot: &SlotBytes) -> bool {
    slot::place(slot) != Place::Empty && table::holds(lower, &slot::handle(slot))
}

/// How many slots were not kept, by a report of at most 15 bytes.
fn cleared(report: &[u8]) -> u16 {
    let kept = Finding::Kept.number();
    report.iter().map(|&found| u16::from(found != kept)).sum()
}
