//! The tally of a table: five numbers that say how it is filled (PROFILE 2.8).
//!
//! It is always worked out from all slots of the table, never from the numbers
//! of an earlier one, and so also after a call.

use crate::number::DONE;
use crate::slot::{self, Place, SlotBytes};
use crate::table;

/// The five numbers, in the order of the card profile.
#[derive(Clone, Copy, Debug, Default, PartialEq, Eq, PartialOrd, Ord)]
pub struct Tally {
    /// The empty slots.
    pub empty: u16,
    /// The reserved slots.
    pub reserved: u16,
    /// The enabled slots.
    pub enabled: u16,
    /// The disabled slots.
    pub disabled: u16,
    /// The payload bytes of the enabled and disabled slots.
    pub payload: u16,
}

impl Tally {
    /// The tally of a table; or 102 where it is not 1 to 15 whole slots, and
    /// then 103 where it is not well formed.
    pub fn of(table: &[u8]) -> Result<Tally, u16> {
        table::check(table)?;
        Ok(Tally::of_slots(table::slots(table)))
    }

    /// The tally of at most 15 well-formed slots. Their payloads have at most
    /// 61,440 bytes together.
    pub(crate) fn of_slots(slots: &[SlotBytes]) -> Tally {
        let mut tally = Tally::default();
        for slot in slots {
            match slot::place(slot) {
                Place::Empty => tally.empty += 1,
                Place::Reserved => tally.reserved += 1,
                Place::Enabled => tally.enabled += 1,
                Place::Disabled => tally.disabled += 1,
            }
            tally.payload += payload_bytes(slot);
        }
        tally
    }

    /// The five numbers, one after another.
    pub fn numbers(self) -> [u16; 5] {
        [
            self.empty,
            self.reserved,
            self.enabled,
            self.disabled,
            self.payload,
        ]
    }
}

impl From<[u16; 5]> for Tally {
    fn from([empty, reserved, enabled, disabled, payload]: [u16; 5]) -> Tally {
        Tally {
            empty,
            reserved,
            enabled,
            disabled,
            payload,
        }
    }
}

/// The payload bytes of a slot: its length, unless it is only the room that a
/// reservation keeps.
fn payload_bytes(slot: &SlotBytes) -> u16 {
    match slot::place(slot) {
        Place::Empty | Place::Reserved => 0,
        Place::Enabled | Place::Disabled => slot::length(slot),
    }
}

/// Works out the tally of a table and gives 0; or refuses, tested in this order,
/// with 102 where the table is not 1 to 15 whole slots and with 103 where it is
/// not well formed, and changes none of the numbers then. What they were makes
/// no difference.
pub fn tally(table: &[u8], tally: &mut Tally) -> u16 {
    match Tally::of(table) {
        Ok(worked_out) => {
            *tally = worked_out;
            DONE
        }
        Err(number) => number,
    }
}
