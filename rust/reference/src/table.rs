//! A table of 1 to 15 slots.

use crate::number::{START_OUTSIDE, TABLE_LENGTH, TABLE_NOT_WELL_FORMED};
use crate::slot::{self, Place, SlotBytes};
use crate::{Handle, SLOT_BYTES};

/// The most slots of a table; the fewest is 1.
pub const MAX_SLOTS: usize = 15;

/// The whole slots of a table, in order.
pub fn slots(table: &[u8]) -> &[SlotBytes] {
    table.as_chunks::<SLOT_BYTES>().0
}

/// The whole slots of a table, in order, to be changed.
pub fn slots_mut(table: &mut [u8]) -> &mut [SlotBytes] {
    table.as_chunks_mut::<SLOT_BYTES>().0
}

/// Whether `table` is 1 to 15 whole slots and well formed.
pub fn well_formed(table: &[u8]) -> bool {
    check(table).is_ok()
}

/// Tests a table (PROFILE 4.1): 102 where it is not 1 to 15 whole slots, then
/// 103 where it is not well formed (PROFILE 2.5).
pub fn check(table: &[u8]) -> Result<(), u16> {
    check_length(table)?;
    check_slots(slot::well_formed, table)
}

/// Tests the table and the start of a call, in this order (PROFILE 4.1): 102 as
/// for any table, then 105 where the start is not below the number of slots,
/// then 103 as for any table. Gives the index of the slot to start from.
pub(crate) fn check_with_start(table: &[u8], start: u64) -> Result<usize, u16> {
    check_length(table)?;
    let start = slot_at(table, start).ok_or(START_OUTSIDE)?;
    check_slots(slot::well_formed, table)?;
    Ok(start)
}

/// Tests a table that is to be turned: 102 as for any table, then 103 where it
/// is not well formed by the rules before a count had its bit (PROFILE 2.7).
pub fn check_before_turning(table: &[u8]) -> Result<(), u16> {
    check_length(table)?;
    check_slots(slot::well_formed_before_turning, table)
}

/// 102 where the table is not 1 to 15 whole slots.
pub(crate) fn check_length(table: &[u8]) -> Result<(), u16> {
    let (slots, rest) = table.as_chunks::<SLOT_BYTES>();
    if !(1..=MAX_SLOTS).contains(&slots.len()) || !rest.is_empty() {
        return Err(TABLE_LENGTH);
    }
    Ok(())
}

/// 103 where some slot does not pass this test, or two share a handle.
fn check_slots(well_formed: fn(&SlotBytes) -> bool, table: &[u8]) -> Result<(), u16> {
    let slots = slots(table);
    if !slots.iter().all(well_formed) || two_share_a_handle(slots) {
        return Err(TABLE_NOT_WELL_FORMED);
    }
    Ok(())
}

/// The index of the slot that has this number, counted from 0; `None` where the
/// number, which may be any, is not below the number of slots.
fn slot_at(table: &[u8], number: u64) -> Option<usize> {
    let index = usize::try_from(number).ok()?;
    (index < slots(table).len()).then_some(index)
}

/// Whether two non-empty slots have the same handle.
fn two_share_a_handle(slots: &[SlotBytes]) -> bool {
    slots.iter().enumerate().any(|(index, slot)| {
        slot::place(slot) != Place::Empty && holds(&slots[index + 1..], &slot::handle(slot))
    })
}

/// Whether some non-empty slot has the handle.
pub(crate) fn holds(slots: &[SlotBytes], handle: &Handle) -> bool {
    slots.iter().any(|slot| slot::has_handle(slot, handle))
}

/// The empty slot that a search from `start` comes to first (PROFILE 5.1). It
/// goes upward to the last slot and then from slot 0 to the one before `start`,
/// so `None` says that every slot is taken.
pub(crate) fn first_empty(slots: &[SlotBytes], start: usize) -> Option<usize> {
    (start..slots.len())
        .chain(0..start)
        .find(|&index| slot::place(&slots[index]) == Place::Empty)
}

/// The non-empty slot with this handle. A well-formed table has one at most.
pub(crate) fn find(slots: &[SlotBytes], handle: &Handle) -> Option<usize> {
    slots.iter().position(|slot| slot::has_handle(slot, handle))
}
