//! Tables damaged in every way that a salvage is for, and well-formed ones to be
//! damaged.

use crate::frames::Asker;
use crate::tables::{any_record, blank, record, wrong_length};
use random::Rng;
use reference::{Handle, HANDLE_BYTES, SLOT_BYTES};
use std::fmt;

/// The bytes of a slot before its hashes.
const HEAD: usize = 31;

/// What is done to a table.
#[derive(Clone, Copy, Debug, PartialEq, Eq, PartialOrd, Ord)]
pub enum Damage {
    /// Nothing.
    Nothing,
    /// One bit is changed, anywhere in a slot.
    Bit,
    /// One bit of a handle is changed, to that of another record.
    BitOfHandle,
    /// A block of bytes is overwritten.
    Block,
    /// A block of bytes is overwritten, on both sides of a slot's end.
    BlockAcross,
    /// A record gets another place.
    Place,
    /// A byte of an empty slot is changed.
    EmptySlot,
    /// Two records or more get one handle.
    Repeated,
    /// Two records or more get one handle, and one of these slots breaks a rule.
    RepeatedAndWorn,
    /// Some slots or all break a rule.
    Worn,
    /// Every slot gets other bytes.
    Garbage,
    /// Some of these, one after the other.
    Several,
    /// The table gets another length.
    Length,
}

impl Damage {
    /// All that is done, but for another length: it leaves whole slots.
    pub const WITHIN: [Damage; 12] = [
        Damage::Nothing,
        Damage::Bit,
        Damage::BitOfHandle,
        Damage::Block,
        Damage::BlockAcross,
        Damage::Place,
        Damage::EmptySlot,
        Damage::Repeated,
        Damage::RepeatedAndWorn,
        Damage::Worn,
        Damage::Garbage,
        Damage::Several,
    ];

    /// What is done one after the other.
    const SINGLE: [Damage; 7] = [
        Damage::Bit,
        Damage::Block,
        Damage::Place,
        Damage::EmptySlot,
        Damage::Repeated,
        Damage::RepeatedAndWorn,
        Damage::Worn,
    ];

    /// All that is done.
    pub fn all() -> Vec<Damage> {
        [&Damage::WITHIN[..], &[Damage::Length]].concat()
    }

    /// Does it to a table of whole slots. Where there is nothing to do it to, the
    /// table stays as it is.
    pub fn damage(self, rng: &mut Rng, table: &mut Vec<u8>) {
        match self {
            Damage::Nothing => {}
            Damage::Bit => one_bit(rng, table),
            Damage::BitOfHandle => bit_of_handle(rng, table),
            Damage::Block => block(rng, table),
            Damage::BlockAcross => block_across(rng, table),
            Damage::Place => other_place(rng, table),
            Damage::EmptySlot => empty_slot(rng, table),
            Damage::Repeated => drop(repeat_handle(rng, table)),
            Damage::RepeatedAndWorn => repeated_and_worn(rng, table),
            Damage::Worn => worn(rng, table),
            Damage::Garbage => garbage(rng, table),
            Damage::Several => several(rng, table),
            Damage::Length => wrong_length(rng, table),
        }
    }
}

impl fmt::Display for Damage {
    fn fmt(&self, f: &mut fmt::Formatter<'_>) -> fmt::Result {
        f.write_str(match self {
            Damage::Nothing => "no damage",
            Damage::Bit => "one bit changed",
            Damage::BitOfHandle => "one bit of a handle changed to another's",
            Damage::Block => "a block overwritten",
            Damage::BlockAcross => "a block across slots overwritten",
            Damage::Place => "a place changed",
            Damage::EmptySlot => "an empty slot changed",
            Damage::Repeated => "a handle repeated",
            Damage::RepeatedAndWorn => "a handle repeated and a slot worn",
            Damage::Worn => "slots worn",
            Damage::Garbage => "garbage",
            Damage::Several => "damage of several sorts",
            Damage::Length => "another length",
        })
    }
}

/// A well-formed table of this many slots: most are full, some have empty slots, and
/// some are blank.
pub fn card(rng: &mut Rng, slots: usize) -> Vec<u8> {
    match rng.below(10) {
        0 => blank(slots),
        1..4 => card_of(rng, slots, any_record),
        _ => full_card(rng, slots),
    }
}

/// A full card: no slot of it is empty.
pub fn full_card(rng: &mut Rng, slots: usize) -> Vec<u8> {
    card_of(rng, slots, full_record)
}

/// A card with such a slot for each of some handles that are near each other.
fn card_of(rng: &mut Rng, slots: usize, slot: fn(&mut Rng, &Asker, &Handle) -> Vec<u8>) -> Vec<u8> {
    let asker = Asker::new(slots);
    let handles = near_handles(rng, slots);
    let slots = handles.iter().map(|handle| slot(rng, &asker, handle));
    slots.collect::<Vec<_>>().concat()
}

/// A slot that is not empty.
fn full_record(rng: &mut Rng, asker: &Asker, handle: &Handle) -> Vec<u8> {
    let place = rng.pick(&[1, 2, 2, 3]);
    record(rng, asker, place, handle)
}

/// Different handles, of which one is a bit away from each of the others. One in
/// three times it is ten zeros.
fn near_handles(rng: &mut Rng, slots: usize) -> Vec<Handle> {
    let first: Handle = match rng.below(3) {
        0 => [0; HANDLE_BYTES],
        _ => [0; HANDLE_BYTES].map(|_: u8| rng.byte()),
    };
    let bit = rng.below(8 * HANDLE_BYTES);
    let mut handles = vec![first; slots];
    for (index, handle) in handles.iter_mut().enumerate().skip(1) {
        let bit = (bit + 27 * index) % (8 * HANDLE_BYTES);
        handle[bit / 8] ^= 1 << (bit % 8);
    }
    handles.rotate_left(rng.below(slots));
    handles
}

/// The numbers of all slots, in any order.
fn any_order(rng: &mut Rng, slots: usize) -> Vec<usize> {
    let mut order: Vec<usize> = (0..slots).collect();
    for last in (1..slots).rev() {
        order.swap(last, rng.below(last + 1));
    }
    order
}

fn slots_of(table: &[u8]) -> usize {
    table.len() / SLOT_BYTES
}

/// The bytes of a slot.
fn slot(table: &mut [u8], index: usize) -> &mut [u8] {
    &mut table[index * SLOT_BYTES..][..SLOT_BYTES]
}

/// The number of any slot.
fn any_slot(rng: &mut Rng, table: &[u8]) -> usize {
    rng.below(slots_of(table))
}

fn is_empty(table: &[u8], index: usize) -> bool {
    table[index * SLOT_BYTES] >> 6 == 0
}

fn handle(table: &[u8], index: usize) -> &[u8] {
    &table[index * SLOT_BYTES + 1..][..HANDLE_BYTES]
}

/// Changes a bit of a slot: of its head, of its hashes and byte 191, of its payload,
/// or any.
fn one_bit(rng: &mut Rng, table: &mut [u8]) {
    let index = any_slot(rng, table);
    let at = match rng.below(4) {
        0 => rng.below(HEAD),
        1 => HEAD + rng.below(192 - HEAD),
        2 => 192 + rng.below(SLOT_BYTES - 192),
        _ => rng.below(SLOT_BYTES),
    };
    slot(table, index)[at] ^= rng.bit(8);
}

/// Gives a record the handle of another that is one bit away.
fn bit_of_handle(rng: &mut Rng, table: &mut [u8]) {
    let index = any_slot(rng, table);
    let own = handle(table, index);
    let one_away = |&other: &usize| {
        let bytes = own.iter().zip(handle(table, other));
        !is_empty(table, other) && bytes.map(|(a, b)| (a ^ b).count_ones()).sum::<u32>() == 1
    };
    if let Some(other) = (0..slots_of(table)).find(one_away) {
        copy_handle(table, other, index);
    }
}

fn copy_handle(table: &mut [u8], from: usize, to: usize) {
    let from = from * SLOT_BYTES + 1;
    table.copy_within(from..from + HANDLE_BYTES, to * SLOT_BYTES + 1);
}

/// The size of a block that wears out at once.
fn block_size(rng: &mut Rng) -> usize {
    rng.pick(&[16, 64, 512, 4096])
}

/// Overwrites a block, at a multiple of its size or anywhere.
fn block(rng: &mut Rng, table: &mut [u8]) {
    let size = block_size(rng);
    let at = match rng.below(2) {
        0 => rng.below(table.len() / size) * size,
        _ => rng.below(table.len() - size + 1),
    };
    overwrite(rng, &mut table[at..at + size]);
}

/// Overwrites a block that ends in the slot after the one that it begins in, if
/// there are two.
fn block_across(rng: &mut Rng, table: &mut [u8]) {
    let size = block_size(rng);
    let slots = slots_of(table);
    if slots > 1 {
        let border = (1 + rng.below(slots - 1)) * SLOT_BYTES;
        let at = border - 1 - rng.below(size - 1);
        overwrite(rng, &mut table[at..at + size]);
    }
}

/// Overwrites bytes with zeros, with ones, or with any bytes.
fn overwrite(rng: &mut Rng, bytes: &mut [u8]) {
    match rng.below(4) {
        0 => bytes.fill(0),
        1 => bytes.fill(0xFF),
        _ => bytes.fill_with(|| rng.byte()),
    }
}

/// Changes the place of a slot.
fn other_place(rng: &mut Rng, table: &mut [u8]) {
    let index = any_slot(rng, table);
    slot(table, index)[0] ^= rng.pick(&[0x40, 0x80, 0xC0]);
}

/// Changes a byte of an empty slot: of its head, or any.
fn empty_slot(rng: &mut Rng, table: &mut [u8]) {
    let order = any_order(rng, slots_of(table));
    if let Some(&index) = order.iter().find(|&&index| is_empty(table, index)) {
        let at = rng.pick(&[HEAD, SLOT_BYTES]);
        slot(table, index)[rng.below(at)] ^= 1 + rng.below(255) as u8;
    }
}

/// Gives one handle to two records, to three, to all or to any number of them, and
/// gives the slots that have it; none where the table has no record. A slot that
/// has none gets a whole record with the handle.
fn repeat_handle(rng: &mut Rng, table: &mut [u8]) -> Vec<usize> {
    let slots = slots_of(table);
    let times = match rng.below(4) {
        0 => 2,
        1 => 3,
        2 => slots,
        _ => 1 + rng.below(slots),
    };
    let mut order = any_order(rng, slots);
    let Some(first) = order.iter().position(|&index| !is_empty(table, index)) else {
        return Vec::new();
    };
    order.swap(0, first);
    order.truncate(times);
    let from = order[0];
    for &to in &order[1..] {
        if is_empty(table, to) || rng.one_in(3) {
            let from = from * SLOT_BYTES;
            table.copy_within(from..from + SLOT_BYTES, to * SLOT_BYTES);
        } else {
            copy_handle(table, from, to);
        }
    }
    order
}

/// Repeats a handle, and makes one of the slots that have it, or some of them, break
/// a rule.
fn repeated_and_worn(rng: &mut Rng, table: &mut [u8]) {
    let mut alike = repeat_handle(rng, table);
    if !alike.is_empty() {
        let first = rng.below(alike.len());
        alike.rotate_left(first);
        let worn = 1 + rng.below(alike.len()) / 3;
        for index in alike.into_iter().take(worn) {
            wear(rng, slot(table, index));
        }
    }
}

/// Makes every slot, or some of them, break a rule.
fn worn(rng: &mut Rng, table: &mut [u8]) {
    let slots = slots_of(table);
    let times = match rng.below(2) {
        0 => slots,
        _ => 1 + rng.below(slots),
    };
    for index in any_order(rng, slots).into_iter().take(times) {
        wear(rng, slot(table, index));
    }
}

/// Makes a slot break a rule that there is for every place: by byte 191, the spare
/// bit, a hash count over 8 or a length over 4,096.
fn wear(rng: &mut Rng, slot: &mut [u8]) {
    match rng.below(4) {
        0 => slot[191] = 1 + rng.below(255) as u8,
        1 => slot[0] |= 0x01,
        2 => slot[0] |= 0x24,
        _ => slot[29] |= 0x20,
    }
}

/// Gives every slot any bytes, all of them or those of the heads alone, or ones.
fn garbage(rng: &mut Rng, table: &mut [u8]) {
    match rng.below(4) {
        0 => table.fill(0xFF),
        1..3 => {
            for slot in table.chunks_mut(SLOT_BYTES) {
                slot[..HEAD].fill_with(|| rng.byte());
            }
        }
        _ => table.fill_with(|| rng.byte()),
    }
}

/// Does two to five things to a table.
fn several(rng: &mut Rng, table: &mut Vec<u8>) {
    for _ in 0..2 + rng.below(4) {
        rng.pick(&Damage::SINGLE).damage(rng, table);
    }
}
