//! Damaged tables, tables from before a count had its bit, tables with rights
//! without a hash, and buffers for replies, listings and reports.

use crate::frames::{count, payload_length, Asker};
use random::Rng;
use reference::{Handle, HASH_BYTES, MAX_SLOTS, REPLY_ROOM, SLOT_BYTES};

/// Room for the longest listing: a header of 31 bytes, and 15 lines of 25.
const LISTING_ROOM: usize = 406;

/// The bit of a slot's first byte that says that a count is kept.
const KEPT: u8 = 0x02;

/// The spare bit beside it.
const SPARE: u8 = 0x01;

/// A table of empty slots.
pub fn blank(slots: usize) -> Vec<u8> {
    vec![0; slots * SLOT_BYTES]
}

/// A well-formed table as no calls on a blank one leave it: two rights in three
/// have no hash (PROFILE 2.9). The handles are some of those that `asker` asks
/// for.
pub fn with_unhashed(rng: &mut Rng, asker: &Asker, slots: usize) -> Vec<u8> {
    let mut handles = asker.handles().to_vec();
    let first = rng.below(handles.len());
    handles.rotate_left(first);
    let handles = handles.iter().take(slots);
    handles
        .flat_map(|handle| any_record(rng, asker, handle))
        .collect()
}

/// A slot in any place, under this handle if it is not empty.
pub fn any_record(rng: &mut Rng, asker: &Asker, handle: &Handle) -> Vec<u8> {
    let place = rng.pick(&[0, 1, 1, 2, 2, 2, 2, 3, 3]);
    record(rng, asker, place, handle)
}

/// A slot in the place of this number, under this handle if it is not empty.
pub fn record(rng: &mut Rng, asker: &Asker, place: u8, handle: &Handle) -> Vec<u8> {
    let mut slot = vec![0; SLOT_BYTES];
    let length = match place {
        0 => return slot,
        1 => rng.pick(&[1, 40, 4096, 4096]),
        _ => payload_length(rng),
    };
    slot[0] = place << 6;
    slot[1..11].copy_from_slice(handle);
    slot[29..31].copy_from_slice(&(length as u16).to_be_bytes());
    if place > 1 {
        put_right(rng, asker, &mut slot, length);
    }
    slot
}

/// Puts a right of this length into a slot: key, count, hashes or none, payload.
fn put_right(rng: &mut Rng, asker: &Asker, slot: &mut [u8], length: usize) {
    let count = count(rng);
    let hashes = match rng.below(3) {
        0 => asker.some_hashes(rng),
        _ => Vec::new(),
    };
    slot[0] |= ((hashes.len() / HASH_BYTES) as u8) << 2;
    slot[0] |= if count.kept { KEPT } else { 0 };
    slot[11..27].copy_from_slice(&rng.bytes(16));
    slot[27..29].copy_from_slice(&count.number.to_be_bytes());
    slot[31..31 + hashes.len()].copy_from_slice(&hashes);
    slot[192..192 + length].copy_from_slice(&rng.bytes(length));
}

/// A whole table with some damage. Some damage leaves it well formed: a
/// changed bit of a payload, for one.
pub fn damaged(rng: &mut Rng, table: &[u8]) -> Vec<u8> {
    let mut table = table.to_vec();
    match rng.below(5) {
        0 => wrong_length(rng, &mut table),
        1 => two_alike(rng, &mut table),
        2 => another_count(rng, &mut table),
        _ => one_byte(rng, &mut table),
    }
    table
}

/// The table as it was before a count had its bit: the same records, without the
/// bits. One that is used up keeps none, then.
pub fn before_turning(table: &[u8]) -> Vec<u8> {
    let mut table = table.to_vec();
    for slot in table.chunks_mut(SLOT_BYTES) {
        slot[0] &= !KEPT;
    }
    table
}

/// Gives the table another length, and fills it up with zeros. The longest
/// table that there can be is among them, and a table of one slot more.
pub fn wrong_length(rng: &mut Rng, table: &mut Vec<u8>) {
    let length = match rng.below(8) {
        0 => 0,
        1 => SLOT_BYTES - 1,
        2 => SLOT_BYTES + 1,
        3 => MAX_SLOTS * SLOT_BYTES,
        4 => (MAX_SLOTS + 1) * SLOT_BYTES,
        5 => table.len() - 1,
        6 => table.len() + 1,
        _ => rng.below(table.len()),
    };
    table.resize(length, 0);
}

/// Copies a slot, or its handle alone, over that of another.
fn two_alike(rng: &mut Rng, table: &mut [u8]) {
    let slots = table.len() / SLOT_BYTES;
    let from = rng.below(slots) * SLOT_BYTES;
    let to = rng.below(slots) * SLOT_BYTES;
    match rng.below(2) {
        0 => table.copy_within(from..from + SLOT_BYTES, to),
        _ => table.copy_within(from + 1..from + 11, to + 1),
    }
}

/// Changes the count of a slot, whatever its place: the bit, the number or both,
/// or the spare bit beside the bit.
fn another_count(rng: &mut Rng, table: &mut [u8]) {
    let at = rng.below(table.len() / SLOT_BYTES) * SLOT_BYTES;
    let number: u16 = rng.pick(&[0, 1, 0xFF, 0x100, 0xFFFF]);
    let bits = rng.pick(&[0, 0, KEPT, KEPT, KEPT, SPARE, KEPT | SPARE]);
    table[at] ^= bits;
    if bits == 0 || rng.one_in(2) {
        table[at + 27..at + 29].copy_from_slice(&number.to_be_bytes());
    }
}

/// Changes one byte of a slot: any byte, or one that a rule is about.
fn one_byte(rng: &mut Rng, table: &mut [u8]) {
    let slot = rng.below(table.len() / SLOT_BYTES) * SLOT_BYTES;
    let at = slot
        + match rng.below(10) {
            0..2 => 0,
            2 => 1 + rng.below(10),
            3 => 11 + rng.below(18),
            4..6 => 29 + rng.below(2),
            6 => 31 + rng.below(160),
            7 => 191,
            8 => rng.pick(&[192, 193, 232, 233, 4286, 4287]),
            _ => rng.below(SLOT_BYTES),
        };
    table[at] = match rng.below(3) {
        0 => rng.byte(),
        _ => table[at] ^ rng.bit(8),
    };
}

/// A reply buffer, now and then too short. No two neighbouring bytes are equal,
/// so that a byte that was written or moved shows.
pub fn reply_buffer(rng: &mut Rng) -> Vec<u8> {
    let room = match rng.below(20) {
        0 => rng.pick(&[0, 1, 4, REPLY_ROOM - 1, REPLY_ROOM - 1]),
        1..10 => REPLY_ROOM,
        _ => rng.pick(&[REPLY_ROOM + 1, REPLY_ROOM + 2, REPLY_ROOM + 40]),
    };
    patterned(rng, room)
}

/// A buffer for a listing, in which no two neighbouring bytes are equal.
pub fn listing_buffer(rng: &mut Rng) -> Vec<u8> {
    patterned(rng, LISTING_ROOM)
}

/// A report buffer for a table of this many slots, with any bytes in it. One in
/// sixteen is too short; the others are just long enough, or longer.
pub fn report_buffer(rng: &mut Rng, slots: usize) -> Vec<u8> {
    let room = match rng.below(16) {
        0 => rng.below(slots.max(1)),
        1..8 => slots,
        8..12 => slots + 1,
        12..14 => slots.max(MAX_SLOTS),
        _ => slots + rng.below(40),
    };
    rng.bytes(room)
}

fn patterned(rng: &mut Rng, room: usize) -> Vec<u8> {
    let first = rng.below(256);
    (0..room).map(|i| (first + i * 29) as u8).collect()
}
