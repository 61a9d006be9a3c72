//! Frames by which the rights of a table are installed, lent and returned, with counts.

use crate::frames::{frame, Asker};
use random::Rng;
use reference::slot::SlotBytes;
use reference::Count::{self, Kept, NotKept};
use reference::{slot, table, Handle, Place};

/// The second byte of a request with the verdict 1; and with a kept count too.
const NO_COUNT: u8 = 0x80;
const KEPT: u8 = 0xC0;

/// The next frame for a card with this table. Two in three are about one of its
/// records, whatever handle it has, and one in eight of these is spoiled. Rights are
/// removed now and then, since no count rises and those that are used up stay so.
pub fn next_frame(rng: &mut Rng, asker: &Asker, table: &[u8]) -> Vec<u8> {
    let records = records(table);
    if records.is_empty() || rng.one_in(3) {
        return asker.frame(rng);
    }
    let record = rng.pick(&records);
    let mut frame = match (slot::place(record), rng.below(8)) {
        (Place::Disabled, _) | (_, 0) => returning(rng, record),
        (Place::Reserved, 1) => frame(7, NO_COUNT, &slot::handle(record)),
        (Place::Reserved, _) => installation(rng, asker, record),
        (_, 1) => frame(6, NO_COUNT, &slot::handle(record)),
        _ => lending(rng, asker, &records, record),
    };
    if rng.one_in(8) {
        spoil(rng, asker, &mut frame);
    }
    frame
}

/// A frame for a card with this table. One in four is about one of its rights: one that
/// is lent is returned, and one for use lent or, one time in three, returned. All others
/// are such as `asker` makes for every card.
pub fn frame_or_loan(rng: &mut Rng, asker: &Asker, table: &[u8]) -> Vec<u8> {
    let records = records(table);
    let rights = records.iter().copied();
    let rights: Vec<&SlotBytes> = rights
        .filter(|slot| slot::place(slot) >= Place::Enabled)
        .collect();
    if rights.is_empty() || !rng.one_in(4) {
        return asker.frame(rng);
    }
    let right = rng.pick(&rights);
    match slot::place(right) {
        Place::Enabled if !rng.one_in(3) => lending(rng, asker, &records, right),
        _ => returning(rng, right),
    }
}

/// The slots of a table that are not empty.
fn records(table: &[u8]) -> Vec<&SlotBytes> {
    let slots = table::slots(table).iter();
    slots
        .filter(|slot| slot::place(slot) != Place::Empty)
        .collect()
}

/// Installs a right with a count, mostly a great one, which has room in every
/// reservation.
fn installation(rng: &mut Rng, asker: &Asker, record: &SlotBytes) -> Vec<u8> {
    let (handle, key) = (slot::handle(record), rng.bytes(16));
    let count = match rng.below(4) {
        0 => rng.pick(&[0, 1, 0xFF, 0x100]),
        1 => u16::MAX,
        _ => rng.word(),
    };
    let hash = &asker.some_hashes(rng)[..20];
    let number = count.to_be_bytes();
    let body = [&handle[..], &key, &number, &[0x10], hash, &[rng.byte()]].concat();
    frame(2, KEPT, &body)
}

/// Lends a right, by kind 3 or 4, mostly under a handle that no record has.
fn lending(rng: &mut Rng, asker: &Asker, records: &[&SlotBytes], record: &SlotBytes) -> Vec<u8> {
    let mut handles: Vec<Handle> = asker.handles().to_vec();
    if !rng.one_in(8) {
        handles.retain(|handle| !records.iter().any(|other| slot::has_handle(other, handle)));
    }
    let new_handle = rng.pick(&handles);
    let handles = [slot::handle(record), new_handle].concat();
    frame(rng.pick(&[3, 4, 4]), NO_COUNT, &handles)
}

/// Returns a record, mostly with a count that does not raise its own: four in twelve
/// send the same count and five a smaller one, two a greater one, and one the other bit.
fn returning(rng: &mut Rng, record: &SlotBytes) -> Vec<u8> {
    let stored = slot::count(record);
    let sent = match (rng.below(12), stored) {
        (0, _) => with_other_bit(rng, stored),
        (1..3, Kept(stored)) => Kept(greater(rng, stored)),
        (3..8, Kept(stored)) => Kept(smaller(rng, stored)),
        (_, stored) => stored,
    };
    let second = if sent.is_kept() { KEPT } else { NO_COUNT };
    let number = sent.number().to_be_bytes();
    frame(5, second, &[&slot::handle(record)[..], &number].concat())
}

/// None for a kept count, and a kept one for none.
fn with_other_bit(rng: &mut Rng, stored: Count) -> Count {
    match stored {
        Kept(_) => NotKept,
        NotKept => Kept(rng.pick(&[0, 0, 1, 0x100, u16::MAX])),
    }
}

/// A number over the stored one, if there is any: the next, the next high byte with the
/// low byte of zeros or as it is, the greatest, or any.
fn greater(rng: &mut Rng, stored: u16) -> u16 {
    let room = usize::from(u16::MAX - stored);
    match rng.below(6) {
        0..2 => stored.saturating_add(1),
        2 => (stored | 0xFF).saturating_add(1),
        3 => stored.saturating_add(0x100),
        4 => u16::MAX,
        _ => stored + rng.below(room + 1) as u16,
    }
}

/// A number under the stored one, if there is any: the one before, that with the high
/// byte before and the greatest low byte, 0, or any.
fn smaller(rng: &mut Rng, stored: u16) -> u16 {
    match rng.below(6) {
        0..2 => stored.saturating_sub(1),
        2 => (stored & 0xFF00).saturating_sub(1),
        3 => 0,
        _ => rng.below(usize::from(stored) + 1) as u16,
    }
}

/// Takes the verdict from a frame, changes the bit of its count, sets a zero bit, cuts
/// it short, or spoils it in some other way.
fn spoil(rng: &mut Rng, asker: &Asker, frame: &mut Vec<u8>) {
    match rng.below(6) {
        0 => frame[1] &= !NO_COUNT,
        1 => frame[1] ^= KEPT ^ NO_COUNT,
        2 => frame[1] |= rng.bit(6),
        3 => frame.truncate(rng.below(frame.len())),
        4 => frame.push(rng.byte()),
        _ => asker.spoil(rng, frame),
    }
}
