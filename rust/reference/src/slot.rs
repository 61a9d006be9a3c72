//! One slot of 4,288 bytes: its fields, its rules, and the changes that the
//! agent makes to it.
//!
//! | bytes | content |
//! |---|---|
//! | 0 | place 2 bits, hash count 4 bits, kept 1 bit, 1 spare bit |
//! | 1–10 | handle |
//! | 11–26 | key (REK) |
//! | 27–28 | count number |
//! | 29–30 | payload length |
//! | 31–190 | up to 8 asset hashes of 20 bytes (SHA-1) |
//! | 191 | zero |
//! | 192–4287 | payload |

use std::slice::ChunksExact;

use crate::bytes::{all_zero, array_at, u16_at};
use crate::content::{self, Content, HASHES_IN_A_RECORD};
use crate::{Count, Handle, Key, HANDLE_BYTES, HASH_BYTES, KEY_BYTES, MAX_HASHES};

/// The bytes of a slot.
pub const SLOT_BYTES: usize = 4288;

/// One slot, as bytes.
pub type SlotBytes = [u8; SLOT_BYTES];

/// The bit of byte 0 that says that a count is kept.
const KEPT: u8 = 0b0000_0010;

/// The spare bit of byte 0.
const SPARE: u8 = 0b0000_0001;

const HANDLE_AT: usize = 1;
const KEY_AT: usize = 11;
const COUNT_AT: usize = 27;
const LENGTH_AT: usize = 29;
const HASHES_AT: usize = 31;
const ZERO_AT: usize = 191;
const PAYLOAD_AT: usize = 192;

/// The place of a record, with its number (PROFILE 2.3).
#[derive(Clone, Copy, Debug, PartialEq, Eq, PartialOrd, Ord)]
#[repr(u8)]
pub enum Place {
    /// The slot holds nothing.
    Empty = 0,
    /// The slot is kept for an installation.
    Reserved = 1,
    /// The slot holds a right for use.
    Enabled = 2,
    /// The slot holds a right that is lent.
    Disabled = 3,
}

impl Place {
    /// The place as the listing has it.
    pub fn word(self) -> &'static str {
        match self {
            Place::Empty => "empty",
            Place::Reserved => "reserved",
            Place::Enabled => "enabled",
            Place::Disabled => "disabled",
        }
    }
}

/// The place: the two highest bits of byte 0.
pub fn place(slot: &SlotBytes) -> Place {
    match slot[0] >> 6 {
        0 => Place::Empty,
        1 => Place::Reserved,
        2 => Place::Enabled,
        _ => Place::Disabled,
    }
}

/// The hash count, 0 to 15: the four middle bits of byte 0.
pub fn hash_count(slot: &SlotBytes) -> usize {
    usize::from(slot[0] >> 2 & 0b1111)
}

/// Whether the bit that says that a count is kept is set.
pub fn kept(slot: &SlotBytes) -> bool {
    slot[0] & KEPT != 0
}

/// Whether the spare bit, the lowest of byte 0, is set.
pub fn spare(slot: &SlotBytes) -> bool {
    slot[0] & SPARE != 0
}

/// The handle bytes. An empty slot has no handle; see [`has_handle`].
pub fn handle(slot: &SlotBytes) -> Handle {
    array_at(slot, HANDLE_AT)
}

/// The key.
pub fn key(slot: &SlotBytes) -> Key {
    array_at(slot, KEY_AT)
}

/// The count number, whatever the bit says.
pub fn count_number(slot: &SlotBytes) -> u16 {
    u16_at(slot, COUNT_AT)
}

/// The count of a slot that is well formed. A number without its bit, which is
/// not, counts as none kept.
pub fn count(slot: &SlotBytes) -> Count {
    count_said(slot).unwrap_or_default()
}

/// The count that bit and number say; `None` for a number without its bit.
fn count_said(slot: &SlotBytes) -> Option<Count> {
    Count::said(kept(slot), count_number(slot))
}

/// The payload length, which in a reserved slot is the room asked for.
pub fn length(slot: &SlotBytes) -> u16 {
    u16_at(slot, LENGTH_AT)
}

/// The bytes of as many hashes as the hash count says, at most 8.
pub fn hashes(slot: &SlotBytes) -> &[u8] {
    split_hashes(slot).0
}

/// As many payload bytes as the length says, at most 4,096; none unless the
/// slot is enabled or disabled.
pub fn payload(slot: &SlotBytes) -> &[u8] {
    match place(slot) {
        Place::Empty | Place::Reserved => &[],
        Place::Enabled | Place::Disabled => split_payload(slot).0,
    }
}

/// Whether the slot is not empty and its handle is `wanted`: an empty slot has
/// no handle.
pub fn has_handle(slot: &SlotBytes, wanted: &Handle) -> bool {
    place(slot) != Place::Empty && handle(slot) == *wanted
}

/// Whether the slot has some hash of `wanted`, which is whole hashes. A slot
/// without a hash has none of them.
pub fn has_hash_of(slot: &SlotBytes, wanted: &[u8]) -> bool {
    each_hash(wanted).any(|hash| each_hash(hashes(slot)).any(|own| own == hash))
}

/// Whether the slot is well formed (PROFILE 2.4).
pub fn well_formed(slot: &SlotBytes) -> bool {
    !spare(slot) && count_is_right(slot) && well_formed_but_for_count(slot)
}

/// Whether a slot that is to be turned is well formed by the rules before a
/// count had its bit (PROFILE 2.7): both low bits of byte 0 are spare, and the
/// count number of a right is anything.
pub fn well_formed_before_turning(slot: &SlotBytes) -> bool {
    slot[0] & (KEPT | SPARE) == 0
        && (holds_a_right(slot) || count_number(slot) == 0)
        && well_formed_but_for_count(slot)
}

/// Whether bit and number say a count that the slot may have: a right any, and
/// an empty or reserved slot none.
fn count_is_right(slot: &SlotBytes) -> bool {
    match count_said(slot) {
        Some(Count::NotKept) => true,
        Some(Count::Kept(_)) => holds_a_right(slot),
        None => false,
    }
}

fn holds_a_right(slot: &SlotBytes) -> bool {
    matches!(place(slot), Place::Enabled | Place::Disabled)
}

/// Whether all that is no count and no spare bit is well formed.
fn well_formed_but_for_count(slot: &SlotBytes) -> bool {
    slot[ZERO_AT] == 0
        && HASHES_IN_A_RECORD.contains(&hash_count(slot))
        && all_zero(split_hashes(slot).1)
        && all_zero(split_payload(slot).1)
        && well_formed_for_place(slot)
}

/// The rule that the slot's place adds, beside that of the count.
fn well_formed_for_place(slot: &SlotBytes) -> bool {
    match place(slot) {
        Place::Empty => all_zero(slot),
        Place::Reserved => length_is_right(slot) && content_is_blank(slot),
        Place::Enabled | Place::Disabled => length_is_right(slot),
    }
}

/// Whether the length is 1 to 4,096.
fn length_is_right(slot: &SlotBytes) -> bool {
    content::payload_length_is_right(length(slot).into())
}

/// Whether hash count, key and payload are all 0.
fn content_is_blank(slot: &SlotBytes) -> bool {
    hash_count(slot) == 0 && all_zero(&key(slot)) && all_zero(&slot[PAYLOAD_AT..])
}

fn each_hash(hashes: &[u8]) -> ChunksExact<'_, u8> {
    hashes.chunks_exact(HASH_BYTES)
}

/// The hash bytes within the count and those beyond it.
fn split_hashes(slot: &SlotBytes) -> (&[u8], &[u8]) {
    let all = &slot[HASHES_AT..ZERO_AT];
    all.split_at(all.len().min(HASH_BYTES * hash_count(slot)))
}

/// The payload bytes within the length and those beyond it.
fn split_payload(slot: &SlotBytes) -> (&[u8], &[u8]) {
    let all = &slot[PAYLOAD_AT..];
    all.split_at(all.len().min(length(slot).into()))
}

/// Kind 1: reserves the slot, which is empty.
pub(crate) fn reserve(slot: &mut SlotBytes, handle: &Handle, length: u16) {
    set_place(slot, Place::Reserved);
    set_handle(slot, handle);
    put(slot, LENGTH_AT, &length.to_be_bytes());
}

/// Kind 2: enables the record with a content; its length becomes the payload's.
/// The slot is reserved, so all that is not written is 0.
pub(crate) fn fill(slot: &mut SlotBytes, content: &Content<'_>) {
    let length = u16::try_from(content.payload.len()).expect("a payload has at most 4,096 bytes");
    slot[0] = content::hash_count(content.hashes) << 2;
    set_place(slot, Place::Enabled);
    put(slot, KEY_AT, &content.key);
    set_count(slot, content.count);
    put(slot, LENGTH_AT, &length.to_be_bytes());
    put(slot, HASHES_AT, content.hashes);
    put(slot, PAYLOAD_AT, content.payload);
}

/// Kinds 3 and 4: disables the record under a new handle, and changes nothing
/// else; the count's bit stays as it is.
pub(crate) fn lend(slot: &mut SlotBytes, new_handle: &Handle) {
    set_place(slot, Place::Disabled);
    set_handle(slot, new_handle);
}

/// Kind 5: enables a disabled record with a count.
pub(crate) fn enable(slot: &mut SlotBytes, count: Count) {
    set_place(slot, Place::Enabled);
    set_count(slot, count);
}

/// Kinds 6 and 7, and a salvage: clears every byte of the slot.
pub(crate) fn clear(slot: &mut SlotBytes) {
    slot.fill(0);
}

/// The turning: sets the bit where the number is not 0, and changes nothing
/// else.
pub(crate) fn turn(slot: &mut SlotBytes) {
    if count_number(slot) != 0 {
        slot[0] |= KEPT;
    }
}

/// The content of a slot that is enabled or disabled.
pub(crate) fn content(slot: &SlotBytes) -> Content<'_> {
    Content {
        key: key(slot),
        count: count(slot),
        hashes: hashes(slot),
        payload: payload(slot),
    }
}

fn set_place(slot: &mut SlotBytes, place: Place) {
    slot[0] = (place as u8) << 6 | slot[0] & 0b0011_1111;
}

fn set_handle(slot: &mut SlotBytes, handle: &Handle) {
    put(slot, HANDLE_AT, handle);
}

/// Writes the count's bit and its number.
fn set_count(slot: &mut SlotBytes, count: Count) {
    slot[0] = slot[0] & !KEPT | if count.is_kept() { KEPT } else { 0 };
    put(slot, COUNT_AT, &count.number().to_be_bytes());
}

fn put(slot: &mut SlotBytes, offset: usize, bytes: &[u8]) {
    slot[offset..offset + bytes.len()].copy_from_slice(bytes);
}

/// The fields of a slot follow each other without a gap.
const _: () = {
    assert!(HANDLE_AT + HANDLE_BYTES == KEY_AT);
    assert!(KEY_AT + KEY_BYTES == COUNT_AT);
    assert!(HASHES_AT + MAX_HASHES * HASH_BYTES == ZERO_AT);
    assert!(PAYLOAD_AT + crate::MAX_PAYLOAD == SLOT_BYTES);
};
