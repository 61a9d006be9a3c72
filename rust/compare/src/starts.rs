//! Starts at random: numbers of slots, and numbers that no slot has.

use random::Rng;
use reference::SLOT_BYTES;

/// Numbers that no slot has, to be taken with the number of a slot added, which
/// is all that is left of some of them in fewer bits. The last is the least whose
/// product with the bytes of a slot has more than 64 bits.
const FAR: [u64; 5] = [
    1 << 8,
    1 << 16,
    1 << 32,
    1 << 63,
    u64::MAX / SLOT_BYTES as u64 + 1,
];

/// A start for a table of this many slots; one in `outside_in` is not the number
/// of a slot.
pub fn start(rng: &mut Rng, slots: usize, outside_in: usize) -> u64 {
    match rng.one_in(outside_in) {
        true => outside(rng, slots),
        false => inside(rng, slots),
    }
}

/// The number of a slot, 0 a little more often than any other; it is 0 where the
/// table has no whole slot.
pub fn inside(rng: &mut Rng, slots: usize) -> u64 {
    match rng.below(8) {
        0 => 0,
        _ => rng.below(slots.max(1)) as u64,
    }
}

/// A number that is not below the number of slots.
pub fn outside(rng: &mut Rng, slots: usize) -> u64 {
    let slot = rng.below(slots.max(1)) as u64;
    let slots = slots as u64;
    match rng.below(5) {
        0 => slots,
        1 => slots + 1,
        2 => slots + slot,
        3 => u64::MAX - slot,
        _ => rng.pick(&FAR) + slot,
    }
}
