//! Tallies at random: that of a table, and others.
//!
//! The tally of a table is counted here by the bytes of its slots, without the
//! reference (PROFILE 2.8).

use driver::Tally;
use random::Rng;
use reference::{MAX_PAYLOAD, SLOT_BYTES};

/// The index of a number in a tally. Those of the first four are the numbers of
/// the places.
const RESERVED: usize = 1;
const ENABLED: usize = 2;
const DISABLED: usize = 3;
const PAYLOAD: usize = 4;

/// How the whole slots of a table are filled, well formed or not. The sum of
/// lengths may have more than 16 bits where the table is not well formed.
pub fn counted(table: &[u8]) -> [u32; 5] {
    let mut numbers = [0; 5];
    for slot in table.chunks_exact(SLOT_BYTES) {
        let place = usize::from(slot[0] >> 6);
        numbers[place] += 1;
        if place >= ENABLED {
            numbers[PAYLOAD] += u32::from(length(slot));
        }
    }
    numbers
}

/// The tally of a table; of one that is not well formed, 16 bits of each number.
pub fn tally_of(table: &[u8]) -> Tally {
    counted(table).map(|number| number as u16)
}

/// Any five numbers.
pub fn any(rng: &mut Rng) -> Tally {
    [0; 5].map(|_| rng.word())
}

/// A tally that is not that of this table.
pub fn wrong(rng: &mut Rng, table: &[u8]) -> Tally {
    let right = tally_of(table);
    let wrong = mistaken(rng, table, right);
    match wrong == right {
        true => off_by_one(rng, right),
        false => wrong,
    }
}

/// A tally that comes of a mistake. Where the mistake makes no difference to this
/// table, it is the right one.
fn mistaken(rng: &mut Rng, table: &[u8], right: Tally) -> Tally {
    match rng.below(16) {
        0..5 => off_by_one(rng, right),
        5..8 => at_an_end(rng, right),
        8 => one_bit(rng, right),
        9 => one_moved(rng, right),
        10 => [0; 5],
        11 => of_another_table(rng, table.len() / SLOT_BYTES),
        12 => lent_for_use(right),
        13 => with_reserved_room(table, right),
        14 => right.map(u16::swap_bytes),
        _ => any(rng),
    }
}

/// One number is one more or one less; 0 is one more than 65,535.
fn off_by_one(rng: &mut Rng, mut tally: Tally) -> Tally {
    let number = &mut tally[rng.below(5)];
    *number = match rng.below(2) {
        0 => number.wrapping_add(1),
        _ => number.wrapping_sub(1),
    };
    tally
}

/// One number is the least or the greatest that there is.
fn at_an_end(rng: &mut Rng, mut tally: Tally) -> Tally {
    tally[rng.below(5)] = rng.pick(&[0, u16::MAX]);
    tally
}

/// One bit of one number is another.
fn one_bit(rng: &mut Rng, mut tally: Tally) -> Tally {
    tally[rng.below(5)] ^= 1 << rng.below(16);
    tally
}

/// One of the slots, or of the payload bytes, is counted by another number, so
/// that the sum of all five is right.
fn one_moved(rng: &mut Rng, mut tally: Tally) -> Tally {
    let from = rng.below(5);
    tally[from] = tally[from].wrapping_sub(1);
    let to = rng.below(5);
    tally[to] = tally[to].wrapping_add(1);
    tally
}

/// The tally of some table of this many slots.
fn of_another_table(rng: &mut Rng, slots: usize) -> Tally {
    let mut tally = [0; 5];
    for _ in 0..slots {
        let place = rng.below(4);
        tally[place] += 1;
        if place >= ENABLED {
            tally[PAYLOAD] += 1 + rng.below(MAX_PAYLOAD) as u16;
        }
    }
    tally
}

/// Enabled and disabled are swapped.
fn lent_for_use(mut tally: Tally) -> Tally {
    tally.swap(ENABLED, DISABLED);
    tally
}

/// The room that is only reserved is in the sum too.
fn with_reserved_room(table: &[u8], mut tally: Tally) -> Tally {
    let slots = table.chunks_exact(SLOT_BYTES);
    for slot in slots.filter(|slot| usize::from(slot[0] >> 6) == RESERVED) {
        tally[PAYLOAD] = tally[PAYLOAD].wrapping_add(length(slot));
    }
    tally
}

/// The length of a slot: of its payload, or of the room reserved.
fn length(slot: &[u8]) -> u16 {
    u16::from_be_bytes([slot[29], slot[30]])
}
