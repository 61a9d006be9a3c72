//! The start of a call: which slot a setup takes, and 105 where the start is not
//! the number of a slot.

mod common;

use common::{
    blank, call, call_for, call_from, failures, frame_bytes, mixed_table, right, setup, successes,
    tally_of, Given, OwnFields, FILLER, NEW,
};
use random::Rng;
use reference::{read_reply, MAX_SLOTS, REPLY_ROOM, SLOT_BYTES};

/// The first byte of a record in each place.
const PLACES: [u8; 3] = [0x40, 0x80, 0xC0];

/// Starts that no table has a slot for. The last is the least whose product with
/// the bytes of a slot has more than 64 bits.
const FAR: [u64; 6] = [
    MAX_SLOTS as u64,
    1 << 32,
    1 << 63,
    u64::MAX - 1,
    u64::MAX,
    u64::MAX / SLOT_BYTES as u64 + 1,
];

/// Whether the slot is taken, by the bits of `taken`; slot 0 has the lowest.
fn is_taken(taken: u16, slot: usize) -> bool {
    taken >> slot & 1 == 1
}

/// A table with these slots taken, by records in all places.
fn table_with(slots: usize, taken: u16) -> Vec<u8> {
    let mut table = blank(slots);
    for (index, slot) in table.chunks_mut(SLOT_BYTES).enumerate() {
        if is_taken(taken, index) {
            slot[0] = PLACES[(index + usize::from(taken)) % 3];
            slot[1..11].fill(index as u8);
            slot[30] = 9;
        }
    }
    table
}

/// The slot that a setup takes: the first empty one, 0 or more steps from the
/// start on, where a step from the last slot leads to slot 0. In as many steps as
/// there are slots, every slot is come to.
fn some_steps_on(slots: usize, taken: u16, start: usize) -> Option<usize> {
    let mut reached = (0..slots).map(|steps| (start + steps) % slots);
    reached.find(|&slot| !is_taken(taken, slot))
}

/// Asserts that a setup from this start takes this slot and changes no other, or
/// gives 7 and changes nothing.
fn assert_takes(slots: usize, taken: u16, start: usize, slot: Option<usize>) {
    let mut table = table_with(slots, taken);
    let mut expected = table.clone();
    if let Some(slot) = slot {
        let slot = &mut expected[slot * SLOT_BYTES..][..SLOT_BYTES];
        slot[0] = 0x40;
        slot[1..11].fill(NEW);
        slot[29..31].copy_from_slice(&[0x01, 0x23]);
    }
    let given = call_from(
        start as u64,
        &mut table,
        &frame_bytes(1, &setup(NEW, 0x0123)),
    );
    let status = if slot.is_some() { 0 } else { 7 };
    assert_eq!((given.number, given.reply), (0, vec![0x21, status, 0, 0]));
    assert!(table == expected, "{slots}, {taken:b}, {start}: {slot:?}");
}

/// From every start of the table.
fn assert_takes_some_steps_on(slots: usize, taken: u16) {
    for start in 0..slots {
        let slot = some_steps_on(slots, taken, start);
        assert_takes(slots, taken, start, slot);
    }
}

#[test]
fn every_start_on_every_table_of_up_to_8_slots() {
    for slots in 1..=8 {
        for taken in 0..1 << slots {
            assert_takes_some_steps_on(slots, taken);
        }
    }
}

/// The larger tables with no slot taken, with one, with all but one, with those
/// before or from a slot on, and with some at random.
#[test]
fn every_start_on_larger_tables() {
    let mut rng = Rng::announced("starts on larger tables");
    for slots in 9..=MAX_SLOTS {
        let all = (1 << slots) - 1;
        let ones = (0..slots).map(|slot| 1 << slot);
        let befores = (0..slots).map(|slot| (1 << slot) - 1);
        let mut patterns: Vec<u16> = ones.chain(befores).collect();
        patterns.extend((0..30).map(|_| rng.word() & all));
        for taken in patterns {
            assert_takes_some_steps_on(slots, taken);
            assert_takes_some_steps_on(slots, all - taken);
        }
    }
}

/// Case 18 of the card profile: from slot 1 of three, setups take slot 1, slot 2
/// and slot 0; then every slot is taken.
#[test]
fn past_the_last_slot_the_search_goes_on_at_slot_0() {
    assert_takes(3, 0b000, 1, Some(1));
    assert_takes(3, 0b010, 1, Some(2));
    assert_takes(3, 0b110, 1, Some(0));
    assert_takes(3, 0b111, 1, None);
}

#[test]
fn start_0_takes_the_lowest_empty_slot() {
    for taken in 0..1u16 << 8 {
        let lowest = taken.trailing_ones() as usize;
        let slot = if lowest < 8 { Some(lowest) } else { None };
        assert_takes(8, taken, 0, slot);
    }
}

/// Setups from one start fill the table from there to the last slot, and then
/// from slot 0 on.
#[test]
fn setups_follow_each_other_round_the_table() {
    for slots in 1..=MAX_SLOTS {
        for first in 0..slots {
            let mut table = blank(slots);
            for handle in 0..slots {
                let frame = frame_bytes(1, &setup(handle as u8, 1));
                assert_eq!(call_from(first as u64, &mut table, &frame).number, 0);
                let slot = (first + handle) % slots * SLOT_BYTES;
                assert_eq!(table[slot..slot + 2], [0x40, handle as u8]);
            }
        }
    }
}

/// No empty slot is 7 from every start; a handle in use is 5 before that.
#[test]
fn a_full_table_is_7_whatever_the_start() {
    for slots in 1..=MAX_SLOTS {
        let all = (1 << slots) - 1;
        for start in 0..slots {
            assert_takes(slots, all, start, None);
            let mut table = table_with(slots, all);
            let duplicate = frame_bytes(1, &setup(0, 1));
            let given = call_from(start as u64, &mut table, &duplicate);
            assert_eq!(given.reply, [0x21, 5, 0, 0]);
            assert!(table == table_with(slots, all));
        }
    }
}

#[test]
fn a_start_that_is_no_slot_is_105_for_every_frame() {
    let refused = Given {
        number: 105,
        reply: Vec::new(),
    };
    for frame in successes() {
        let given = call_from(4, &mut mixed_table(), &frame);
        assert_eq!((given.number, given.reply[1] % 128), (0, 0));
    }
    for frame in successes().iter().chain(&failures()) {
        for start in [5, 6].into_iter().chain(FAR) {
            let mut table = mixed_table();
            assert_eq!(call_from(start, &mut table, frame), refused);
            assert!(table == mixed_table(), "{start}, {frame:02x?}");
        }
    }
}

#[test]
fn the_starts_of_a_table_are_the_numbers_of_its_slots() {
    let frame = frame_bytes(1, &setup(NEW, 0x0123));
    for slots in 1..=MAX_SLOTS {
        for start in 0..slots {
            assert_takes(slots, 0, start, Some(start));
        }
        for start in [slots as u64, slots as u64 + 1].into_iter().chain(FAR) {
            let mut table = blank(slots);
            assert_eq!(call_from(start, &mut table, &frame).number, 105);
            assert!(table == blank(slots));
        }
    }
}

/// A short reply buffer is 101 and a table of a wrong length 102 whatever the
/// start, and a table that is not well formed is 105 if it has no such slot.
#[test]
fn the_start_is_tested_after_the_lengths_and_before_the_slots() {
    let frame = frame_bytes(1, &setup(NEW, 1));
    let lengths = [0, 1, SLOT_BYTES - 1, SLOT_BYTES + 1, 16 * SLOT_BYTES];
    for start in [0, 1, 2, 16].into_iter().chain(FAR) {
        let mut short = [FILLER; REPLY_ROOM - 1];
        let (mut table, mut tally) = (blank(2), tally_of(&blank(2)));
        let number = reference::call(&mut table, &mut tally, start, &frame, &mut short);
        assert_eq!((number, short), (101, [FILLER; REPLY_ROOM - 1]));
        for length in lengths {
            let mut table = vec![0xFF; length];
            assert_eq!(call_from(start, &mut table, &frame).number, 102);
        }
        let mut table = vec![0xFF; 2 * SLOT_BYTES];
        let number = if start < 2 { 103 } else { 105 };
        assert_eq!(call_from(start, &mut table, &frame).number, number);
        assert!(table == vec![0xFF; 2 * SLOT_BYTES]);
    }
}

/// Every start gives the same number and the same reply, and the same table too
/// unless a setup takes another slot. Here slots 3, 5 and 6 are empty.
#[test]
fn only_a_setup_depends_on_the_start() {
    let before = [mixed_table(), blank(2)].concat();
    for (index, frame) in successes().iter().chain(&failures()).enumerate() {
        let mut expected = before.clone();
        let from_0 = call(&mut expected, frame);
        for start in 1..7 {
            let mut table = before.clone();
            assert_eq!(call_from(start, &mut table, frame), from_0);
            let takes_another = index == 0 && start > 3;
            assert!(
                (table == expected) != takes_another,
                "{start}, {frame:02x?}"
            );
        }
    }
}

/// The first bytes of the handles that a query lists, from any start.
fn listed(table: &mut [u8], start: u64, limit: u16) -> Vec<u8> {
    let query = OwnFields {
        limit,
        ..OwnFields::default()
    };
    let given = call_from(start, table, &frame_bytes(8, &query));
    let reply = read_reply(&given.reply).expect("a reply");
    reply.fields.handles.chunks(10).map(|h| h[0]).collect()
}

/// The handles are numbered in the order of their setups, and each is set up from
/// a slot of its own.
#[test]
fn lists_are_in_slot_order_and_not_in_the_order_of_setups() {
    let mut table = blank(5);
    for (handle, start) in [(1, 3), (2, 1), (3, 4), (4, 0), (5, 2)] {
        let given = call_from(start, &mut table, &frame_bytes(1, &setup(handle, 9)));
        assert_eq!(given.reply, [0x21, 0, 0, 0]);
        call_for(0, &mut table, 2, &right(handle, 1, 9));
    }
    for start in 0..5 {
        assert_eq!(listed(&mut table, start, 0), [4, 2, 5, 1, 3]);
        assert_eq!(listed(&mut table, start, 30), [4, 2, 5]);
    }
}
