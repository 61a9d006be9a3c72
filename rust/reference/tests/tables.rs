//! What a well-formed table is, and the order in which a call tests for its
//! numbers.

mod common;

use common::{
    about, blank, call, call_for, mixed_table, mixed_without_hashes, returning, setup, tally_of,
    FILLER,
};
use reference::slot::{self, Place};
use reference::{listing, table, well_formed, Count};
use reference::{HASH_BYTES, MAX_SLOTS, REPLY_ROOM, SLOT_BYTES};

/// The slots of the mixed table.
const ENABLED: usize = 0;
const RESERVED: usize = SLOT_BYTES;
const DISABLED: usize = 2 * SLOT_BYTES;
const EMPTY: usize = 3 * SLOT_BYTES;
const SECOND: usize = 4 * SLOT_BYTES;

/// Asserts that every function refuses a table and leaves it unchanged.
fn assert_refused(number: u16, before: &[u8], what: &str) {
    assert!(!well_formed(before), "{what}");
    assert_eq!(table::check(before), Err(number), "{what}");
    assert_eq!(listing(before), format!("refused {number}\n").into_bytes());
    let mut after = before.to_vec();
    let frame = [0x28, 0x80, 0, 3, 0, 0, 0];
    assert_eq!(call(&mut after, &frame).number, number, "{what}");
    assert!(after == before, "{what}");
}

#[test]
fn lengths() {
    for slots in 1..=MAX_SLOTS {
        assert!(well_formed(&blank(slots)));
        assert_refused(102, &vec![0; slots * SLOT_BYTES - 1], "a byte less");
        assert_refused(102, &vec![0; slots * SLOT_BYTES + 1], "a byte more");
    }
    assert_refused(102, &[], "no slot");
    assert_refused(102, &blank(MAX_SLOTS + 1), "16 slots");
}

#[test]
fn accessors_read_the_mixed_table() {
    let bytes = mixed_table();
    let slots = table::slots(&bytes);
    assert_eq!(slots.len(), 5);
    let places: Vec<Place> = slots.iter().map(slot::place).collect();
    use Place::{Disabled, Empty, Enabled, Reserved};
    assert_eq!(places, [Enabled, Reserved, Disabled, Empty, Enabled]);

    assert_eq!(slot::handle(&slots[0]), [1; 10]);
    assert_eq!(slot::key(&slots[0]), [0x61; 16]);
    assert_eq!(slot::count(&slots[0]), Count::Kept(0x101));
    assert_eq!(slot::count_number(&slots[0]), 0x101);
    assert_eq!(slot::count(&slots[4]), Count::NotKept);
    assert_eq!(slot::length(&slots[0]), 33);
    assert_eq!(slot::hash_count(&slots[0]), 2);
    assert_eq!(slot::hashes(&slots[0]), [[1; 20], [2; 20]].as_flattened());
    assert_eq!(slot::payload(&slots[0]).len(), 33);

    assert_eq!(slot::length(&slots[1]), 7);
    assert!(slot::payload(&slots[1]).is_empty());

    assert_eq!(slot::handle(&slots[2]), [5; 10]);
    assert_eq!(slot::hashes(&slots[2]).len(), 160);
    assert_eq!(slot::payload(&slots[2]).len(), 4096);
    assert!(slots[3].iter().all(|&byte| byte == 0));
}

/// Each row sets some bytes of the mixed table, which breaks one rule.
#[test]
fn each_rule_alone_is_103() {
    let rows: &[(&str, &[(usize, u8)])] = &[
        ("spare bit", &[(ENABLED, 0x8B)]),
        ("spare bit of a reserved slot", &[(RESERVED, 0x41)]),
        ("count without its bit, enabled", &[(ENABLED, 0x88)]),
        ("count without its bit, disabled", &[(DISABLED, 0xE0)]),
        ("low byte of a count", &[(SECOND + 28, 1)]),
        ("high byte of a count", &[(SECOND + 27, 0x80)]),
        ("byte 191 of an enabled slot", &[(ENABLED + 191, 1)]),
        ("byte 191 of a reserved slot", &[(RESERVED + 191, 0x80)]),
        ("hash count 9", &[(DISABLED, 0xE6)]),
        ("hash count 15", &[(DISABLED, 0xFE)]),
        ("first byte after the hashes", &[(ENABLED + 71, 1)]),
        ("last byte after the hashes", &[(ENABLED + 190, 1)]),
        ("hashes beyond a lowered count", &[(DISABLED, 0xDE)]),
        ("hashes beyond a count of 0", &[(SECOND, 0x80)]),
        ("first byte after the payload", &[(ENABLED + 192 + 33, 1)]),
        ("last byte after the payload", &[(ENABLED + 4287, 1)]),
        (
            "payload beyond a lowered length",
            &[(DISABLED + 29, 0x0F), (DISABLED + 30, 0xFF)],
        ),
        ("empty with the spare bit", &[(EMPTY, 1)]),
        ("empty with the count's bit", &[(EMPTY, 2)]),
        (
            "empty with a count and its bit",
            &[(EMPTY, 2), (EMPTY + 28, 1)],
        ),
        ("empty with a hash count", &[(EMPTY, 4)]),
        ("empty with a handle", &[(EMPTY + 10, 1)]),
        ("empty with a key", &[(EMPTY + 11, 1)]),
        ("empty with a count", &[(EMPTY + 28, 1)]),
        ("empty with a length", &[(EMPTY + 30, 1)]),
        ("empty with a hash", &[(EMPTY + 31, 1)]),
        ("empty with a payload", &[(EMPTY + 192, 1)]),
        ("a right in a slot marked empty", &[(ENABLED, 0x0A)]),
        ("reserved, length 0", &[(RESERVED + 30, 0)]),
        (
            "reserved, length 4,097",
            &[(RESERVED + 29, 0x10), (RESERVED + 30, 1)],
        ),
        ("reserved with a hash count", &[(RESERVED, 0x44)]),
        ("reserved with a key", &[(RESERVED + 26, 1)]),
        ("reserved with a count", &[(RESERVED + 27, 1)]),
        ("reserved with the count's bit", &[(RESERVED, 0x42)]),
        (
            "reserved with a count and its bit",
            &[(RESERVED, 0x42), (RESERVED + 28, 1)],
        ),
        ("reserved with a hash", &[(RESERVED + 31, 1)]),
        ("reserved, payload in the room", &[(RESERVED + 192, 1)]),
        (
            "reserved, payload past the room",
            &[(RESERVED + 192 + 7, 1)],
        ),
        ("disabled, length 4,097", &[(DISABLED + 30, 1)]),
        (
            "disabled, length 65,535",
            &[(DISABLED + 29, 0xFF), (DISABLED + 30, 0xFF)],
        ),
    ];
    for (what, changes) in rows {
        let mut table = mixed_table();
        assert!(well_formed(&table));
        for &(offset, byte) in *changes {
            assert_ne!(table[offset], byte, "{what}");
            table[offset] = byte;
        }
        assert_refused(103, &table, what);
    }
}

/// With the bit, a right may have any count, 0 too; without it only 0.
#[test]
fn counts_of_rights() {
    for place in [0x80, 0xC0] {
        for number in [0, 1, 0xFF, 0x100, 0xFFFF] {
            let mut table = blank(1);
            table[0] = place;
            table[27..29].copy_from_slice(&u16::to_be_bytes(number));
            table[30] = 1;
            match number {
                0 => assert!(well_formed(&table)),
                _ => assert_refused(103, &table, "a count without its bit"),
            }
            table[0] |= 2;
            assert!(well_formed(&table), "a kept count of {number}");
            table[0] |= 1;
            assert_refused(103, &table, "the spare bit");
        }
    }
}

/// Without a hash a right is well formed, enabled or disabled, with a count or
/// without; a hash byte is then one beyond the hash count.
#[test]
fn rights_without_a_hash_are_well_formed() {
    let table = mixed_without_hashes();
    assert!(well_formed(&table));
    for (slot, byte_0) in [(ENABLED, 0x82), (DISABLED, 0xC2), (SECOND, 0x80)] {
        assert_eq!(table[slot], byte_0);
        assert_eq!(
            slot::hashes(&table::slots(&table)[slot / SLOT_BYTES]),
            [0; 0]
        );
        for at in [31, 50, 51, 190] {
            let mut damaged = table.clone();
            damaged[slot + at] = 1;
            assert_refused(103, &damaged, "a hash byte beyond a count of 0");
        }
    }
}

#[test]
fn length_0_is_103_for_a_right() {
    for place in [0x80, 0xC0] {
        let mut table = blank(1);
        table[0] = place;
        table[1] = 1;
        assert_refused(103, &table, "length 0");
        table[30] = 1;
        assert!(well_formed(&table), "zero key, count, hashes and payload");
    }
}

#[test]
fn equal_handles_are_103_in_any_places() {
    for first in [0x40, 0x80, 0xC0] {
        for second in [0x40, 0x80, 0xC0] {
            for handle in [0, 7] {
                let mut table = blank(3);
                for (at, place) in [(0, first), (2 * SLOT_BYTES, second)] {
                    table[at] = place;
                    table[at + 1..at + 11].fill(handle);
                    table[at + 30] = 1;
                }
                assert_refused(103, &table, "equal handles");
                table[10] = 9;
                assert!(well_formed(&table), "the last byte tells handles apart");
            }
        }
    }
}

#[test]
fn equal_hashes_and_8_of_them_are_well_formed() {
    let mut table = blank(1);
    table[0] = 0x80 | 8 << 2;
    table[30] = 1;
    table[31..31 + 8 * HASH_BYTES].fill(3);
    assert!(well_formed(&table));
}

/// Each call has the faults of all later numbers too.
#[test]
fn numbers_are_tested_in_order() {
    let mut ill_formed = blank(1);
    ill_formed[191] = 1;
    let part = ill_formed[..SLOT_BYTES - 1].to_vec();
    let rows: [(u16, &[u8], u64, usize); 6] = [
        (101, &part, 1, REPLY_ROOM - 1),
        (102, &part, 1, REPLY_ROOM),
        (105, &ill_formed, 1, REPLY_ROOM),
        (103, &ill_formed, 0, REPLY_ROOM),
        (106, &blank(1), 0, REPLY_ROOM),
        (104, &blank(1), 0, REPLY_ROOM),
    ];
    for (number, before, start, room) in rows {
        let numbers = match number {
            104 => [1, 0, 0, 0, 0],
            _ => [1, 0, 0, 0, 1],
        };
        let (mut table, mut tally) = (before.to_vec(), numbers.into());
        let mut reply = vec![FILLER; room];
        let frame = [0x21, 0x80, 0];
        let given = reference::call(&mut table, &mut tally, start, &frame, &mut reply);
        assert_eq!(given, number);
        assert!(table == before);
        assert_eq!(tally.numbers(), numbers);
        assert_eq!(reply, vec![FILLER; room]);
    }
}

#[test]
fn a_buffer_of_4279_bytes_takes_the_longest_reply() {
    let mut table = mixed_table();
    call_for(0, &mut table, 5, &returning(5, Count::Kept(7)));
    let frame = [&[0x23, 0x80, 0, 20][..], &[5; 10], &[6; 10]].concat();
    let mut tally = tally_of(&table);
    let mut reply = vec![FILLER; 4279];
    let mut call_into =
        |buffer: &mut [u8]| reference::call(&mut table, &mut tally, 0, &frame, buffer);
    assert_eq!(call_into(&mut reply[1..]), 101);
    assert_eq!(reply, vec![FILLER; 4279]);
    assert_eq!(call_into(&mut reply), 0);
    assert_eq!(reply[..4], [0x23, 0x80, 0x10, 0xB3]);
    assert_eq!(4 + 0x10B3, 4279);
    assert_eq!(reply[4278], 0xFF);
}

#[test]
fn a_frame_that_is_not_4_plus_its_body_length_is_104() {
    let right = [&[0x21, 0x80, 0, 12][..], &[1; 10], &[0, 5]].concat();
    for length in 0..right.len() {
        assert_eq!(call(&mut blank(1), &right[..length]).number, 104);
    }
    let longer = [&right[..], &[0]].concat();
    assert_eq!(call(&mut blank(1), &longer).number, 104);
    assert_eq!(call(&mut blank(1), &right).number, 0);
}

#[test]
fn a_cleared_slot_may_be_reserved_again_at_once() {
    let mut table = mixed_table();
    call_for(0, &mut table, 6, &about(5));
    call_for(0, &mut table, 1, &setup(5, 1));
    let slots = table::slots(&table);
    assert_eq!(
        slot::place(&slots[2]),
        Place::Reserved,
        "the lowest empty slot"
    );
    assert_eq!(slot::place(&slots[3]), Place::Empty);
    assert!(well_formed(&table), "nothing of the removed right is left");
}
