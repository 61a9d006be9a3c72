//! The turning of tables from before a count had its bit.

mod common;

use common::{blank, mixed_table, mixed_without_hashes};
use random::Rng;
use reference::{listing, slot, table, turn, well_formed, Count, Place};
use reference::{MAX_SLOTS, SLOT_BYTES};

/// The slots of the mixed table: enabled with a count, reserved, disabled with a
/// count, empty, and enabled with none. Its rights have 2, 8 and 1 hashes.
const ENABLED: usize = 0;
const RESERVED: usize = SLOT_BYTES;
const DISABLED: usize = 2 * SLOT_BYTES;
const EMPTY: usize = 3 * SLOT_BYTES;
const SECOND: usize = 4 * SLOT_BYTES;

/// A table as it was before the bit: the bit taken from every slot.
fn old(mut table: Vec<u8>) -> Vec<u8> {
    for slot in table.chunks_mut(SLOT_BYTES) {
        slot[0] &= !2;
    }
    table
}

fn assert_refused(number: u16, before: &[u8], what: &str) {
    let mut after = before.to_vec();
    assert_eq!(turn(&mut after), number, "{what}");
    assert!(after == before, "{what}: nothing changes");
}

#[test]
fn the_bit_is_set_where_the_count_is_not_0() {
    let mut table = old(mixed_table());
    assert_eq!(table[ENABLED], 0x88);
    assert_eq!(table[DISABLED], 0xE0);
    assert!(!well_formed(&table), "by the rules with the bit");
    assert_eq!(turn(&mut table), 0);
    assert!(table == mixed_table(), "every byte");
    assert!(well_formed(&table));
    assert_eq!(table[SECOND], 0x84, "no count, and no bit");
}

#[test]
fn rights_without_a_hash_are_turned_like_any_other() {
    let mut table = old(mixed_without_hashes());
    let first_bytes = |table: &[u8]| [ENABLED, DISABLED, SECOND].map(|slot| table[slot]);
    assert_eq!(first_bytes(&table), [0x80, 0xC0, 0x80]);
    assert_eq!(turn(&mut table), 0);
    assert_eq!(first_bytes(&table), [0x82, 0xC2, 0x80]);
    assert!(table == mixed_without_hashes(), "every byte");
}

/// Each byte of the count alone sets the bit, and nothing but byte 0 changes.
#[test]
fn only_byte_0_changes() {
    for place in [0x80, 0xC0] {
        for hashes in [0, 1, 8] {
            for number in [0, 1, 0xFF, 0x100, 0x8000, 0xFFFF] {
                let mut table = blank(2);
                table[SLOT_BYTES] = place | hashes << 2;
                table[SLOT_BYTES + 27..SLOT_BYTES + 29].copy_from_slice(&u16::to_be_bytes(number));
                table[SLOT_BYTES + 30] = 9;
                let mut expected = table.clone();
                if number != 0 {
                    expected[SLOT_BYTES] += 2;
                }
                assert_eq!(turn(&mut table), 0);
                assert!(table == expected, "{place:02x}, {hashes}, {number}");
                let count = Count::said(number != 0, number);
                assert_eq!(Some(slot::count(&table::slots(&table)[1])), count);
            }
        }
    }
}

#[test]
fn wrong_lengths_are_102() {
    for slots in 1..=MAX_SLOTS {
        assert_eq!(turn(&mut blank(slots)), 0);
        assert_refused(102, &vec![0; slots * SLOT_BYTES - 1], "a byte less");
        assert_refused(102, &vec![0; slots * SLOT_BYTES + 1], "a byte more");
    }
    assert_refused(102, &[], "no slot");
    assert_refused(102, &blank(MAX_SLOTS + 1), "16 slots");
    let damaged = vec![0xFF; SLOT_BYTES + 1];
    assert_refused(102, &damaged, "102 is tested before 103");
}

/// Each row sets some bytes of an old table, which breaks one of its rules.
#[test]
fn tables_that_break_a_rule_from_before_the_bit_are_103() {
    let rows: &[(&str, &[(usize, u8)])] = &[
        ("the bit in a counted record", &[(ENABLED, 0x8A)]),
        ("the bit in an uncounted record", &[(SECOND, 0x86)]),
        ("the bit in a reserved slot", &[(RESERVED, 0x42)]),
        ("the bit in an empty slot", &[(EMPTY, 2)]),
        ("the other spare bit", &[(ENABLED, 0x89)]),
        ("both spare bits", &[(DISABLED, 0xE3)]),
        ("a reserved slot with a count", &[(RESERVED + 28, 1)]),
        ("an empty slot with a count", &[(EMPTY + 27, 1)]),
        ("a reserved slot with a key", &[(RESERVED + 11, 1)]),
        ("a reserved slot with a hash count", &[(RESERVED, 0x44)]),
        ("a reserved slot with a payload", &[(RESERVED + 192, 1)]),
        ("an empty slot with a handle", &[(EMPTY + 1, 1)]),
        ("hash count 9", &[(DISABLED, 0xE4)]),
        ("byte 191", &[(SECOND + 191, 1)]),
        ("a hash byte beyond the count", &[(SECOND + 51, 1)]),
        ("a payload byte beyond the length", &[(SECOND + 192 + 9, 1)]),
        ("a length of 0", &[(RESERVED + 30, 0)]),
        ("a length of 4,097", &[(DISABLED + 30, 1)]),
    ];
    for (what, changes) in rows {
        let mut table = old(mixed_table());
        for &(offset, byte) in *changes {
            assert_ne!(table[offset], byte, "{what}");
            table[offset] = byte;
        }
        assert_refused(103, &table, what);
    }
    let mut twice = old(mixed_table());
    twice.copy_within(ENABLED + 1..ENABLED + 11, DISABLED + 1);
    assert_refused(103, &twice, "one handle in two slots");
}

#[test]
fn a_turned_table_is_refused_unless_it_keeps_no_count() {
    let mut counted = old(mixed_table());
    assert_eq!(turn(&mut counted), 0);
    assert_refused(103, &counted, "a second time");

    let mut uncounted = old(mixed_table());
    for slot in [ENABLED, DISABLED] {
        uncounted[slot + 27..slot + 29].fill(0);
    }
    for _ in 0..3 {
        let before = uncounted.clone();
        assert_eq!(turn(&mut uncounted), 0);
        assert!(uncounted == before && well_formed(&uncounted));
    }
}

/// A record of an old table, with its count, under a handle of ten bytes.
fn record(rng: &mut Rng, handle: u8) -> Vec<u8> {
    let place = rng.pick(&[
        Place::Empty,
        Place::Reserved,
        Place::Enabled,
        Place::Disabled,
    ]);
    let mut slot = vec![0; SLOT_BYTES];
    if place == Place::Empty {
        return slot;
    }
    slot[0] = (place as u8) << 6;
    slot[1..11].fill(handle);
    slot[30] = 1 + rng.below(200) as u8;
    if place != Place::Reserved {
        let number = rng.pick(&[0, 0, 1, 0x100, 0xFFFF]);
        slot[0] |= (rng.below(9) as u8) << 2;
        slot[27..29].copy_from_slice(&u16::to_be_bytes(number));
    }
    slot
}

/// A turned table is well formed by the rules with the bit, and lists as before.
#[test]
fn random_tables_are_turned_record_by_record() {
    let mut rng = Rng::announced("tables turned");
    for round in 0..300 {
        let slots = 1 + round % MAX_SLOTS;
        let before: Vec<u8> = (0..slots as u8)
            .flat_map(|handle| record(&mut rng, handle))
            .collect();
        let mut after = before.clone();
        assert_eq!(turn(&mut after), 0);
        assert!(well_formed(&after));
        assert!(old(after.clone()) == before, "nothing but the bit");
        for (old, new) in table::slots(&before).iter().zip(table::slots(&after)) {
            let number = slot::count_number(old);
            assert_eq!(Count::said(number != 0, number), Some(slot::count(new)));
        }
        let lines = String::from_utf8(listing(&after))
            .expect("text")
            .lines()
            .count();
        assert_eq!(lines, 1 + slots);
    }
}
