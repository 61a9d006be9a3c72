//! Tables from before a count had its bit: the archive turns them as the
//! reference does, and refuses what it refuses.

use compare::both::Both;
use compare::outcome::assert_all_occurred;
use compare::tables::blank;
use compare::turning::{compare_turnings, Turning};
use random::{setting, Rng};
use reference::{MAX_SLOTS, SLOT_BYTES};

/// The turnings made unless `COMPARE_CALLS` says how many calls to make; there is
/// one for every ten of these.
const TURNINGS: u64 = 10_000;

#[test]
fn random_tables_are_turned_as_the_reference_turns_them() {
    let turnings = setting("COMPARE_CALLS").map_or(TURNINGS, |calls| calls / 10);
    let counts = compare_turnings(Rng::announced("tables turned"), turnings);
    assert!(counts.values().sum::<u64>() >= turnings);
    assert_all_occurred(&counts, Turning::ALL.to_vec());
}

/// A slot from before the bit, with a handle of ten equal bytes, no hash and a
/// length of 5.
fn slot(place: u8, handle: u8, count: u16) -> Vec<u8> {
    let mut slot = vec![0; SLOT_BYTES];
    slot[0] = place << 6;
    slot[1..11].fill(handle);
    slot[27..29].copy_from_slice(&count.to_be_bytes());
    slot[30] = 5;
    slot
}

/// Turns a table, and asserts that it is refused with nothing changed.
fn assert_refused(table: &[u8], number: u16) {
    let given = Both::on(table.to_vec()).turn();
    assert_eq!(given.number, number);
    assert!(given.table == table);
}

/// Counts other than 0 get their bit, in byte 0 and nowhere else; a table that
/// has one is not turned again.
#[test]
fn the_bit_is_set_where_the_count_is_not_0() {
    let records = [
        slot(1, 1, 0),
        slot(2, 2, 0),
        slot(2, 3, 1),
        slot(2, 4, 0x100),
        slot(3, 5, 0),
        slot(3, 6, 0xFFFF),
        vec![0; SLOT_BYTES],
    ];
    let table = records.concat();
    let mut expected = table.clone();
    for (index, byte) in [(2, 0x82), (3, 0x82), (5, 0xC2)] {
        expected[index * SLOT_BYTES] = byte;
    }
    let mut both = Both::on(table);
    let given = both.turn();
    assert_eq!(given.number, 0);
    assert!(given.table == expected);
    let again = both.turn();
    assert_eq!(again.number, 103);
    assert!(again.table == expected);
}

#[test]
fn a_table_without_counts_may_be_turned_again() {
    for table in [blank(1), blank(15), slot(1, 1, 0), slot(2, 1, 0)] {
        let mut both = Both::on(table.clone());
        for _ in 0..3 {
            let given = both.turn();
            assert_eq!(given.number, 0);
            assert!(given.table == table);
        }
    }
}

#[test]
fn tables_of_other_lengths_are_102_whatever_they_hold() {
    for length in [0, 1, 4287, 4289, 64_319, 64_321, 68_608] {
        assert_refused(&vec![0; length], 102);
        assert_refused(&vec![0xFF; length], 102);
    }
}

/// By the rules before the bit, both low bits of byte 0 are spare, whatever the
/// count. Nothing is turned where a later slot is refused.
#[test]
fn tables_that_were_not_well_formed_before_the_bit_are_103() {
    for low in [1, 2, 3] {
        for mut table in [slot(1, 1, 0), slot(2, 1, 0), slot(2, 1, 7), slot(3, 1, 7)] {
            table[0] |= low;
            assert_refused(&table, 103);
        }
        let mut table = blank(1);
        table[0] = low;
        assert_refused(&table, 103);
    }
    assert_refused(&slot(1, 1, 7), 103);
    assert_refused(&[slot(2, 1, 7), slot(3, 1, 8)].concat(), 103);
    for index in 0..MAX_SLOTS as u8 {
        let records = (0..MAX_SLOTS as u8).flat_map(|handle| slot(2, handle, 7));
        let mut table: Vec<u8> = records.collect();
        table[usize::from(index) * SLOT_BYTES + 191] = 1;
        assert_refused(&table, 103);
    }
}

/// What was turned is a table that the call takes, with the tally from before: the
/// right under 1 has a kept count of 7, and the one under 2 none.
#[test]
fn a_turned_table_is_called() {
    let query = |handle: u8| [&[0x29, 0x80, 0, 10][..], &[handle; 10]].concat();
    let buffer = [0; reference::REPLY_ROOM];
    let mut both = Both::on([slot(2, 1, 7), slot(2, 2, 0)].concat());
    let tally = both.tally();
    assert_eq!(both.call(0, &query(1), &buffer).number, 103);
    assert_eq!(both.work_out(tally).number, 103);
    assert_eq!(both.turn().number, 0);
    let turned = both.work_out([0; 5]);
    assert_eq!((turned.number, turned.tally), (0, tally));
    let told = both.call(0, &query(1), &buffer).reply;
    assert_eq!(told[..6], [0x29, 0x80, 0, 7, 0, 7]);
    let told = both.call(0, &query(2), &buffer).reply;
    assert_eq!(told[..6], [0x29, 0x00, 0, 7, 0, 0]);
}
