//! Damaged tables: the archive salvages them as the reference does, and refuses what
//! it refuses.

use compare::both::Both;
use compare::found::Came;
use compare::frames::frame;
use compare::outcome::assert_all_occurred;
use compare::salvage::{compare_bits, compare_salvages};
use compare::tables::blank;
use random::{setting, Rng};
use reference::{Finding, MAX_SLOTS, REPLY_ROOM, SLOT_BYTES};

/// The tables salvaged unless `COMPARE_CALLS` says how many calls to make; there are
/// two for every five of these.
const TABLES: u64 = 40_000;

/// What report buffers hold before a salvage.
const FILLER: u8 = 0xAA;

#[test]
fn random_tables_are_salvaged_as_the_reference_salvages_them() {
    let tables = setting("COMPARE_CALLS").map_or(TABLES, |calls| calls * 2 / 5);
    let seen = compare_salvages(Rng::announced("tables salvaged"), tables);
    println!(
        "{} tables, {} of them with a slot to be cleared, {} salvaged twice",
        seen.tables, seen.damaged, seen.again
    );
    assert!(seen.tables >= tables && seen.damaged > tables / 2 && seen.again > tables / 8);
    assert_all_occurred(&seen.came, Came::that_can_occur());
}

/// On a full card a wrong bit clears one slot at most, whatever the bit.
#[test]
fn one_bit_clears_one_slot_at_most() {
    let seen = compare_bits(Rng::announced("bits changed"));
    assert_eq!(seen.tables, 2 * 8 * 32 * MAX_SLOTS as u64);
    let of = |came| seen.came.get(&came).copied().unwrap_or(0);
    assert_eq!(of(Came::Number(0)) + of(Came::Number(1)), seen.tables);
    for finding in Finding::ALL {
        assert!(of(Came::OneChanged(finding)) > 0, "{finding:?}");
    }
}

/// A slot with a record of length 5 under a handle of ten equal bytes.
fn slot(place: u8, handle: u8) -> Vec<u8> {
    let mut slot = vec![0; SLOT_BYTES];
    slot[0] = place << 6;
    slot[1..11].fill(handle);
    slot[30] = 5;
    slot
}

/// Fifteen records in all places, each with a handle of its own.
fn full() -> Vec<u8> {
    let slots = (0..MAX_SLOTS as u8).map(|handle| slot(1 + handle % 3, handle));
    slots.collect::<Vec<_>>().concat()
}

/// Salvages a table with a report buffer of this many bytes, and asserts that it is
/// refused with nothing changed.
fn assert_refused(both: &mut Both, table: &[u8], room: usize, number: u16) {
    both.go_on(table.to_vec());
    let given = both.salvage(&vec![FILLER; room]);
    assert_eq!(given.number, number, "{} bytes, {room}", table.len());
    assert!(given.table == table && given.report == vec![FILLER; room]);
}

/// Salvages a table, and asserts what is found of some slots, and that the others are
/// kept. Every slot found to be something else is cleared, and no other byte changes.
fn assert_found(both: &mut Both, table: Vec<u8>, found: &[(usize, u8)]) {
    let mut report = vec![0; table.len() / SLOT_BYTES];
    let mut left = table.clone();
    for &(index, finding) in found {
        report[index] = finding;
        left[index * SLOT_BYTES..][..SLOT_BYTES].fill(0);
    }
    report.extend([FILLER; 2]);
    both.go_on(table);
    let given = both.salvage(&vec![FILLER; report.len()]);
    assert_eq!(usize::from(given.number), found.len(), "{found:?}");
    assert_eq!(given.report, report, "{found:?}");
    assert!(given.table == left, "{found:?}");
}

#[test]
fn tables_of_other_lengths_are_102_whatever_they_hold_and_whatever_the_report() {
    let mut both = Both::on(blank(1));
    for length in [0, 1, 4287, 4289, 64_319, 64_321, 68_608] {
        for room in [0, 1, 14, 15, 16, 17] {
            assert_refused(&mut both, &vec![0; length], room, 102);
            assert_refused(&mut both, &vec![0xFF; length], room, 102);
        }
    }
}

#[test]
fn report_buffers_with_no_byte_for_each_slot_are_107() {
    let mut both = Both::on(blank(1));
    for slots in 1..=MAX_SLOTS {
        let table = vec![0xFF; slots * SLOT_BYTES];
        for room in 0..slots {
            assert_refused(&mut both, &table, room, 107);
            assert_refused(&mut both, &blank(slots), room, 107);
        }
        for room in slots..slots + 3 {
            both.go_on(table.clone());
            let given = both.salvage(&vec![FILLER; room]);
            assert_eq!(usize::from(given.number), slots);
            let rest = vec![FILLER; room - slots];
            assert_eq!(given.report, [vec![1; slots], rest].concat());
            assert!(given.table == blank(slots));
        }
    }
}

/// In every two slots, records with one handle: the lower is kept, unless it is
/// damaged; and where it is, the higher is.
#[test]
fn every_two_slots_with_one_handle() {
    let mut both = Both::on(blank(1));
    for (low, high) in (0..MAX_SLOTS).flat_map(|high| (0..high).map(move |low| (low, high))) {
        let mut table = full();
        let from = low * SLOT_BYTES + 1;
        table.copy_within(from..from + 10, high * SLOT_BYTES + 1);
        assert_found(&mut both, table.clone(), &[(high, 2)]);
        for worn in [low, high] {
            let mut table = table.clone();
            table[worn * SLOT_BYTES + 191] = 1;
            assert_found(&mut both, table, &[(worn, 1)]);
        }
    }
}

/// The same records under one handle, in 2 to 15 slots.
#[test]
fn a_handle_in_many_slots_is_kept_in_the_lowest() {
    let mut both = Both::on(blank(1));
    for slots in 2..=MAX_SLOTS {
        for place in [1, 2, 3] {
            let found: Vec<(usize, u8)> = (1..slots).map(|index| (index, 2)).collect();
            assert_found(&mut both, slot(place, 7).repeat(slots), &found);
        }
    }
}

/// Two empty slots have no handle that is repeated, and none of ten zeros.
#[test]
fn whole_tables_are_left_as_they_are() {
    let mut both = Both::on(blank(1));
    let beside = [blank(1), slot(2, 0), blank(1), slot(3, 1)].concat();
    for table in [blank(1), blank(15), full(), beside] {
        assert_found(&mut both, table.clone(), &[]);
        assert_found(&mut both, table, &[]);
    }
}

/// What was salvaged is a table that the call takes, with its tally worked out
/// afresh: the right under 1 is there, and that under 2 is not.
#[test]
fn a_salvaged_table_is_called() {
    let query = |handle: u8| frame(9, 0x80, &[handle; 10]);
    let buffer = [0; REPLY_ROOM];
    let mut damaged = [slot(2, 1), slot(2, 2), slot(2, 1), blank(1)].concat();
    damaged[SLOT_BYTES + 191] = 1;
    let mut both = Both::on(damaged);
    let before = both.tally();
    assert_eq!(both.call(0, &query(1), &buffer).number, 103);
    assert_eq!(both.work_out(before).number, 103);
    let given = both.salvage(&[FILLER; 5]);
    assert_eq!(
        (given.number, &given.report[..]),
        (2, &[0, 1, 2, 0, FILLER][..])
    );
    let refused = both.call_with_other(before, 0, &query(1), &buffer);
    assert_eq!(refused.number, 106);
    let worked_out = both.work_out(before);
    assert_eq!((worked_out.number, worked_out.tally), (0, [3, 0, 1, 0, 5]));
    let told = both.call(0, &query(1), &buffer).reply;
    assert_eq!(told[..6], [0x29, 0, 0, 7, 0, 0]);
    assert_eq!(both.call(0, &query(2), &buffer).reply[..2], [0x29, 4]);
    assert_eq!(both.salvage(&[FILLER; 4]).report, [0; 4]);
}

/// Whether a slot was cleared does not say whether the tally from before the damage is
/// that of the table left. A damaged empty slot is cleared, and the tally is the same;
/// a right that was lent and reads as enabled is kept, and the tally is another.
#[test]
fn a_tally_from_before_the_damage_may_be_right_or_wrong() {
    let whole = [slot(3, 1), blank(1)].concat();
    for (at, byte, cleared, right) in [(SLOT_BYTES + 192, 1, 1, true), (0, 0x80, 0, false)] {
        let mut both = Both::on(whole.clone());
        let before = both.tally();
        let mut damaged = whole.clone();
        damaged[at] = byte;
        both.go_on(damaged);
        assert_eq!(both.salvage(&[FILLER; 2]).number, cleared);
        assert_eq!(both.work_out([0; 5]).tally == before, right);
    }
}
