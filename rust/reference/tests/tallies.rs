//! The tally of a table: what a call makes of it, 106 where it is not that of the
//! table, and how it is worked out (PROFILE 2.8, 4.1, 8.5, 9.5).

mod common;

use common::{
    about, blank, call_with, failures, frame_bytes, lending, mixed_table, mixed_without_hashes,
    returning, right, setup, successes, tally_of, Asker, Given, OwnFields, FILLER, NEW,
};
use random::Rng;
use reference::ReadRequest::Request;
use reference::{read_request, slot, table, tally, turn, Count, Kind, Place, Tally};
use reference::{MAX_SLOTS, REPLY_ROOM, SLOT_BYTES};
use std::collections::BTreeSet;

/// The tally of the mixed table, whose rights have 33, 9 and 4,096 payload bytes;
/// 7 more are only reserved.
const MIXED: [u16; 5] = [1, 1, 2, 1, 33 + 9 + 4096];

/// What a call gives that refuses with 106.
fn differs() -> Given {
    Given {
        number: 106,
        reply: Vec::new(),
    }
}

/// Makes a call that is answered with status 0, and asserts the tally before it
/// and after it.
fn step(table: &mut [u8], before: [u16; 5], kind: u8, fields: &OwnFields, after: [u16; 5]) {
    let mut tally = Tally::from(before);
    let given = call_with(&mut tally, 0, table, &frame_bytes(kind, fields));
    assert_eq!(
        (given.number, given.reply[..2].to_vec()),
        (0, vec![0x20 + kind, 0])
    );
    assert_eq!(tally.numbers(), after, "kind {kind}");
}

/// Case 20 of the card profile. Room that is only reserved is not in the sum.
#[test]
fn case_20_a_right_comes_is_lent_comes_back_and_goes() {
    let lent_with = |count| {
        let table = &mut blank(1);
        let installation = OwnFields {
            count,
            ..right(1, 1, 5)
        };
        step(table, [1, 0, 0, 0, 0], 1, &setup(1, 5), [0, 1, 0, 0, 0]);
        step(table, [0, 1, 0, 0, 0], 2, &installation, [0, 0, 1, 0, 5]);
        step(table, [0, 0, 1, 0, 5], 4, &lending(1, 2), [0, 0, 0, 1, 5]);
        table.clone()
    };
    let table = &mut lent_with(Count::Kept(7));
    for (before, count) in [([0, 0, 0, 1, 5], 3), ([0, 0, 1, 0, 5], 4)] {
        let back = returning(2, Count::Kept(count));
        step(table, before, 5, &back, [0, 0, 1, 0, 5]);
    }
    let table = &mut lent_with(Count::NotKept);
    step(table, [0, 0, 0, 1, 5], 6, &about(2), [1, 0, 0, 0, 0]);
    assert!(*table == blank(1));
}

/// Case 21 of the card profile: a tally of zeros is that of no table, and one with
/// the room of a reservation in its sum is not that of case 1.
#[test]
fn case_21_a_tally_that_is_not_that_of_the_table_is_106() {
    let case_1 = setup(1, 5);
    let mut reserved = blank(1);
    step(&mut reserved, [1, 0, 0, 0, 0], 1, &case_1, [0, 1, 0, 0, 0]);
    for (before, numbers, frame) in [
        (blank(1), [0; 5], frame_bytes(1, &case_1)),
        (reserved, [0, 1, 0, 0, 5], Vec::new()),
    ] {
        let (mut table, mut tally) = (before.clone(), Tally::from(numbers));
        assert_eq!(call_with(&mut tally, 0, &mut table, &frame), differs());
        assert!(table == before && tally.numbers() == numbers);
    }
}

/// Every row of the table in PROFILE 2.8, and what changes no slot. The records
/// of the mixed table are enabled under 1 and 4, reserved under 2, disabled under
/// 5; the installation sends one byte fewer than the room reserved.
#[test]
fn each_kind_changes_the_numbers_that_it_is_said_to() {
    let rows: [(u8, OwnFields, [i32; 5]); 13] = [
        (1, setup(NEW, 4096), [-1, 1, 0, 0, 0]),
        (2, right(2, 1, 6), [0, -1, 1, 0, 6]),
        (3, lending(1, NEW), [0, 0, -1, 1, 0]),
        (4, lending(4, NEW), [0, 0, -1, 1, 0]),
        (5, returning(5, Count::Kept(9)), [0, 0, 1, -1, 0]),
        (5, returning(1, Count::Kept(9)), [0; 5]),
        (5, returning(1, Count::NotKept), [0; 5]),
        (6, about(1), [1, 0, -1, 0, -33]),
        (6, about(4), [1, 0, -1, 0, -9]),
        (6, about(5), [1, 0, 0, -1, -4096]),
        (7, about(2), [1, -1, 0, 0, 0]),
        (8, OwnFields::default(), [0; 5]),
        (9, about(1), [0; 5]),
    ];
    for (kind, fields, change) in rows {
        let (mut table, mut tally) = (mixed_table(), Tally::from(MIXED));
        let given = call_with(&mut tally, 0, &mut table, &frame_bytes(kind, &fields));
        assert_eq!((given.number, given.reply[1] % 128), (0, 0));
        let changed = tally.numbers().map(i32::from);
        let expected = [0, 1, 2, 3, 4].map(|i| i32::from(MIXED[i]) + change[i]);
        assert_eq!(changed, expected, "kind {kind}, {fields:?}");
        assert_eq!(Tally::of(&table), Ok(tally));
    }
}

/// Requests that are refused for what the table holds: with 7, 5, 6 and 9.
fn refused_by_the_table() -> Vec<Vec<u8>> {
    let rows = [
        (2, right(2, 1, 8)),
        (3, lending(1, 1)),
        (4, lending(4, 5)),
        (4, lending(5, NEW)),
        (2, right(1, 1, 1)),
        (5, returning(2, Count::Kept(1))),
        (5, returning(5, Count::Kept(0x104))),
        (5, returning(5, Count::NotKept)),
        (6, about(2)),
        (7, about(1)),
        (7, about(5)),
    ];
    rows.map(|(kind, fields)| frame_bytes(kind, &fields)).into()
}

#[test]
fn a_refused_request_changes_no_number() {
    let mut statuses = BTreeSet::new();
    for frame in failures().iter().chain(&refused_by_the_table()) {
        let (mut table, mut tally) = (mixed_table(), Tally::from(MIXED));
        let given = call_with(&mut tally, 0, &mut table, frame);
        match given.number {
            0 => statuses.insert(given.reply[1]),
            number => statuses.insert(number as u8),
        };
        assert!(table == mixed_table());
        assert_eq!(tally.numbers(), MIXED, "{frame:02x?}");
    }
    assert_eq!(statuses, BTreeSet::from([1, 2, 3, 4, 5, 6, 7, 9, 104]));
}

/// What a number of the tally may be wrongly: one more or one less, round the
/// ends if need be, either end, and one bit of either half another.
fn wrong_numbers(right: u16) -> Vec<u16> {
    let mut wrong = vec![right.wrapping_add(1), right.wrapping_sub(1)];
    wrong.extend([0, u16::MAX, right ^ 0x0100, right ^ 0x8000]);
    wrong.retain(|&number| number != right);
    wrong
}

/// Tallies of which one number is wrong.
fn one_wrong(right: [u16; 5]) -> Vec<[u16; 5]> {
    let mut tallies = Vec::new();
    for at in 0..5 {
        for number in wrong_numbers(right[at]) {
            let mut wrong = right;
            wrong[at] = number;
            tallies.push(wrong);
        }
    }
    tallies
}

/// Asserts 106, with nothing changed, on a table that has another tally.
fn assert_differs(before: &[u8], wrong: [u16; 5], frame: &[u8]) {
    let (mut table, mut tally) = (before.to_vec(), Tally::from(wrong));
    let given = call_with(&mut tally, 0, &mut table, frame);
    assert_eq!(given, differs(), "{wrong:?}, {frame:02x?}");
    assert!(table == before);
    assert_eq!(tally.numbers(), wrong, "{frame:02x?}");
}

#[test]
fn one_number_that_is_another_is_106_for_every_frame() {
    for frame in successes().iter().chain(&failures()) {
        for wrong in one_wrong(MIXED) {
            assert_differs(&mixed_table(), wrong, frame);
        }
    }
}

#[test]
fn one_number_that_is_another_is_106_on_blank_and_full_tables() {
    let frame = frame_bytes(8, &OwnFields::default());
    for slots in [1, 2, MAX_SLOTS as u16] {
        for wrong in one_wrong([slots, 0, 0, 0, 0]) {
            assert_differs(&blank(slots.into()), wrong, &frame);
        }
    }
    for wrong in one_wrong([0, 0, 8, 7, 61_440]) {
        assert_differs(&fullest(), wrong, &frame);
    }
}

/// Tallies that come of a mistake, with two numbers or more that are wrong. The
/// sums of some are right.
#[test]
fn several_numbers_that_are_others_are_106() {
    let [empty, reserved, enabled, disabled, payload] = MIXED;
    let rows = [
        [0; 5],
        [u16::MAX; 5],
        [5, 0, 0, 0, 0],
        [empty, reserved, disabled, enabled, payload],
        [empty, reserved, enabled - 1, disabled + 1, payload],
        [empty + 1, reserved - 1, enabled, disabled, payload],
        [empty + 1, reserved, enabled, disabled, payload - 1],
        [payload, disabled, enabled, reserved, empty],
        MIXED.map(u16::swap_bytes),
    ];
    for wrong in rows {
        assert_differs(&mixed_table(), wrong, &frame_bytes(6, &about(1)));
    }
    let with_reserved_room = [empty, reserved, enabled, disabled, payload + 7];
    assert_differs(&mixed_table(), with_reserved_room, &[]);
}

/// A short reply buffer, a length, a start and slots that are wrong are told
/// before a tally that is wrong too, and that before what is no frame.
#[test]
fn the_tally_is_tested_after_103_and_before_104() {
    let ill_formed = [&mixed_table()[..SLOT_BYTES], &vec![0xFF; SLOT_BYTES]].concat();
    let rows: [(u16, &[u8], u64, usize); 5] = [
        (101, &ill_formed, 2, REPLY_ROOM - 1),
        (102, &ill_formed[1..], 2, REPLY_ROOM),
        (105, &ill_formed, 2, REPLY_ROOM),
        (103, &ill_formed, 1, REPLY_ROOM),
        (106, &mixed_table(), 1, REPLY_ROOM),
    ];
    for (number, before, start, room) in rows {
        let (mut table, mut tally) = (before.to_vec(), Tally::from([7; 5]));
        let mut reply = vec![FILLER; room];
        let given = reference::call(&mut table, &mut tally, start, &[0x21], &mut reply);
        assert_eq!(given, number);
        assert!(table == before && reply == vec![FILLER; room]);
        assert_eq!(tally.numbers(), [7; 5]);
    }
}

/// The table of a slot that is not well formed is 103 also where places and
/// lengths would add up to the tally.
#[test]
fn a_tally_that_fits_does_not_mend_a_table() {
    for at in [1, 11, 27, 30, 31, 191, 192, 4287] {
        let mut damaged = mixed_table();
        damaged[3 * SLOT_BYTES + at] = 1;
        let mut given = tally_of(&damaged);
        let number = call_with(&mut given, 0, &mut damaged, &[]).number;
        assert_eq!((number, given), (103, tally_of(&damaged)));
    }
}

/// Fifteen rights of 4,096 bytes and no hash, of which every other is lent.
fn fullest() -> Vec<u8> {
    let mut table = blank(MAX_SLOTS);
    for (index, slot) in table.chunks_mut(SLOT_BYTES).enumerate() {
        slot[0] = [0x80, 0xC0][index % 2];
        slot[1..11].fill(index as u8);
        slot[29] = 0x10;
        slot[192..].fill(0xA7);
    }
    table
}

/// What a tally holds before it is worked out makes no difference.
#[test]
fn tallies_are_worked_out_from_the_table_alone() {
    let mut rows = vec![
        (mixed_table(), MIXED),
        (mixed_without_hashes(), MIXED),
        (fullest(), [0, 0, 8, 7, 61_440]),
        ([mixed_table(), blank(10)].concat(), [11, 1, 2, 1, 4138]),
    ];
    rows.extend((1..=15).map(|slots| (blank(slots.into()), [slots, 0, 0, 0, 0])));
    for (table, numbers) in rows {
        for before in [[0; 5], [u16::MAX; 5], [5, 4, 3, 2, 1], numbers] {
            let mut worked_out = Tally::from(before);
            assert_eq!(tally(&table, &mut worked_out), 0);
            assert_eq!(worked_out.numbers(), numbers);
        }
        assert_eq!(Tally::of(&table), Ok(numbers.into()));
    }
}

/// Asserts that no tally is worked out, and that none of its numbers changes.
fn assert_not_worked_out(table: &[u8], number: u16) {
    for before in [[0; 5], [u16::MAX; 5], tally_of(table).numbers()] {
        let mut left = Tally::from(before);
        assert_eq!(tally(table, &mut left), number);
        assert_eq!(left.numbers(), before);
    }
    assert_eq!(Tally::of(table), Err(number));
}

#[test]
fn a_table_of_a_wrong_length_has_no_tally() {
    for length in [0, 1, SLOT_BYTES - 1, SLOT_BYTES + 1, 64_319, 64_321, 68_608] {
        assert_not_worked_out(&vec![0; length], 102);
        assert_not_worked_out(&vec![0xFF; length], 102);
    }
}

/// Damage to any slot, also where place and length are right; and two records
/// with one handle.
#[test]
fn a_table_that_is_not_well_formed_has_no_tally() {
    for slot in 0..5 {
        for at in [0, 191] {
            let mut table = mixed_table();
            table[slot * SLOT_BYTES + at] |= 1;
            assert_not_worked_out(&table, 103);
        }
    }
    let mut table = mixed_table();
    table.copy_within(1..11, 4 * SLOT_BYTES + 1);
    assert_not_worked_out(&table, 103);
    assert_not_worked_out(&vec![0xFF; 15 * SLOT_BYTES], 103);
}

/// A turning leaves places and lengths as they are. By the rules of now the table
/// has no tally before it.
#[test]
fn a_turning_changes_no_number() {
    let mut table = mixed_table();
    for slot in table.chunks_mut(SLOT_BYTES) {
        slot[0] &= !2;
    }
    assert_not_worked_out(&table, 103);
    assert_eq!(turn(&mut table), 0);
    assert_eq!(Tally::of(&table), Ok(MIXED.into()));
}

/// The tally after a request, as the table of PROFILE 2.8 has it: from the tally
/// before, the kind and the slot of the record, as it was before the request.
fn by_the_kind(tally: Tally, before: &[u8], frame: &[u8], status: u8) -> Tally {
    let (0, Request(request)) = (status, read_request(frame)) else {
        return tally;
    };
    let mut slots = table::slots(before).iter();
    let record = slots.find(|slot| slot::has_handle(slot, &request.fields.handle));
    let (place, length) = record.map_or((Place::Empty, 0), |slot| {
        (slot::place(slot), slot::length(slot))
    });
    let [empty, reserved, enabled, disabled, payload] = tally.numbers();
    let sent = request.fields.payload.len() as u16;
    Tally::from(match (request.kind, place) {
        (Kind::InstallationSetup, _) => [empty - 1, reserved + 1, enabled, disabled, payload],
        (Kind::RightsInstallation, _) => {
            [empty, reserved - 1, enabled + 1, disabled, payload + sent]
        }
        (Kind::RightsRetrieval | Kind::RekQuery, _) => {
            [empty, reserved, enabled - 1, disabled + 1, payload]
        }
        (Kind::RightsEnablement, Place::Disabled) => {
            [empty, reserved, enabled + 1, disabled - 1, payload]
        }
        (Kind::RightsRemoval, Place::Enabled) => {
            [empty + 1, reserved, enabled - 1, disabled, payload - length]
        }
        (Kind::RightsRemoval, _) => [empty + 1, reserved, enabled, disabled - 1, payload - length],
        (Kind::HandleRemoval, _) => [empty + 1, reserved - 1, enabled, disabled, payload],
        _ => tally.numbers(),
    })
}

/// Makes calls on a table, each with the tally that the one before it left, and
/// asserts what holds of the tally (PROFILE 8.5). Gives the kinds that succeeded,
/// each with the numbers that it changed.
fn follow(rng: &mut Rng, table: &mut [u8], calls: usize) -> BTreeSet<(u8, [i8; 5])> {
    let slots = table.len() / SLOT_BYTES;
    let asker = Asker::new(slots + 2);
    let mut tally = tally_of(table);
    let mut steps = BTreeSet::new();
    for _ in 0..calls {
        let start = match rng.below(20) {
            0 => slots,
            _ => rng.below(slots),
        };
        let frame = asker.frame(rng);
        let (before, lent) = (table.to_vec(), tally);
        let given = call_with(&mut tally, start as u64, table, &frame);
        assert_ne!(given.number, 106, "{frame:02x?}");
        assert_eq!(Tally::of(table), Ok(tally), "{frame:02x?}");
        assert!(before != table || lent == tally, "{frame:02x?}");
        let status = given.reply.get(1).map_or(u8::MAX, |byte| byte % 128);
        assert_eq!(tally, by_the_kind(lent, &before, &frame, status));
        if status == 0 {
            steps.insert((given.reply[0] & 31, signs(lent, tally)));
        }
    }
    steps
}

/// Which numbers have grown, by 1, and which have shrunk, by -1.
fn signs(before: Tally, after: Tally) -> [i8; 5] {
    let (before, after) = (before.numbers(), after.numbers());
    [0, 1, 2, 3, 4].map(|i| after[i].cmp(&before[i]) as i8)
}

/// From blank tables, and from others that are well formed.
#[test]
fn a_tally_that_is_carried_on_is_never_106_and_follows_its_table() {
    let mut rng = Rng::announced("tallies carried on");
    let mut steps = BTreeSet::new();
    for slots in 1..=MAX_SLOTS {
        for _ in 0..6 {
            steps.extend(follow(&mut rng, &mut blank(slots), 200));
        }
    }
    for mut table in [mixed_table(), mixed_without_hashes(), fullest()] {
        steps.extend(follow(&mut rng, &mut table, 400));
    }
    let (same, lent) = ([0; 5], [0, 0, -1, 1, 0]);
    let expected = [
        (1, [-1, 1, 0, 0, 0]),
        (2, [0, -1, 1, 0, 1]),
        (3, lent),
        (4, lent),
        (5, [0, 0, 1, -1, 0]),
        (5, same),
        (6, [1, 0, -1, 0, -1]),
        (6, [1, 0, 0, -1, -1]),
        (7, [1, -1, 0, 0, 0]),
        (8, same),
        (9, same),
    ];
    assert_eq!(steps, BTreeSet::from(expected), "every row of PROFILE 2.8");
}
