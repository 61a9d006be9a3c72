//! The start of a call, by the archive and by the reference: which slot a setup
//! takes, cases 18 and 19 of the card profile (PROFILE 9.4) among them, 105 where
//! the start is not the number of a slot, and that no history depends on it.

use compare::both::Both;
use compare::frames::frame;
use compare::pair::{compare_cards, Differed};
use compare::tables::blank;
use compare::tallies::tally_of;
use driver::Call;
use random::{setting, Rng};
use reference::{MAX_SLOTS, REPLY_ROOM, SLOT_BYTES};

/// What reply buffers hold before a call.
const BUFFER: [u8; REPLY_ROOM + 1] = [0xA5; REPLY_ROOM + 1];

/// The handle of the setups, which no record has.
const NEW: u8 = 0xEE;

/// The frame of a setup of 5 bytes.
fn setup() -> Vec<u8> {
    frame(1, 0x80, &[&[NEW; 10][..], &[0, 5]].concat())
}

/// A table whose slots are taken where the bits of `taken` are 1, slot 0 by the
/// lowest; the records are in all places.
fn table_with(slots: usize, taken: u16) -> Vec<u8> {
    let mut table = blank(slots);
    for (index, slot) in table.chunks_mut(SLOT_BYTES).enumerate() {
        if taken >> index & 1 == 1 {
            slot[0] = [0x40, 0x80, 0xC0][(index + usize::from(taken)) % 3];
            slot[1..11].fill(index as u8);
            slot[30] = 5;
        }
    }
    table
}

/// The slot to be taken, found by walking: up by one, and from the last to 0.
fn walked(slots: usize, taken: u16, start: usize) -> Option<usize> {
    let mut slot = start;
    for _ in 0..slots {
        if taken >> slot & 1 == 0 {
            return Some(slot);
        }
        slot = if slot + 1 == slots { 0 } else { slot + 1 };
    }
    None
}

/// Makes a setup from every slot of a table, and asserts which slot it takes.
fn assert_takes(both: &mut Both, slots: usize, taken: u16) {
    for start in 0..slots {
        let mut expected = table_with(slots, taken);
        both.go_on(expected.clone());
        let given = both.call(start as u64, &setup(), &BUFFER);
        let slot = walked(slots, taken, start);
        if let Some(slot) = slot {
            let slot = &mut expected[slot * SLOT_BYTES..][..SLOT_BYTES];
            slot.copy_from_slice(&reserved(NEW));
        }
        let status = if slot.is_some() { 0 } else { 7 };
        assert_eq!(given.number, 0);
        assert_eq!(given.reply[..4], [0x21, status, 0, 0]);
        assert!(given.table == expected, "{slots}, {taken:b}, {start}");
    }
}

/// Every table of up to 5 slots. The larger ones with one slot taken, with all
/// but one, with those below a slot, and with all.
#[test]
fn a_setup_takes_the_first_empty_slot_on_its_way() {
    let mut both = Both::on(blank(1));
    for slots in 1..=5 {
        for taken in 0..1 << slots {
            assert_takes(&mut both, slots, taken);
        }
    }
    for slots in 6..=MAX_SLOTS {
        let all = (1 << slots) - 1;
        for slot in 0..slots {
            for taken in [1 << slot, all - (1 << slot), (1 << slot) - 1] {
                assert_takes(&mut both, slots, taken);
            }
        }
        assert_takes(&mut both, slots, all);
    }
}

/// A slot that is reserved for 5 bytes under a handle of ten such bytes.
fn reserved(handle: u8) -> Vec<u8> {
    let mut slot = blank(1);
    slot[0] = 0x40;
    slot[1..11].fill(handle);
    slot[30] = 5;
    slot
}

/// Case 18: from slot 1 of three, setups take slot 1, slot 2 and slot 0; then
/// every slot is taken.
#[test]
fn case_18_past_the_last_slot_the_search_goes_on_at_slot_0() {
    let mut both = Both::on(blank(3));
    let rows = [
        (1, 0, [blank(1), reserved(1), blank(1)]),
        (3, 0, [blank(1), reserved(1), reserved(3)]),
        (4, 0, [reserved(4), reserved(1), reserved(3)]),
        (2, 7, [reserved(4), reserved(1), reserved(3)]),
    ];
    for (handle, status, table) in rows {
        let setup = frame(1, 0x80, &[&[handle; 10][..], &[0, 5]].concat());
        let given = both.call(1, &setup, &BUFFER);
        assert_eq!(given.number, 0);
        assert_eq!(given.reply[..4], [0x21, status, 0, 0]);
        assert!(given.table == table.concat(), "the setup under {handle}");
    }
}

/// Case 19: a card of one slot has no slot 1.
#[test]
fn case_19_a_start_outside_the_card_is_105() {
    let mut both = Both::on(blank(1));
    for frame in [setup(), Vec::new()] {
        let given = both.call(1, &frame, &BUFFER);
        assert_eq!(given.number, 105);
        assert!(given.reply == BUFFER && given.table == blank(1));
    }
}

/// A request of each kind, frames that are refused whatever the table, and what
/// is no frame.
fn frames() -> Vec<Vec<u8>> {
    let lengths = [20, 20, 12, 10, 10, 3, 10];
    let kinds = (3..=9).zip(lengths);
    let mut frames: Vec<Vec<u8>> = kinds
        .map(|(kind, length)| frame(kind, 0x80, &vec![0; length]))
        .collect();
    let installation = |hash_byte| [&[0; 28][..], &[hash_byte], &[0; 21]].concat();
    frames.extend([0x10, 0].map(|hash_byte| frame(2, 0x80, &installation(hash_byte))));
    frames.extend([0, 10, 31].map(|kind| frame(kind, 0x80, &[])));
    frames.extend([frame(1, 0, &[1; 12]), frame(1, 0x80, &[1; 11])]);
    frames.extend([0, 3, 15].map(|length| setup()[..length].to_vec()));
    frames.push(setup());
    frames
}

/// On blank, full and damaged tables alike.
#[test]
fn a_start_that_is_no_slot_is_105_for_every_frame() {
    let mut both = Both::on(blank(1));
    for slots in [1, 2, 5, MAX_SLOTS] {
        let full = table_with(slots, (1 << slots) - 1);
        let mut damaged = full.clone();
        damaged[191] = 1;
        let wraps = u64::MAX / SLOT_BYTES as u64 + 1;
        let least = slots as u64;
        for table in [blank(slots), full, damaged] {
            both.go_on(table.clone());
            for start in [least, least + 1, 1 << 32, 1 << 63, wraps, u64::MAX] {
                for frame in frames() {
                    let given = both.call(start, &frame, &BUFFER);
                    assert_eq!(given.number, 105, "{slots}, {start}, {frame:02x?}");
                    assert!(given.reply == BUFFER && given.table == table);
                }
            }
        }
    }
}

/// Each call has the faults of all later numbers too; the first has not that of
/// 102, which would hide the start.
#[test]
fn the_start_is_tested_after_102_and_before_103() {
    let damaged = vec![0xFF; 2 * SLOT_BYTES];
    let part = &damaged[1..];
    let rows: [(u16, &[u8], u64, &[u8]); 5] = [
        (101, &damaged, 2, &BUFFER[..REPLY_ROOM - 1]),
        (102, part, 2, &BUFFER),
        (105, &damaged, 2, &BUFFER),
        (103, &damaged, 1, &BUFFER),
        (104, &blank(2), 1, &BUFFER),
    ];
    for (number, table, start, buffer) in rows {
        let given = Both::on(table.to_vec()).call(start, &setup()[..3], buffer);
        assert_eq!(given.number, number);
        assert!(given.reply == buffer && given.table == table);
    }
}

/// Asserts that cards of one slot did not differ, and that some of the others
/// differed in every way in which they may.
fn assert_differed(by_size: &[Differed]) {
    let mut all = Differed::default();
    for (slots, differed) in (1..).zip(by_size) {
        println!("{slots} slots: {differed:?}");
        assert!(slots > 1 || *differed == Differed::default());
        all.in_slots += differed.in_slots;
        all.in_order += differed.in_order;
        all.in_handles += differed.in_handles;
    }
    assert!(all.in_slots > 0 && all.in_order > 0 && all.in_handles > 0);
}

/// The calls made on either card of the archive, unless a tenth of what
/// `COMPARE_CALLS` says is more.
const CALLS: u64 = 10_000;

#[test]
fn two_cards_of_the_archive_differ_in_their_slots_alone() {
    let calls = setting("COMPARE_CALLS").map_or(CALLS, |calls| CALLS.max(calls / 10));
    let calls = calls as usize / MAX_SLOTS;
    let mut rng = Rng::announced("two cards of the archive");
    let of_size = |slots| {
        let mut cards = [blank(slots), blank(slots)].map(Both::on);
        compare_cards(&mut rng, slots, calls, |card, start, frame, buffer| {
            cards[card].call(start, frame, buffer)
        })
    };
    let by_size: Vec<Differed> = (1..=MAX_SLOTS).map(of_size).collect();
    assert_differed(&by_size);
}

/// The calls made on either card of the reference, for each number of slots.
const CALLS_OF_THE_REFERENCE: usize = 2_000;

#[test]
fn two_cards_of_the_reference_differ_in_their_slots_alone() {
    let mut rng = Rng::announced("two cards of the reference");
    let of_size = |slots| {
        let mut tables = [blank(slots), blank(slots)];
        let mut tallies = [tally_of(&tables[0]).into(); 2];
        let call = |card: usize, start, frame: &[u8], buffer: &[u8]| {
            let (table, tally) = (&mut tables[card][..], &mut tallies[card]);
            let mut reply = buffer.to_vec();
            let number = reference::call(table, tally, start, frame, &mut reply);
            Call {
                number,
                tally: tally.numbers(),
                reply,
                table: table.to_vec(),
            }
        };
        compare_cards(&mut rng, slots, CALLS_OF_THE_REFERENCE, call)
    };
    let by_size: Vec<Differed> = (1..=MAX_SLOTS).map(of_size).collect();
    assert_differed(&by_size);
}
