//! The salvage of damaged tables, and its report in words.

mod common;

use common::{blank, call, mixed_table, mixed_without_hashes, request_bytes, tally_of};
use random::Rng;
use reference::{salvage, salvage_text, slot, table, turn, well_formed};
use reference::{Finding, Place, Tally, MAX_SLOTS, SLOT_BYTES};

/// What report buffers hold before a salvage.
const FILLER: u8 = 0xAA;

const H1: [u8; 10] = [1; 10];
const H2: [u8; 10] = [2; 10];
const K: [u8; 16] = [1, 2, 3, 4, 5, 6, 7, 8, 9, 10, 11, 12, 13, 14, 15, 16];
const P5: [u8; 5] = [0xA1, 0xA2, 0xA3, 0xA4, 0xA5];

/// What came of a salvage with a report buffer of 17 bytes.
#[derive(Debug, PartialEq, Eq)]
struct Given {
    number: u16,
    /// A byte for each slot.
    report: Vec<u8>,
    table: Vec<u8>,
}

/// Salvages a table of whole slots, and asserts that the rest of the report buffer
/// stays.
fn salvaged(before: &[u8]) -> Given {
    let mut report = vec![FILLER; MAX_SLOTS + 2];
    let mut table = before.to_vec();
    let number = salvage(&mut table, &mut report);
    let rest = report.split_off(before.len() / SLOT_BYTES);
    assert!(rest.iter().all(|&byte| byte == FILLER));
    Given {
        number,
        report,
        table,
    }
}

/// Asserts that a salvage with a report buffer of this many bytes is refused, and
/// that nothing changes.
fn assert_refused(number: u16, before: &[u8], room: usize, what: &str) {
    let mut table = before.to_vec();
    let mut report = vec![FILLER; room];
    assert_eq!(salvage(&mut table, &mut report), number, "{what}");
    assert!(table == before, "{what}: the table stays");
    assert!(report == vec![FILLER; room], "{what}: the report stays");
}

/// The slot after the success of the case of this name, by calls on a blank one;
/// `worn` ones have `01` in byte 191.
fn case_slot(name: &str) -> Vec<u8> {
    let a: Vec<u8> = (0xA0..=0xB3).collect();
    let case = name.trim_start_matches("worn ");
    let (second, count) = match case {
        "11" => (0xC0, 7),
        _ => (0x80, 0),
    };
    let installation = [&H1[..], &K, &[0, count, 0x10], &a, &P5].concat();
    let requests = [
        request_bytes(1, 0x80, &[&H1[..], &[0, 5]].concat()),
        request_bytes(2, second, &installation),
        request_bytes(4, 0x80, &[H1, H2].concat()),
        request_bytes(5, 0xC0, &[&H2[..], &[0, 3]].concat()),
    ];
    let made = match case {
        "blank" => 0,
        "1" => 1,
        "7" => 2,
        "9" => 3,
        "11" => 4,
        _ => panic!("there is no case {name} here"),
    };
    let mut table = blank(1);
    for request in &requests[..made] {
        assert_eq!(call(&mut table, request).reply[1], 0, "{name}");
    }
    table[191] = u8::from(name.starts_with("worn "));
    table
}

fn case_table(slots: &[&str]) -> Vec<u8> {
    slots.iter().flat_map(|name| case_slot(name)).collect()
}

/// The slots before, the number, the report buffer and the slots afterwards.
type Row = (
    &'static [&'static str],
    u16,
    [u8; 3],
    &'static [&'static str],
);

/// Case 24 (PROFILE 9.7), but for its last row.
const ROWS: &[Row] = &[
    (&["7"], 0, [0, 0xAA, 0xAA], &["7"]),
    (&["worn 7"], 1, [1, 0xAA, 0xAA], &["blank"]),
    (&["worn 7", "7"], 1, [1, 0, 0xAA], &["blank", "7"]),
    (&["7", "1"], 1, [0, 2, 0xAA], &["7", "blank"]),
    (&["1", "7"], 1, [0, 2, 0xAA], &["1", "blank"]),
    (
        &["9", "worn 7", "11"],
        2,
        [0, 1, 2],
        &["9", "blank", "blank"],
    ),
    (
        &["9", "worn 9", "blank"],
        1,
        [0, 1, 0],
        &["9", "blank", "blank"],
    ),
    (
        &["7", "blank", "blank", "blank"],
        107,
        [0xAA; 3],
        &["7", "blank", "blank", "blank"],
    ),
];

#[test]
fn case_24() {
    for (before, number, report, after) in ROWS {
        let mut table = case_table(before);
        let mut buffer = [FILLER; 3];
        assert_eq!(salvage(&mut table, &mut buffer), *number, "{before:?}");
        assert_eq!(buffer, *report, "{before:?}");
        assert!(table == case_table(after), "{before:?}");
    }
    let short = &case_slot("7")[..SLOT_BYTES - 1];
    assert_refused(102, short, 3, "4,287 bytes of slot 7");
}

/// The slots of case 24 are what the card profile says they are.
#[test]
fn the_slots_of_case_24() {
    let first_bytes = |name: &str| {
        let slot = case_slot(name);
        (slot[0], slot[1], slot[28], slot[191])
    };
    assert_eq!(first_bytes("1"), (0x40, 1, 0, 0));
    assert_eq!(first_bytes("7"), (0x84, 1, 0, 0));
    assert_eq!(first_bytes("worn 7"), (0x84, 1, 0, 1));
    assert_eq!(first_bytes("9"), (0xC4, 2, 0, 0));
    assert_eq!(first_bytes("worn 9"), (0xC4, 2, 0, 1));
    assert_eq!(first_bytes("11"), (0x86, 2, 3, 0));
}

#[test]
fn wrong_lengths_are_102_whatever_the_report_buffer() {
    for room in [0, 1, 14, 15, 16, 17] {
        for slots in 1..=MAX_SLOTS {
            assert_refused(102, &vec![0xFF; slots * SLOT_BYTES - 1], room, "less");
            assert_refused(102, &vec![0xFF; slots * SLOT_BYTES + 1], room, "more");
        }
        assert_refused(102, &[], room, "no slot");
        assert_refused(102, &blank(MAX_SLOTS + 1), room, "16 slots");
    }
}

#[test]
fn report_buffers_that_are_too_short_are_107() {
    for slots in 1..=MAX_SLOTS {
        for table in [blank(slots), vec![0xFF; slots * SLOT_BYTES]] {
            for room in 0..slots {
                assert_refused(107, &table, room, "too short");
            }
            let cleared = if table[0] == 0 { 0 } else { slots };
            for room in slots..=slots + 2 {
                let mut report = vec![FILLER; room];
                let number = salvage(&mut table.clone(), &mut report);
                assert_eq!(usize::from(number), cleared, "{slots} slots, {room} bytes");
                assert!(report[slots..].iter().all(|&byte| byte == FILLER));
            }
        }
    }
}

/// A slot with a record of length 5 under a handle of ten equal bytes; an empty
/// slot has none.
fn record(place: Place, handle: u8) -> Vec<u8> {
    let mut slot = vec![0; SLOT_BYTES];
    if place != Place::Empty {
        slot[0] = (place as u8) << 6;
        slot[1..11].fill(handle);
        slot[30] = 5;
    }
    slot
}

/// What is wrong, and the slot of the mixed table, the offset and the byte that make
/// it wrong: each breaks one rule (PROFILE 2.4).
const RULES: &[(&str, usize, usize, u8)] = &[
    ("the spare bit", 0, 0, 0x8B),
    ("a count without its bit", 0, 0, 0x88),
    ("hash count 9", 2, 0, 0xE6),
    ("a hash byte beyond the count", 4, 51, 1),
    ("byte 191", 4, 191, 1),
    ("a payload byte beyond the length", 4, 192 + 9, 1),
    ("the last byte", 0, 4287, 0x80),
    ("a length of 0", 0, 30, 0),
    ("a length of 4,097", 2, 30, 1),
    ("a reservation with a hash count", 1, 0, 0x44),
    ("a reservation with a kept count", 1, 0, 0x42),
    ("a reservation with a key", 1, 26, 1),
    ("a reservation with a payload", 1, 192, 1),
    ("a reservation of no length", 1, 30, 0),
    ("an empty slot with a kept count", 3, 0, 2),
    ("an empty slot with a handle", 3, 10, 1),
    ("an empty slot with a length", 3, 30, 1),
    ("an empty slot with a payload", 3, 4287, 1),
    ("an enabled right made empty", 0, 0, 0x0A),
    ("an enabled right made reserved", 4, 0, 0x44),
    ("a reservation made empty", 1, 0, 0),
    ("an empty slot made reserved", 3, 0, 0x40),
    ("an empty slot made enabled", 3, 0, 0x80),
];

#[test]
fn a_slot_that_breaks_a_rule_is_damaged_and_no_other_is() {
    for &(what, index, offset, byte) in RULES {
        let mut before = mixed_table();
        assert_ne!(before[index * SLOT_BYTES + offset], byte, "{what}");
        before[index * SLOT_BYTES + offset] = byte;
        let mut after = mixed_table();
        after[index * SLOT_BYTES..][..SLOT_BYTES].fill(0);
        let mut report = vec![0; 5];
        report[index] = 1;
        let given = salvaged(&before);
        assert_eq!((given.number, given.report), (1, report), "{what}");
        assert!(given.table == after, "{what}");
    }
}

/// A place is not damage where the slot is well formed in the other one.
#[test]
fn a_right_in_the_other_place_of_a_right_is_kept() {
    for (index, byte) in [(0, 0xCA), (2, 0xA2), (4, 0xC4)] {
        let mut before = mixed_table();
        before[index * SLOT_BYTES] = byte;
        let given = salvaged(&before);
        assert_eq!((given.number, given.report), (0, vec![0; 5]));
        assert!(given.table == before);
    }
}

/// Two records with one handle, of any two places and in any two slots: the lower
/// is kept. Ten zeros are a handle like any other.
#[test]
fn the_lowest_slot_with_a_handle_is_kept() {
    let places = [Place::Reserved, Place::Enabled, Place::Disabled];
    for (low, high) in (0..4).flat_map(|high| (0..high).map(move |low| (low, high))) {
        for (lower, higher) in places.iter().flat_map(|a| places.map(|b| (*a, b))) {
            for handle in [0, 9] {
                let mut slots: Vec<Vec<u8>> = (1..=4).map(|h| record(Place::Enabled, h)).collect();
                slots[low] = record(lower, handle);
                slots[high] = record(higher, handle);
                let mut report = vec![0; 4];
                report[high] = 2;
                let given = salvaged(&slots.concat());
                assert_eq!((given.number, given.report), (1, report));
                slots[high] = blank(1);
                assert!(given.table == slots.concat());
            }
        }
    }
}

#[test]
fn a_handle_in_every_slot_is_kept_once() {
    for slots in 1..=MAX_SLOTS {
        let before = record(Place::Enabled, 7).repeat(slots);
        let given = salvaged(&before);
        assert_eq!(usize::from(given.number), slots - 1);
        assert_eq!(given.report[0], 0);
        assert!(given.report[1..].iter().all(|&found| found == 2));
        assert!(given.table[..SLOT_BYTES] == record(Place::Enabled, 7));
        assert!(given.table[SLOT_BYTES..] == blank(slots - 1));
    }
}

/// Two handles that differ in one bit are two, wherever the bit is.
#[test]
fn handles_are_compared_whole() {
    for bit in 0..80 {
        let mut before = [record(Place::Enabled, 7), record(Place::Disabled, 7)].concat();
        before[SLOT_BYTES + 1 + bit / 8] ^= 1 << (bit % 8);
        let given = salvaged(&before);
        assert_eq!((given.number, given.report), (0, vec![0, 0]), "bit {bit}");
        assert!(given.table == before);
    }
}

/// Empty slots have no handle: none is repeated, and none makes a record under ten
/// zeros a repeated one.
#[test]
fn empty_slots_are_kept() {
    let zeros = record(Place::Reserved, 0);
    let tables = [
        blank(1),
        blank(15),
        [blank(2), zeros.clone()].concat(),
        [zeros, blank(2)].concat(),
    ];
    for before in tables {
        let given = salvaged(&before);
        assert_eq!(given.number, 0);
        assert!(given.report.iter().all(|&found| found == 0));
        assert!(given.table == before);
    }
}

/// A damaged slot is cleared before handles are compared, whether it is below or
/// above the other with its handle, and also where it is the lowest of three.
#[test]
fn a_damaged_slot_makes_no_other_a_repeated_one() {
    let whole = record(Place::Enabled, 7);
    let mut worn = whole.clone();
    worn[191] = 1;
    let rows: [(&[&Vec<u8>], &[u8]); 5] = [
        (&[&worn, &whole], &[1, 0]),
        (&[&whole, &worn], &[0, 1]),
        (&[&worn, &whole, &whole], &[1, 0, 2]),
        (&[&whole, &worn, &whole], &[0, 1, 2]),
        (&[&worn, &worn], &[1, 1]),
    ];
    for (slots, report) in rows {
        let before: Vec<u8> = slots.iter().copied().flatten().copied().collect();
        let given = salvaged(&before);
        assert_eq!(given.report, report);
        for (found, slot) in report.iter().zip(table::slots(&given.table)) {
            assert_eq!(slot[..] == whole[..], *found == 0);
        }
    }
}

#[test]
fn rights_without_a_hash_are_kept() {
    let mut before = mixed_without_hashes();
    let given = salvaged(&before);
    assert_eq!(given.number, 0);
    assert!(given.table == before);
    before[SLOT_BYTES + 191] = 1;
    let given = salvaged(&before);
    assert_eq!((given.number, given.report), (1, vec![0, 1, 0, 0, 0]));
}

/// An old table that was not turned loses each right with a count, and a turned
/// one nothing.
#[test]
fn an_old_table_is_turned_first() {
    let mut old = mixed_table();
    for slot in old.chunks_mut(SLOT_BYTES) {
        slot[0] &= !2;
    }
    let given = salvaged(&old);
    assert_eq!((given.number, given.report), (2, vec![1, 0, 1, 0, 0]));
    assert_eq!(turn(&mut old), 0);
    assert_eq!(salvaged(&old).number, 0);
}

/// What holds of every salvage (PROFILE 2.10), whatever bytes the table had.
fn assert_holds(before: &[u8]) -> Given {
    let given = salvaged(before);
    assert!(well_formed(&given.table), "the table left is well formed");
    let cleared = given.report.iter().filter(|&&found| found != 0).count();
    assert_eq!(usize::from(given.number), cleared);
    let slots = table::slots(before).iter().zip(table::slots(&given.table));
    for (&found, (old, new)) in given.report.iter().zip(slots) {
        match Finding::from_number(found) {
            Some(Finding::Kept) => assert!(new == old, "kept"),
            Some(Finding::Damaged) => assert!(!slot::well_formed(old), "damaged"),
            Some(Finding::Repeated) => assert!(slot::well_formed(old), "repeated"),
            None => panic!("{found} is no finding"),
        }
        if found != 0 {
            assert!(new.iter().all(|&byte| byte == 0), "cleared");
        }
    }
    assert_eq!(given.number == 0, well_formed(before), "nothing damaged");
    let again = salvaged(&given.table);
    assert_eq!(again.number, 0, "a second run");
    assert!(again.report.iter().all(|&found| found == 0));
    assert!(again.table == given.table);
    assert_eq!(Tally::of(&given.table), Ok(tally_of(&given.table)));
    given
}

/// Every bit before the payloads, and one of each payload byte. At most one slot is
/// cleared: the one that has the bit or, if its handle has become that of another,
/// the higher of the two.
#[test]
fn one_bit_clears_one_slot_at_most() {
    let mut before = mixed_table();
    // the handles of slots 0 and 4 differ in one bit
    before[4 * SLOT_BYTES + 1..][..10].copy_from_slice(&[1, 1, 1, 1, 1, 1, 1, 1, 1, 9]);
    let bits =
        (0..8 * before.len()).filter(|bit| bit / 8 % SLOT_BYTES < 192 || bit % 8 == bit / 8 % 8);
    let mut repeated = 0;
    for bit in bits {
        let (index, slot) = (bit / 8, bit / 8 / SLOT_BYTES);
        before[index] ^= 1 << (bit % 8);
        let given = salvaged(&before);
        let cleared: Vec<usize> = (0..5).filter(|&slot| given.report[slot] != 0).collect();
        assert!(cleared.len() <= 1, "bit {bit}");
        for &other in &cleared {
            let found = given.report[other];
            assert!(found == 2 || other == slot, "bit {bit}");
            repeated += usize::from(found == 2);
        }
        before[index] ^= 1 << (bit % 8);
    }
    assert_eq!(repeated, 2, "slot 4, for a bit of either handle");
}

/// Damages a table: bytes, blocks of bytes, handles and slots copied over others,
/// or all of it.
fn damage(rng: &mut Rng, table: &mut [u8]) {
    let slots = table.len() / SLOT_BYTES;
    let [from, to] = [0; 2].map(|_| rng.below(slots) * SLOT_BYTES);
    match rng.below(6) {
        0 => table[rng.below(slots * SLOT_BYTES)] ^= rng.bit(8),
        1 => table[to + rng.below(31)] = rng.byte(),
        2 => {
            let size = rng.pick(&[16, 64, 512, 4096]);
            let at = rng.below(table.len() - size);
            let bytes = rng.bytes(size);
            table[at..at + size].copy_from_slice(&bytes);
        }
        3 => table.copy_within(from + 1..from + 11, to + 1),
        4 => table.copy_within(from..from + SLOT_BYTES, to),
        _ => {
            let bytes = rng.bytes(SLOT_BYTES);
            table[to..to + SLOT_BYTES].copy_from_slice(&bytes);
        }
    }
}

#[test]
fn what_holds_of_every_salvage_holds_of_random_tables() {
    let mut rng = Rng::announced("tables salvaged");
    let mut numbers = [0; MAX_SLOTS + 1];
    for round in 0..600 {
        let slots = 1 + round % MAX_SLOTS;
        let places = [
            Place::Empty,
            Place::Reserved,
            Place::Enabled,
            Place::Disabled,
        ];
        let mut before: Vec<u8> = (0..slots as u8)
            .flat_map(|handle| record(rng.pick(&places), handle))
            .collect();
        assert_eq!(assert_holds(&before).number, 0);
        for _ in 0..rng.pick(&[1, 1, 2, 4, 40]) {
            damage(&mut rng, &mut before);
        }
        numbers[usize::from(assert_holds(&before).number)] += 1;
    }
    assert!(numbers[..10].iter().all(|&count| count > 0), "{numbers:?}");
}

fn text(table: &[u8]) -> String {
    String::from_utf8(salvage_text(table)).expect("the report is text")
}

/// The example of PROFILE 2.11, which a table of case 24 has, and reports of 1 and of
/// 15 slots.
#[test]
fn the_report_in_words() {
    let before = case_table(&["9", "worn 7", "11"]);
    assert_eq!(text(&before), "0 kept\n1 damaged\n2 repeated\ncleared 2\n");
    assert_eq!(text(&case_table(&["7"])), "0 kept\ncleared 0\n");
    assert_eq!(text(&case_table(&["worn 7"])), "0 damaged\ncleared 1\n");
    let long = text(&vec![0xFF; MAX_SLOTS * SLOT_BYTES]);
    let lines: Vec<&str> = long.lines().collect();
    assert_eq!(lines.len(), 16);
    assert_eq!((lines[0], lines[9]), ("0 damaged", "9 damaged"));
    assert_eq!((lines[14], lines[15]), ("14 damaged", "cleared 15"));
}

/// There is no 107: the program has a byte for each of 15 slots.
#[test]
fn a_refused_table_has_one_line() {
    for length in [0, 1, 4_287, 4_289, 64_319, 64_321, 68_608] {
        assert_eq!(text(&vec![0; length]), "refused 102\n", "{length} bytes");
    }
    for slots in 1..=MAX_SLOTS {
        assert!(text(&blank(slots)).ends_with("\ncleared 0\n"));
    }
}
