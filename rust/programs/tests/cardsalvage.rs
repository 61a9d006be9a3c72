//! The program `cardsalvage`, run on many tables and compared with the
//! reference's salvage. Each comparison covers every byte that it prints: the
//! table left to standard output, and the report in words to standard error
//! (PROFILE 2.11).

mod running;
mod tables;

use random::Rng;
use reference::{salvage, salvage_text, Count, Place, SLOT_BYTES};
use running::{printed_by, printed_in_pieces_by, Printed};
use tables::{any_table, by_requests, empty, reserved, right, LARGEST};

/// What the program is to print for these bytes. Of those that are refused it
/// prints no table.
fn expected(bytes: &[u8]) -> Printed {
    let mut out = bytes.to_vec();
    if salvage(&mut out, &mut [0; 15]) > 15 {
        out.clear();
    }
    let errors = String::from_utf8(salvage_text(bytes)).expect("a report is text");
    Printed { out, errors }
}

/// Asserts that the program prints what it is to print of these bytes, and that
/// its report ends with this line.
fn prints(bytes: &[u8], last: &str, what: &str) -> Printed {
    let printed = printed_by("cardsalvage", bytes);
    assert!(printed == expected(bytes), "{what}: {}", printed.errors);
    let said = printed.errors.lines().last();
    assert_eq!(said, Some(last), "{what}: {}", printed.errors);
    printed
}

/// Asserts that these bytes are refused, with nothing on standard output.
fn refuses(bytes: &[u8], what: &str) {
    let printed = prints(bytes, "refused 102", what);
    assert_eq!(printed.errors, "refused 102\n", "{what}");
    assert!(printed.out.is_empty(), "{what}");
}

/// Salvages a table, asserts that this many slots are cleared, and that nothing is
/// where the table left is salvaged again. Gives what was printed first.
fn clears(bytes: &[u8], cleared: usize, what: &str) -> Printed {
    let printed = prints(bytes, &format!("cleared {cleared}"), what);
    assert_eq!(printed.out.len(), bytes.len(), "{what}");
    let again = prints(&printed.out, "cleared 0", what);
    assert!(again.out == printed.out, "{what}");
    printed
}

/// The slot with a bit set in byte 191, which no place allows.
fn worn(mut slot: Vec<u8>) -> Vec<u8> {
    slot[191] = 1;
    slot
}

/// A right for use, with a count, two hashes and a payload of 300 bytes.
fn course(handle: u8) -> Vec<u8> {
    right(Place::Enabled, handle, 2, Count::Kept(7), 300)
}

#[test]
fn the_profiles_example_is_exact() {
    let table = [course(1), worn(course(2)), reserved(1, 5)].concat();
    let printed = printed_by("cardsalvage", &table);
    assert_eq!(printed.errors, "0 kept\n1 damaged\n2 repeated\ncleared 2\n");
    assert!(printed.out == [course(1), empty(), empty()].concat());
}

/// The slots of the profile's case 24: reserved and installed under one handle,
/// and installed and lent under another.
#[test]
fn the_cases_of_the_profile_are_exact() {
    let (one, seven) = (reserved(1, 5), course(1));
    let nine = right(Place::Disabled, 2, 1, Count::NotKept, 5);
    let eleven = course(2);
    for (table, report) in [
        (vec![seven.clone()], "0 kept\ncleared 0\n"),
        (vec![worn(seven.clone())], "0 damaged\ncleared 1\n"),
        (
            vec![worn(seven.clone()), seven.clone()],
            "0 damaged\n1 kept\ncleared 1\n",
        ),
        (
            vec![seven.clone(), one.clone()],
            "0 kept\n1 repeated\ncleared 1\n",
        ),
        (vec![one, seven.clone()], "0 kept\n1 repeated\ncleared 1\n"),
        (
            vec![nine.clone(), worn(seven), eleven],
            "0 kept\n1 damaged\n2 repeated\ncleared 2\n",
        ),
        (
            vec![nine.clone(), worn(nine), empty()],
            "0 kept\n1 damaged\n2 kept\ncleared 1\n",
        ),
    ] {
        let printed = printed_by("cardsalvage", &table.concat());
        assert_eq!(printed.errors, report);
        assert!(printed == expected(&table.concat()), "{report}");
    }
}

#[test]
fn whole_tables_of_every_size_are_salvaged() {
    for slots in 1..=15 {
        let what = format!("{slots} slots");
        clears(&empty().repeat(slots), 0, &what);
        clears(&worn(empty()).repeat(slots), slots, &what);
        clears(&course(7).repeat(slots), slots - 1, &what);
        let different: Vec<u8> = (0..slots as u8).flat_map(course).collect();
        clears(&different, 0, &what);
    }
}

#[test]
fn other_sizes_are_102() {
    refuses(&[], "no input");
    let around = (1..=16).flat_map(|slots| {
        let whole = slots * SLOT_BYTES;
        [whole - 1, whole + 1]
    });
    let beyond = [LARGEST + 2, 16 * SLOT_BYTES, 30 * SLOT_BYTES, 1_000_000];
    for size in around.chain(beyond) {
        refuses(&vec![0; size], &format!("{size} zeros"));
        refuses(&vec![0xFF; size], &format!("{size} bytes"));
    }
}

#[test]
fn a_byte_after_the_largest_table_is_102() {
    let mut table = by_requests();
    clears(&table, 0, "15 slots");
    table.push(0);
    refuses(&table, "one byte more");
    table.extend(by_requests());
    refuses(&table, "a table more");
    table[0] |= 1;
    refuses(&table, "a damaged slot in it");
    table.truncate(LARGEST);
    clears(&table, 1, "the damaged slot, and no byte more");
}

/// The longest report, and one of a table of which nothing is left.
#[test]
fn the_longest_report_is_whole() {
    let longest = clears(&course(7).repeat(15), 14, "one handle").errors;
    let repeated: String = (1..15).map(|i| format!("{i} repeated\n")).collect();
    assert_eq!(longest, format!("0 kept\n{repeated}cleared 14\n"));
    assert_eq!(longest.len(), 177);
    let report = clears(&worn(course(7)).repeat(15), 15, "all damaged").errors;
    let damaged: String = (0..15).map(|i| format!("{i} damaged\n")).collect();
    assert_eq!(report, format!("{damaged}cleared 15\n"));
}

/// What is wrong, the offset in the slot of the byte that makes it so, and what
/// that byte becomes.
type Damage = (&'static str, usize, u8);

const RESERVED_WITH: &[Damage] = &[
    ("the spare bit", 0, 0x41),
    ("the bit of a count", 0, 0x42),
    ("a hash count", 0, 0x44),
    ("a key", 11, 1),
    ("a count", 28, 1),
    ("length 0", 30, 0),
    ("a payload byte", 4287, 1),
];

/// Damage to a right of a kept count, two hashes and five payload bytes.
const ENABLED_WITH: &[Damage] = &[
    ("the spare bit", 0, 0x8B),
    ("a count without its bit", 0, 0x88),
    ("9 hashes", 0, 0xA6),
    ("the place of an empty slot", 0, 0x0A),
    ("the place of a reserved slot", 0, 0x4A),
    ("length over 4,096", 29, 0x10),
    ("a byte after its hashes", 71, 1),
    ("byte 191", 191, 1),
    ("a byte after its payload", 197, 1),
];

const EMPTY_WITH: &[Damage] = &[
    ("the spare bit", 0, 1),
    ("the bit of a count", 0, 2),
    ("a handle", 1, 1),
    ("a length", 30, 1),
];

/// The damaged slot is cleared, and the others stay.
#[test]
fn a_damaged_slot_is_named_and_cleared() {
    let cases = [
        (reserved(99, 5), RESERVED_WITH),
        (
            right(Place::Enabled, 99, 2, Count::Kept(7), 5),
            ENABLED_WITH,
        ),
        (empty(), EMPTY_WITH),
    ];
    for (slot, damages) in cases {
        for (what, byte, value) in damages {
            for i in [0, 1, 14] {
                let mut table = by_requests();
                let at = i * SLOT_BYTES;
                table[at..][..SLOT_BYTES].copy_from_slice(&slot);
                table[at + byte] = *value;
                let what = format!("{what} in slot {i}");
                let Printed { out, errors } = clears(&table, 1, &what);
                let line = format!("{i} damaged");
                assert_eq!(errors.lines().nth(i), Some(&*line), "{what}");
                table[at..][..SLOT_BYTES].fill(0);
                assert!(out == table, "{what}");
            }
        }
    }
}

#[test]
fn of_two_slots_with_one_handle_the_higher_is_cleared() {
    for (first, second) in [(0, 1), (0, 14), (7, 8), (13, 14)] {
        let mut slots: Vec<Vec<u8>> = (0..15).map(|i| reserved(i, 5)).collect();
        slots[second] = right(Place::Disabled, first as u8, 1, Count::Kept(2), 3);
        let what = format!("slots {first} and {second}");
        let Printed { out, errors } = clears(&slots.concat(), 1, &what);
        let line = format!("{second} repeated");
        assert_eq!(errors.lines().nth(second), Some(&*line), "{what}");
        slots[second] = empty();
        assert!(out == slots.concat(), "{what}");
    }
    // an empty slot has no handle, and ten zeros are a handle
    clears(&[reserved(0, 5), empty()].concat(), 0, "zeros");
}

#[test]
fn rights_without_a_hash_are_kept() {
    let old = |handle| right(Place::Enabled, handle, 0, Count::NotKept, 9);
    let table = [old(1), worn(old(2)), old(3)].concat();
    let report = clears(&table, 1, "rights without a hash").errors;
    assert_eq!(report, "0 kept\n1 damaged\n2 kept\ncleared 1\n");
}

/// A well-formed table at random, damaged in up to four slots: a bit is changed, a
/// slot gets the handle of another, or any bytes.
fn damaged_table(rng: &mut Rng) -> Vec<u8> {
    let mut table = any_table(rng);
    let slots = table.len() / SLOT_BYTES;
    for _ in 0..rng.below(5) {
        let at = rng.below(slots) * SLOT_BYTES;
        match rng.below(4) {
            0 | 1 => table[at + rng.below(260)] ^= 1 << rng.below(8),
            2 => {
                let from = rng.below(slots) * SLOT_BYTES + 1;
                table.copy_within(from..from + 10, at + 1);
            }
            _ => table[at..][..SLOT_BYTES].fill(rng.below(256) as u8),
        }
    }
    table
}

#[test]
fn random_damage_is_salvaged_alike() {
    let mut rng = Rng::announced("random damage");
    let (mut damaged, mut repeated, mut whole) = (0, 0, 0);
    for turn in 0..300 {
        let table = damaged_table(&mut rng);
        let printed = printed_by("cardsalvage", &table);
        assert!(
            printed == expected(&table),
            "table {turn}: {}",
            printed.errors
        );
        damaged += usize::from(printed.errors.contains("damaged"));
        repeated += usize::from(printed.errors.contains("repeated"));
        whole += usize::from(printed.out == table);
    }
    let each = [damaged, repeated, whole];
    assert!(each.iter().all(|number| *number > 20), "{each:?} of 300");
}

#[test]
fn input_may_come_in_pieces() {
    let mut table = by_requests();
    table[3 * SLOT_BYTES + 191] = 1;
    let expected_of_table = expected(&table);
    for size in [777, 4096, 4288, 10_001, 64_319] {
        let pieces: Vec<&[u8]> = table.chunks(size).collect();
        let printed = printed_in_pieces_by("cardsalvage", &pieces);
        assert!(printed == expected_of_table, "{size}");
    }
    let small = worn(course(1));
    let (first, rest) = small.split_at(1);
    for pieces in [[first, rest], [&[], &small]] {
        let printed = printed_in_pieces_by("cardsalvage", &pieces);
        assert!(printed == expected(&small));
    }
}

#[test]
fn a_last_byte_that_comes_late_counts() {
    let table = by_requests();
    let (most, last) = table.split_at(LARGEST - 1);
    let printed = printed_in_pieces_by("cardsalvage", &[most, last]);
    assert!(printed == expected(&table));
    for pieces in [&[&table[..], &[0]][..], &[&table, &[0], &table, &table]] {
        let late = printed_in_pieces_by("cardsalvage", pieces);
        assert_eq!(late.errors, "refused 102\n");
        assert!(late.out.is_empty());
    }
}
