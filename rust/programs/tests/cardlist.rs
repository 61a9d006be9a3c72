//! The program `cardlist`, run on many tables and compared with the
//! reference's listing. Each comparison covers every byte that it prints.

mod running;
mod tables;

use random::Rng;
use reference::{listing, Count, Place, SLOT_BYTES};
use running::{printed_by, printed_in_pieces_by, Printed};
use tables::{any_table, by_requests, empty, reserved, right, LARGEST};

/// The listing that the program printed. It prints nothing to standard error.
fn listing_in(printed: Printed) -> String {
    assert_eq!(printed.errors, "");
    String::from_utf8(printed.out).expect("a listing is text")
}

fn printed(bytes: &[u8]) -> String {
    listing_in(printed_by("cardlist", bytes))
}

fn printed_in_pieces(pieces: &[&[u8]]) -> String {
    listing_in(printed_in_pieces_by("cardlist", pieces))
}

fn expected(bytes: &[u8]) -> String {
    String::from_utf8(listing(bytes)).expect("a listing is text")
}

/// Asserts that the listing is the reference's and begins with `start`.
fn lists(bytes: &[u8], start: &str, what: &str) {
    let printed = printed(bytes);
    assert_eq!(printed, expected(bytes), "{what}");
    assert!(printed.starts_with(start), "{what}: {printed}");
}

const HEADER: &str = "slot place hashes count length\n";

#[test]
fn the_profiles_example_is_exact() {
    assert_eq!(
        printed(&reserved(1, 5)),
        "slot place hashes count length\n0 reserved 0 0 5\n"
    );
}

#[test]
fn whole_tables_of_every_size_are_listed() {
    for slots in 1..=15 {
        lists(&empty().repeat(slots), HEADER, &format!("{slots} slots"));
    }
}

#[test]
fn other_sizes_are_102() {
    let around = (0..=16).flat_map(|slots| {
        let whole = slots * SLOT_BYTES;
        [whole.saturating_sub(1), whole + 1]
    });
    let beyond = [LARGEST + 2, 16 * SLOT_BYTES, 30 * SLOT_BYTES, 1_000_000];
    for size in around.chain(beyond) {
        lists(&vec![0; size], "refused 102\n", &format!("{size} bytes"));
    }
}

#[test]
fn a_byte_after_the_largest_table_is_102() {
    let mut table = by_requests();
    lists(&table, HEADER, "15 slots");
    table.push(0);
    lists(&table, "refused 102\n", "one byte more");
    table.extend(by_requests());
    lists(&table, "refused 102\n", "a table more");
    // 102 is tested before 103
    table[0] |= 3;
    lists(&table, "refused 102\n", "a damaged slot in it");
    table.truncate(SLOT_BYTES - 1);
    lists(&table, "refused 102\n", "less than the damaged slot");
}

#[test]
fn fifteen_slots_of_every_place_by_requests() {
    let table = by_requests();
    let printed = printed(&table);
    assert_eq!(printed, expected(&table));
    for word in [" empty ", " reserved ", " enabled ", " disabled "] {
        assert!(printed.contains(word), "{word} in {printed}");
    }
}

#[test]
fn fifteen_slots_of_every_place_by_hand() {
    let numbers = [0, 1, 9, 10, 99, 100, 999, 1000, 9999, 10_000, 65_535];
    let kept = numbers.map(Count::Kept);
    let counts = [&[Count::NotKept][..], &kept].concat();
    let lengths = [1, 9, 10, 99, 100, 999, 1000, 4095, 4096];
    for place in [Place::Enabled, Place::Disabled] {
        for (turn, &count) in counts.iter().enumerate() {
            let table: Vec<u8> = (0..15)
                .flat_map(|i| {
                    let at = usize::from(i) + turn;
                    match at % 5 {
                        0 => empty(),
                        1 => reserved(i, lengths[at % 9]),
                        _ => right(place, i, i % 9, count, lengths[at % 9]),
                    }
                })
                .collect();
            lists(&table, HEADER, &format!("{place:?}, {count:?}"));
        }
    }
}

/// The listing shows the number of a count, and not its bit.
#[test]
fn a_count_that_is_used_up_is_listed_as_0() {
    for count in [Count::NotKept, Count::Kept(0)] {
        assert_eq!(
            printed(&right(Place::Enabled, 1, 2, count, 5)),
            "slot place hashes count length\n0 enabled 2 0 5\n"
        );
    }
}

#[test]
fn the_longest_listing_is_whole() {
    let table: Vec<u8> = (0..15)
        .flat_map(|i| right(Place::Disabled, i, 8, Count::Kept(65_535), 4096))
        .collect();
    let printed = printed(&table);
    assert_eq!(printed, expected(&table));
    assert_eq!(printed.len(), 31 + 10 * 24 + 5 * 25);
}

/// What is wrong, the offset in the slot of the byte that makes it so, and what
/// that byte becomes.
type Damage = (&'static str, usize, u8);

const RESERVED_WITH: &[Damage] = &[
    ("the spare bit", 0, 0x41),
    ("the bit of a count", 0, 0x42),
    ("a hash count", 0, 0x44),
    ("a key", 11, 1),
    ("a count", 28, 1),
    ("length 0", 30, 0),
    ("a hash byte", 31, 1),
    ("a payload byte", 4287, 1),
];

/// Damage to a right of a kept count, two hashes and five payload bytes.
const ENABLED_WITH: &[Damage] = &[
    ("the spare bit", 0, 0x8B),
    ("a count without its bit", 0, 0x88),
    ("9 hashes", 0, 0xA6),
    ("length over 4,096", 29, 0x10),
    ("a byte after its hashes", 71, 1),
    ("byte 191", 191, 1),
    ("a byte after its payload", 197, 1),
];

const EMPTY_WITH: &[Damage] = &[
    ("the spare bit", 0, 1),
    ("the bit of a count", 0, 2),
    ("a handle", 1, 1),
    ("a length", 30, 1),
];

#[test]
fn a_damaged_slot_is_103() {
    let cases = [
        (reserved(9, 5), RESERVED_WITH),
        (right(Place::Enabled, 9, 2, Count::Kept(7), 5), ENABLED_WITH),
        (empty(), EMPTY_WITH),
    ];
    for (slot, damages) in cases {
        lists(&slot, HEADER, "the slot before");
        for (what, byte, value) in damages {
            for i in [0, 1, 14] {
                let mut table = empty().repeat(15);
                table[i * SLOT_BYTES..][..SLOT_BYTES].copy_from_slice(&slot);
                table[i * SLOT_BYTES + byte] = *value;
                lists(&table, "refused 103\n", &format!("{what} in slot {i}"));
            }
        }
    }
}

#[test]
fn two_slots_with_one_handle_are_103() {
    for (first, second) in [(0, 1), (0, 14), (7, 8), (13, 14)] {
        let mut slots: Vec<Vec<u8>> = (0..15).map(|i| reserved(i, 5)).collect();
        slots[second] = right(Place::Disabled, first as u8, 1, Count::Kept(2), 3);
        let what = format!("slots {first} and {second}");
        lists(&slots.concat(), "refused 103\n", &what);
    }
    // an empty slot has no handle, and ten zeros are a handle
    lists(&[reserved(0, 5), empty()].concat(), HEADER, "zeros");
}

#[test]
fn random_tables_are_listed() {
    let mut rng = Rng::announced("random tables");
    for turn in 0..150 {
        let table = any_table(&mut rng);
        lists(&table, HEADER, &format!("table {turn}"));
    }
}

#[test]
fn random_damage_is_judged_alike() {
    let mut rng = Rng::announced("random damage");
    let mut refused = 0;
    for turn in 0..150 {
        let mut table = any_table(&mut rng);
        let at = rng.below(table.len() / SLOT_BYTES) * SLOT_BYTES + rng.below(260);
        table[at] ^= 1 << rng.below(8);
        lists(&table, "", &format!("table {turn}, byte {at}"));
        refused += usize::from(expected(&table) == "refused 103\n");
    }
    assert!((30..120).contains(&refused), "{refused} of 150 are refused");
}

#[test]
fn input_may_come_in_pieces() {
    let table = by_requests();
    for size in [777, 4096, 4288, 10_001, 64_319] {
        let pieces: Vec<&[u8]> = table.chunks(size).collect();
        assert_eq!(printed_in_pieces(&pieces), expected(&table), "{size}");
    }
    let small = reserved(1, 5);
    let pieces: Vec<&[u8]> = small.chunks(40).collect();
    assert_eq!(printed_in_pieces(&pieces), expected(&small));
    let (first, rest) = small.split_at(1);
    assert_eq!(printed_in_pieces(&[first, rest]), expected(&small));
    assert_eq!(printed_in_pieces(&[&[], &small, &[]]), expected(&small));
}

#[test]
fn a_last_byte_that_comes_late_counts() {
    let table = by_requests();
    let (most, last) = table.split_at(LARGEST - 1);
    assert_eq!(printed_in_pieces(&[most, last]), expected(&table));
    let late = printed_in_pieces(&[&table, &[0]]);
    assert_eq!(late, "refused 102\n");
    let later = printed_in_pieces(&[&table, &[0], &table, &table]);
    assert_eq!(later, "refused 102\n");
}
