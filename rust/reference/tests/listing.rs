//! The listing, as `cardlist` prints it.

mod common;

use common::{blank, call_for, mixed_table, mixed_without_hashes, right, setup, OwnFields};
use reference::{listing, Count};

fn text(table: &[u8]) -> String {
    String::from_utf8(listing(table)).expect("the listing is text")
}

#[test]
fn the_profiles_example_is_exact() {
    let mut table = blank(1);
    call_for(0, &mut table, 1, &setup(1, 5));
    assert_eq!(
        text(&table),
        "slot place hashes count length\n0 reserved 0 0 5\n"
    );
}

#[test]
fn every_place_has_its_word() {
    assert_eq!(
        text(&mixed_table()),
        "slot place hashes count length\n\
         0 enabled 2 257 33\n\
         1 reserved 0 0 7\n\
         2 disabled 8 259 4096\n\
         3 empty 0 0 0\n\
         4 enabled 1 0 9\n"
    );
}

#[test]
fn rights_without_a_hash_are_listed_with_0_hashes() {
    assert_eq!(
        text(&mixed_without_hashes()),
        "slot place hashes count length\n\
         0 enabled 0 257 33\n\
         1 reserved 0 0 7\n\
         2 disabled 0 259 4096\n\
         3 empty 0 0 0\n\
         4 enabled 0 0 9\n"
    );
}

/// The bit of a count is not shown: one that is used up and none are both 0.
#[test]
fn a_count_is_shown_as_its_number() {
    for (count, shown) in [
        (Count::NotKept, "0"),
        (Count::Kept(0), "0"),
        (Count::Kept(1), "1"),
        (Count::Kept(65_535), "65535"),
    ] {
        let mut table = blank(1);
        let installed = OwnFields {
            count,
            ..right(1, 3, 5)
        };
        call_for(0, &mut table, 1, &setup(1, 5));
        call_for(0, &mut table, 2, &installed);
        let line = format!("slot place hashes count length\n0 enabled 3 {shown} 5\n");
        assert_eq!(text(&table), line, "{count:?}");
    }
}

#[test]
fn fifteen_slots_are_numbered_from_0_to_14() {
    let listed = text(&blank(15));
    let lines: Vec<&str> = listed.lines().collect();
    assert_eq!(lines.len(), 16);
    assert_eq!(lines[1], "0 empty 0 0 0");
    assert_eq!(lines[10], "9 empty 0 0 0");
    assert_eq!(lines[15], "14 empty 0 0 0");
}

#[test]
fn refused_tables_are_one_line() {
    for length in [0, 1, 4_287, 4_289, 64_319, 64_321, 68_608] {
        assert_eq!(text(&vec![0; length]), "refused 102\n", "{length} bytes");
    }
    let mut table = blank(2);
    table[5000] = 1;
    assert_eq!(text(&table), "refused 103\n");
    // 102 is tested before 103
    table.pop();
    assert_eq!(text(&table), "refused 102\n");
}
