//! The turning of old tables: those in which no count has a bit, and a count of
//! 0 says that none is kept (PROFILE 2.7).

use cavernlull::{CallError, Card, Handle, Listing, Reply, Request, TurnError, Verdict};
use cavernlull::{MOST_SLOTS, REPLY_ROOM, SLOT_BYTES};

const EMPTY: u8 = 0;
const RESERVED: u8 = 1;
const ENABLED: u8 = 2;
const DISABLED: u8 = 3;

/// A slot of an old table. A right has one hash and a payload of one byte.
fn old_slot(place: u8, handle: u8, count: u16) -> Vec<u8> {
    let mut slot = vec![0; SLOT_BYTES];
    if place == EMPTY {
        return slot;
    }
    slot[0] = place << 6;
    slot[1..11].fill(handle);
    slot[30] = 1;
    if place != RESERVED {
        slot[0] |= 1 << 2;
        slot[11..27].fill(0xC5);
        slot[27..29].copy_from_slice(&count.to_be_bytes());
        slot[31..51].fill(0xA1);
        slot[192] = 0xEE;
    }
    slot
}

/// An old table with every place, and with counts whose bytes are 0 or not.
fn old_table() -> Vec<u8> {
    [
        old_slot(ENABLED, 1, 0x0100),
        old_slot(ENABLED, 2, 0),
        old_slot(EMPTY, 0, 0),
        old_slot(DISABLED, 3, 1),
        old_slot(RESERVED, 4, 0),
        old_slot(DISABLED, 5, 0),
        old_slot(ENABLED, 6, 0xFFFF),
    ]
    .concat()
}

/// Asserts that the bytes are not turned, for this reason, and stay as they
/// were.
fn assert_not_turned(table: &[u8], error: TurnError) {
    let mut card = Card::from(table.to_vec());
    assert_eq!(card.turn(), Err(error));
    assert!(card.table() == table);
}

#[test]
fn each_count_gets_its_bit_and_no_other_byte_changes() {
    let mut expected = old_table();
    for slot in [0, 3, 6] {
        expected[slot * SLOT_BYTES] |= 2;
    }
    let mut card = Card::from(old_table());
    assert_eq!(card.turn(), Ok(()));
    assert!(card.table() == expected);
    assert_eq!(
        card.listing().as_str(),
        "slot place hashes count length\n0 enabled 1 256 1\n1 enabled 1 0 1\n2 empty 0 0 0\n\
         3 disabled 1 1 1\n4 reserved 0 0 1\n5 disabled 1 0 1\n6 enabled 1 65535 1\n"
    );
    for (handle, count) in [(1, Some(0x0100)), (2, None), (6, Some(0xFFFF))] {
        let handle = Handle([handle; 10]);
        let query = Request::RightsInformationQuery { handle };
        let payload = vec![0xEE];
        let told = Reply::Information { count, payload };
        assert_eq!(card.call(&query, Verdict::Held), Ok(told));
    }
}

#[test]
fn a_lent_table_is_turned_in_place() {
    let mut memory = [&[0xEE][..], &old_table(), &[0xEE]].concat();
    let end = memory.len() - 1;
    assert_eq!(Card::over(&mut memory[1..end]).turn(), Ok(()));
    assert_eq!((memory[0], memory[end]), (0xEE, 0xEE));
    assert_eq!(memory[1], ENABLED << 6 | 1 << 2 | 2);
}

/// The agent and the listing refuse an old table with a count until it is
/// turned. An old table without counts is a table.
#[test]
fn an_old_table_is_refused_where_it_has_counts() {
    let frame = [0x28, 0x80, 0, 3, 0, 0, 0];
    let mut reply = [0; REPLY_ROOM];
    let mut card = Card::from(old_table());
    let refused = card.call_frame(&frame, &mut reply);
    assert_eq!(refused, Err(CallError::TableNotWellFormed));
    assert_eq!(card.listing().as_str(), "refused 103\n");
    card.turn().unwrap();
    assert!(card.call_frame(&frame, &mut reply).is_ok());
    let without = [old_slot(ENABLED, 2, 0), old_slot(RESERVED, 4, 0)].concat();
    assert!(Card::from(without).call_frame(&frame, &mut reply).is_ok());
}

/// A table in which a count is kept is not turned again, also where it is 0.
/// One without counts may be, and stays as it is.
#[test]
fn a_table_is_turned_once() {
    let mut card = Card::from(old_table());
    card.turn().unwrap();
    assert_not_turned(card.table(), TurnError::TableNotWellFormed);
    let mut used_up = old_slot(ENABLED, 1, 0);
    used_up[0] |= 2;
    assert!(!Listing::of(&used_up).as_str().starts_with("refused"));
    assert_not_turned(&used_up, TurnError::TableNotWellFormed);
    for slots in 1..=MOST_SLOTS {
        let mut without = Card::blank(slots);
        assert_eq!((without.turn(), without.turn()), (Ok(()), Ok(())));
        assert!(without.table() == vec![0; slots * SLOT_BYTES]);
    }
}

#[test]
fn what_is_no_old_table_is_not_turned() {
    for length in [0, 1, SLOT_BYTES - 1, SLOT_BYTES + 1, 16 * SLOT_BYTES] {
        assert_not_turned(&vec![0; length], TurnError::TableLength);
        assert_not_turned(&vec![0xFF; length], TurnError::TableLength);
    }
    // Each byte by itself spoils a table, in its last slot too; the counts
    // before it get no bit.
    let table = old_table();
    let last = table.len() - SLOT_BYTES;
    for (at, byte) in [
        (0, 0x85),
        (0, 0x86),
        (last, 0x85),
        (last, 0x86),
        (last, 0xA4),
        (last + 51, 1),
        (last + 191, 1),
        (last + SLOT_BYTES - 1, 1),
        (last + 29, 0x10),
        (4 * SLOT_BYTES, 0x42),
        (4 * SLOT_BYTES + 28, 1),
        (2 * SLOT_BYTES, 0x02),
        (2 * SLOT_BYTES + 28, 1),
    ] {
        let mut spoiled = table.clone();
        spoiled[at] = byte;
        assert_not_turned(&spoiled, TurnError::TableNotWellFormed);
    }
    let twice = [old_slot(ENABLED, 1, 9), old_slot(RESERVED, 1, 0)].concat();
    assert_not_turned(&twice, TurnError::TableNotWellFormed);
}
