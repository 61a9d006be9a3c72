//! Rights without a hash: no request installs one, and those that a card holds
//! stay what they are (PROFILE 2.9, 5.2, 8.6).

mod common;

use common::{
    about, blank, call, call_for, call_from, frame_bytes, lending, mixed_table,
    mixed_without_hashes, request_bytes, returning, right, setup, take_hashes, Asker, OwnFields,
    NEW,
};
use random::Rng;
use reference::slot::{self, SlotBytes};
use reference::{read_reply, table, well_formed, write_request, Count, Key, Place};
use reference::{HASH_BYTES, MAX_SLOTS, SLOT_BYTES};
use std::collections::BTreeSet;

/// The handles of the mixed tables, and one that is in no slot.
const ENABLED: u8 = 1;
const RESERVED: u8 = 2;
const SECOND_ENABLED: u8 = 4;
const DISABLED: u8 = 5;
const ABSENT: u8 = 9;

/// The slots of the mixed tables that hold the right under each handle.
const SLOT_OF_ENABLED: usize = 0;
const SLOT_OF_DISABLED: usize = 2;
const SLOT_OF_SECOND: usize = 4;

/// Asserts that an installation is answered with this status, and changes nothing.
fn assert_not_installed(status: u8, second: u8, fields: &OwnFields) {
    let body = common::body_bytes(2, fields);
    let mut table = mixed_table();
    let given = call(&mut table, &request_bytes(2, second, &body));
    assert_eq!((given.number, given.reply), (0, vec![0x22, status, 0, 0]));
    assert!(table == mixed_table());
}

/// With a hash the same request succeeds, or is refused for its handle, its
/// record's place or its payload; without one it is 2 before all of these, and 1
/// where the verdict is 0.
#[test]
fn a_missing_hash_is_tested_after_the_verdict_and_before_the_table() {
    let rows = [
        (RESERVED, 7, 0),
        (ABSENT, 7, 4),
        (ENABLED, 7, 6),
        (DISABLED, 7, 6),
        (RESERVED, 8, 7),
    ];
    for (handle, payload, status) in rows {
        call_for(status, &mut mixed_table(), 2, &right(handle, 1, payload));
        let unhashed = right(handle, 0, payload);
        assert_not_installed(2, 0xC0, &unhashed);
        assert_not_installed(1, 0x40, &unhashed);
        assert_not_installed(2, 0x80, &unhashed); // the count has lost its bit
        assert_not_installed(2, 0x60, &unhashed); // a zero bit is set
    }
}

#[test]
fn a_reservation_outlasts_an_installation_without_a_hash() {
    let mut table = mixed_table();
    call_for(2, &mut table, 2, &right(RESERVED, 0, 7));
    call_for(0, &mut table, 2, &right(RESERVED, 1, 7));
    assert_eq!(slot::hash_count(&table::slots(&table)[1]), 1);
}

/// The listed handles' first bytes.
fn list(table: &[u8], hashes: Vec<u8>) -> Vec<u8> {
    let query = OwnFields {
        hashes,
        ..OwnFields::default()
    };
    let reply = call_for(0, &mut table.to_vec(), 8, &query);
    let handles = read_reply(&reply).expect("a reply").fields.handles;
    handles.chunks(10).map(|handle| handle[0]).collect()
}

/// The zeros where hashes would stand are no hash of theirs.
#[test]
fn they_are_listed_with_all_and_by_no_hash() {
    let hashed = mixed_table();
    let unhashed = mixed_without_hashes();
    assert_eq!(list(&unhashed, vec![]), [ENABLED, SECOND_ENABLED]);
    for hash in [0, 1, 2, 9, 0xFF] {
        assert_eq!(list(&unhashed, vec![hash; HASH_BYTES]), [0; 0]);
    }
    let eight: Vec<u8> = (0..8).flat_map(|hash| [hash; HASH_BYTES]).collect();
    assert_eq!(list(&hashed, eight.clone()), [ENABLED]);
    assert_eq!(list(&unhashed, eight), [0; 0]);

    let mut one_of_two = hashed;
    take_hashes(&mut one_of_two, SLOT_OF_ENABLED);
    assert_eq!(list(&one_of_two, vec![]), [ENABLED, SECOND_ENABLED]);
    assert_eq!(list(&one_of_two, vec![9; HASH_BYTES]), [SECOND_ENABLED]);
    assert_eq!(list(&one_of_two, vec![1; HASH_BYTES]), [0; 0]);
}

/// The table without hashes, with this change to the slot at `index`.
fn with_slot(index: usize, change: impl FnOnce(&mut [u8])) -> Vec<u8> {
    let mut table = mixed_without_hashes();
    change(&mut table[index * SLOT_BYTES..][..SLOT_BYTES]);
    table
}

/// Asserts the reply to a request about a right without a hash, and the table
/// that it leaves.
fn assert_carried_out(kind: u8, fields: &OwnFields, reply: &[u8], expected: &[u8]) {
    let mut table = mixed_without_hashes();
    assert_eq!(call_for(0, &mut table, kind, fields), reply, "kind {kind}");
    assert!(table == expected, "kind {kind}");
    assert!(well_formed(&table));
}

#[test]
fn they_are_read_like_any_other() {
    let one = right(ENABLED, 0, 33);
    let body = [&one.count.number().to_be_bytes()[..], &one.payload].concat();
    let reply = request_bytes(9, 0x80, &body);
    assert_carried_out(9, &about(ENABLED), &reply, &mixed_without_hashes());
}

#[test]
fn they_are_lent_like_any_other() {
    let lent = with_slot(SLOT_OF_SECOND, |slot| {
        slot[0] = 0xC0;
        slot[1..11].fill(ABSENT);
    });
    let reply = request_bytes(4, 0, &right(SECOND_ENABLED, 0, 9).key);
    assert_carried_out(4, &lending(SECOND_ENABLED, ABSENT), &reply, &lent);
}

/// The reply has the hash byte 0 and no hashes. The reader takes it, and the
/// writer does not take what was read for an installation.
#[test]
fn they_are_retrieved_like_any_other_and_installed_nowhere() {
    let one = right(ENABLED, 0, 33);
    let lent = with_slot(SLOT_OF_ENABLED, |slot| {
        slot[0] = 0xC2;
        slot[1..11].fill(ABSENT);
    });
    let body = common::body_bytes(2, &one)[10..].to_vec();
    assert_eq!(body[18], 0);
    let reply = request_bytes(3, 0x80, &body);
    assert_carried_out(3, &lending(ENABLED, ABSENT), &reply, &lent);

    let read = read_reply(&reply).expect("a reply").fields;
    assert_eq!((read.key, read.count), (one.key, one.count));
    assert_eq!((read.hashes, read.payload), (&[][..], &one.payload[..]));
    let again = OwnFields {
        handle: [RESERVED; 10],
        ..one
    };
    assert_eq!(write_request(2, &again.handed(), &mut [0; 100]), 202);
}

/// A return stores the count, which is at most 0x103, and once only.
#[test]
fn they_are_returned_like_any_other() {
    for count in [0x103, 0xFE, 0].map(Count::Kept) {
        let returned = with_slot(SLOT_OF_DISABLED, |slot| {
            slot[0] = 0x82;
            slot[27..29].copy_from_slice(&count.number().to_be_bytes());
        });
        let reply = [0x25, 0, 0, 0];
        assert_carried_out(5, &returning(DISABLED, count), &reply, &returned);
        let same = mixed_without_hashes();
        assert_carried_out(5, &returning(ENABLED, count), &reply, &same);
    }
}

#[test]
fn they_are_removed_like_any_other() {
    for (handle, index) in [(ENABLED, SLOT_OF_ENABLED), (DISABLED, SLOT_OF_DISABLED)] {
        let removed = with_slot(index, |slot| slot.fill(0));
        assert_carried_out(6, &about(handle), &[0x26, 0, 0, 0], &removed);
    }
}

/// The refusals too are those of any other right.
#[test]
fn they_are_refused_like_any_other() {
    let rows = [
        (1, setup(ENABLED, 1), 5),
        (1, setup(DISABLED, 1), 5),
        (2, right(ENABLED, 1, 1), 6),
        (2, right(ENABLED, 0, 1), 2),
        (3, lending(DISABLED, NEW), 6),
        (3, lending(ENABLED, ENABLED), 5),
        (4, lending(ENABLED, DISABLED), 5),
        (7, about(ENABLED), 6),
        (7, about(DISABLED), 6),
        (9, about(DISABLED), 6),
    ];
    for (kind, fields, status) in rows {
        let mut table = mixed_without_hashes();
        call_for(status, &mut table, kind, &fields);
        assert!(table == mixed_without_hashes(), "kind {kind}");
    }
}

/// Whether the slot holds a right, for use or lent.
fn holds_a_right(slot: &SlotBytes) -> bool {
    slot::place(slot) >= Place::Enabled
}

/// The rights without a hash: the slot, the key and the payload of each. These no
/// call changes (PROFILE 8.6).
fn unhashed(table: &[u8]) -> BTreeSet<(usize, Key, Vec<u8>)> {
    let slots = table::slots(table).iter().enumerate();
    slots
        .filter(|(_, slot)| holds_a_right(slot) && slot::hash_count(slot) == 0)
        .map(|(index, slot)| (index, slot::key(slot), slot::payload(slot).to_vec()))
        .collect()
}

/// Asserts that each right for use is found by course: a query for any of its
/// hashes lists it. Gives how many hashes were asked for.
fn assert_found_by_course(table: &[u8]) -> usize {
    let mut asked = 0;
    for slot in table::slots(table) {
        if slot::place(slot) == Place::Enabled {
            for hash in slot::hashes(slot).chunks(HASH_BYTES) {
                let query = OwnFields {
                    hashes: hash.to_vec(),
                    ..OwnFields::default()
                };
                let reply = call_for(0, &mut table.to_vec(), 8, &query);
                let handles = read_reply(&reply).expect("a list").fields.handles;
                let handle = slot::handle(slot);
                assert!(handles.chunks(10).any(|listed| listed == handle));
                asked += 1;
            }
        }
    }
    asked
}

/// From blank tables every right has a hash, whatever is sent, and each right for
/// use is found by each of its hashes.
#[test]
fn from_a_blank_table_every_right_is_found_by_course() {
    let mut rng = Rng::announced("rights found by course");
    let (mut asked, mut refused) = (0, 0);
    for slots in 1..=MAX_SLOTS {
        let asker = Asker::new(slots + 2);
        let mut table = blank(slots);
        for call in 0..900 {
            let frame = asker.frame(&mut rng);
            let before = table.clone();
            call_from(rng.below(slots) as u64, &mut table, &frame);
            assert!(unhashed(&table).is_empty(), "{frame:02x?}");
            refused += usize::from(would_be_installed(&before, &frame));
            if call % 10 == 0 {
                asked += assert_found_by_course(&table);
            }
        }
    }
    assert!(asked > 1_000, "{asked} hashes asked for");
    assert!(refused > 20, "{refused} refused for the hash alone");
}

/// Whether a frame is an installation without a hash that is right but for that:
/// with one hash more this table takes it.
fn would_be_installed(table: &[u8], frame: &[u8]) -> bool {
    if frame.len() < 34 || frame[0] != 0x22 || frame[32] != 0 {
        return false;
    }
    let mut body = frame[4..].to_vec();
    body[28] = 0x10;
    body.splice(29..29, [1; HASH_BYTES]);
    let hashed = request_bytes(2, frame[1], &body);
    let given = call(&mut table.to_vec(), &hashed);
    frame.len() - 4 == usize::from(u16::from_be_bytes([frame[2], frame[3]]))
        && (given.number, &given.reply[..2]) == (0, &[0x22, 0])
}

/// On tables that hold rights without a hash no other one comes, though all of
/// them may be lent, returned and removed.
#[test]
fn no_call_brings_a_right_without_a_hash() {
    let mut rng = Rng::announced("rights without a hash");
    let (mut gone, mut moved) = (0, 0);
    for round in 0..60 {
        let mut table = [mixed_without_hashes(), blank(1 + round % 4)].concat();
        other_places(&mut rng, &mut table);
        let slots = table.len() / SLOT_BYTES;
        let asker = Asker::new(slots + 2);
        for _ in 0..200 {
            let frame = asker.frame(&mut rng);
            let before = table.clone();
            call_from(rng.below(slots) as u64, &mut table, &frame);
            let (held, left) = (unhashed(&before), unhashed(&table));
            assert!(left.is_subset(&held), "{frame:02x?}");
            gone += held.len() - left.len();
            moved += usize::from(before != table && held == left);
        }
    }
    assert!(gone > 100, "{gone} removed");
    assert!(
        moved > 1_000,
        "{moved} calls that changed the table otherwise"
    );
}

/// Gives the rights of a table other places and counts, so that it is not only
/// enabled ones that have no hash.
fn other_places(rng: &mut Rng, table: &mut [u8]) {
    for slot in table.chunks_mut(SLOT_BYTES) {
        if slot[0] >= 0x80 {
            slot[0] = rng.pick(&[0x80, 0x82, 0xC0, 0xC2]);
            slot[27..29].fill(0);
        }
    }
    assert!(well_formed(table));
}

/// Case 22 of the card profile, and every payload that a reservation has room for.
#[test]
fn no_payload_makes_up_for_the_hash() {
    for payload in (1..=45).chain([4095, 4096]) {
        let mut table = blank(1);
        call_for(0, &mut table, 1, &setup(1, 4096));
        let before = table.clone();
        let given = call(&mut table, &frame_bytes(2, &right(1, 0, payload)));
        assert_eq!(given.reply, [0x22, 2, 0, 0]);
        assert!(table == before);
    }
}
