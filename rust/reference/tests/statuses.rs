//! The statuses of each kind, in the order of their tests, and what a success
//! does.

mod common;

use common::{
    about, blank, body_bytes, call, call_for, lending, mixed_table, request_bytes, returning,
    right, setup, OwnFields,
};
use reference::{read_reply, slot, table, Count, SLOT_BYTES};
use Count::Kept;

/// The handles of the mixed table, and one that is in no slot.
const ENABLED: u8 = 1;
const RESERVED: u8 = 2;
const DISABLED: u8 = 5;
const SECOND_ENABLED: u8 = 4;
const ABSENT: u8 = 9;

/// The status of each request on the mixed table; any but 0 changes nothing.
#[test]
fn statuses_of_requests_about_a_mixed_table() {
    let mut full = mixed_table();
    call_for(0, &mut full, 1, &setup(8, 1));
    let rows: &[(u8, OwnFields, u8)] = &[
        // 2 before 5 before 7
        (1, setup(ABSENT, 1), 0),
        (1, setup(ABSENT, 4096), 0),
        (1, setup(ENABLED, 0), 2),
        (1, setup(ENABLED, 4097), 5),
        (1, setup(RESERVED, 1), 5),
        (1, setup(DISABLED, 1), 5),
        (1, setup(ABSENT, 4097), 7),
        // the handle of zeros is in no slot, though an empty one is zero
        (1, setup(0, 1), 0),
        (6, about(0), 4),
        // 4 before 6 before 7
        (2, right(ABSENT, 1, 4096), 4),
        (2, right(ENABLED, 1, 4096), 6),
        (2, right(DISABLED, 1, 1), 6),
        (2, right(RESERVED, 1, 8), 7),
        (2, right(RESERVED, 8, 7), 0),
        (2, right(RESERVED, 1, 1), 0),
        // 4 before 6 before 5
        (3, lending(ABSENT, ENABLED), 4),
        (3, lending(RESERVED, RESERVED), 6),
        (3, lending(DISABLED, ABSENT), 6),
        (3, lending(ENABLED, ENABLED), 5),
        (3, lending(ENABLED, RESERVED), 5),
        (3, lending(ENABLED, DISABLED), 5),
        (3, lending(ENABLED, SECOND_ENABLED), 5),
        (3, lending(ENABLED, ABSENT), 0),
        (3, lending(ENABLED, 0), 0),
        (4, lending(ABSENT, ENABLED), 4),
        (4, lending(RESERVED, RESERVED), 6),
        (4, lending(DISABLED, ABSENT), 6),
        (4, lending(ENABLED, ENABLED), 5),
        (4, lending(ENABLED, RESERVED), 5),
        (4, lending(ENABLED, DISABLED), 5),
        (4, lending(ENABLED, SECOND_ENABLED), 5),
        (4, lending(ENABLED, ABSENT), 0),
        (5, returning(ABSENT, Kept(1)), 4),
        (5, returning(RESERVED, Kept(1)), 6),
        (5, returning(ENABLED, Kept(0xFFFF)), 0),
        // the right under it was lent with a count of 0x103
        (5, returning(DISABLED, Kept(0x103)), 0),
        (5, returning(DISABLED, Kept(0x104)), 9),
        (5, about(DISABLED), 9),
        (6, about(ABSENT), 4),
        (6, about(RESERVED), 6),
        (6, about(ENABLED), 0),
        (6, about(DISABLED), 0),
        (7, about(ABSENT), 4),
        (7, about(ENABLED), 6),
        (7, about(DISABLED), 6),
        (7, about(RESERVED), 0),
        (9, about(ABSENT), 4),
        (9, about(RESERVED), 6),
        (9, about(DISABLED), 6),
        (9, about(ENABLED), 0),
    ];
    for (kind, fields, status) in rows {
        let before = mixed_table();
        let mut after = before.clone();
        let reply = call_for(*status, &mut after, *kind, fields);
        assert_eq!(reply[0], 0x20 + kind);
        if *status != 0 {
            assert_eq!(reply.len(), 4);
            assert!(after == before, "kind {kind}, status {status}");
        }
    }
    // no empty slot
    call_for(7, &mut full, 1, &setup(ABSENT, 1));
    call_for(5, &mut full, 1, &setup(ENABLED, 1));
}

/// The mixed table with this change to the slot at `index`.
fn with_slot(index: usize, change: impl FnOnce(&mut [u8])) -> Vec<u8> {
    let mut table = mixed_table();
    change(&mut table[index * SLOT_BYTES..][..SLOT_BYTES]);
    table
}

/// What each success makes of the table, in every byte.
#[test]
fn successes_change_these_bytes_and_no_other() {
    let installed = right(RESERVED, 2, 5);
    let rows = [
        (
            1,
            setup(ABSENT, 0x0123),
            with_slot(3, |slot| {
                slot[0] = 0x40;
                slot[1..11].fill(ABSENT);
                slot[29..31].copy_from_slice(&[0x01, 0x23]);
            }),
        ),
        (
            2,
            installed.clone(),
            with_slot(1, |slot| {
                slot[0] = 0x80 + 2 * 4 + 2;
                slot[11..27].copy_from_slice(&installed.key);
                slot[27..29].copy_from_slice(&[0x01, 0x02]);
                slot[29..31].copy_from_slice(&[0, 5]);
                slot[31..71].copy_from_slice(&installed.hashes);
                slot[192..197].copy_from_slice(&installed.payload);
            }),
        ),
        (
            3,
            lending(ENABLED, ABSENT),
            with_slot(0, |slot| {
                slot[0] = 0xC0 + 2 * 4 + 2;
                slot[1..11].fill(ABSENT);
            }),
        ),
        (
            4,
            lending(SECOND_ENABLED, 0),
            with_slot(4, |slot| {
                slot[0] = 0xC0 + 4;
                slot[1..11].fill(0);
            }),
        ),
        (
            5,
            returning(DISABLED, Kept(0x00FE)),
            with_slot(2, |slot| {
                slot[0] = 0x80 + 8 * 4 + 2;
                slot[27..29].copy_from_slice(&[0x00, 0xFE]);
            }),
        ),
        (5, returning(ENABLED, Kept(0x0A0B)), mixed_table()),
        (6, about(ENABLED), with_slot(0, |slot| slot.fill(0))),
        (6, about(DISABLED), with_slot(2, |slot| slot.fill(0))),
        (7, about(RESERVED), with_slot(1, |slot| slot.fill(0))),
        (8, OwnFields::default(), mixed_table()),
        (9, about(ENABLED), mixed_table()),
    ];
    for (kind, fields, expected) in rows {
        let mut table = mixed_table();
        call_for(0, &mut table, kind, &fields);
        assert!(table == expected, "kind {kind}");
    }
}

#[test]
fn bodies_of_successes() {
    let one = right(ENABLED, 2, 33);
    let rows = [
        (
            3,
            0x80,
            lending(ENABLED, ABSENT),
            body_bytes(2, &one)[10..].to_vec(),
        ),
        (4, 0, lending(ENABLED, ABSENT), one.key.to_vec()),
        (
            9,
            0x80,
            about(ENABLED),
            [&one.count.number().to_be_bytes()[..], &one.payload].concat(),
        ),
    ];
    for (kind, second, fields, body) in rows {
        let reply = call_for(0, &mut mixed_table(), kind, &fields);
        assert_eq!(reply, request_bytes(kind, second, &body), "kind {kind}");
    }
}

/// The listed handles' first bytes, and whether there are more.
fn list(table: &mut [u8], limit: u16, hashes: &[u8]) -> (Vec<u8>, bool) {
    let query = OwnFields {
        limit,
        hashes: hashes.iter().flat_map(|&hash| [hash; 20]).collect(),
        ..OwnFields::default()
    };
    let before = table.to_vec();
    let reply = call_for(0, table, 8, &query);
    assert!(table == before);
    let fields = read_reply(&reply).expect("a reply").fields;
    let firsts = fields.handles.chunks(10).map(|handle| handle[0]).collect();
    (firsts, fields.more)
}

#[test]
fn lists_of_the_mixed_table() {
    let mut table = mixed_table();
    let both = vec![ENABLED, SECOND_ENABLED];
    assert_eq!(list(&mut table, 0, &[]), (both.clone(), false));
    assert_eq!(list(&mut table, 20, &[]), (both.clone(), false));
    assert_eq!(list(&mut table, 0xFFFF, &[]), (both, false));
    assert_eq!(list(&mut table, 19, &[]), (vec![ENABLED], true));
    assert_eq!(list(&mut table, 10, &[]), (vec![ENABLED], true));
    assert_eq!(list(&mut table, 9, &[]), (vec![], true));
    assert_eq!(list(&mut table, 1, &[]), (vec![], true));
    // the first record has hashes 1 and 2, the last one 9, and a disabled one
    // has 1 to 8
    assert_eq!(list(&mut table, 0, &[1]), (vec![ENABLED], false));
    assert_eq!(list(&mut table, 0, &[2]), (vec![ENABLED], false));
    assert_eq!(list(&mut table, 0, &[7, 2, 2, 1]), (vec![ENABLED], false));
    assert_eq!(list(&mut table, 0, &[9]), (vec![SECOND_ENABLED], false));
    let both = vec![ENABLED, SECOND_ENABLED];
    assert_eq!(list(&mut table, 0, &[9, 1]), (both, false));
    assert_eq!(list(&mut table, 10, &[9, 1]), (vec![ENABLED], true));
    assert_eq!(list(&mut table, 9, &[1]), (vec![], true));
    assert_eq!(list(&mut table, 0, &[3]), (vec![], false));
    // zeros in unused hash bytes are not a hash
    assert_eq!(list(&mut table, 0, &[0]), (vec![], false));
    assert_eq!(list(&mut table, 1, &[0]), (vec![], false));
}

#[test]
fn lists_are_in_slot_order_with_15_handles() {
    let mut table = blank(15);
    for handle in (0..15).rev() {
        call_for(0, &mut table, 1, &setup(handle, 9));
        call_for(0, &mut table, 2, &right(handle, 1 + handle % 3, 9));
    }
    let all: Vec<u8> = (0..15).rev().collect();
    assert_eq!(list(&mut table, 0, &[]), (all.clone(), false));
    assert_eq!(list(&mut table, 150, &[]), (all.clone(), false));
    assert_eq!(list(&mut table, 149, &[]), (all[..14].to_vec(), true));
    assert_eq!(list(&mut table, 0, &[1]), (all.clone(), false));
    let third: Vec<u8> = all.iter().copied().filter(|h| h % 3 == 2).collect();
    assert_eq!(list(&mut table, 0, &[3]), (third, false));
    let any: Vec<u8> = all.iter().copied().filter(|h| h % 3 != 0).collect();
    assert_eq!(list(&mut table, 0, &[3, 2]), (any, false));
}

#[test]
fn a_hash_of_zeros_is_a_hash() {
    let mut table = blank(1);
    let zero_hash = OwnFields {
        hashes: vec![0; 20],
        ..right(1, 0, 3)
    };
    call_for(0, &mut table, 1, &setup(1, 3));
    call_for(0, &mut table, 2, &zero_hash);
    assert_eq!(list(&mut table, 0, &[0]), (vec![1], false));
    assert_eq!(list(&mut table, 0, &[5]), (vec![], false));
}

#[test]
fn frames_that_are_no_request_are_answered_with_their_kind() {
    let rows: &[(&[u8], [u8; 4])] = &[
        (&[0xE1, 0x80, 0, 0], [0x21, 2, 0, 0]),
        (&[0x1F, 0x80, 0, 0], [0x3F, 2, 0, 0]),
        (&[0x29, 0x40, 0, 0], [0x29, 2, 0, 0]),
        (&[0x20, 0x00, 0, 0], [0x20, 3, 0, 0]),
        (&[0x3F, 0x80, 0, 0], [0x3F, 3, 0, 0]),
        (&[0x22, 0x00, 0, 1, 0], [0x22, 2, 0, 0]),
    ];
    for (frame, reply) in rows {
        let mut table = mixed_table();
        let given = call(&mut table, frame);
        assert_eq!((given.number, &given.reply[..]), (0, &reply[..]));
        assert!(table == mixed_table());
    }
}

#[test]
fn verdict_0_is_1_for_kinds_1_to_7_before_any_look_at_the_table() {
    for kind in 1..=9 {
        let fields = match kind {
            1 => setup(ENABLED, 0),
            2 => right(ABSENT, 1, 4096),
            8 => OwnFields::default(),
            _ => about(ENABLED),
        };
        let frame = request_bytes(kind, 0, &body_bytes(kind, &fields));
        let mut table = mixed_table();
        let given = call(&mut table, &frame);
        let status = if kind <= 7 { 1 } else { 0 };
        assert_eq!((given.number, given.reply[1] % 128), (0, status));
        assert!(table == mixed_table());
    }
}

#[test]
fn a_whole_loan_with_retrieval() {
    let mut table = mixed_table();
    let before = slot::count(&table::slots(&table)[0]);
    call_for(0, &mut table, 3, &lending(ENABLED, ABSENT));
    assert_eq!(slot::count(&table::slots(&table)[0]), before);
    call_for(0, &mut table, 5, &returning(ABSENT, Kept(3)));
    call_for(0, &mut table, 5, &returning(ABSENT, Kept(2)));
    assert_eq!(slot::count(&table::slots(&table)[0]), Kept(3));
    call_for(4, &mut table, 5, &returning(ENABLED, Kept(3)));
}
