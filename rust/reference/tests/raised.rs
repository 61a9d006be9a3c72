//! Returns that would raise a count: status 9 (PROFILE 5.5).

mod common;

use common::{
    about, blank, body_bytes, call, call_for, frame_bytes, is_raised, lending, mixed_table,
    request_bytes, returning, right, setup, Given, OwnFields,
};
use reference::Count::{self, Kept, NotKept};
use reference::Status;

/// None, both ends of what a count can be, and numbers of one byte and of two.
const COUNTS: [Count; 8] = [
    NotKept,
    Kept(0),
    Kept(1),
    Kept(0xFF),
    Kept(0x100),
    Kept(0x8000),
    Kept(0xFFFE),
    Kept(0xFFFF),
];

/// A card of one slot: a right with this count, for use under ten bytes 1.
fn for_use(count: Count) -> Vec<u8> {
    let mut table = blank(1);
    call_for(0, &mut table, 1, &setup(1, 5));
    let fields = right(1, 2, 5);
    call_for(0, &mut table, 2, &OwnFields { count, ..fields });
    table
}

/// The same card when the right is lent, under ten bytes 2.
fn lent(count: Count) -> Vec<u8> {
    let mut table = for_use(count);
    call_for(0, &mut table, 4, &lending(1, 2));
    table
}

/// What a return of ten bytes 2 gives, and the table that it leaves.
fn returned(stored: Count, sent: Count) -> (Given, Vec<u8>) {
    let mut table = lent(stored);
    let given = call(&mut table, &frame_bytes(5, &returning(2, sent)));
    (given, table)
}

/// The reply to kind 5 with this status; nothing else of the buffer is written.
fn reply(status: u8) -> Given {
    Given {
        number: 0,
        reply: vec![0x25, status, 0, 0],
    }
}

/// The rows of the table in PROFILE 5.5, in their order.
#[test]
fn each_row_has_its_outcome() {
    let rows = [
        (NotKept, NotKept, 0),
        (NotKept, Kept(0), 9),
        (NotKept, Kept(1), 9),
        (NotKept, Kept(65_535), 9),
        (Kept(0), NotKept, 9),
        (Kept(1), NotKept, 9),
        (Kept(65_535), NotKept, 9),
        (Kept(0), Kept(0), 0),
        (Kept(1), Kept(0), 0),
        (Kept(1), Kept(1), 0),
        (Kept(65_535), Kept(0), 0),
        (Kept(65_535), Kept(1), 0),
        (Kept(65_535), Kept(65_534), 0),
        (Kept(65_535), Kept(65_535), 0),
        (Kept(0), Kept(1), 9),
        (Kept(0), Kept(65_535), 9),
        (Kept(1), Kept(2), 9),
        (Kept(1), Kept(65_535), 9),
        (Kept(65_534), Kept(65_535), 9),
    ];
    for (stored, sent, status) in rows {
        let (given, _) = returned(stored, sent);
        assert_eq!(given, reply(status), "{stored:?}, then {sent:?}");
    }
}

/// The numbers are compared whole: their high bytes, and without a sign.
#[test]
fn both_bytes_of_the_numbers_are_compared() {
    for (less, more) in [
        (0x00FF, 0x0100),
        (0x0102, 0x0201),
        (0x01FF, 0x0200),
        (0x7FFF, 0x8000),
        (0x00FF, 0xFF00),
    ] {
        assert_eq!(returned(Kept(less), Kept(more)).0, reply(9), "{less:04x}");
        assert_eq!(returned(Kept(more), Kept(less)).0, reply(0), "{less:04x}");
    }
}

#[test]
fn a_refused_return_changes_nothing_and_any_other_the_place_and_the_number() {
    for stored in COUNTS {
        for sent in COUNTS {
            let mut expected = lent(stored);
            let status = match is_raised(stored, sent) {
                true => 9,
                false => {
                    expected[0] -= 0x40;
                    expected[27..29].copy_from_slice(&sent.number().to_be_bytes());
                    0
                }
            };
            let (given, table) = returned(stored, sent);
            assert_eq!(given, reply(status), "{stored:?}, then {sent:?}");
            assert!(table == expected, "{stored:?}, then {sent:?}: the table");
        }
    }
}

/// One that was never lent, and one that was returned.
#[test]
fn an_enabled_record_takes_no_notice_of_the_count() {
    for stored in COUNTS {
        let mut back = lent(stored);
        call_for(0, &mut back, 5, &returning(2, stored));
        for (handle, before) in [(1, for_use(stored)), (2, back)] {
            for sent in COUNTS {
                let mut table = before.clone();
                let given = call(&mut table, &frame_bytes(5, &returning(handle, sent)));
                assert_eq!(given, reply(0), "{stored:?}, then {sent:?}");
                assert!(table == before, "{stored:?}, then {sent:?}: the table");
            }
        }
    }
}

/// Each return would raise a count, on a card whose right under 5 is lent with a
/// count of 0x103, and has the fault of an earlier test as well. Under 2 there is a
/// reservation, and under 9 nothing.
#[test]
fn status_9_comes_after_1_2_4_and_6() {
    let body = |handle| body_bytes(5, &returning(handle, Kept(0x104)));
    let rows = [
        (9, request_bytes(5, 0xC0, &body(5))),
        (6, request_bytes(5, 0xC0, &body(2))),
        (4, request_bytes(5, 0xC0, &body(9))),
        (2, request_bytes(5, 0x80, &body(5))),
        (1, request_bytes(5, 0x40, &body(5))),
        (2, request_bytes(5, 0xC0, &body(5)[..11])),
        (2, request_bytes(5, 0xC1, &body(5))),
    ];
    for (status, frame) in rows {
        let mut table = mixed_table();
        assert_eq!(call(&mut table, &frame), reply(status), "{frame:02x?}");
        assert!(table == mixed_table(), "{frame:02x?}");
    }
}

/// The right stays lent under its handle: it is not for use, and can be returned with
/// another count, or removed.
#[test]
fn a_right_that_was_not_taken_back_can_still_be_returned() {
    let mut table = lent(Kept(7));
    for sent in [Kept(8), NotKept, Kept(0xFFFF)] {
        call_for(9, &mut table, 5, &returning(2, sent));
        call_for(6, &mut table, 9, &about(2));
        call_for(6, &mut table, 3, &lending(2, 1));
    }
    call_for(0, &mut table.clone(), 6, &about(2));
    call_for(0, &mut table, 5, &returning(2, Kept(7)));
    call_for(0, &mut table, 9, &about(2));
}

/// Without its count being known: with a kept count of 0 if one is kept, and else
/// with none.
#[test]
fn whoever_has_the_handle_can_return_the_right() {
    for stored in COUNTS {
        let statuses = [Kept(0), NotKept].map(|sent| returned(stored, sent).0.reply[1]);
        let expected = if stored.is_kept() { [0, 9] } else { [9, 0] };
        assert_eq!(statuses, expected, "{stored:?}");
    }
}

#[test]
fn status_9_is_a_status_and_8_is_none() {
    assert_eq!(Status::CountRaised.number(), 9);
    assert_eq!(Status::from_number(9), Some(Status::CountRaised));
    for number in [8].into_iter().chain(10..=255) {
        assert_eq!(Status::from_number(number), None);
    }
}
