//! Counts: a case in the fields, and in bytes a bit and a number.

mod common;

use common::{
    about, blank, body_bytes, call, call_for, frame_bytes, is_raised, lending, mixed_table,
    request_bytes, returning, right, setup, OwnFields, FILLER,
};
use reference::ReadRequest::{Refused, Request};
use reference::{read_reply, read_request, slot, table, write_request};
use reference::{Count, Status, WriterFields};
use Count::{Kept, NotKept};

/// Counts that differ in their bit, in each byte of their number, or in both.
const COUNTS: [Count; 7] = [
    NotKept,
    Kept(0),
    Kept(1),
    Kept(0xFF),
    Kept(0x100),
    Kept(0x8000),
    Kept(0xFFFF),
];

fn installing(handle: u8, count: Count) -> OwnFields {
    OwnFields {
        count,
        ..right(handle, 2, 5)
    }
}

/// A table of one slot with a right for use under 1, which has this count.
fn table_with(count: Count) -> Vec<u8> {
    let mut table = blank(1);
    call_for(0, &mut table, 1, &setup(1, 5));
    call_for(0, &mut table, 2, &installing(1, count));
    table
}

/// The count in the one slot of a table, and its bytes.
fn held(table: &[u8]) -> (Count, u8, [u8; 2]) {
    let slot = &table::slots(table)[0];
    (slot::count(slot), table[0] & 0b11, [table[27], table[28]])
}

/// What [`held`] gives for a count.
fn as_held(count: Count) -> (Count, u8, [u8; 2]) {
    let bit = if count == NotKept { 0 } else { 2 };
    (count, bit, count.number().to_be_bytes())
}

#[test]
fn a_bit_and_a_number_say_a_count_or_none() {
    assert_eq!(Count::said(false, 0), Some(NotKept));
    for number in [1, 0xFF, 0x100, 0xFFFF] {
        assert_eq!(Count::said(false, number), None);
    }
    for number in [0, 1, 0xFF, 0x100, 0xFFFF] {
        assert_eq!(Count::said(true, number), Some(Kept(number)));
    }
    for count in COUNTS {
        assert_eq!(Count::said(count.is_kept(), count.number()), Some(count));
    }
}

/// A right that was lent for its last use comes back with a kept count of 0, and
/// the next reply still says that a count is kept.
#[test]
fn a_count_that_is_used_up_stays_used_up() {
    let mut table = table_with(Kept(1));
    assert_eq!(held(&table), as_held(Kept(1)));
    call_for(0, &mut table, 4, &lending(1, 2));
    call_for(0, &mut table, 5, &returning(2, Kept(0)));
    assert_eq!(held(&table), as_held(Kept(0)));
    for (kind, fields) in [(9, about(2)), (3, lending(2, 1))] {
        let reply = call_for(0, &mut table, kind, &fields);
        assert_eq!(reply[1], 0x80);
        let read = read_reply(&reply).expect("a reply");
        assert_eq!(read.fields.count, Kept(0));
    }
    assert_eq!(held(&table), as_held(Kept(0)));
}

#[test]
fn installation_stores_the_count_with_its_bit() {
    for count in COUNTS {
        let table = table_with(count);
        assert_eq!(held(&table), as_held(count));
        assert_eq!(table[0] & !0b11, 0x88, "place and hash count");
    }
}

/// Kind 5 stores what it was sent in a disabled record, where it may; in an enabled
/// one it changes nothing.
#[test]
fn a_return_stores_the_count_with_its_bit_once() {
    for before in COUNTS {
        for after in COUNTS {
            let mut table = table_with(before);
            let untouched = table.clone();
            call_for(0, &mut table, 5, &returning(1, after));
            assert!(table == untouched, "{before:?}, {after:?}: enabled");

            call_for(0, &mut table, 4, &lending(1, 2));
            assert_eq!(held(&table), as_held(before), "lent");
            if is_raised(before, after) {
                continue;
            }
            call_for(0, &mut table, 5, &returning(2, after));
            assert_eq!(held(&table), as_held(after), "{before:?}");
            assert_eq!(table[0] & !0b11, 0x88, "place and hash count");
            let returned = table.clone();
            for again in COUNTS {
                call_for(0, &mut table, 5, &returning(2, again));
                assert!(table == returned, "{after:?}, {again:?}: again");
            }
        }
    }
}

#[test]
fn lending_keeps_the_count_and_removal_clears_it() {
    for count in COUNTS {
        for kind in [3, 4] {
            let mut table = table_with(count);
            call_for(0, &mut table, kind, &lending(1, 2));
            assert_eq!(held(&table), as_held(count), "kind {kind}");
            call_for(0, &mut table, 6, &about(2));
            assert!(table == blank(1));
        }
        let mut table = table_with(count);
        call_for(0, &mut table, 6, &about(1));
        assert!(table == blank(1));
    }
}

/// The replies to kinds 3 and 9 say the count with its bit, and no other does.
#[test]
fn replies_say_the_count_with_its_bit() {
    for count in COUNTS {
        let bit = if count == NotKept { 0 } else { 0x80 };
        let rows = [
            (3, lending(1, 2), bit),
            (4, lending(1, 2), 0),
            (5, returning(1, Kept(3)), 0),
            (6, about(1), 0),
            (8, OwnFields::default(), 0),
            (9, about(1), bit),
        ];
        for (kind, fields, second) in rows {
            let reply = call_for(0, &mut table_with(count), kind, &fields);
            assert_eq!(reply[1], second, "kind {kind}, {count:?}");
            let told = read_reply(&reply).expect("a reply").fields.count;
            let expected = if kind == 3 || kind == 9 {
                count
            } else {
                NotKept
            };
            assert_eq!(told, expected, "kind {kind}");
        }
        // refusals have no bit, whatever the record's count
        for (kind, fields) in [(3, lending(1, 1)), (3, lending(9, 2)), (9, about(9))] {
            let given = call(&mut table_with(count), &frame_bytes(kind, &fields));
            assert!(given.reply[1] < 0x80 && given.reply.len() == 4);
        }
    }
}

/// The fields of a request of each kind that the reader takes.
fn sample(kind: u8, count: Count) -> OwnFields {
    match kind {
        2 => installing(1, count),
        5 => returning(1, count),
        8 => OwnFields::default(),
        _ => about(1),
    }
}

#[test]
fn requests_read_to_the_count_that_bit_and_number_say() {
    for kind in [2, 5] {
        for count in COUNTS {
            let fields = sample(kind, count);
            let body = body_bytes(kind, &fields);
            let bit = if count == NotKept { 0 } else { 0x40 };
            let frame = request_bytes(kind, 0x80 | bit, &body);
            assert!(matches!(read_request(&frame), Request(r) if r.fields == fields.lent()));
            // without its bit only 0 is a count, and it says that none is kept
            let frame = request_bytes(kind, 0x80, &body);
            match count.number() {
                0 => assert!(matches!(read_request(&frame), Request(r)
                    if r.fields.count == NotKept)),
                _ => assert_eq!(read_request(&frame), PARAMETER_FAILED),
            }
        }
    }
}

const PARAMETER_FAILED: reference::ReadRequest<'static> = Refused(Status::ParameterFailed);

/// Asserts status 2, by the reader and in the agent's reply.
fn assert_parameter_failed(frame: &[u8]) {
    assert_eq!(read_request(frame), PARAMETER_FAILED, "{frame:02x?}");
    let mut table = mixed_table();
    let given = call(&mut table, frame);
    assert_eq!((given.number, &given.reply[1..]), (0, &[2, 0, 0][..]));
    assert!(table == mixed_table());
}

/// For every other kind the bit is a zero bit, and it is tested before the kind,
/// the body length and the verdict.
#[test]
fn the_bit_in_other_kinds_is_2() {
    for kind in (0..32).filter(|kind| ![2, 5].contains(kind)) {
        let body = body_bytes(kind, &sample(kind, NotKept));
        for second in [0xC0, 0x40] {
            assert_parameter_failed(&request_bytes(kind, second, &body));
            assert_parameter_failed(&request_bytes(kind, second, &[]));
        }
        if !(1..=9).contains(&kind) {
            assert_eq!(read_request(&request_bytes(kind, 0x80, &body)), UNSUPPORTED);
        }
    }
}

const UNSUPPORTED: reference::ReadRequest<'static> = Refused(Status::RequestNotSupported);

#[test]
fn six_zero_bits_of_kinds_2_and_5_are_tested() {
    for kind in [2, 5] {
        let body = body_bytes(kind, &sample(kind, Kept(1)));
        for second in 0..=255 {
            let status = match second {
                0xC0 => None,
                0x40 | 0x00 => Some(Status::FieldIntegrityVerificationFailed),
                _ => Some(Status::ParameterFailed),
            };
            let frame = request_bytes(kind, second, &body);
            match status {
                None => assert!(matches!(read_request(&frame), Request(_))),
                Some(status) => assert_eq!(read_request(&frame), Refused(status)),
            }
        }
    }
}

/// A count without its bit comes after body length and verdict, and before
/// anything is looked up in the table.
#[test]
fn a_count_without_its_bit_is_2_in_its_order() {
    // absent, in a place that the request is not for, and right
    for handle in [9, 2, 1, 5] {
        for fields in [returning(handle, Kept(1)), returning(handle, Kept(0x100))] {
            let body = body_bytes(5, &fields);
            assert_parameter_failed(&request_bytes(5, 0x80, &body));
        }
        let too_long = right(handle, 1, 4096);
        assert_parameter_failed(&request_bytes(2, 0x80, &body_bytes(2, &too_long)));
    }
    for kind in [2, 5] {
        let body = body_bytes(kind, &sample(kind, Kept(1)));
        let integrity = Refused(Status::FieldIntegrityVerificationFailed);
        assert_eq!(read_request(&request_bytes(kind, 0, &body)), integrity);
        let short = &body[..body.len().min(29) - 1];
        for second in [0x00, 0x40, 0x80, 0xC0] {
            let frame = request_bytes(kind, second, short);
            assert_eq!(read_request(&frame), PARAMETER_FAILED);
        }
    }
}

/// The frame that the writer writes, or the number with which it refuses.
fn written(kind: u8, fields: &WriterFields<'_>) -> Result<Vec<u8>, u16> {
    let mut out = vec![FILLER; 200];
    match write_request(kind, fields, &mut out) {
        0 => {
            let body = usize::from(u16::from_be_bytes([out[2], out[3]]));
            let rest = out.split_off(4 + body);
            assert!(rest.iter().all(|&byte| byte == FILLER));
            Ok(out)
        }
        number => {
            assert!(out.iter().all(|&byte| byte == FILLER));
            assert_eq!(write_request(kind, fields, &mut []), number, "before 201");
            Err(number)
        }
    }
}

/// Every `kept` with counts of 0 and others, for every kind.
#[test]
fn the_writer_takes_a_count_with_its_bit() {
    for kind in 1..=9 {
        let own = sample(kind, NotKept);
        for count in [0, 1, 0xFF, 0x100, 0xFFFF] {
            for kept in 0..=255 {
                let fields = WriterFields {
                    count,
                    kept,
                    ..own.handed()
                };
                let has_count = kind == 2 || kind == 5;
                let said = match kept {
                    0 => count == 0,
                    1 => has_count,
                    _ => false,
                };
                let frame = OwnFields {
                    count: if kept == 1 { Kept(count) } else { NotKept },
                    ..own.clone()
                };
                let expected = match said {
                    true => Ok(frame_bytes(kind, &frame)),
                    false => Err(202),
                };
                assert_eq!(written(kind, &fields), expected, "{kind}, {count}, {kept}");
            }
        }
    }
}

#[test]
fn a_slot_of_every_count_is_read_as_it_was_written() {
    for count in COUNTS {
        let mut table = table_with(count);
        let reply = call_for(0, &mut table, 3, &lending(1, 2));
        let fields = read_reply(&reply).expect("a reply").fields;
        let content = right(1, 2, 5);
        assert_eq!((fields.key, fields.count), (content.key, count));
        assert_eq!(fields.hashes, content.hashes);
        assert_eq!(fields.payload, content.payload);
    }
}
