//! The reply reader.

mod common;

use common::request_bytes;
use reference::{read_reply, Count, Reply, ReplyFields, Status};

/// A reply frame, put together without the library.
fn reply_bytes(kind: u8, status: u8, body: &[u8]) -> Vec<u8> {
    // replies and requests differ in the second byte only
    request_bytes(kind, status, body)
}

fn accepted(kind: u8, status: u8, body: &[u8]) -> bool {
    let frame = reply_bytes(kind, status, body);
    let read = read_reply(&frame);
    assert!(read.is_ok() || read == Err(203));
    read.is_ok()
}

#[test]
fn fields_of_each_success() {
    let none = ReplyFields::default();
    let hashes = [4; 40];
    let content = [&[3; 16][..], &[1, 2, 0x20], &hashes, &[5, 6]].concat();
    let handles = [9; 20];
    let information = ReplyFields {
        payload: &[3],
        ..none
    };
    let rows: &[(u8, u8, &[u8], ReplyFields)] = &[
        (1, 0, &[], none),
        (2, 0, &[], none),
        (
            3,
            0x80,
            &content,
            ReplyFields {
                key: [3; 16],
                count: Count::Kept(0x0102),
                hashes: &hashes,
                payload: &[5, 6],
                ..none
            },
        ),
        (
            4,
            0,
            &[7; 16],
            ReplyFields {
                key: [7; 16],
                ..none
            },
        ),
        (5, 0, &[], none),
        (6, 0, &[], none),
        (7, 0, &[], none),
        (8, 0, &[0], none),
        (8, 0, &[0x80], ReplyFields { more: true, ..none }),
        (
            8,
            0,
            &[&[0x80][..], &handles].concat(),
            ReplyFields {
                more: true,
                handles: &handles,
                ..none
            },
        ),
        (
            9,
            0x80,
            &[1, 2, 3],
            ReplyFields {
                count: Count::Kept(0x0102),
                ..information
            },
        ),
        (
            9,
            0x80,
            &[0, 0, 3],
            ReplyFields {
                count: Count::Kept(0),
                ..information
            },
        ),
        (9, 0, &[0, 0, 3], information),
    ];
    for &(kind, second, body, fields) in rows {
        let status = Status::Success;
        assert_eq!(
            read_reply(&reply_bytes(kind, second, body)),
            Ok(Reply {
                kind,
                status,
                fields
            })
        );
    }
}

#[test]
fn a_status_other_than_0_has_an_empty_body_and_any_kind() {
    for kind in 0..32 {
        for number in [1, 2, 3, 4, 5, 6, 7, 9] {
            let frame = reply_bytes(kind, number, &[]);
            let reply = read_reply(&frame).expect("a refusal");
            assert_eq!((reply.kind, reply.status.number()), (kind, number));
            assert_eq!(reply.fields, ReplyFields::default());
            for body in [1, 10, 16, 20] {
                assert!(!accepted(kind, number, &vec![0; body]));
            }
        }
        // 8 and 10 to 127 are no status, and a refusal has no count
        for number in [8].into_iter().chain(10..=255) {
            assert!(!accepted(kind, number, &[]), "status {number}");
        }
    }
}

#[test]
fn status_9_is_read_with_every_kind_but_neither_with_a_body_nor_with_bit_7() {
    for kind in 0..32 {
        let frame = reply_bytes(kind, 9, &[]);
        let reply = read_reply(&frame).expect("a refusal");
        assert_eq!((reply.kind, reply.status), (kind, Status::CountRaised));
        assert!(!accepted(kind, 9, &[0]) && !accepted(kind, 9, &[0, 4]));
        assert!(!accepted(kind, 0x89, &[]) && !accepted(kind, 0x89, &[0, 4]));
    }
}

#[test]
fn no_success_for_kinds_outside_1_to_9() {
    for kind in (0..32).filter(|kind| !(1..=9).contains(kind)) {
        for body in [0, 1, 3, 16, 20] {
            assert!(!accepted(kind, 0, &vec![0; body]));
        }
    }
}

#[test]
fn lengths_of_successes() {
    for length in 0..=4300 {
        let body = vec![0; length];
        assert_eq!(accepted(4, 0, &body), length == 16);
        // no hash, payload 1 to 4,096
        assert_eq!(accepted(3, 0, &body), (20..=4115).contains(&length));
        // payload 1 to 4,096 after the count
        assert_eq!(accepted(9, 0, &body), (3..=4098).contains(&length));
        let handles = length % 10 == 1 && length <= 151;
        assert_eq!(accepted(8, 0, &body), handles);
        for kind in [1, 2, 5, 6, 7] {
            assert_eq!(accepted(kind, 0, &body), length == 0);
        }
    }
}

#[test]
fn hash_count_and_zero_bits_of_kind_3() {
    for byte in 0..=255 {
        for rest in [1, 21, 160, 161, 4256, 4257] {
            let body = [&[1; 18][..], &[byte], &vec![1; rest]].concat();
            let hashes = 20 * usize::from(byte >> 4);
            let payload = rest.saturating_sub(hashes);
            let right = byte & 15 == 0 && byte <= 0x80 && (1..=4096).contains(&payload);
            assert_eq!(accepted(3, 0x80, &body), right, "{byte:02x}, {rest}");
        }
    }
}

/// A right without a hash may be retrieved, though it may not be installed.
#[test]
fn a_reply_to_kind_3_may_be_without_a_hash() {
    for payload in [1, 5, 4096] {
        for (second, count) in [(0, Count::NotKept), (0x80, Count::Kept(0))] {
            let payload = vec![5; payload];
            let body = [&[3; 16][..], &[0, 0, 0], &payload].concat();
            let frame = reply_bytes(3, second, &body);
            let reply = read_reply(&frame).expect("a reply");
            assert_eq!(reply.status, Status::Success);
            assert_eq!((reply.fields.key, reply.fields.count), ([3; 16], count));
            assert_eq!(reply.fields.hashes, [0; 0]);
            assert_eq!(reply.fields.payload, payload);
        }
    }
}

#[test]
fn zero_bits_of_kind_8() {
    for byte in 0..=255 {
        assert_eq!(accepted(8, 0, &[byte]), byte & 0x7F == 0);
    }
}

/// The body of a success, with this number as its count if the kind has one.
fn success_body(kind: u8, count: u16) -> Vec<u8> {
    match kind {
        3 => [&[1; 16][..], &count.to_be_bytes(), &[0, 5]].concat(),
        4 => vec![1; 16],
        8 => vec![0],
        9 => [&count.to_be_bytes()[..], &[5]].concat(),
        _ => Vec::new(),
    }
}

#[test]
fn the_bit_of_the_count_is_for_successes_of_kinds_3_and_9() {
    for kind in 0..32 {
        let body = success_body(kind, 0);
        assert_eq!(accepted(kind, 0x00, &body), (1..=9).contains(&kind));
        assert_eq!(accepted(kind, 0x80, &body), kind == 3 || kind == 9);
        for status in 1..=127 {
            assert!(!accepted(kind, 0x80 | status, &body));
            assert!(!accepted(kind, 0x80 | status, &[]));
        }
    }
}

#[test]
fn a_count_without_its_bit_is_203() {
    for number in [0, 1, 0xFF, 0x100, 0x8000, 0xFFFF] {
        for kind in [3, 9] {
            let body = success_body(kind, number);
            assert_eq!(accepted(kind, 0, &body), number == 0, "{number}");
            let frame = reply_bytes(kind, 0x80, &body);
            let reply = read_reply(&frame).expect("a count and its bit");
            assert_eq!(reply.status, Status::Success);
            assert_eq!(reply.fields.count, Count::Kept(number));
        }
    }
}

#[test]
fn length_and_version_of_the_frame() {
    let right = reply_bytes(4, 0, &[1; 16]);
    assert!(read_reply(&right).is_ok());
    for length in 0..right.len() {
        assert_eq!(read_reply(&right[..length]), Err(203));
    }
    assert_eq!(read_reply(&[&right[..], &[0]].concat()), Err(203));
    for version in [0, 2, 3, 4, 5, 6, 7] {
        let mut wrong = right.clone();
        wrong[0] = version << 5 | 4;
        assert_eq!(read_reply(&wrong), Err(203));
    }
}
