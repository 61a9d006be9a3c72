//! The request reader and the request writer.

mod common;

use common::{body_bytes, frame_bytes, request_bytes, right, OwnFields, FILLER};
use reference::ReadRequest::{NoFrame, Refused, Request};
use reference::{read_request, write_request, Count, Fields, Kind, Status, WriterFields};

const HANDLE: [u8; 10] = [1, 2, 3, 4, 5, 6, 7, 8, 9, 10];
const NEW_HANDLE: [u8; 10] = [11, 12, 13, 14, 15, 16, 17, 18, 19, 20];
const KEY: [u8; 16] = [0xC1; 16];
const TWO_HASHES: [u8; 40] = [0xE1; 40];

/// A request of each kind, with its whole frame.
fn samples() -> Vec<(u8, Fields<'static>, Vec<u8>)> {
    let handle = Fields {
        handle: HANDLE,
        ..Fields::default()
    };
    let lending = Fields {
        new_handle: NEW_HANDLE,
        ..handle
    };
    let rows: [(u8, Fields, &[&[u8]]); 9] = [
        (
            1,
            Fields {
                length: 0x0203,
                ..handle
            },
            &[&[0x21, 0x80, 0, 12], &HANDLE, &[2, 3]],
        ),
        (
            2,
            Fields {
                key: KEY,
                count: Count::Kept(0x0405),
                hashes: &TWO_HASHES,
                payload: &[7, 8, 9],
                ..handle
            },
            &[
                &[0x22, 0xC0, 0, 72],
                &HANDLE,
                &KEY,
                &[4, 5, 0x20],
                &TWO_HASHES,
                &[7, 8, 9],
            ],
        ),
        (3, lending, &[&[0x23, 0x80, 0, 20], &HANDLE, &NEW_HANDLE]),
        (4, lending, &[&[0x24, 0x80, 0, 20], &HANDLE, &NEW_HANDLE]),
        (
            5,
            Fields {
                count: Count::Kept(0x0607),
                ..handle
            },
            &[&[0x25, 0xC0, 0, 12], &HANDLE, &[6, 7]],
        ),
        (6, handle, &[&[0x26, 0x80, 0, 10], &HANDLE]),
        (7, handle, &[&[0x27, 0x80, 0, 10], &HANDLE]),
        (
            8,
            Fields {
                limit: 0x0809,
                hashes: &TWO_HASHES,
                ..Fields::default()
            },
            &[&[0x28, 0x80, 0, 43, 8, 9, 2], &TWO_HASHES],
        ),
        (9, handle, &[&[0x29, 0x80, 0, 10], &HANDLE]),
    ];
    rows.map(|(kind, fields, frame)| (kind, fields, frame.concat()))
        .to_vec()
}

#[test]
fn each_kind_is_written_and_read_byte_for_byte() {
    for (kind, fields, frame) in samples() {
        let mut buffer = vec![FILLER; frame.len() + 5];
        assert_eq!(write_request(kind, &fields.into(), &mut buffer), 0);
        assert_eq!(buffer[..frame.len()], frame, "kind {kind}");
        assert_eq!(buffer[frame.len()..], [FILLER; 5]);
        let Request(request) = read_request(&frame) else {
            panic!("kind {kind} is a request");
        };
        assert_eq!(Some(request.kind), Kind::from_number(kind));
        assert_eq!(request.fields, fields, "kind {kind}");
    }
}

#[test]
fn a_buffer_that_is_shorter_is_201() {
    for (kind, fields, frame) in samples() {
        for room in [0, 4, frame.len() - 1] {
            let mut buffer = vec![FILLER; room];
            assert_eq!(write_request(kind, &fields.into(), &mut buffer), 201);
            assert_eq!(buffer, vec![FILLER; room]);
        }
        let mut buffer = vec![0; frame.len()];
        assert_eq!(write_request(kind, &fields.into(), &mut buffer), 0);
    }
}

/// Asserts 202 for a long buffer, with no byte changed, and for an empty one:
/// 202 is tested before 201.
fn assert_202(kind: u8, fields: &WriterFields<'_>) {
    let mut buffer = vec![FILLER; 5000];
    assert_eq!(write_request(kind, fields, &mut buffer), 202, "kind {kind}");
    assert!(buffer.iter().all(|&byte| byte == FILLER));
    assert_eq!(write_request(kind, fields, &mut []), 202, "kind {kind}");
}

#[test]
fn a_kind_not_1_to_9_is_202() {
    for kind in (0..=255).filter(|kind| !(1..=9).contains(kind)) {
        assert_202(kind, &WriterFields::default());
    }
}

/// Fields as blank as the writer takes them: an installation has a hash and a
/// payload.
fn blank_fields(kind: u8) -> WriterFields<'static> {
    WriterFields {
        hashes: if kind == 2 { &[0; 20] } else { &[] },
        payload: if kind == 2 { &[0] } else { &[] },
        ..WriterFields::default()
    }
}

#[test]
fn a_field_that_the_kind_lacks_is_202() {
    type Set = fn(&mut WriterFields<'static>);
    let fields: [(&str, &[u8], Set); 9] = [
        ("handle", &[1, 2, 3, 4, 5, 6, 7, 9], |f| f.handle[9] = 1),
        ("new handle", &[3, 4], |f| f.new_handle[9] = 1),
        ("key", &[2], |f| f.key[15] = 1),
        ("length", &[1], |f| f.length = 1),
        ("count", &[2, 5], |f| (f.count, f.kept) = (0x100, 1)),
        ("kept", &[2, 5], |f| f.kept = 1),
        ("limit", &[8], |f| f.limit = 1),
        ("hashes", &[2, 8], |f| f.hashes = &[0; 20]),
        ("payload", &[2], |f| f.payload = &[0]),
    ];
    for (name, kinds, set) in fields {
        for kind in 1..=9 {
            let mut fields = blank_fields(kind);
            set(&mut fields);
            let expected = if kinds.contains(&kind) { 0 } else { 202 };
            let number = write_request(kind, &fields, &mut [0; 100]);
            assert_eq!(number, expected, "{name} in kind {kind}");
            if expected == 202 {
                assert_202(kind, &fields);
            }
        }
    }
}

#[test]
fn hash_bytes_are_a_multiple_of_20_up_to_160() {
    let bytes = [0; 200];
    for kind in [2, 8] {
        for length in 0..=200 {
            let fields = WriterFields {
                hashes: &bytes[..length],
                ..blank_fields(kind)
            };
            let none_needed = kind == 8;
            if length % 20 == 0 && length <= 160 && (length > 0 || none_needed) {
                assert_eq!(write_request(kind, &fields, &mut [0; 250]), 0);
            } else {
                assert_202(kind, &fields);
            }
        }
    }
}

#[test]
fn a_payload_of_kind_2_is_1_to_4096_bytes() {
    let bytes = [3; 4097];
    for (length, number) in [(0, 202), (1, 0), (4095, 0), (4096, 0), (4097, 202)] {
        let fields = WriterFields {
            payload: &bytes[..length],
            ..blank_fields(2)
        };
        assert_eq!(write_request(2, &fields, &mut [0; 4400]), number);
    }
}

/// An installation without a hash is 202, also where the buffer is too short for
/// the frame that it would be, or just long enough. A query without one is
/// written.
#[test]
fn an_installation_without_a_hash_is_202() {
    for payload in [1, 5, 20, 21, 4095, 4096] {
        let installation = right(1, 0, payload);
        assert_202(2, &installation.handed());
        let frame = frame_bytes(2, &installation);
        for room in [0, 4, 32, frame.len() - 1, frame.len(), frame.len() + 20] {
            let mut buffer = vec![FILLER; room];
            assert_eq!(write_request(2, &installation.handed(), &mut buffer), 202);
            assert!(buffer.iter().all(|&byte| byte == FILLER));
        }
        assert_eq!(read_request(&frame), PARAMETER_FAILED);
    }
    let query = WriterFields::default();
    let mut frame = [FILLER; 7];
    assert_eq!(write_request(8, &query, &mut frame[1..]), 201);
    assert_eq!(write_request(8, &query, &mut frame), 0);
    assert_eq!(frame, [0x28, 0x80, 0, 3, 0, 0, 0]);
}

#[test]
fn the_writer_leaves_the_length_of_kind_1_to_the_agent() {
    for length in [0, 4097, 0xFFFF] {
        let fields = Fields {
            length,
            ..Fields::default()
        };
        let mut frame = [0; 16];
        assert_eq!(write_request(1, &fields.into(), &mut frame), 0);
        assert!(matches!(read_request(&frame), Request(r) if r.fields == fields));
    }
}

#[test]
fn tests_for_all_kinds_come_in_order() {
    use Status::{
        FieldIntegrityVerificationFailed as Integrity, ParameterFailed as Parameter,
        RequestNotSupported as Unsupported,
    };
    let rows: &[(&[u8], Status)] = &[
        // version or zero bits, with every later fault as well
        (&[0x00, 0x00, 0, 0], Parameter),
        (&[0x01, 0x00, 0, 0], Parameter),
        (&[0x41, 0x00, 0, 0], Parameter),
        (&[0xE1, 0x80, 0, 0], Parameter),
        (&[0x2A, 0x01, 0, 0], Parameter),
        (&[0x3F, 0xC0, 0, 0], Parameter),
        (&[0x2A, 0x40, 0, 0], Parameter),
        (&[0x26, 0x40, 0, 0], Parameter),
        (&[0x22, 0x20, 0, 0], Parameter),
        (&[0x45, 0x40, 0, 0], Parameter),
        (&[0x40, 0x80, 0, 0], Parameter),
        // the kind
        (&[0x20, 0x00, 0, 0], Unsupported),
        (&[0x2A, 0x80, 0, 0], Unsupported),
        (&[0x3F, 0x00, 0, 1, 5], Unsupported),
        // the body length, before the verdict
        (&[0x21, 0x00, 0, 0], Parameter),
        (&[0x26, 0x00, 0, 1, 5], Parameter),
        (&[0x28, 0x00, 0, 2, 0, 0], Parameter),
        (&[0x25, 0x40, 0, 2, 0, 1], Parameter),
        (&[0x25, 0x00, 0, 2, 0, 1], Parameter),
        // the verdict
        (&[0x26, 0, 0, 10, 1, 1, 1, 1, 1, 1, 1, 1, 1, 1], Integrity),
        // the verdict, before a count without its bit
        (
            &[0x25, 0, 0, 12, 1, 1, 1, 1, 1, 1, 1, 1, 1, 1, 0, 1],
            Integrity,
        ),
        (
            &[0x25, 0x40, 0, 12, 1, 1, 1, 1, 1, 1, 1, 1, 1, 1, 0, 1],
            Integrity,
        ),
        (
            &[0x25, 0x80, 0, 12, 1, 1, 1, 1, 1, 1, 1, 1, 1, 1, 0, 1],
            Parameter,
        ),
    ];
    for (frame, status) in rows {
        assert_eq!(read_request(frame), Refused(*status), "{frame:02x?}");
    }
}

/// Bodies of zeros. One of kind 2 that is long enough is refused too, since it
/// has no hash, but only after the verdict.
#[test]
fn each_kind_has_its_body_length() {
    for kind in 1..=9 {
        for length in 0..80 {
            let body = vec![0; length];
            let right = match kind {
                1 | 5 => length == 12,
                2 => length >= 30,
                3 | 4 => length == 20,
                8 => length == 3,
                _ => length == 10,
            };
            for second in [0x80, 0] {
                let frame = request_bytes(kind, second, &body);
                let refused = read_request(&frame) == PARAMETER_FAILED;
                let no_hash = kind == 2 && second == 0x80;
                assert_eq!(refused, !right || no_hash, "kind {kind}, {length} bytes");
            }
        }
    }
}

const PARAMETER_FAILED: reference::ReadRequest<'static> = Refused(Status::ParameterFailed);

#[test]
fn kinds_8_and_9_ignore_the_verdict() {
    for (kind, fields, mut frame) in samples() {
        frame[1] = 0;
        match kind {
            8 | 9 => assert!(matches!(read_request(&frame), Request(r) if r.fields == fields)),
            _ => assert_eq!(
                read_request(&frame),
                Refused(Status::FieldIntegrityVerificationFailed)
            ),
        }
        for bit in 0..6 {
            frame[1] = 0x80 | 1 << bit;
            assert_eq!(read_request(&frame), PARAMETER_FAILED, "a zero bit is set");
        }
    }
}

#[test]
fn field_tests_of_kind_2() {
    let rows: &[(u8, usize, bool)] = &[
        // the byte of the hash count, the bytes after it, whether it is read
        (0x00, 1, false),
        (0x00, 21, false),
        (0x00, 4096, false),
        (0x00, 4097, false),
        (0x01, 1, false),
        (0x08, 1, false),
        (0x10, 20, false),
        (0x10, 21, true),
        (0x10, 4116, true),
        (0x10, 4117, false),
        (0x80, 19, false),
        (0x80, 160, false),
        (0x80, 161, true),
        (0x80, 4256, true),
        (0x80, 4257, false),
        (0x80, 65_506, false),
        (0x88, 161, false),
        (0x90, 181, false),
        (0xF0, 301, false),
    ];
    for &(hash_count, rest, read) in rows {
        let body = [&[7; 28][..], &[hash_count], &vec![7; rest]].concat();
        let frame = request_bytes(2, 0xC0, &body);
        match read_request(&frame) {
            Request(request) => {
                assert!(read, "{hash_count:02x}, {rest}");
                assert_eq!(
                    request.fields.hashes.len(),
                    20 * usize::from(hash_count / 16)
                );
                assert_eq!(
                    request.fields.hashes.len() + request.fields.payload.len(),
                    rest
                );
            }
            refused => {
                assert!(!read, "{hash_count:02x}, {rest}");
                assert_eq!(refused, PARAMETER_FAILED);
            }
        }
        // the verdict is tested before the fields
        assert_eq!(
            read_request(&request_bytes(2, 0, &body)),
            Refused(Status::FieldIntegrityVerificationFailed)
        );
    }
}

/// What the reader makes of a body of kind 2 (PROFILE 4.3, 5.2): status 2 for
/// fewer than 30 bytes, then 1 for a verdict of 0, then 2 unless there are 1 to 8
/// hashes and a payload after them. The count is a kept one.
fn expected_of_kind_2(verdict: bool, hash_byte: u8, length: usize) -> Option<Status> {
    let hashes = usize::from(hash_byte >> 4);
    let payload = length.saturating_sub(29 + 20 * hashes);
    if length < 30 {
        Some(Status::ParameterFailed)
    } else if !verdict {
        Some(Status::FieldIntegrityVerificationFailed)
    } else if (1..=8).contains(&hashes) && hash_byte & 15 == 0 && payload >= 1 {
        None
    } else {
        Some(Status::ParameterFailed)
    }
}

/// Every hash byte in short bodies: 30 bytes pass the test of the length, and 50
/// are the first that may pass all.
#[test]
fn short_bodies_of_kind_2() {
    let mut shortest = usize::MAX;
    for length in 28..=54 {
        for hash_byte in 0..=255 {
            let mut body = vec![7; length];
            body[28.min(length - 1)] = hash_byte;
            for second in [0xC0, 0x40] {
                let frame = request_bytes(2, second, &body);
                let expected = expected_of_kind_2(second == 0xC0, hash_byte, length);
                match (read_request(&frame), expected) {
                    (Request(_), None) => shortest = shortest.min(length),
                    (read, expected) => assert_eq!(Some(read), expected.map(Refused)),
                }
            }
        }
    }
    assert_eq!(shortest, 50);
}

/// A missing hash is status 2 beside every other field fault, and alone; without
/// the verdict it is 1, and 2 again where version, zero bits or length are wrong.
#[test]
fn a_missing_hash_comes_in_its_order() {
    let integrity = Refused(Status::FieldIntegrityVerificationFailed);
    let body = |hash_byte: u8, payload: usize| {
        let mut body = body_bytes(2, &right(1, 0, payload));
        body[28] = hash_byte;
        body
    };
    let bodies = [body(0, 1), body(0, 4096), body(0x0F, 5), body(0, 4097)];
    for body in bodies {
        // with the bit of its count, and without
        for second in [0xC0, 0x80] {
            assert_eq!(
                read_request(&request_bytes(2, second, &body)),
                PARAMETER_FAILED
            );
            let failed = request_bytes(2, second & !0x80, &body);
            assert_eq!(read_request(&failed), integrity);
        }
        for second in [0x20, 0x01, 0xA0] {
            let frame = request_bytes(2, second, &body);
            assert_eq!(read_request(&frame), PARAMETER_FAILED, "a zero bit");
        }
        let mut frame = request_bytes(2, 0, &body);
        frame[0] = 0x42;
        assert_eq!(read_request(&frame), PARAMETER_FAILED, "the version");
    }
    for second in [0xC0, 0] {
        let no_payload = request_bytes(2, second, &body(0, 0));
        assert_eq!(read_request(&no_payload), PARAMETER_FAILED, "the length");
    }
}

#[test]
fn field_tests_of_kind_8() {
    for hash_count in 0..=255 {
        for rest in [0, 20, 160, 179, 180, 181, 200, 20 * usize::from(hash_count)] {
            let body = [&[0, 0, hash_count][..], &vec![0; rest]].concat();
            let right = hash_count <= 8 && rest == 20 * usize::from(hash_count);
            match read_request(&request_bytes(8, 0x80, &body)) {
                Request(request) => assert!(right && request.fields.hashes.len() == rest),
                refused => assert!(!right && refused == PARAMETER_FAILED),
            }
        }
    }
}

#[test]
fn a_frame_is_4_plus_its_body_length() {
    for (_, _, frame) in samples() {
        for length in 0..frame.len() {
            assert_eq!(read_request(&frame[..length]), NoFrame);
        }
        assert_eq!(read_request(&[&frame[..], &[0]].concat()), NoFrame);
    }
}

#[test]
fn the_longest_request_is_written_and_read() {
    let fields: OwnFields = right(3, 8, 4096);
    let mut frame = vec![0; 4289];
    assert_eq!(write_request(2, &fields.handed(), &mut frame), 0);
    assert_eq!(frame, frame_bytes(2, &fields));
    assert!(matches!(read_request(&frame), Request(r) if r.fields == fields.lent()));
}
