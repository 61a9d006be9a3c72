//! What the agent, the writer and the reader refuse, and that each refusal
//! leaves all lent memory as it was.

use cavernlull::{AssetHash, CallError, Card, Error, Handle, Listing, ReadError, Reply};
use cavernlull::{Request, Right, Status, TallyError, TurnError, Verdict, WriteError};
use cavernlull::{MOST_SLOTS, REPLY_ROOM, REQUEST_ROOM, SLOT_BYTES};

const HANDLE: Handle = Handle([1; 10]);

fn setup() -> Request {
    Request::InstallationSetup {
        handle: HANDLE,
        room: 5,
    }
}

fn installation(hashes: usize, payload: usize) -> Request {
    Request::RightsInstallation {
        handle: HANDLE,
        right: Right {
            hashes: vec![AssetHash([9; 20]); hashes],
            payload: vec![8; payload],
            ..Right::default()
        },
    }
}

/// A list query by so many hashes.
fn query(hashes: usize) -> Request {
    Request::HandleListQuery {
        limit: 0,
        hashes: vec![AssetHash([9; 20]); hashes],
    }
}

/// Asserts that a call from slot 0 is refused with this error, and that table
/// and buffer stay as they were.
fn assert_refused(table: &[u8], frame: &[u8], room: usize, error: CallError) {
    assert_refused_from(0, table, frame, room, error);
}

/// The same of a call with this start.
fn assert_refused_from(start: usize, table: &[u8], frame: &[u8], room: usize, error: CallError) {
    let mut card = Card::from(table.to_vec());
    let mut buffer = vec![0xA5; room];
    let given = card.call_frame_from(start, frame, &mut buffer);
    assert_eq!(given, Err(error), "from {start}");
    assert!(card.table() == table && buffer.iter().all(|&byte| byte == 0xA5));
}

#[test]
fn the_agent_refuses_in_order() {
    let frame = setup().to_frame().unwrap();
    let (blank, cut) = (vec![0; SLOT_BYTES], &frame[..15]);
    let mut spoiled = blank.clone();
    spoiled[SLOT_BYTES - 1] = 1;
    let none = [0; 100];
    assert_refused(&none, cut, REPLY_ROOM - 1, CallError::ReplyBufferShort);
    assert_refused(&blank, &frame, 0, CallError::ReplyBufferShort);
    assert_refused(&none, cut, REPLY_ROOM, CallError::TableLength);
    assert_refused(&[], &frame, REPLY_ROOM, CallError::TableLength);
    let long = vec![0; 16 * SLOT_BYTES];
    assert_refused(&long, &frame, REPLY_ROOM, CallError::TableLength);
    assert_refused(&spoiled, cut, REPLY_ROOM, CallError::TableNotWellFormed);
    assert_refused(&blank, cut, REPLY_ROOM, CallError::NoFrame);
    assert_refused(&blank, &[], REPLY_ROOM, CallError::NoFrame);
}

/// Starts that are outside a card of so many slots. Of some of them, or of
/// their offsets in bytes, the low bits are those of a slot.
fn starts_outside(slots: usize) -> [usize; 8] {
    [
        slots,
        slots + 1,
        1 << 8,
        1 << 16,
        1 << 32,
        1 << 58,
        1 << 63,
        usize::MAX,
    ]
}

/// 105 is for every frame, whether it is one or not. It comes after 101 and
/// 102, and before 103 and 104 (PROFILE 4.1).
#[test]
fn a_start_outside_the_card_is_refused_whatever_the_frame() {
    let mut frames: Vec<Vec<u8>> = (0..32).map(|kind| vec![0x20 | kind, 0x80, 0, 0]).collect();
    frames.extend([vec![], vec![0x21], setup().to_frame().unwrap()]);
    let mut table = vec![0; 2 * SLOT_BYTES];
    table[2 * SLOT_BYTES - 1] = 1;
    for frame in &frames {
        for start in starts_outside(2) {
            let refused = |table: &[u8], room, error| {
                assert_refused_from(start, table, frame, room, error);
            };
            refused(&table, REPLY_ROOM - 1, CallError::ReplyBufferShort);
            refused(&table[1..], REPLY_ROOM, CallError::TableLength);
            refused(&table, REPLY_ROOM, CallError::StartOutside);
            refused(&[0; 2 * SLOT_BYTES], REPLY_ROOM, CallError::StartOutside);
        }
        let within = CallError::TableNotWellFormed;
        assert_refused_from(1, &table, frame, REPLY_ROOM, within);
    }
}

/// Each card takes its own slots as starts, and nothing else.
#[test]
fn a_start_is_below_the_number_of_slots() {
    let frame = setup().to_frame().unwrap();
    for slots in 1..=MOST_SLOTS {
        let table = vec![0; slots * SLOT_BYTES];
        for start in starts_outside(slots) {
            assert_refused_from(start, &table, &frame, REPLY_ROOM, CallError::StartOutside);
        }
        for start in 0..slots {
            assert_refused_from(start, &table, &frame[..15], REPLY_ROOM, CallError::NoFrame);
            let given = Card::from(table.clone()).call_from(start, &setup(), Verdict::Held);
            assert_eq!(given.map(|reply| reply.status()), Ok(Status::Success));
        }
    }
    let given = Card::blank(2).call_from(2, &setup(), Verdict::Held);
    assert_eq!(given, Err(Error::Call(CallError::StartOutside)));
}

/// The listing refuses a table with the number that the agent refuses it with.
#[test]
fn a_refused_table_is_listed_as_refused() {
    let mut table = vec![0; SLOT_BYTES];
    let header = "slot place hashes count length\n";
    assert_eq!(
        Listing::of(&table).as_str(),
        format!("{header}0 empty 0 0 0\n")
    );
    table[191] = 1;
    assert_eq!(Listing::of(&table).as_str(), "refused 103\n");
    table.push(0);
    assert_eq!(
        Card::over(&mut table).listing().to_string(),
        "refused 102\n"
    );
    assert_eq!(Listing::of(&[]).to_string(), "refused 102\n");
}

#[test]
fn a_call_with_a_request_refuses_likewise() {
    let mut card = Card::blank(16);
    let given = card.call(&setup(), Verdict::Held);
    assert_eq!(given, Err(Error::Call(CallError::TableLength)));
    for (hashes, payload, error) in [
        (0, 5, WriteError::NoHash),
        (9, 5, WriteError::TooManyHashes),
        (1, 0, WriteError::PayloadLength),
    ] {
        let given = card.call(&installation(hashes, payload), Verdict::Held);
        assert_eq!(given, Err(Error::Write(error)));
    }
}

#[test]
fn the_reply_is_at_the_start_of_the_buffer() {
    let mut card = Card::blank(1);
    let mut buffer = [0xA5; REPLY_ROOM + 1];
    let frame = setup().to_frame().unwrap();
    assert_eq!(
        card.call_frame(&frame, &mut buffer),
        Ok(&[0x21, 0, 0, 0][..])
    );
    assert!(buffer[4..].iter().all(|&byte| byte == 0xA5));
}

/// What a card answers to a frame.
fn answer<T: AsRef<[u8]> + AsMut<[u8]>>(card: &mut Card<T>, frame: &[u8]) -> Vec<u8> {
    let mut buffer = [0; REPLY_ROOM];
    card.call_frame(frame, &mut buffer).unwrap().to_vec()
}

/// A count that is not 0 without its bit is refused with 2 before anything is
/// looked up, and leaves the table as it was (PROFILE 5.2, 5.5).
#[test]
fn a_count_without_its_bit_is_refused() {
    for (request, count_at) in [
        (installation(1, 5), 30),
        (
            Request::RightsEnablement {
                handle: HANDLE,
                count: None,
            },
            14,
        ),
    ] {
        let mut card = Card::blank(1);
        let kind = 0x20 | request.kind().number();
        let mut frame = request.to_frame().unwrap();
        assert_eq!(answer(&mut card, &frame), [kind, 4, 0, 0]);
        for at in [count_at, count_at + 1] {
            frame[at] = 1;
            assert_eq!(answer(&mut card, &frame), [kind, 2, 0, 0]);
            frame[1] |= 0x40;
            assert_eq!(answer(&mut card, &frame), [kind, 4, 0, 0]);
            frame[1] &= !0x40;
            frame[at] = 0;
        }
        assert!(card.table().iter().all(|&byte| byte == 0));
    }
}

/// The count's bit of a request is a zero bit of every kind but 2 and 5.
#[test]
fn the_bit_of_another_kind_is_refused() {
    for kind in (0..32).filter(|kind| ![2, 5].contains(kind)) {
        let frame = [0x20 | kind, 0xC0, 0, 0];
        let reply = answer(&mut Card::blank(1), &frame);
        assert_eq!(reply, [0x20 | kind, 2, 0, 0]);
    }
}

/// A count that is not 0 without its bit makes a table no table.
#[test]
fn a_table_has_no_count_without_its_bit() {
    let mut card = Card::blank(1);
    for request in [setup(), installation(1, 5)] {
        card.call(&request, Verdict::Held).unwrap();
    }
    let frame = setup().to_frame().unwrap();
    let refused = |table: &[u8]| {
        assert_refused(table, &frame, REPLY_ROOM, CallError::TableNotWellFormed);
        assert_eq!(Listing::of(table).as_str(), "refused 103\n");
    };
    let mut table = card.into_table();
    for at in [27, 28] {
        table[at] = 1;
        refused(&table);
        table[0] |= 2;
        assert_eq!(answer(&mut Card::over(&mut table), &frame), [0x21, 5, 0, 0]);
        table[0] |= 1;
        refused(&table);
        (table[0], table[at]) = (0x84, 0);
    }
    let mut reserved = Card::blank(1);
    reserved.call(&setup(), Verdict::Held).unwrap();
    for mut table in [reserved.into_table(), vec![0; SLOT_BYTES]] {
        table[0] |= 2;
        refused(&table);
    }
}

/// Cases 1 to 4 and 13 of the card profile (PROFILE 9), by their bytes.
#[test]
fn statuses_are_replies_and_no_errors() {
    let mut card = Card::blank(1);
    let failed = card.call(&setup(), Verdict::Failed).unwrap();
    assert_eq!(failed.status(), Status::FieldIntegrityVerificationFailed);
    assert!(card.table().iter().all(|&byte| byte == 0));
    let mut ask = |frame: &[u8]| answer(&mut card, frame);
    let frame = setup().to_frame().unwrap();
    assert_eq!(frame[..4], [0x21, 0x80, 0, 0x0C]);
    assert_eq!(frame[4..14], [1; 10]);
    assert_eq!(frame[14..], [0, 5]);
    assert_eq!(ask(&frame), [0x21, 0, 0, 0]);
    assert_eq!(ask(&frame), [0x21, 5, 0, 0]);
    let mut other = frame;
    other[4..14].fill(2);
    assert_eq!(ask(&other), [0x21, 7, 0, 0]);
    assert_eq!(ask(&[0x2A, 0x80, 0, 0]), [0x2A, 3, 0, 0]);
}

/// Asserts that a request is not written, for this reason, neither as a frame of
/// its own nor into a buffer, which stays as it was. The reason comes before a
/// buffer that is too short (PROFILE 6.2).
fn assert_not_written(request: &Request, error: WriteError) {
    assert_eq!(request.to_frame(), Err(error));
    for room in [0, 40, REQUEST_ROOM + 200] {
        let mut buffer = vec![0xA5; room];
        assert_eq!(request.write(&mut buffer), Err(error));
        assert!(buffer.iter().all(|&byte| byte == 0xA5));
    }
}

/// Where there is more than one reason, a missing hash comes first, then too many
/// of them, and the payload last.
#[test]
fn the_writer_says_why_it_refuses_fields() {
    for payload in [0, 1, 4096, 4097] {
        assert_not_written(&installation(0, payload), WriteError::NoHash);
        for hashes in [9, 15, 16, 256] {
            assert_not_written(&installation(hashes, payload), WriteError::TooManyHashes);
        }
    }
    for hashes in 1..=8 {
        for payload in [0, 4097] {
            assert_not_written(&installation(hashes, payload), WriteError::PayloadLength);
        }
    }
    for hashes in [9, 15, 16, 256] {
        assert_not_written(&query(hashes), WriteError::TooManyHashes);
    }
}

#[test]
fn the_writer_takes_1_to_8_hashes_and_in_a_query_none() {
    for hashes in 1..=8 {
        for payload in [1, 4096] {
            let frame = installation(hashes, payload).to_frame().unwrap();
            assert_eq!(frame.len(), 4 + 29 + 20 * hashes + payload);
            assert_eq!(frame[32], 16 * hashes as u8);
        }
    }
    for hashes in 0..=8 {
        let frame = query(hashes).to_frame().unwrap();
        assert_eq!(frame.len(), 4 + 3 + 20 * hashes);
    }
    let longest = installation(8, 4096).to_frame().unwrap();
    assert_eq!(longest.len(), REQUEST_ROOM);
}

#[test]
fn the_writer_refuses_short_buffers() {
    let mut buffer = [0xA5; 40];
    let frame = setup().write(&mut buffer).unwrap().to_vec();
    assert_eq!(frame.len(), 16);
    assert!(buffer[..16] == frame && buffer[16..] == [0xA5; 24]);
    let mut short = [0xA5; 15];
    assert_eq!(setup().write(&mut short), Err(WriteError::BufferShort));
    assert_eq!(short, [0xA5; 15]);
}

#[test]
fn the_reader_refuses_what_is_no_reply() {
    for frame in [
        &[][..],
        &[0x24, 5, 0],
        &[0x24, 5, 0, 1],
        &[0x44, 5, 0, 0],
        &[0x24, 8, 0, 0],
        &[0x2A, 8, 0, 0],
        &[0x24, 10, 0, 0],
        &[0x25, 9, 0, 1, 0],
        &[0x24, 0, 0, 0],
        &[0x2A, 0, 0, 0],
        &[0x21, 0, 0, 1, 0],
        &[0x28, 0, 0, 1, 1],
    ] {
        assert_eq!(Reply::read(frame), Err(ReadError), "{frame:02x?}");
    }
    let unknown = Reply::read(&[0x3F, 3, 0, 0]).unwrap();
    assert_eq!((unknown.kind_number(), unknown.status().number()), (31, 3));
}

/// A refusal has an empty body and one of the statuses that there are, whatever
/// its kind; 8 is none of them (PROFILE 6.3).
#[test]
fn the_reader_takes_every_status_for_every_kind() {
    for kind in 0..32 {
        for number in 1..128 {
            let expected = match Status::from_number(number) {
                Some(status) => Ok(Reply::Refused { kind, status }),
                None => Err(ReadError),
            };
            assert_eq!(expected.is_ok(), number <= 7 || number == 9);
            let frame = [0x20 | kind, number, 0, 0];
            assert_eq!(Reply::read(&frame), expected, "{frame:02x?}");
        }
    }
}

/// The count's bit is for the successes of kinds 3 and 9 alone, and a count
/// that is not 0 has it (PROFILE 6.3).
#[test]
fn the_reader_takes_the_bit_of_a_count_only_where_one_is_told() {
    let told = |second, count| Reply::read(&[0x29, second, 0, 3, 0, count, b'!']);
    for (second, number, count) in [(0, 0, None), (0x80, 0, Some(0)), (0x80, 9, Some(9))] {
        let payload = vec![b'!'];
        let expected = Reply::Information { count, payload };
        assert_eq!(told(second, number), Ok(expected));
    }
    assert_eq!(told(0, 9), Err(ReadError));
    for kind in 0..32 {
        for status in 0..=255 {
            let frame = [0x20 | kind, status | 0x80, 0, 0];
            assert_eq!(Reply::read(&frame), Err(ReadError), "{frame:02x?}");
        }
    }
    let key = [
        0x24, 0x80, 0, 16, 0, 0, 0, 0, 0, 0, 0, 0, 0, 0, 0, 0, 0, 0, 0, 0,
    ];
    assert_eq!(Reply::read(&key), Err(ReadError));
    assert_eq!(Reply::read(&[0x28, 0x80, 0, 1, 0]), Err(ReadError));
}

#[test]
fn errors_are_errors_with_their_numbers() {
    let calls = [
        CallError::ReplyBufferShort,
        CallError::TableLength,
        CallError::TableNotWellFormed,
        CallError::NoFrame,
        CallError::StartOutside,
        CallError::TallyDiffers,
    ];
    let mut errors: Vec<Error> = calls.map(Error::from).to_vec();
    let writes = [
        WriteError::BufferShort,
        WriteError::NoHash,
        WriteError::TooManyHashes,
        WriteError::PayloadLength,
    ];
    errors.extend(writes.map(Error::from));
    errors.push(ReadError.into());
    errors.extend([TurnError::TableLength, TurnError::TableNotWellFormed].map(Error::from));
    errors.extend([TallyError::TableLength, TallyError::TableNotWellFormed].map(Error::from));
    let numbers: Vec<u16> = errors.iter().map(|error| error.number()).collect();
    let (calls, others) = numbers.split_at(6);
    assert_eq!(calls, [101, 102, 103, 104, 105, 106]);
    assert_eq!(others, [201, 202, 202, 202, 203, 102, 103, 102, 103]);
    for error in errors {
        let error: Box<dyn std::error::Error + Send + Sync> = error.into();
        assert!(error.to_string().starts_with("the "), "{error}");
    }
}
