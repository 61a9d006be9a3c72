//! The tally of a card, the five numbers of PROFILE 2.8: what they are after each
//! step of a course, and what leaves them as they were.

use cavernlull::{AssetHash, CallError, Card, Handle, Request, Right, Rotation, Status, Verdict};
use cavernlull::{Tally, TallyError, TurnError};
use cavernlull::{MOST_PAYLOAD, MOST_SLOTS, REPLY_ROOM, SLOT_BYTES};
use Status::*;

const COURSE: Handle = Handle([1; 10]);
const OTHER: Handle = Handle([2; 10]);
const BORROWER: Handle = Handle([3; 10]);
const THIRD: Handle = Handle([4; 10]);

/// A tally from its numbers, in their order.
fn tally([empty, reserved, enabled, disabled, payload]: [u16; 5]) -> Tally {
    Tally {
        empty,
        reserved,
        enabled,
        disabled,
        payload,
    }
}

fn setup(handle: Handle, room: u16) -> Request {
    Request::InstallationSetup { handle, room }
}

/// An installation with a payload of so many bytes, a hash and a count.
fn install(handle: Handle, payload: usize) -> Request {
    let right = Right {
        count: Some(9),
        hashes: vec![AssetHash([0xA1; 20])],
        payload: vec![0xEE; payload],
        ..Right::default()
    };
    Request::RightsInstallation { handle, right }
}

fn lend(handle: Handle, new_handle: Handle) -> Request {
    Request::RekQuery { handle, new_handle }
}

fn retrieve(handle: Handle, new_handle: Handle) -> Request {
    Request::RightsRetrieval { handle, new_handle }
}

fn give_back(handle: Handle) -> Request {
    give_back_with(handle, Some(8))
}

fn give_back_with(handle: Handle, count: Option<u16>) -> Request {
    Request::RightsEnablement { handle, count }
}

fn remove(handle: Handle) -> Request {
    Request::RightsRemoval { handle }
}

fn give_up(handle: Handle) -> Request {
    Request::HandleRemoval { handle }
}

fn list() -> Request {
    let (limit, hashes) = (0, vec![]);
    Request::HandleListQuery { limit, hashes }
}

fn inform(handle: Handle) -> Request {
    Request::RightsInformationQuery { handle }
}

/// A request, the status of its reply, and the five numbers afterwards.
type Step = (Request, Status, [u16; 5]);

/// Courses on a card of three slots, from the first setup to the last removal.
fn course() -> Vec<Step> {
    let longest = MOST_PAYLOAD;
    vec![
        (setup(COURSE, 300), Success, [2, 1, 0, 0, 0]),
        (setup(COURSE, 300), DuplicateHandle, [2, 1, 0, 0, 0]),
        (install(COURSE, 301), NotEnoughSpace, [2, 1, 0, 0, 0]),
        (install(COURSE, 16), Success, [2, 0, 1, 0, 16]),
        (list(), Success, [2, 0, 1, 0, 16]),
        (setup(OTHER, 4096), Success, [1, 1, 1, 0, 16]),
        (remove(OTHER), UnexpectedRequest, [1, 1, 1, 0, 16]),
        (install(OTHER, longest), Success, [1, 0, 2, 0, 4112]),
        (lend(COURSE, BORROWER), Success, [1, 0, 1, 1, 4112]),
        (lend(COURSE, BORROWER), HandleNotFound, [1, 0, 1, 1, 4112]),
        (give_back(BORROWER), Success, [1, 0, 2, 0, 4112]),
        (give_back(BORROWER), Success, [1, 0, 2, 0, 4112]),
        (inform(BORROWER), Success, [1, 0, 2, 0, 4112]),
        (retrieve(BORROWER, COURSE), Success, [1, 0, 1, 1, 4112]),
        (setup(THIRD, 1), Success, [0, 1, 1, 1, 4112]),
        (setup(BORROWER, 1), NotEnoughSpace, [0, 1, 1, 1, 4112]),
        (remove(OTHER), Success, [1, 1, 0, 1, 16]),
        (remove(COURSE), Success, [2, 1, 0, 0, 0]),
        (give_up(THIRD), Success, [3, 0, 0, 0, 0]),
    ]
}

/// Asserts that the card has these numbers, and that they are the same worked
/// out afresh.
fn assert_tally<T: AsRef<[u8]> + AsMut<[u8]>>(card: &Card<T>, numbers: [u16; 5], after: &str) {
    assert_eq!(card.tally(), tally(numbers), "after {after}");
    assert_eq!(Tally::of(card.table()), Ok(card.tally()), "after {after}");
    let slots = card.table().len() / SLOT_BYTES;
    assert_eq!(card.tally().slots(), slots, "after {after}");
}

/// Takes the course through a card with this start of all calls.
fn walk<T: AsRef<[u8]> + AsMut<[u8]>>(mut card: Card<T>, start: usize) {
    assert_tally(&card, [3, 0, 0, 0, 0], "nothing");
    for (request, status, numbers) in course() {
        let reply = card.call_from(start, &request, Verdict::Held).unwrap();
        assert_eq!(reply.status(), status, "{request:?}");
        assert_tally(&card, numbers, &format!("{request:?}"));
    }
}

#[test]
fn a_course_is_tallied_on_a_card_that_owns_its_table() {
    (0..3).for_each(|start| walk(Card::blank(3), start));
    walk(Card::from(vec![0; 3 * SLOT_BYTES]), 0);
}

#[test]
fn a_course_is_tallied_on_a_card_over_a_lent_table() {
    let mut memory = [0; 3 * SLOT_BYTES];
    walk(Card::over(&mut memory), 1);
    walk(Card::with_tally(&mut memory[..], Tally::blank(3)), 2);
    assert!(memory == [0; 3 * SLOT_BYTES]);
}

#[test]
fn a_course_is_tallied_in_rotation() {
    let (mut card, mut rotation) = (Card::blank(3), Rotation::from_slot(1));
    for (request, _, numbers) in course() {
        let reply = rotation.call(&mut card, &request, Verdict::Held);
        assert!(reply.is_ok(), "{request:?}");
        assert_tally(&card, numbers, &format!("{request:?}"));
    }
}

/// A request frame, its reply, and the five numbers afterwards.
type Case = (Vec<u8>, Vec<u8>, [u16; 5]);

const H1: [u8; 10] = [1; 10];
const H2: [u8; 10] = [2; 10];
const K: [u8; 16] = [1, 2, 3, 4, 5, 6, 7, 8, 9, 10, 11, 12, 13, 14, 15, 16];
const A: [u8; 20] = [
    0xA0, 0xA1, 0xA2, 0xA3, 0xA4, 0xA5, 0xA6, 0xA7, 0xA8, 0xA9, 0xAA, 0xAB, 0xAC, 0xAD, 0xAE, 0xAF,
    0xB0, 0xB1, 0xB2, 0xB3,
];
const P5: [u8; 5] = [0xA1, 0xA2, 0xA3, 0xA4, 0xA5];

/// A setup, an installation with this second byte and this count, and a lending,
/// as cases 9 and 11 of the card profile (PROFILE 9.1) have them.
fn lending_with(second: u8, count: u8) -> [Case; 3] {
    let setup = [&[0x21, 0x80, 0, 0x0C][..], &H1, &[0, 5]].concat();
    let fields = [&H1[..], &K, &[0, count, 0x10], &A, &P5].concat();
    let installation = [&[0x22, second, 0, 0x36][..], &fields].concat();
    let lending = [&[0x24, 0x80, 0, 0x14][..], &H1, &H2].concat();
    let key = [&[0x24, 0, 0, 0x10][..], &K].concat();
    [
        (setup, vec![0x21, 0, 0, 0], [0, 1, 0, 0, 0]),
        (installation, vec![0x22, 0, 0, 0], [0, 0, 1, 0, 5]),
        (lending, key, [0, 0, 0, 1, 5]),
    ]
}

/// Asserts that a card answers these frames so, and has these numbers after
/// each.
fn assert_answers(card: &mut Card, cases: &[Case]) {
    for (frame, reply, numbers) in cases {
        let mut buffer = [0; REPLY_ROOM];
        assert_eq!(card.call_frame(frame, &mut buffer), Ok(&reply[..]));
        assert_tally(card, *numbers, &format!("{frame:02x?}"));
    }
}

/// Case 20 of the card profile (PROFILE 9.5). The right of case 9, which keeps no
/// count, is removed; that of case 11, with a kept count of 7, is returned.
#[test]
fn case_20_by_its_bytes() {
    let (mut after_9, mut lent_11) = (Card::blank(1), Card::blank(1));
    assert_answers(&mut after_9, &lending_with(0x80, 0));
    let removal = [&[0x26, 0x80, 0, 0x0A][..], &H2].concat();
    let removed = (removal, vec![0x26, 0, 0, 0], [1, 0, 0, 0, 0]);
    assert_answers(&mut after_9.clone(), &[removed]);
    assert_tally(&after_9, [0, 0, 0, 1, 5], "what its clone did");
    assert_answers(&mut lent_11, &lending_with(0xC0, 7));
    let back = |count| [&[0x25, 0xC0, 0, 0x0C][..], &H2, &[0, count]].concat();
    let returned = |count| (back(count), vec![0x25, 0, 0, 0], [0, 0, 1, 0, 5]);
    assert_answers(&mut lent_11, &[returned(3), returned(4)]);
}

/// The sum of the payloads of the fullest card has its highest bit set.
#[test]
fn the_fullest_card_is_tallied() {
    let mut card = Card::blank(MOST_SLOTS);
    for n in 0..MOST_SLOTS as u8 {
        let handle = Handle([n; 10]);
        for request in [setup(handle, 4096), install(handle, MOST_PAYLOAD)] {
            let reply = card.call(&request, Verdict::Held).unwrap();
            assert_eq!(reply.status(), Success);
        }
    }
    assert_tally(&card, [0, 0, 15, 0, 61440], "15 installations");
    for (gone, n) in (1..).zip(0..MOST_SLOTS as u8) {
        card.call(&remove(Handle([n; 10])), Verdict::Held).unwrap();
        let left = MOST_SLOTS as u16 - gone;
        assert_tally(&card, [gone, 0, left, 0, 4096 * left], "a removal");
    }
}

/// A card with a record of each place, and no empty slot.
fn full() -> Card {
    let mut card = Card::blank(3);
    for request in [
        setup(COURSE, 300),
        install(COURSE, 16),
        lend(COURSE, BORROWER),
        setup(OTHER, 300),
        install(OTHER, 7),
        setup(THIRD, 300),
    ] {
        let reply = card.call(&request, Verdict::Held).unwrap();
        assert_eq!(reply.status(), Success);
    }
    card
}

/// The numbers of that card.
const FULL: [u16; 5] = [0, 1, 1, 1, 23];

/// Asserts that a request is refused with this status, and changes no number.
fn assert_refused(request: Request, verdict: Verdict, status: Status) {
    let mut card = full();
    let reply = card.call(&request, verdict).unwrap();
    assert_eq!(reply.status(), status, "{request:?}");
    assert_tally(&card, FULL, &format!("{request:?}"));
}

/// Each of these would be carried out but for the verdict, or but for an empty
/// slot.
#[test]
fn a_request_that_fails_the_front_end_changes_no_number() {
    for request in [
        setup(COURSE, 1),
        install(THIRD, 1),
        retrieve(OTHER, COURSE),
        lend(OTHER, COURSE),
        give_back(BORROWER),
        remove(OTHER),
        give_up(THIRD),
    ] {
        assert_refused(request, Verdict::Failed, FieldIntegrityVerificationFailed);
    }
}

#[test]
fn a_refused_request_changes_no_number() {
    for (request, status) in [
        (setup(COURSE, 0), ParameterFailed),
        (setup(OTHER, 1), DuplicateHandle),
        (setup(COURSE, 1), NotEnoughSpace),
        (install(COURSE, 1), HandleNotFound),
        (install(OTHER, 1), UnexpectedRequest),
        (install(THIRD, 301), NotEnoughSpace),
        (retrieve(OTHER, THIRD), DuplicateHandle),
        (lend(BORROWER, COURSE), UnexpectedRequest),
        (give_back(THIRD), UnexpectedRequest),
        (give_back_with(BORROWER, None), CountRaised),
        (give_back_with(BORROWER, Some(10)), CountRaised),
        (remove(THIRD), UnexpectedRequest),
        (remove(COURSE), HandleNotFound),
        (give_up(OTHER), UnexpectedRequest),
        (give_up(COURSE), HandleNotFound),
    ] {
        assert_refused(request, Verdict::Held, status);
    }
}

/// A kind that there is not, a bit that must be 0, another version.
#[test]
fn a_frame_that_is_no_request_changes_no_number() {
    let mut card = full();
    for (frame, status) in [([0x2A, 0x80], 3), ([0x26, 0xC0], 2), ([0x46, 0x80], 2)] {
        let frame = [frame[0], frame[1], 0, 0];
        let mut buffer = [0; REPLY_ROOM];
        let reply = card.call_frame(&frame, &mut buffer).unwrap();
        assert_eq!(reply[1], status, "{frame:02x?}");
        assert_tally(&card, FULL, &format!("{frame:02x?}"));
    }
}

#[test]
fn a_refused_call_changes_no_number() {
    let mut card = full();
    let removal = remove(OTHER).to_frame().unwrap();
    let mut buffer = [0; REPLY_ROOM];
    for (start, frame, room, error) in [
        (0, &removal[..], 4278, CallError::ReplyBufferShort),
        (3, &removal[..], REPLY_ROOM, CallError::StartOutside),
        (0, &removal[..13], REPLY_ROOM, CallError::NoFrame),
    ] {
        let given = card.call_frame_from(start, frame, &mut buffer[..room]);
        assert_eq!(given, Err(error));
        assert_tally(&card, FULL, &format!("{error:?}"));
    }
    let reply = card.call_frame(&removal, &mut buffer);
    assert_eq!(reply, Ok(&[0x26, 0, 0, 0][..]));
    assert_tally(&card, [1, 1, 0, 1, 16], "the removal");
}

/// Before an old table with a count is turned it is no table and has no tally;
/// afterwards it has that of its places and lengths.
#[test]
fn a_turned_table_has_its_tally() {
    let mut old = full().into_table();
    for slot in old.chunks_mut(SLOT_BYTES) {
        slot[0] &= !2;
    }
    let mut card = Card::from(old.clone());
    assert_eq!(card.tally(), Tally::default());
    assert_eq!(card.retally(), Err(TallyError::TableNotWellFormed));
    assert_eq!(card.turn(), Ok(()));
    assert_tally(&card, FULL, "the turning");
    assert_eq!(card.turn(), Err(TurnError::TableNotWellFormed));
    assert_tally(&card, FULL, "a turning that is refused");
    let reply = card.call(&give_back(BORROWER), Verdict::Held).unwrap();
    assert_eq!(reply.status(), Success);
    assert_tally(&card, [0, 1, 2, 0, 23], "the return");

    assert_eq!(Card::over(&mut old).turn(), Ok(()));
    assert_tally(&Card::over(&mut old), FULL, "the turning");
}

/// Asserts that a card has no tally, and that it is refused for what its bytes
/// are and not for its tally.
fn assert_none<T>(mut card: Card<T>, error: TallyError, refused: CallError)
where
    T: AsRef<[u8]> + AsMut<[u8]>,
{
    let frame = list().to_frame().unwrap();
    for frame in [&frame[..], &[]] {
        assert_eq!(card.tally(), Tally::default());
        let given = card.call_frame(frame, &mut [0; REPLY_ROOM]).err();
        assert_eq!(given, Some(refused));
        assert_eq!(card.retally(), Err(error));
    }
}

/// Asserts the same of each card over these bytes.
fn assert_no_tally(bytes: &[u8], error: TallyError, refused: CallError) {
    assert_eq!(Tally::of(bytes), Err(error));
    assert_none(Card::from(bytes.to_vec()), error, refused);
    assert_none(Card::over(&mut bytes.to_vec()), error, refused);
}

#[test]
fn bytes_of_a_wrong_length_have_no_tally() {
    let (error, refused) = (TallyError::TableLength, CallError::TableLength);
    for length in [0, 1, SLOT_BYTES - 1, SLOT_BYTES + 1, 16 * SLOT_BYTES] {
        assert_no_tally(&vec![0; length], error, refused);
        assert_no_tally(&vec![0xFF; length], error, refused);
    }
    for slots in [0, 16, 17] {
        assert_none(Card::blank(slots), error, refused);
    }
}

#[test]
fn a_table_that_is_not_well_formed_has_no_tally() {
    let error = TallyError::TableNotWellFormed;
    let refused = CallError::TableNotWellFormed;
    let table = full().into_table();
    for at in [0, 191, SLOT_BYTES - 1, table.len() - 1] {
        let mut spoiled = table.clone();
        spoiled[at] ^= 1;
        assert_no_tally(&spoiled, error, refused);
    }
    let twice = [&table[..SLOT_BYTES], &table[..SLOT_BYTES]].concat();
    assert_no_tally(&twice, error, refused);
}

#[test]
fn the_tally_of_a_blank_card_is_its_slots() {
    for slots in 0..=17 {
        let n = if slots <= MOST_SLOTS { slots as u16 } else { 0 };
        assert_eq!(Tally::blank(slots), tally([n, 0, 0, 0, 0]));
        assert_eq!(Card::blank(slots).tally(), Tally::blank(slots));
    }
    for slots in [1 << 16, (1 << 16) + 1, usize::MAX] {
        assert_eq!(Tally::blank(slots), Tally::default());
    }
}

#[test]
fn a_tally_is_shown_in_one_line() {
    for (numbers, shown) in [
        (
            [2, 0, 1, 0, 5],
            "2 empty, 0 reserved, 1 enabled, 0 disabled, 5 payload bytes",
        ),
        (
            [0, 1, 2, 3, 1],
            "0 empty, 1 reserved, 2 enabled, 3 disabled, 1 payload byte",
        ),
        (
            [0, 0, 0, 15, 61440],
            "0 empty, 0 reserved, 0 enabled, 15 disabled, 61440 payload bytes",
        ),
    ] {
        assert_eq!(tally(numbers).to_string(), shown);
    }
    let most = tally([u16::MAX; 5]);
    assert_eq!(most.slots(), 4 * 65535);
}
