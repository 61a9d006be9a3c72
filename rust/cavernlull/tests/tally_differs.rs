//! 106: a tally that is not that of its table is refused, whatever the frame, and
//! nothing is changed (PROFILE 4.1). What a card does with a tally that was
//! stored beside its table.

use cavernlull::{AssetHash, CallError, Card, Error, Handle, Request, Right, Status, Verdict};
use cavernlull::{Tally, TallyError, REPLY_ROOM, SLOT_BYTES};

/// The numbers of the table below.
const NUMBERS: [u16; 5] = [1, 2, 2, 1, 3 * 0x0101];

const EMPTY: u8 = 0;
const RESERVED: u8 = 1;
const ENABLED: u8 = 2;
const DISABLED: u8 = 3;

/// A tally from its numbers, in their order.
fn tally([empty, reserved, enabled, disabled, payload]: [u16; 5]) -> Tally {
    Tally {
        empty,
        reserved,
        enabled,
        disabled,
        payload,
    }
}

/// A table with every place (PROFILE 2.2). Each record has a length of 257.
fn table() -> Vec<u8> {
    let places = [ENABLED, RESERVED, EMPTY, DISABLED, ENABLED, RESERVED];
    let mut table = vec![0; places.len() * SLOT_BYTES];
    let slots = table.chunks_mut(SLOT_BYTES).zip(places).zip(1..);
    for ((slot, place), handle) in slots.filter(|((_, place), _)| *place != EMPTY) {
        slot[0] = place << 6;
        slot[1..11].fill(handle);
        slot[29..31].fill(1);
    }
    table
}

/// A request of each kind, which the card would carry out.
fn requests() -> Vec<Request> {
    let (handle, new_handle) = (Handle([1; 10]), Handle([9; 10]));
    let (reserved, disabled) = (Handle([2; 10]), Handle([4; 10]));
    let right = Right {
        hashes: vec![AssetHash([0xA1; 20])],
        payload: vec![7],
        ..Right::default()
    };
    vec![
        Request::InstallationSetup {
            handle: new_handle,
            room: 5,
        },
        Request::RightsInstallation {
            handle: reserved,
            right,
        },
        Request::RightsRetrieval { handle, new_handle },
        Request::RekQuery { handle, new_handle },
        Request::RightsEnablement {
            handle: disabled,
            count: None,
        },
        Request::RightsRemoval { handle },
        Request::HandleRemoval { handle: reserved },
        Request::HandleListQuery {
            limit: 0,
            hashes: vec![],
        },
        Request::RightsInformationQuery { handle },
    ]
}

/// The frames of these requests, frames that are refused, and no frames.
fn frames() -> Vec<Vec<u8>> {
    let requests = requests().into_iter();
    let mut frames: Vec<Vec<u8>> = requests.map(|one| one.to_frame().unwrap()).collect();
    frames.extend((0..32).map(|kind| vec![0x20 | kind, 0, 0, 0]));
    frames.extend([vec![], vec![0x21], vec![0x21, 0x80, 0, 1]]);
    frames
}

/// Tallies that differ from the right one in one number: by one, by one of its
/// bytes, and by being at either end.
fn wrong_in_one_number() -> Vec<Tally> {
    let wrong = |at: usize| {
        let right = NUMBERS[at];
        let others = [right + 1, right - 1, right + 256, !right, 0, u16::MAX];
        others.into_iter().map(move |other| {
            let mut numbers = NUMBERS;
            numbers[at] = other;
            tally(numbers)
        })
    };
    (0..5).flat_map(wrong).collect()
}

/// Tallies that differ in two numbers and have as many slots, or in all.
fn wrong_in_more() -> Vec<Tally> {
    let [empty, reserved, enabled, disabled, payload] = NUMBERS;
    vec![
        tally([reserved, empty, enabled, disabled, payload]),
        tally([empty, reserved, disabled, enabled, payload]),
        tally([disabled, enabled, reserved, empty, 0]),
        tally([empty + 1, reserved - 1, enabled, disabled, payload]),
        tally([empty, reserved, enabled + 1, disabled - 1, payload]),
        tally([empty, reserved, enabled + 1, disabled, payload + 0x0101]),
        Tally::blank(6),
        Tally::default(),
        tally([u16::MAX; 5]),
    ]
}

/// Asserts that a call with this tally, which was handed in, is refused with this
/// error, and that table, tally and buffer stay as they were.
fn assert_refused(table: &[u8], tally: Tally, call: (usize, &[u8], usize), error: CallError) {
    let (start, frame, room) = call;
    let mut card = Card::with_tally(table.to_vec(), tally);
    let mut buffer = vec![0xA5; room];
    let given = card.call_frame_from(start, frame, &mut buffer);
    assert_eq!(given, Err(error), "{tally} with {frame:02x?}");
    assert_eq!(card.tally(), tally);
    assert!(card.table() == table && buffer.iter().all(|&byte| byte == 0xA5));
}

#[test]
fn a_tally_with_a_wrong_number_is_refused() {
    let (table, setup) = (table(), requests()[0].to_frame().unwrap());
    assert_eq!(Tally::of(&table), Ok(tally(NUMBERS)));
    let wrong = wrong_in_one_number().into_iter().chain(wrong_in_more());
    for tally in wrong {
        let differs = CallError::TallyDiffers;
        assert_refused(&table, tally, (2, &setup, REPLY_ROOM), differs);
    }
}

#[test]
fn a_tally_that_differs_is_refused_whatever_the_frame() {
    let table = table();
    for frame in frames() {
        for tally in [Tally::of(&table[SLOT_BYTES..]).unwrap(), Tally::default()] {
            let differs = CallError::TallyDiffers;
            assert_refused(&table, tally, (5, &frame, REPLY_ROOM), differs);
        }
    }
}

/// 106 comes after 101, 102, 105 and 103, and before 104 (PROFILE 4.1).
#[test]
fn a_tally_is_looked_at_in_its_order() {
    let (table, mut spoiled) = (table(), table());
    *spoiled.last_mut().unwrap() = 1;
    for tally in wrong_in_one_number() {
        let refused = |table: &[u8], start, room, error| {
            assert_refused(table, tally, (start, &[], room), error);
        };
        refused(&spoiled[1..], 6, 4278, CallError::ReplyBufferShort);
        refused(&spoiled[1..], 6, REPLY_ROOM, CallError::TableLength);
        refused(&spoiled, 6, REPLY_ROOM, CallError::StartOutside);
        refused(&spoiled, 5, REPLY_ROOM, CallError::TableNotWellFormed);
        refused(&table, 5, REPLY_ROOM, CallError::TallyDiffers);
    }
    let right = tally(NUMBERS);
    assert_refused(&table, right, (5, &[], REPLY_ROOM), CallError::NoFrame);
}

/// A card that is put away with its tally and taken up again, owned or lent, does
/// what one does that was never put away.
#[test]
fn a_stored_tally_is_taken_up() {
    let mut kept = Card::from(table());
    let mut stored = (table(), tally(NUMBERS));
    let mut lent = stored.clone();
    for request in requests() {
        let expected = kept.call(&request, Verdict::Held);
        let mut card = Card::with_tally(stored.0, stored.1);
        assert_eq!(card.call(&request, Verdict::Held), expected);
        stored = card.into_parts();
        let mut card = Card::with_tally(&mut lent.0[..], lent.1);
        assert_eq!(card.call(&request, Verdict::Held), expected);
        lent.1 = card.into_parts().1;
        assert!(kept.table() == stored.0 && kept.table() == lent.0);
        assert_eq!((stored.1, lent.1), (kept.tally(), kept.tally()));
    }
    assert_ne!(kept.tally(), tally(NUMBERS));
}

/// A wrong one stays and is refused until the card works it out.
#[test]
fn a_wrong_tally_is_refused_until_it_is_worked_out() {
    let setup = &requests()[0];
    for wrong in wrong_in_one_number().into_iter().chain(wrong_in_more()) {
        let mut memory = table();
        let mut card = Card::with_tally(&mut memory[..], wrong);
        for _ in 0..2 {
            let refused = card.call(setup, Verdict::Held);
            assert_eq!(refused, Err(Error::Call(CallError::TallyDiffers)));
            assert_eq!(card.tally(), wrong);
        }
        assert_eq!(card.retally(), Ok(tally(NUMBERS)));
        assert_eq!(card.retally(), Ok(card.tally()));
        let reply = card.call(setup, Verdict::Held).unwrap();
        assert_eq!(reply.status(), Status::Success);
        assert_eq!(card.tally(), tally([0, 3, 2, 1, 3 * 0x0101]));
    }
}

/// Where the bytes are no table, nothing is worked out, and the card keeps what
/// was handed in.
#[test]
fn no_tally_is_worked_out_of_what_is_no_table() {
    let right = tally(NUMBERS);
    let mut spoiled = table();
    spoiled[191] = 1;
    for (bytes, error) in [
        (spoiled, TallyError::TableNotWellFormed),
        (vec![0; 16 * SLOT_BYTES], TallyError::TableLength),
        (vec![], TallyError::TableLength),
    ] {
        let mut card = Card::with_tally(bytes.clone(), right);
        assert_eq!(card.retally(), Err(error));
        assert_eq!(card.into_parts(), (bytes, right));
    }
}

/// A turning that is carried out mends the tally, and one that is refused leaves
/// it.
#[test]
fn a_turning_mends_a_wrong_tally() {
    let mut card = Card::with_tally(table(), Tally::blank(6));
    assert_eq!(card.turn(), Ok(()));
    assert_eq!(card.tally(), tally(NUMBERS));

    let mut with_count = table();
    with_count[0] |= 2;
    let mut card = Card::with_tally(with_count, Tally::blank(6));
    assert!(card.turn().is_err());
    assert_eq!(card.tally(), Tally::blank(6));
    let refused = card.call(&requests()[7], Verdict::Held);
    assert_eq!(refused, Err(Error::Call(CallError::TallyDiffers)));
}
