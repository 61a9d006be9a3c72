//! What returns did to counts, and the running total of it (PROFILE 4.4, 4.5):
//! which calls are counted, and with what change.

mod returns;

use cavernlull::{AssetHash, Card, Handle, Reply, Request, Right, Rotation, Status, Verdict};
use cavernlull::{Tally, Totalled, Totals, MOST_CHANGE, REPLY_ROOM};
use returns::{assert_counted, assert_not_counted, give_back, lent, made, record};
use returns::{DISABLED, ENABLED, RESERVED};

const COURSE: Handle = Handle([1; 10]);
const LENT: Handle = Handle([2; 10]);

/// Totals to which any change can be added.
fn some() -> Totals {
    Totals::from_parts(-7, 3)
}

/// The frame of a request.
fn frame(request: Request) -> Vec<u8> {
    request.to_frame().unwrap()
}

/// Case 25 of the card profile (PROFILE 9.8). Its states are those after cases 16
/// (lent), 9 and 11, made by the calls that these cases make.
#[test]
fn case_25_of_the_card_profile() {
    let lent_16 = walked(Some(1));
    let (after_9, mut after_11) = (walked(None), walked(Some(7)));
    answered(&mut after_11, &give_back(Some(3)));
    let last = (-1_965_984_465, 29_999);
    for (card, sent, status, before, after, change) in [
        (&lent_16, Some(0), 0, (0, 0), (-1, 1), -1),
        (&lent_16, Some(4), 9, (-1, 1), (-1, 1), 0),
        (&lent_16, Some(1), 0, (-1, 1), (-1, 2), 0),
        (&lent_16, None, 9, (-1, 2), (-1, 2), 0),
        (&after_9, Some(3), 9, (-1, 2), (-1, 2), 0),
        (&after_9, None, 0, (-1, 2), (-1, 2), 0),
        (&after_11, Some(4), 0, (-1, 2), (-1, 2), 0),
        (&lent_16, Some(0), 0, last, (-1_965_984_466, 30_000), -1),
    ] {
        let (mut card, mut totals) = (card.clone(), Totals::from_parts(before.0, before.1));
        let mut buffer = [0; REPLY_ROOM];
        let totalled = totals.call_frame(&mut card, &give_back(sent), &mut buffer);
        let expected = Totalled {
            reply: &[0x25, status, 0, 0][..],
            change,
            counted: before.1 != after.1,
        };
        assert_eq!(totalled, Ok(expected), "{before:?}");
        assert_eq!((totals.total(), totals.returns()), after);
    }
}

/// Has the card answer a frame with a success.
fn answered(card: &mut Card, frame: &[u8]) {
    let mut buffer = [0; REPLY_ROOM];
    let reply = card.call_frame(frame, &mut buffer).unwrap();
    assert_eq!(reply[1] & 0x7F, 0);
}

/// A card of one slot, on which a course was installed with this count and lent.
fn walked(count: Option<u16>) -> Card {
    let right = Right {
        count,
        hashes: vec![AssetHash([0xA0; 20])],
        payload: b"12345".to_vec(),
        ..Right::default()
    };
    let (handle, new_handle, room) = (COURSE, LENT, 5);
    let mut card = Card::blank(1);
    for request in [
        Request::InstallationSetup { handle, room },
        Request::RightsInstallation { handle, right },
        Request::RekQuery { handle, new_handle },
    ] {
        answered(&mut card, &frame(request));
    }
    card
}

/// Counts at both ends, in the middle and on both sides of a byte's border and of
/// the sign of a 16-bit number.
const COUNTS: [u16; 11] = [
    0, 1, 2, 255, 256, 32_766, 32_767, 32_768, 32_769, 65_534, 65_535,
];

/// The change is the count sent minus the count stored, where that is no greater;
/// a return with the count that was lent is counted too.
#[test]
fn a_return_with_two_kept_counts_is_counted() {
    let pairs = COUNTS.iter().flat_map(|a| COUNTS.map(|b| (*a, b)));
    for (stored, sent) in pairs.filter(|(stored, sent)| sent <= stored) {
        let change = i32::from(sent) - i32::from(stored);
        let give_back = give_back(Some(sent));
        for totals in [Totals::new(), some()] {
            assert_counted(&mut lent(Some(stored)), made(&give_back), totals, change);
        }
    }
}

/// Both ends of what a return can change.
#[test]
fn a_return_takes_0_to_65535_off() {
    let (least, most) = (give_back(Some(0)), give_back(Some(65_535)));
    let full = || lent(Some(65_535));
    let down = assert_counted(&mut full(), made(&least), Totals::new(), -MOST_CHANGE);
    assert_eq!(down, Totals::from_parts(-65_535, 1));
    let same = assert_counted(&mut full(), made(&most), Totals::new(), 0);
    assert_eq!(same, Totals::from_parts(0, 1));
}

/// Where no count is kept, there is nothing to subtract: the return is a success,
/// and not counted.
#[test]
fn a_return_without_counts_is_not_counted() {
    let mut card = lent(None);
    assert_not_counted(&mut card, made(&give_back(None)), some(), 0);
    assert!(card.table() == record(ENABLED, 2, None));
}

/// A device that lost the reply sends its return again: the record is enabled
/// already, whatever count is sent.
#[test]
fn a_return_that_is_sent_again_is_not_counted_again() {
    for stored in [None, Some(0), Some(9), Some(65_535)] {
        for sent in [None, Some(0), Some(8), Some(9), Some(10)] {
            let mut card = Card::from(record(ENABLED, 2, stored));
            assert_not_counted(&mut card, made(&give_back(sent)), some(), 0);
        }
    }
    let (mut card, give_back) = (lent(Some(9)), give_back(Some(4)));
    let totals = assert_counted(&mut card, made(&give_back), some(), -5);
    assert_not_counted(&mut card, made(&give_back), totals, 0);
}

/// The record is found by its handle, wherever it stands, and no other counts.
#[test]
fn a_return_is_that_of_the_record_under_its_handle() {
    let other = |handle| record(DISABLED, handle, Some(100));
    let slots = [
        record(RESERVED, 1, None),
        other(3),
        vec![0; cavernlull::SLOT_BYTES],
        record(DISABLED, 2, Some(9)),
        other(0),
    ];
    let mut card = Card::from(slots.concat());
    for start in 0..slots.len() {
        let frame = give_back(Some(4));
        let made = returns::Made {
            start,
            ..made(&frame)
        };
        assert_counted(&mut card.clone(), made, some(), -5);
    }
    let zeros = Request::RightsEnablement {
        handle: Handle([0; 10]),
        count: Some(99),
    };
    assert_counted(&mut card, made(&frame(zeros)), some(), -1);
}

/// Requests of every kind but the return, about a right that is lent under `02`,
/// one that is for use under `01`, and a reservation under `03`.
fn other_requests() -> Vec<Request> {
    let (handle, new_handle, reserved) = (COURSE, Handle([9; 10]), Handle([3; 10]));
    let right = Right {
        count: Some(4),
        hashes: vec![AssetHash([0xA1; 20])],
        payload: b"12345".to_vec(),
        ..Right::default()
    };
    vec![
        Request::InstallationSetup {
            handle: new_handle,
            room: 5,
        },
        Request::RightsInstallation {
            handle: reserved,
            right,
        },
        Request::RightsRetrieval { handle, new_handle },
        Request::RekQuery { handle, new_handle },
        Request::RightsRemoval { handle: LENT },
        Request::RightsRemoval { handle },
        Request::HandleRemoval { handle: reserved },
        Request::HandleListQuery {
            limit: 0,
            hashes: vec![],
        },
        Request::RightsInformationQuery { handle },
    ]
}

/// A card on which each of these requests is a success.
fn busy() -> Card {
    let slots = [
        record(ENABLED, 1, Some(9)),
        record(DISABLED, 2, Some(9)),
        record(RESERVED, 3, None),
        vec![0; cavernlull::SLOT_BYTES],
    ];
    Card::from(slots.concat())
}

#[test]
fn no_other_kind_is_counted() {
    for request in other_requests() {
        let mut card = busy();
        let reply = card.clone().call(&request, Verdict::Held).unwrap();
        assert_eq!(reply.status(), Status::Success, "{request:?}");
        assert_not_counted(&mut card, made(&frame(request)), some(), 0);
    }
    for kind in 0..32 {
        for verdict in [0, 0x80] {
            let frame = [0x20 | kind, verdict, 0, 0];
            assert_not_counted(&mut busy(), made(&frame), some(), 0);
        }
    }
}

/// Each status that an enablement can have, and a body of the wrong length.
#[test]
fn no_refused_return_is_counted() {
    let whole = give_back(Some(4));
    let with = |at: usize, byte| {
        let mut frame = whole.clone();
        frame[at] = byte;
        frame
    };
    let mut reserved = with(4, 3);
    reserved[4..14].fill(3);
    let long = [&[0x25, 0xC0, 0, 13], &whole[4..], &[0]].concat();
    for (status, frame) in [
        (1, with(1, 0x40)),
        (2, with(1, 0x80)),
        (2, with(1, 0xE0)),
        (2, long),
        (4, with(4, 9)),
        (6, reserved),
        (9, give_back(Some(10))),
        (9, give_back(None)),
    ] {
        let mut buffer = [0; REPLY_ROOM];
        let reply = busy().call_frame(&frame, &mut buffer).unwrap().to_vec();
        assert_eq!(reply, [0x25, status, 0, 0]);
        assert_not_counted(&mut busy(), made(&frame), some(), 0);
    }
    let mut other_version = with(0, 0x45);
    other_version[1] = 0xC0;
    assert_not_counted(&mut busy(), made(&other_version), some(), 0);
}

/// With each number of the call but 0 the totals stay.
#[test]
fn no_call_with_a_number_is_counted() {
    let give_back = give_back(Some(4));
    let whole = made(&give_back);
    let short = returns::Made {
        room: REPLY_ROOM - 1,
        ..whole
    };
    let outside = returns::Made { start: 1, ..whole };
    let mut worn = lent(Some(9)).into_table();
    worn[191] = 1;
    let other_tally = Card::with_tally(record(DISABLED, 2, Some(9)), Tally::blank(1));
    for (number, mut card, made) in [
        (101, lent(Some(9)), short),
        (102, Card::from(vec![0xC6; 4287]), whole),
        (105, lent(Some(9)), outside),
        (103, Card::from(worn), whole),
        (106, other_tally, whole),
        (104, lent(Some(9)), made(&give_back[..15])),
    ] {
        assert_not_counted(&mut card, made, some(), number);
    }
}

/// With requests, replies and verdicts the totals are the same as with frames.
#[test]
fn a_call_with_a_request_gives_the_reply_and_its_change() {
    let (mut card, mut totals) = (lent(Some(9)), Totals::new());
    let (handle, count) = (LENT, Some(4));
    let give_back = Request::RightsEnablement { handle, count };
    let failed = totals.call(&mut card, &give_back, Verdict::Failed).unwrap();
    let status = Status::FieldIntegrityVerificationFailed;
    assert_eq!(failed.reply.status(), status);
    assert_eq!((failed.change, failed.counted), (0, false));
    let held = totals.call(&mut card, &give_back, Verdict::Held).unwrap();
    let expected = Totalled {
        reply: Reply::Done(give_back.kind()),
        change: -5,
        counted: true,
    };
    assert_eq!((held, totals), (expected, Totals::from_parts(-5, 1)));
    let (new_handle, handle) = (COURSE, LENT);
    let lending = Request::RekQuery { handle, new_handle };
    let key = totals.call_from(&mut card, 0, &lending, Verdict::Held);
    assert!(matches!(key.unwrap().reply, Reply::Key(_)));
    assert_eq!(totals, Totals::from_parts(-5, 1));
}

/// Totals go on over many cards, and are taken up again from their numbers.
#[test]
fn totals_go_on_over_many_cards() {
    let mut totals = Totals::new();
    for (stored, sent) in [(10, 7), (5, 5), (4, 0), (65_535, 0)] {
        let before = totals;
        let change = i32::from(sent) - i32::from(stored);
        totals = Totals::from_parts(before.total(), before.returns());
        let give_back = give_back(Some(sent));
        totals = assert_counted(&mut lent(Some(stored)), made(&give_back), totals, change);
    }
    assert_eq!((totals.total(), totals.returns()), (-7 - 65_535, 4));
}

/// A card that is used in rotation has its returns totalled too: the start moves
/// as it does without totals.
#[test]
fn a_rotation_totals_and_moves_on() {
    let (mut rotation, mut totals) = (Rotation::from_slot(5), Totals::new());
    let mut card = Card::from([record(DISABLED, 2, Some(9)), vec![0; 2 * 4288]].concat());
    let (handle, room) = (COURSE, 5);
    let setup = Request::InstallationSetup { handle, room };
    let (handle, count) = (LENT, Some(3));
    let give_back = Request::RightsEnablement { handle, count };
    for (request, start, change) in [(&setup, 0, 0), (&setup, 0, 0), (&give_back, 0, -6)] {
        let totalled = rotation.call_totalling(&mut totals, &mut card, request, Verdict::Held);
        assert_eq!(
            (totalled.unwrap().change, rotation.start()),
            (change, start)
        );
    }
    let mut buffer = [0; REPLY_ROOM];
    let mut another = frame(setup);
    another[4..14].fill(7);
    let totalled = rotation.call_frame_totalling(&mut totals, &mut card, &another, &mut buffer);
    assert_eq!(totalled.unwrap().reply, [0x21, 0, 0, 0]);
    assert_eq!((rotation.start(), totals), (2, Totals::from_parts(-6, 1)));
    assert_eq!(card.tally().reserved, 2);
}

#[test]
fn totals_are_shown_in_words() {
    for (total, returns, words) in [
        (0, 0, "total 0 in 0 returns"),
        (-1, 1, "total -1 in 1 return"),
        (2, 2, "total +2 in 2 returns"),
        (-1_966_050_000, 30_000, "total -1966050000 in 30000 returns"),
    ] {
        assert_eq!(Totals::from_parts(total, returns).to_string(), words);
    }
    assert_eq!(Totals::default(), Totals::new());
}
