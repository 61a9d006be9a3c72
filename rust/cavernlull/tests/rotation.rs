//! What moves a rotation, and what does not.

use cavernlull::{AssetHash, CallError, Card, Error, Handle, Request, Right, Rotation};
use cavernlull::{Status, Verdict};
use cavernlull::{MOST_SLOTS, REPLY_ROOM, SLOT_BYTES};

fn handle(n: u8) -> Handle {
    Handle([n; 10])
}

fn setup(n: u8) -> Request {
    Request::InstallationSetup {
        handle: handle(n),
        room: 9,
    }
}

/// A card of so many slots, and a rotation on it.
fn blank(slots: usize) -> (Card, Rotation) {
    (Card::blank(slots), Rotation::new())
}

/// The slot that has the record under a handle.
fn slot_of(card: &Card, handle: Handle) -> Option<usize> {
    let mut slots = card.table().chunks(SLOT_BYTES);
    slots.position(|slot| slot[0] >= 0x40 && slot[1..11] == handle.0)
}

#[test]
fn each_setup_begins_after_the_slot_that_the_last_one_took() {
    let (mut card, mut rotation) = blank(3);
    for (n, slot) in [(1, 0), (2, 1), (3, 2), (4, 0), (5, 1), (6, 2), (7, 0)] {
        assert_eq!(rotation.start(), slot);
        let reply = rotation.call(&mut card, &setup(n), Verdict::Held);
        assert_eq!(reply.unwrap().status(), Status::Success);
        assert_eq!(slot_of(&card, handle(n)), Some(slot));
        assert_eq!(rotation.start(), (slot + 1) % 3);
        let given_up = Request::HandleRemoval { handle: handle(n) };
        rotation.call(&mut card, &given_up, Verdict::Held).unwrap();
    }
}

/// Taken slots are passed over, and the rotation goes on after the slot that was
/// taken, not after its start.
#[test]
fn a_rotation_passes_over_slots_that_are_taken() {
    let mut card = Card::blank(5);
    for n in [1, 2, 3] {
        card.call_from(1, &setup(n), Verdict::Held).unwrap();
    }
    let mut rotation = Rotation::from_slot(2);
    for (n, slot, next) in [(4, 4, 0), (5, 0, 1)] {
        rotation.call(&mut card, &setup(n), Verdict::Held).unwrap();
        assert_eq!(slot_of(&card, handle(n)), Some(slot));
        assert_eq!(rotation.start(), next);
    }
}

/// Ten zeros are a handle, and no empty slot is under it.
#[test]
fn a_handle_of_zeros_is_not_found_in_an_empty_slot() {
    let mut card = Card::blank(4);
    let mut rotation = Rotation::from_slot(2);
    rotation.call(&mut card, &setup(0), Verdict::Held).unwrap();
    assert_eq!(slot_of(&card, handle(0)), Some(2));
    assert_eq!(rotation.start(), 3);
}

/// A setup of so many bytes under a handle is refused with this status, and does
/// not move the rotation.
fn assert_stays(card: &mut Card, n: u8, room: u16, verdict: Verdict, status: Status) {
    let handle = handle(n);
    let request = Request::InstallationSetup { handle, room };
    let mut frame = request.to_frame().unwrap();
    verdict.put_into(&mut frame);
    let mut rotation = Rotation::from_slot(2);
    let reply = rotation.call(card, &request, verdict).unwrap();
    assert_eq!((reply.status(), rotation.start()), (status, 2));
    let mut buffer = [0; REPLY_ROOM];
    let reply = rotation.call_frame(card, &frame, &mut buffer).unwrap();
    assert_eq!((reply[1], rotation.start()), (status.number(), 2));
}

#[test]
fn a_refused_setup_does_not_move_it() {
    let mut card = Card::blank(3);
    card.call(&setup(1), Verdict::Held).unwrap();
    let failed = Status::FieldIntegrityVerificationFailed;
    assert_stays(&mut card, 2, 9, Verdict::Failed, failed);
    assert_stays(&mut card, 2, 0, Verdict::Held, Status::ParameterFailed);
    assert_stays(&mut card, 1, 9, Verdict::Held, Status::DuplicateHandle);
    assert_stays(&mut card, 2, 4097, Verdict::Held, Status::NotEnoughSpace);
    for n in [2, 3] {
        card.call(&setup(n), Verdict::Held).unwrap();
    }
    assert_stays(&mut card, 4, 9, Verdict::Held, Status::NotEnoughSpace);
}

#[test]
fn no_other_kind_moves_it() {
    let (mut card, mut rotation) = blank(4);
    let right = Right {
        hashes: vec![AssetHash([0xA1; 20])],
        payload: vec![7; 9],
        ..Right::default()
    };
    let (first, lent, moved) = (handle(1), handle(2), handle(3));
    rotation.call(&mut card, &setup(1), Verdict::Held).unwrap();
    card.call(&setup(9), Verdict::Held).unwrap();
    for request in [
        Request::RightsInstallation {
            handle: first,
            right,
        },
        Request::RightsInformationQuery { handle: first },
        Request::RekQuery {
            handle: first,
            new_handle: lent,
        },
        Request::RightsEnablement {
            handle: lent,
            count: None,
        },
        Request::RightsRetrieval {
            handle: lent,
            new_handle: moved,
        },
        Request::HandleListQuery {
            limit: 0,
            hashes: vec![],
        },
        Request::RightsRemoval { handle: moved },
        Request::HandleRemoval { handle: handle(9) },
    ] {
        let reply = rotation.call(&mut card, &request, Verdict::Held).unwrap();
        assert_eq!((reply.status(), rotation.start()), (Status::Success, 1));
    }
    assert!(card.table().iter().all(|&byte| byte == 0));
}

/// On every card the start is counted round its slots, so that it is never
/// outside them; and where there is no card, the table is what is refused.
#[test]
fn a_rotation_is_never_outside_a_card() {
    for slots in 1..=MOST_SLOTS {
        for start in [0, slots - 1, slots, slots + 1, 14, 15, 256, usize::MAX] {
            let (mut card, mut rotation) = (Card::blank(slots), Rotation::from_slot(start));
            let reply = rotation.call(&mut card, &setup(1), Verdict::Held);
            assert_eq!(reply.unwrap().status(), Status::Success);
            assert_eq!(slot_of(&card, handle(1)), Some(start % slots));
            assert_eq!(rotation.start(), (start % slots + 1) % slots);
        }
    }
    for table in [
        vec![],
        vec![0; 100],
        vec![0; SLOT_BYTES + 1],
        vec![0; 16 * SLOT_BYTES],
    ] {
        let mut rotation = Rotation::from_slot(20);
        let refused = rotation.call(&mut Card::from(table), &setup(1), Verdict::Held);
        assert_eq!(refused, Err(Error::Call(CallError::TableLength)));
        assert_eq!(rotation.start(), 20);
    }
}

#[test]
fn a_refused_call_does_not_move_it() {
    let frame = setup(1).to_frame().unwrap();
    let mut rotation = Rotation::from_slot(5);
    let mut refused = |card: &mut Card, frame: &[u8], room| {
        let before = card.table().to_vec();
        let mut buffer = vec![0xA5; room];
        let error = rotation.call_frame(card, frame, &mut buffer).unwrap_err();
        assert!(card.table() == before && buffer == vec![0xA5; room]);
        assert_eq!(rotation.start(), 5);
        error
    };
    let (mut card, mut spoiled) = (Card::blank(2), Card::from(vec![1; SLOT_BYTES]));
    let short = refused(&mut card, &frame, REPLY_ROOM - 1);
    assert_eq!(short, CallError::ReplyBufferShort);
    let not_well = refused(&mut spoiled, &frame, REPLY_ROOM);
    assert_eq!(not_well, CallError::TableNotWellFormed);
    for frame in [&frame[..15], &frame[..4], &[]] {
        assert_eq!(refused(&mut card, frame, REPLY_ROOM), CallError::NoFrame);
    }
}

/// Frames move it as requests do, also over a table that is lent.
#[test]
fn frames_move_it_as_requests_do() {
    let (mut card, mut by_requests) = blank(3);
    let mut memory = vec![0; 3 * SLOT_BYTES];
    let mut by_frames = Rotation::new();
    for n in 1..=8 {
        let given_up = Request::HandleRemoval {
            handle: handle(n - 1),
        };
        for request in [setup(n), setup(n), given_up] {
            by_requests
                .call(&mut card, &request, Verdict::Held)
                .unwrap();
            let frame = request.to_frame().unwrap();
            let mut lent = Card::over(&mut memory);
            let reply = &mut [0; REPLY_ROOM];
            by_frames.call_frame(&mut lent, &frame, reply).unwrap();
            assert_eq!(by_frames, by_requests);
            assert!(lent.table() == card.table());
        }
    }
    assert_eq!(Rotation::from_slot(by_frames.start()), by_requests);
    assert_eq!(Rotation::default(), Rotation::new());
}
