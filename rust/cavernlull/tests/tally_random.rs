//! Calls at random on one card after the other. No card is ever refused for its
//! tally, and after each call its five numbers are those counted from its bytes
//! (PROFILE 8.5). They change in the ways of PROFILE 2.8 and in no other.

use cavernlull::{AssetHash, CallError, Card, Handle, Request, Right, Tally};
use cavernlull::{MOST_SLOTS, REPLY_ROOM, SLOT_BYTES};
use random::Rng;
use std::collections::BTreeSet;

/// How many calls each card of 1 to 15 slots is sent.
const CALLS: usize = 2000;

/// A kind, and by how much a call of it changed the numbers of empty, reserved,
/// enabled and disabled slots.
type Change = (u8, [i32; 4]);

/// The changes that there are.
const CHANGES: [Change; 8] = [
    (1, [-1, 1, 0, 0]),
    (2, [0, -1, 1, 0]),
    (3, [0, 0, -1, 1]),
    (4, [0, 0, -1, 1]),
    (5, [0, 0, 1, -1]),
    (6, [1, 0, -1, 0]),
    (6, [1, 0, 0, -1]),
    (7, [1, -1, 0, 0]),
];

/// The tally of a table, counted from its bytes (PROFILE 2.2).
fn counted(table: &[u8]) -> Tally {
    let mut tally = Tally::default();
    for slot in table.chunks(SLOT_BYTES) {
        let place = match slot[0] >> 6 {
            0 => &mut tally.empty,
            1 => &mut tally.reserved,
            2 => &mut tally.enabled,
            _ => &mut tally.disabled,
        };
        *place += 1;
        if slot[0] >> 6 >= 2 {
            tally.payload += u16::from_be_bytes([slot[29], slot[30]]);
        }
    }
    tally
}

/// By how much the numbers of slots changed.
fn change(before: Tally, after: Tally) -> [i32; 4] {
    let places = |t: Tally| [t.empty, t.reserved, t.enabled, t.disabled].map(i32::from);
    let (before, after) = (places(before), places(after));
    std::array::from_fn(|at| after[at] - before[at])
}

/// A request of any kind, under one of a few handles.
fn any_request(rng: &mut Rng, slots: usize) -> Request {
    let handle = Handle([rng.below(slots + 2) as u8; 10]);
    let new_handle = Handle([rng.below(slots + 2) as u8; 10]);
    let count = rng.one_in(2).then(|| rng.word());
    let right = Right {
        count,
        hashes: vec![AssetHash([0xA1; 20]); 1 + rng.below(8)],
        payload: vec![7; rng.pick(&[1, 5, 300, 4096])],
        ..Right::default()
    };
    match rng.below(9) {
        0 => Request::InstallationSetup {
            handle,
            room: rng.pick(&[0, 1, 300, 4096, 4097]),
        },
        1 => Request::RightsInstallation { handle, right },
        2 => Request::RightsRetrieval { handle, new_handle },
        3 => Request::RekQuery { handle, new_handle },
        4 => Request::RightsEnablement { handle, count },
        5 => Request::RightsRemoval { handle },
        6 => Request::HandleRemoval { handle },
        7 => Request::HandleListQuery {
            limit: rng.word(),
            hashes: vec![],
        },
        _ => Request::RightsInformationQuery { handle },
    }
}

/// A frame of any kind. Some are cut short, and some fail the front end's check.
fn any_frame(rng: &mut Rng, slots: usize) -> Vec<u8> {
    let mut frame = any_request(rng, slots).to_frame().unwrap();
    if rng.one_in(10) {
        frame[1] &= 0x7F;
    }
    if rng.one_in(20) {
        frame.pop();
    }
    frame
}

/// Makes a call, at times with a start or a buffer that will not do, and asserts
/// that it is not refused for its tally.
fn send(rng: &mut Rng, card: &mut Card, frame: &[u8]) {
    let slots = card.table().len() / SLOT_BYTES;
    let outside = usize::from(rng.one_in(20));
    let start = rng.below(slots) + slots * outside;
    let room = REPLY_ROOM - usize::from(rng.one_in(20));
    let mut buffer = [0; REPLY_ROOM];
    let given = card.call_frame_from(start, frame, &mut buffer[..room]);
    assert_ne!(given.err(), Some(CallError::TallyDiffers));
}

/// Sends a card of so many slots its calls, and gives the changes that occurred.
fn sent(rng: &mut Rng, slots: usize) -> BTreeSet<Change> {
    let mut card = Card::blank(slots);
    let mut changes = BTreeSet::new();
    for _ in 0..CALLS {
        let (frame, before) = (any_frame(rng, slots), card.tally());
        let table = card.table().to_vec();
        send(rng, &mut card, &frame);
        assert_eq!(card.tally(), counted(card.table()), "{frame:02x?}");
        if card.table() == table {
            assert_eq!(card.tally(), before, "{frame:02x?}");
        }
        changes.insert((frame[0] & 31, change(before, card.tally())));
    }
    changes
}

#[test]
fn a_tally_is_kept_over_calls_at_random() {
    let mut rng = Rng::announced("tallies");
    let mut changes = BTreeSet::new();
    for slots in 1..=MOST_SLOTS {
        changes.extend(sent(&mut rng, slots));
    }
    changes.retain(|(_, change)| *change != [0; 4]);
    assert_eq!(changes, BTreeSet::from(CHANGES));
}
