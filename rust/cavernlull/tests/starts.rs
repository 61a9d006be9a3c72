//! Where a setup lands: in the first empty slot from the start upward and then
//! from slot 0 up to the slot before it (PROFILE 5.1).

use cavernlull::{AssetHash, Card, Handle, Kind, Reply, Request, Right, Status, Verdict};
use cavernlull::{MOST_SLOTS, REPLY_ROOM, SLOT_BYTES};

const COURSE: Handle = Handle([0xC0; 10]);

const EMPTY: u8 = 0;
const RESERVED: u8 = 1;
const ENABLED: u8 = 2;
const DISABLED: u8 = 3;

fn setup(handle: Handle) -> Request {
    Request::InstallationSetup { handle, room: 9 }
}

/// The bytes of a slot (PROFILE 2.2): an empty one, a reservation of 9 bytes, or
/// a right with a payload of 9 zeros.
fn slot(place: u8, handle: Handle) -> Vec<u8> {
    let mut slot = vec![0; SLOT_BYTES];
    if place != EMPTY {
        slot[0] = place << 6;
        slot[1..11].copy_from_slice(&handle.0);
        slot[30] = 9;
    }
    slot
}

/// A right with a hash and this payload.
fn right(payload: Vec<u8>) -> Right {
    Right {
        hashes: vec![AssetHash([0xA1; 20])],
        payload,
        ..Right::default()
    }
}

/// The handle of the record in a slot.
fn name(slot: usize) -> Handle {
    Handle([slot as u8; 10])
}

/// A table with these places.
fn table(places: &[u8]) -> Vec<u8> {
    let slots = places.iter().enumerate();
    slots
        .flat_map(|(at, &place)| slot(place, name(at)))
        .collect()
}

/// Asserts that a setup from this start takes the first empty slot on its way
/// and changes no other, or is refused where there is none.
fn assert_lands(places: &[u8], start: usize) {
    let mut slots = table(places);
    let mut card = Card::from(slots.clone());
    let reply = card.call_from(start, &setup(COURSE), Verdict::Held);
    let mut way = (start..places.len()).chain(0..start);
    let expected = match way.find(|&at| places[at] == EMPTY) {
        Some(at) => {
            slots[at * SLOT_BYTES..][..SLOT_BYTES].copy_from_slice(&slot(RESERVED, COURSE));
            Reply::Done(Kind::InstallationSetup)
        }
        None => Reply::Refused {
            kind: 1,
            status: Status::NotEnoughSpace,
        },
    };
    assert_eq!(reply, Ok(expected), "{places:?} from {start}");
    assert!(card.table() == slots, "{places:?} from {start}");
}

/// Every card of up to six slots, each empty or taken, from every start.
#[test]
fn a_setup_takes_the_first_empty_slot_on_its_way() {
    for slots in 1..=6 {
        for taken in 0..1 << slots {
            let place = |at: usize| match taken >> at & 1 {
                0 => EMPTY,
                _ => [RESERVED, ENABLED, DISABLED][at % 3],
            };
            let places: Vec<u8> = (0..slots).map(place).collect();
            (0..slots).for_each(|start| assert_lands(&places, start));
        }
    }
}

/// On the largest card: it is full, or one slot of it is empty, or all but one.
#[test]
fn the_last_empty_slot_is_found_from_every_start() {
    for start in 0..MOST_SLOTS {
        assert_lands(&[ENABLED; MOST_SLOTS], start);
        for at in 0..MOST_SLOTS {
            let mut places = [DISABLED; MOST_SLOTS];
            places[at] = EMPTY;
            assert_lands(&places, start);
            let mut places = [EMPTY; MOST_SLOTS];
            places[at] = RESERVED;
            assert_lands(&places, start);
        }
    }
}

/// A call without a start begins at slot 0.
#[test]
fn without_a_start_a_setup_takes_the_lowest_empty_slot() {
    let places = [ENABLED, EMPTY, RESERVED, EMPTY];
    let mut expected = table(&places);
    expected[SLOT_BYTES..][..SLOT_BYTES].copy_from_slice(&slot(RESERVED, COURSE));
    let mut card = Card::from(table(&places));
    card.call(&setup(COURSE), Verdict::Held).unwrap();
    assert!(card.table() == expected);
    let mut card = Card::from(table(&places));
    let frame = setup(COURSE).to_frame().unwrap();
    card.call_frame(&frame, &mut [0; REPLY_ROOM]).unwrap();
    assert!(card.table() == expected);
}

/// Courses come into slots 2, 3, 0 and 1, and are listed in the order of the
/// slots.
#[test]
fn a_list_is_in_the_order_of_the_slots() {
    let mut card = Card::blank(4);
    for n in 1..=4 {
        let handle = Handle([n; 10]);
        let right = right(vec![n]);
        let installation = Request::RightsInstallation { handle, right };
        for request in [setup(handle), installation] {
            let reply = card.call_from(2, &request, Verdict::Held).unwrap();
            assert_eq!(reply.status(), Status::Success);
        }
    }
    let (limit, hashes, more) = (0, vec![], false);
    let list = Request::HandleListQuery { limit, hashes };
    let handles = [3, 4, 1, 2].map(|n| Handle([n; 10])).to_vec();
    for start in 0..4 {
        let listed = card.call_from(start, &list, Verdict::Held);
        let handles = handles.clone();
        assert_eq!(listed, Ok(Reply::Handles { handles, more }));
    }
}

/// Every other request, and a setup that is refused, does the same from every
/// start.
#[test]
fn nothing_but_a_setup_depends_on_the_start() {
    let places = [EMPTY, RESERVED, ENABLED, EMPTY, DISABLED, EMPTY];
    let (reserved, enabled, disabled) = (name(1), name(2), name(4));
    let (handle, new_handle) = (enabled, COURSE);
    let right = right(vec![7; 9]);
    let (limit, hashes, count) = (0, vec![], None);
    for request in [
        setup(enabled),
        Request::RightsInstallation {
            handle: reserved,
            right,
        },
        Request::RightsRetrieval { handle, new_handle },
        Request::RekQuery { handle, new_handle },
        Request::RightsEnablement {
            handle: disabled,
            count,
        },
        Request::RightsRemoval { handle: disabled },
        Request::HandleRemoval { handle: reserved },
        Request::HandleListQuery { limit, hashes },
        Request::RightsInformationQuery { handle },
    ] {
        let mut first = Card::from(table(&places));
        let expected = first.call_from(0, &request, Verdict::Held);
        for start in 1..places.len() {
            let mut card = Card::from(table(&places));
            let reply = card.call_from(start, &request, Verdict::Held);
            assert_eq!(reply, expected, "{request:?} from {start}");
            assert!(card.table() == first.table(), "{request:?} from {start}");
        }
    }
}
