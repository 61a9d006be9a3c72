//! Rights that are lent, their returns, and totalling calls beside plain ones.

#![allow(dead_code)] // no test file uses all of it

use cavernlull::{Card, Handle, Request, TotallingError, Totals, REPLY_ROOM, SLOT_BYTES};

pub const RESERVED: u8 = 1;
pub const ENABLED: u8 = 2;
pub const DISABLED: u8 = 3;

/// A well-formed record at this place, under a handle of ten such bytes, with a
/// length of 5 (PROFILE 2.2). A right has one hash and this count.
pub fn record(place: u8, handle: u8, count: Option<u16>) -> Vec<u8> {
    let mut slot = vec![0; SLOT_BYTES];
    slot[0] = place << 6;
    slot[1..11].fill(handle);
    slot[30] = 5;
    if place != RESERVED {
        slot[0] |= 4 | u8::from(count.is_some()) << 1;
        slot[11..27].fill(0xC5);
        slot[27..29].copy_from_slice(&count.unwrap_or(0).to_be_bytes());
        slot[31..51].fill(0xA1);
        slot[192..197].fill(0xEE);
    }
    slot
}

/// A card of one right, which is lent under `02`, ten times, with this count.
pub fn lent(count: Option<u16>) -> Card {
    Card::from(record(DISABLED, 2, count))
}

/// The frame of a return under `02`, ten times, with this count.
pub fn give_back(count: Option<u16>) -> Vec<u8> {
    let handle = Handle([2; 10]);
    let request = Request::RightsEnablement { handle, count };
    request.to_frame().unwrap()
}

/// What a call is made with, beside a card.
#[derive(Clone, Copy)]
pub struct Made<'a> {
    pub start: usize,
    pub frame: &'a [u8],
    /// The bytes of the reply buffer.
    pub room: usize,
}

/// A call from slot 0 with room for its reply.
pub fn made(frame: &[u8]) -> Made<'_> {
    Made {
        start: 0,
        frame,
        room: REPLY_ROOM,
    }
}

/// What a totalling call did beside what the call does: its number, its change,
/// whether it was counted, and the totals it left.
#[derive(Clone, Copy, Debug, PartialEq, Eq)]
pub struct Did {
    pub number: u16,
    pub change: i32,
    pub counted: bool,
    pub totals: Totals,
}

/// Makes a totalling call, and the plain call on a copy of the card. Asserts that
/// number, reply buffer, table and tally are the same; or, with 108, that all of
/// them stay as they were.
pub fn totalling(card: &mut Card, made: Made<'_>, mut totals: Totals) -> Did {
    let (mut plain, before) = (card.clone(), card.clone());
    let mut buffers = [vec![0xA5; made.room], vec![0xA5; made.room]];
    let [ours, its] = &mut buffers;
    let called = plain.call_frame_from(made.start, made.frame, its);
    let expected = called.map_err(|error| error.number());
    let given = totals.call_frame_from(card, made.start, made.frame, ours);
    let (number, change, counted) = match given {
        Ok(totalled) => {
            assert_eq!(Ok(totalled.reply), expected);
            (0, totalled.change, totalled.counted)
        }
        Err(error) => (error.number(), 0, false),
    };
    if given == Err(TotallingError::TotalOutside) {
        assert!(buffers[0].iter().all(|byte| *byte == 0xA5));
        assert!(card.table() == before.table() && card.tally() == before.tally());
    } else {
        assert_eq!(number, expected.err().unwrap_or(0));
        assert!(buffers[0] == buffers[1], "number {number}");
        assert!(card.table() == plain.table() && card.tally() == plain.tally());
    }
    Did {
        number,
        change,
        counted,
        totals,
    }
}

/// Asserts that a call is a counted return with this change, which is added to
/// the total.
pub fn assert_counted(card: &mut Card, made: Made<'_>, totals: Totals, change: i32) -> Totals {
    let did = totalling(card, made, totals);
    let expected = Totals::from_parts(totals.total() + change, totals.returns() + 1);
    assert_eq!((did.number, did.change, did.counted), (0, change, true));
    assert_eq!(did.totals, expected);
    expected
}

/// Asserts that a call has this number and is not counted: its change is 0, and
/// the totals stay.
pub fn assert_not_counted(card: &mut Card, made: Made<'_>, totals: Totals, number: u16) {
    let did = totalling(card, made, totals);
    let expected = Did {
        number,
        change: 0,
        counted: false,
        totals,
    };
    assert_eq!(did, expected);
}
