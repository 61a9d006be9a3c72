//! Totals that are carried from 0 and 0 through as many returns as have room, and a few
//! calls further.

use crate::card::{Card, Handed, History};
use crate::frames::frame;
use crate::mended::Began;
use crate::tables::blank;
use crate::totalled::Lent;
use crate::totalling::{call, compare, Seen, Stands};
use crate::totals::MOST_RETURNS;
use driver::Totals;
use random::Rng;
use reference::{slot, table, Place, REPLY_ROOM, SLOT_BYTES};

/// How many calls are made after the last return that has room.
const MORE: u64 = 20;

/// The second byte of a request with the verdict 1 and a kept count.
const KEPT: u8 = 0xC0;

/// Lends a right on one card and takes it back by turns, from a blank table on, until it
/// is used up, and then another. Gives what occurred.
///
/// # Panics
///
/// As [`compare_totals`](crate::totalling::compare_totals).
pub fn compare_one_card(mut rng: Rng) -> Seen {
    compare(move |giver| {
        let card = &mut Card::with(blank(1), Began::Blank);
        giver.commands.table(&card.table)?;
        let mut totals = Totals::default();
        let (mut made, mut after) = (0, 0);
        while after < MORE {
            after += u64::from(totals.returns == MOST_RETURNS);
            let lent = lend(card, next_frame(&mut rng, &card.table), totals);
            let history = match made {
                0 => History::Begins(card.began),
                _ => History::GoesOn,
            };
            totals = call(giver, stands(history, made == 0), card, lent)?;
            made += 1;
        }
        Ok(())
    })
}

/// Takes a right back on one card after another, each time as many starts as there
/// can be. Gives what occurred.
///
/// # Panics
///
/// As [`compare_totals`](crate::totalling::compare_totals).
pub fn compare_many_cards() -> Seen {
    compare(move |giver| {
        let mut totals = Totals::default();
        let back = frame(5, KEPT, &[&[2; 10][..], &[0, 0]].concat());
        for made in 0..u64::from(MOST_RETURNS) + MORE {
            let card = &mut Card::with(lent_with_most(), Began::Filled);
            giver.commands.table(&card.table)?;
            let lent = lend(card, back.clone(), totals);
            let history = History::Begins(card.began);
            totals = call(giver, stands(history, made == 0), card, lent)?;
        }
        Ok(())
    })
}

fn stands(history: History, begins: bool) -> Stands {
    Stands {
        history,
        begins,
        beside: false,
    }
}

/// What a totalling call on a card is lent, with this frame and these numbers.
fn lend(card: &Card, frame: Vec<u8>, totals: Totals) -> Lent {
    Lent {
        handed: Handed {
            tally: card.tally,
            start: 0,
            frame,
        },
        table: card.table.clone(),
        reply: vec![0xA5; REPLY_ROOM],
        totals,
    }
}

/// The next frame for a card of one slot: a setup, an installation with any count, a
/// lending under one of two handles, a removal if the right is used up, or a return. One
/// return in eight sends any count, and the others one that is no greater.
fn next_frame(rng: &mut Rng, table: &[u8]) -> Vec<u8> {
    let record = &table::slots(table)[0];
    let handle = slot::handle(record);
    let other = [if handle[0] == 1 { 2 } else { 1 }; 10];
    let stored = slot::count_number(record);
    let count = rng.word().to_be_bytes();
    match slot::place(record) {
        Place::Empty => frame(1, 0x80, &[&other[..], &[0, 1]].concat()),
        Place::Reserved => {
            let rest = [&[7; 16][..], &count, &[0x10], &[9; 20], &[1]].concat();
            frame(2, KEPT, &[&handle[..], &rest].concat())
        }
        Place::Enabled if stored == 0 => frame(6, 0x80, &handle),
        Place::Enabled => frame(4, 0x80, &[handle, other].concat()),
        Place::Disabled => {
            let count = match rng.below(8) {
                0 => count,
                _ => (rng.below(usize::from(stored) + 1) as u16).to_be_bytes(),
            };
            frame(5, KEPT, &[&handle[..], &count].concat())
        }
    }
}

/// A table of one slot: a right that is lent under ten bytes 2, with the greatest count
/// and no hash.
fn lent_with_most() -> Vec<u8> {
    let mut slot = vec![0; SLOT_BYTES];
    slot[0] = 0xC2;
    slot[1..11].fill(2);
    slot[27..29].fill(0xFF);
    slot[30] = 1;
    slot
}
