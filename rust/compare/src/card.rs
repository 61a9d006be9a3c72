//! Cards that calls are made on, with what is handed over, and the histories that they
//! go through.

use crate::frames::Asker;
use crate::mended::{Began, Mended};
use crate::pipeline::Giver;
use crate::tables::{blank, damaged, with_unhashed};
use crate::tallies::{tally_of, wrong};
use driver::{Call, Tally};
use random::Rng;
use reference::number::DONE;
use std::io::Result;

/// How many calls there are in one sequence that starts from a blank table.
const SEQUENCE: usize = 160;

/// How many there are in one on a card that holds rights already, some of them
/// without a hash. No request brings these back once they are removed.
const FILLED_SEQUENCE: usize = 50;

/// How many there are in one on a card that was salvaged or turned.
const MENDED_SEQUENCE: usize = 25;

/// Where a call stands in the history of a table.
#[derive(Clone, Copy, Debug, PartialEq, Eq)]
pub enum History {
    /// The first call, on a table that no history tells of.
    Begins(Began),
    /// The next call on the same table.
    GoesOn,
    /// A call on another table, which belongs to no history.
    Apart,
}

impl History {
    /// One call in how many has a start that is not the number of a slot.
    pub fn outside_in(self) -> usize {
        match self {
            History::Apart => 3,
            _ => 12,
        }
    }

    /// One call in how many has a tally that is not that of its table.
    pub fn wrong_in(self) -> usize {
        match self {
            History::Apart => 3,
            _ => 20,
        }
    }
}

/// A table with a tally beside it, which is its own unless the table is damaged.
pub struct Card {
    /// The table.
    pub table: Vec<u8>,
    /// The tally.
    pub tally: Tally,
    /// What the history of the card begins with.
    pub began: Began,
    /// What was made of the table, before the first call on it.
    pub mended: Option<Mended>,
}

impl Card {
    /// A card with this table and its tally.
    pub fn with(table: Vec<u8>, began: Began) -> Card {
        Card {
            tally: tally_of(&table),
            table,
            began,
            mended: None,
        }
    }

    /// A card with the table left and its tally.
    fn mended(mended: Mended) -> Card {
        let mut card = Card::with(mended.table().to_vec(), mended.began());
        card.mended = Some(mended);
        card
    }

    /// A card with a damaged table. Its tally is the one from before the damage,
    /// or the one that places and lengths now have.
    pub fn damaged(&self, rng: &mut Rng) -> Card {
        let table = damaged(rng, &self.table);
        let tally = match rng.below(2) {
            0 => self.tally,
            _ => tally_of(&table),
        };
        Card {
            tally,
            ..Card::with(table, self.began)
        }
    }

    /// The tally that is lent with the next call; one in `wrong_in` is not that
    /// of the table.
    pub fn lend(&self, rng: &mut Rng, wrong_in: usize) -> Tally {
        match rng.one_in(wrong_in) {
            true => wrong(rng, &self.table),
            false => self.tally,
        }
    }

    /// Goes on with what a call has left. A tally that was refused is not kept.
    pub fn left(&mut self, call: &Call) {
        self.table.clone_from(&call.table);
        if call.number == DONE {
            self.tally = call.tally;
        }
    }
}

/// What a caller hands over with a call, beside table and reply buffer
/// (PROFILE 1.1).
pub struct Handed {
    /// The tally, as it is lent.
    pub tally: Tally,
    /// The start.
    pub start: u64,
    /// The frame.
    pub frame: Vec<u8>,
}

/// Goes through four histories of cards with this many slots, and gives how many calls
/// were made: one that starts from a blank table, and goes on when it was damaged and
/// salvaged; and one on a card that holds rights without a hash, which goes on when it
/// was turned. `sequence` makes so many calls on a card whose table the driver has.
///
/// # Errors
///
/// Where the driver has ended.
pub fn histories<E>(
    giver: &mut Giver<E>,
    rng: &mut Rng,
    slots: usize,
    mut sequence: impl FnMut(&mut Giver<E>, &mut Rng, &Asker, &mut Card, usize) -> Result<u64>,
) -> Result<u64> {
    let asker = &Asker::new(slots);
    let mut card = Card::with(blank(slots), Began::Blank);
    giver.commands.table(&card.table)?;
    let mut made = sequence(giver, rng, asker, &mut card, SEQUENCE)?;

    let salvaged = Mended::salvaged(&mut giver.commands, rng, card.table)?;
    card = Card::mended(salvaged);
    made += sequence(giver, rng, asker, &mut card, MENDED_SEQUENCE)?;

    card = Card::with(with_unhashed(rng, asker, slots), Began::Filled);
    giver.commands.table(&card.table)?;
    made += sequence(giver, rng, asker, &mut card, FILLED_SEQUENCE)?;

    let turned = Mended::turned(&mut giver.commands, &card.table)?;
    card = Card::mended(turned);
    made += sequence(giver, rng, asker, &mut card, MENDED_SEQUENCE)?;
    Ok(made)
}
