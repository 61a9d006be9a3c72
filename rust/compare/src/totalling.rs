//! Totalling calls made at random, and their check.
//!
//! Each is handed to the driver and to the reference, and the outcomes are compared;
//! so is the plain call with the same arguments. Total and returns are carried along
//! the histories of cards, and held against what their ledgers tell.

use crate::alongside;
use crate::card::{histories, Card, Handed, History};
use crate::frames::Asker;
use crate::mended::{Began, Mended};
use crate::pipeline::{self, Giver};
use crate::returns::next_frame;
use crate::starts::start;
use crate::tables::reply_buffer;
use crate::told::{Along, Told};
use crate::total_rules::holds;
use crate::totalled::{Came, Lent};
use crate::totals::{any, at_first, held, Reason};
use driver::{Answers, Call, Same, Totalled, Totals};
use random::Rng;
use reference::number::TOTAL_OUTSIDE;
use reference::{MAX_SLOTS, SLOT_BYTES};
use std::collections::BTreeMap;
use std::io::Result;

/// Where a totalling call stands.
#[derive(Clone, Copy)]
pub(crate) struct Stands {
    /// In the history of a table.
    pub history: History,
    /// Whether its total begins with it, and goes on from no other call.
    pub begins: bool,
    /// Whether the plain call is made beside it.
    pub beside: bool,
}

/// What is expected next, by the reference. The two calls are told of apart, so that
/// the answer to the first is taken while a table is sent for the second.
pub(crate) enum Expected {
    /// What was made of the table, if the call is the first on a mended one; and what
    /// comes of the plain call.
    Plain(Option<Mended>, Call),
    /// What comes of the totalling call, with what it is lent.
    Totalled(Stands, Lent, Totalled),
}

/// What occurred among some totalling calls, and how often.
#[derive(Default)]
pub struct Seen {
    /// How many there were.
    pub calls: u64,
    /// What came of them.
    pub came: BTreeMap<Came, u64>,
    /// What was told along histories.
    pub along: BTreeMap<Along, u64>,
    /// How many plain calls were made beside them.
    pub beside: u64,
    /// The numbers that the last call left.
    pub left: Totals,
}

impl Seen {
    fn note(&mut self, lent: &Lent, given: &Totalled) {
        self.calls += 1;
        for came in Came::all_of(lent, given) {
            *self.came.entry(came).or_default() += 1;
        }
        self.left = given.totals;
    }
}

/// Makes at least this many totalling calls, on tables of 1 to 15 slots in turn, and
/// checks each. Gives what occurred.
///
/// # Panics
///
/// Where the archive and the reference differ, a totalling call and the plain one, or
/// a total and what is told.
pub fn compare_totals(mut rng: Rng, calls: u64) -> Seen {
    compare(move |giver| {
        let (mut made, mut totals) = (0, Totals::default());
        while made < calls {
            for slots in 1..=MAX_SLOTS {
                made += histories(giver, &mut rng, slots, |giver, rng, asker, card, calls| {
                    totals = at_first(rng, totals);
                    sequence(giver, rng, asker, card, (&mut totals, calls))
                })?;
            }
        }
        Ok(())
    })
}

/// Has totalling calls made, and checks each.
pub(crate) fn compare(give: impl FnOnce(&mut Giver<Expected>) -> Result<()> + Send) -> Seen {
    let mut checker = Checker::default();
    pipeline::run(give, |answers, expected| match expected {
        Expected::Plain(mended, call) => checker.take_plain(answers, mended, &call),
        Expected::Totalled(stands, lent, expected) => {
            checker.check(stands, &lent, &expected, &answers.totalled());
        }
    });
    checker.seen
}

/// Makes so many totalling calls on a card whose table the driver has, carries these
/// numbers along, and makes some more calls that belong to no history. Where no return
/// has room any more, the total goes on for a while, and then begins anew. Gives how
/// many calls it made.
fn sequence(
    giver: &mut Giver<Expected>,
    rng: &mut Rng,
    asker: &Asker,
    card: &mut Card,
    (totals, calls): (&mut Totals, usize),
) -> Result<u64> {
    let mut made = 0;
    let mut stands = Stands {
        history: History::Begins(card.began),
        begins: true,
        beside: true,
    };
    for _ in 0..calls {
        if !Reason::all_of(totals).is_empty() && rng.one_in(4) {
            (*totals, stands.begins) = (Totals::default(), true);
        }
        if rng.one_in(2) {
            totals.change = held(rng);
        }
        let lent = lend(rng, asker, card, stands.history, *totals);
        *totals = call(giver, stands, card, lent)?;
        made += 1;
        (stands.history, stands.begins) = (History::GoesOn, false);
        if rng.one_in(3) {
            apart(giver, rng, asker, card)?;
            made += 1;
        }
    }
    Ok(made)
}

/// Makes a call on another table, damaged or whole, with any total, and lends the
/// driver the table of the card again.
fn apart(giver: &mut Giver<Expected>, rng: &mut Rng, asker: &Asker, card: &Card) -> Result<()> {
    let mut other = match rng.below(2) {
        0 => card.damaged(rng),
        _ => Card::with(card.table.clone(), card.began),
    };
    giver.commands.table(&other.table)?;
    let stands = Stands {
        history: History::Apart,
        begins: true,
        beside: true,
    };
    let totals = any(rng);
    let lent = lend(rng, asker, &other, stands.history, totals);
    call(giver, stands, &mut other, lent)?;
    giver.commands.table(&card.table)
}

/// What a totalling call on a card is lent, with these numbers.
fn lend(rng: &mut Rng, asker: &Asker, card: &Card, history: History, totals: Totals) -> Lent {
    Lent {
        handed: Handed {
            tally: card.lend(rng, history.wrong_in()),
            start: start(rng, card.table.len() / SLOT_BYTES, history.outside_in()),
            frame: next_frame(rng, asker, &card.table),
        },
        table: card.table.clone(),
        reply: reply_buffer(rng),
        totals,
    }
}

/// Makes a totalling call on the table lent to the driver and on the reference's, and
/// the plain call before it if there is to be one. Gives the numbers that it leaves.
pub(crate) fn call(
    giver: &mut Giver<Expected>,
    stands: Stands,
    card: &mut Card,
    lent: Lent,
) -> Result<Totals> {
    if stands.beside {
        call_beside(giver, card.mended.take(), &lent)?;
    }
    let totalled = alongside::call_totalling(&mut giver.commands, &lent)?;
    card.left(&totalled.call);
    let totals = totalled.totals;
    giver.expect(Expected::Totalled(stands, lent, totalled))?;
    Ok(totals)
}

/// Makes the plain call, and lends the driver the table from before it again.
fn call_beside(giver: &mut Giver<Expected>, mended: Option<Mended>, lent: &Lent) -> Result<()> {
    let commands = &mut giver.commands;
    let call = alongside::call(commands, &lent.handed, &lent.table, &lent.reply)?;
    let changed = call.table != lent.table;
    giver.expect(Expected::Plain(mended, call))?;
    if changed {
        giver.commands.table(&lent.table)?;
    }
    Ok(())
}

/// Checks one totalling call after another.
#[derive(Default)]
struct Checker {
    seen: Seen,
    /// The plain call that the archive has made beside the next one.
    plain: Option<Call>,
    told: Told,
    began: Began,
}

impl Checker {
    /// Takes a plain call, and what was made of its table before, and checks both.
    fn take_plain(&mut self, answers: &mut Answers, mended: Option<Mended>, expected: &Call) {
        let same = mended.map_or(Ok(()), |expected| {
            Mended::next(answers, &expected).same_as(&expected)
        });
        let given = answers.call();
        if let Err(difference) = same.and_then(|()| given.same_as(expected)) {
            panic!("the call beside call {}: {difference}", self.seen.calls);
        }
        self.seen.beside += 1;
        self.plain = Some(given);
    }

    fn check(&mut self, stands: Stands, lent: &Lent, expected: &Totalled, given: &Totalled) {
        let same = given.same_as(expected).and_then(|()| {
            holds(lent, self.plain.take().as_ref(), given)?;
            self.follow(stands, lent, given)
        });
        if let Err(difference) = same {
            let frame = &lent.handed.frame;
            panic!(
                "totalling call {}, on {} bytes, with {:?}, a frame of {} bytes that begins {:02x?}: {difference}",
                self.seen.calls,
                lent.table.len(),
                lent.totals,
                frame.len(),
                &frame[..frame.len().min(20)]
            );
        }
        self.seen.note(lent, given);
    }

    /// Holds the numbers of a call against what is told along its history. The ledger
    /// is read off the table once, where the history begins.
    fn follow(&mut self, stands: Stands, lent: &Lent, given: &Totalled) -> Same {
        match stands.history {
            History::Apart => return Ok(()),
            History::Begins(began) => {
                self.began = began;
                self.told.read_off(&lent.table)?;
            }
            History::GoesOn if stands.begins => self.note(Along::Anew),
            History::GoesOn => {}
        }
        if stands.begins {
            self.told.begin(&lent.totals);
        }
        let told = self.told.tell(&lent.handed.frame, given)?;
        if let Some(change) = told {
            self.note(Along::Counted(self.began, change.cmp(&0)));
        }
        match (told, self.told.is_full()) {
            (Some(_), true) => self.note(Along::Last),
            (None, true) if given.call.number == TOTAL_OUTSIDE => self.note(Along::Full),
            _ => {}
        }
        Ok(())
    }

    fn note(&mut self, along: Along) {
        *self.seen.along.entry(along).or_default() += 1;
    }
}
