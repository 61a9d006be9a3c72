//! Calls made at random, and their check.
//!
//! Each call is handed to the driver and to the reference, and the outcomes are
//! compared; so are the tally and the listing of the table after each call, and
//! what a reply that gives a right reads as.

use crate::alongside;
use crate::card::{histories, Card, Handed, History};
use crate::device;
use crate::frames::Asker;
use crate::mended::{Began, Mended};
use crate::outcome::{none_comes, Counts, Outcome, Search, Searches, Unhashed};
use crate::pipeline::{self, Giver};
use crate::refusals::{Precedence, Regardless};
use crate::returned::Returned;
use crate::returns::frame_or_loan;
use crate::starts::start;
use crate::steps::{left_right, Difference, Step};
use crate::tables::{listing_buffer, reply_buffer};
use crate::tallies::any;
use driver::{Answers, Call, Listed, Numbers, Read, Same, Tallied};
use random::Rng;
use reference::ledger::{agrees, Ledger};
use reference::number::{DONE, TABLE_NOT_WELL_FORMED, TALLY_DIFFERS};
use reference::{read_request, CountsTold, ReadRequest, MAX_SLOTS, SLOT_BYTES};
use std::collections::BTreeMap;
use std::io::Result;

/// What comes of a call: what was made of its table before, if it is the first on a
/// mended one, what it gives and leaves, what its reply reads as where it gives a
/// right, and tally and listing of the table that it leaves.
struct Answer {
    mended: Option<Mended>,
    call: Call,
    read_back: Option<Read>,
    tallied: Tallied,
    listed: Listed,
}

impl Answer {
    /// The driver's next answer, where this one is expected.
    fn next(answers: &mut Answers, expected: &Answer) -> Answer {
        let mended = expected.mended.as_ref();
        Answer {
            mended: mended.map(|mended| Mended::next(answers, mended)),
            call: answers.call(),
            read_back: expected.read_back.is_some().then(|| answers.read()),
            tallied: answers.tallied(),
            listed: answers.listed(),
        }
    }

    /// Whether this is exactly the answer expected.
    fn same_as(&self, expected: &Answer) -> Same {
        if let (Some(mended), Some(expected)) = (&self.mended, &expected.mended) {
            mended.same_as(expected)?;
        }
        self.call.same_as(&expected.call)?;
        if let (Some(read), Some(expected)) = (&self.read_back, &expected.read_back) {
            read.same_as(expected)?;
        }
        self.tallied.same_as(&expected.tallied)?;
        self.listed.same_as(&expected.listed)
    }
}

/// What is expected of a call: what comes of it by the reference.
struct Expected {
    history: History,
    handed: Handed,
    /// The table before the call.
    before: Vec<u8>,
    /// Whether the tally is the one that the last call on this table left.
    carried_on: bool,
    answer: Answer,
}

/// What occurred among some calls, and how often.
#[derive(Default)]
pub struct Seen {
    /// The outcomes of the calls.
    pub calls: Counts,
    /// The returns of rights that were on the card.
    pub returns: BTreeMap<Returned, u64>,
    /// The setups that looked for an empty slot.
    pub searches: Searches,
    /// What came of requests about rights without a hash.
    pub unhashed: BTreeMap<Unhashed, u64>,
    /// Which number went before which, where a call had a reason for both.
    pub precedences: BTreeMap<Precedence, u64>,
    /// What 105 and 106 were given for.
    pub regardless: BTreeMap<Regardless, u64>,
    /// The numbers of the tally that 106 was given for.
    pub differences: BTreeMap<Difference, u64>,
    /// What successes did to the tally.
    pub steps: BTreeMap<Step, u64>,
    /// The numbers that were given where a tally was worked out.
    pub worked_out: BTreeMap<u16, u64>,
    /// What the histories began with that the tables were compared with.
    pub told: BTreeMap<Began, u64>,
    /// The first lines of the listings: the header, or a refusal.
    pub listings: BTreeMap<String, u64>,
}

impl Seen {
    /// Notes a call that had the outcome expected, if its number is the first of
    /// those that it had a reason for.
    fn note(&mut self, outcome: Outcome, expected: &Expected) -> Same {
        let (handed, call) = (&expected.handed, &expected.answer.call);
        *self.calls.entry(outcome).or_default() += 1;
        if let Some(search) = Search::of(handed.start, &handed.frame, call) {
            *self.searches.entry(search).or_default() += 1;
        }
        for precedence in Precedence::all_of(handed, call)? {
            *self.precedences.entry(precedence).or_default() += 1;
        }
        if let Some(regardless) = Regardless::of(&handed.frame, call.number) {
            *self.regardless.entry(regardless).or_default() += 1;
        }
        self.note_tally(expected)
    }

    /// Notes what the archive made of a call about rights without a hash, if it
    /// brought none.
    fn note_unhashed(&mut self, before: &[u8], frame: &[u8], given: &Answer) -> Same {
        none_comes(before, &given.call.table)?;
        let came = Unhashed::all_of(before, frame, &given.call);
        let read_back = given.read_back.as_ref().and_then(Unhashed::of_reply);
        for unhashed in came.into_iter().chain(read_back) {
            *self.unhashed.entry(unhashed).or_default() += 1;
        }
        Ok(())
    }

    /// Notes what became of a call's tally, if it is what must become of it. One
    /// that is carried on from call to call is never refused (PROFILE 8.5).
    fn note_tally(&mut self, expected: &Expected) -> Same {
        let (lent, call) = (&expected.handed.tally, &expected.answer.call);
        left_right(lent, call)?;
        if call.number == TALLY_DIFFERS {
            if expected.carried_on {
                return Err("it refused the tally that the last call left".into());
            }
            for difference in Difference::all_of(lent, &call.table) {
                *self.differences.entry(difference).or_default() += 1;
            }
        }
        if let Some(step) = Step::of(lent, call) {
            *self.steps.entry(step).or_default() += 1;
        }
        let worked_out = expected.answer.tallied.number;
        *self.worked_out.entry(worked_out).or_default() += 1;
        Ok(())
    }
}

/// Makes at least this many calls, on tables of 1 to 15 slots in turn, and
/// checks each. Gives what occurred.
///
/// # Panics
///
/// Where the archive and the reference differ, or a table and its history.
pub fn compare(mut rng: Rng, calls: u64) -> Seen {
    let mut checker = Checker::default();
    pipeline::run(
        move |giver| {
            let mut made = 0;
            while made < calls {
                for slots in 1..=MAX_SLOTS {
                    made += histories(giver, &mut rng, slots, sequence)?;
                }
            }
            Ok(())
        },
        |answers, expected| {
            let given = Answer::next(answers, &expected.answer);
            checker.check(&given, &expected);
        },
    );
    checker.seen
}

/// Makes so many calls on a card whose table the driver has, with a history that
/// begins there, and some more on a damaged copy of the table. Gives how many calls
/// it made.
fn sequence(
    giver: &mut Giver<Expected>,
    rng: &mut Rng,
    asker: &Asker,
    card: &mut Card,
    calls: usize,
) -> Result<u64> {
    let mut made = 0;
    let mut history = History::Begins(card.began);
    for _ in 0..calls {
        call(giver, rng, asker, history, card)?;
        history = History::GoesOn;
        made += 1;
        if rng.one_in(10) {
            let mut other = card.damaged(rng);
            giver.commands.table(&other.table)?;
            call(giver, rng, asker, History::Apart, &mut other)?;
            made += 1;
            giver.commands.table(&card.table)?;
        }
    }
    Ok(made)
}

/// Makes one call on the table lent to the driver and on the reference's, and
/// has the table that it left tallied and listed, and the right that it gave read
/// back.
fn call(
    giver: &mut Giver<Expected>,
    rng: &mut Rng,
    asker: &Asker,
    history: History,
    card: &mut Card,
) -> Result<()> {
    let handed = Handed {
        tally: card.lend(rng, history.wrong_in()),
        start: start(rng, card.table.len() / SLOT_BYTES, history.outside_in()),
        frame: frame_or_loan(rng, asker, &card.table),
    };
    let carried_on = history != History::Apart && handed.tally == card.tally;
    let before = card.table.clone();
    let reply = reply_buffer(rng);
    let call = alongside::call(&mut giver.commands, &handed, &before, &reply)?;
    card.left(&call);
    let answer = Answer {
        mended: card.mended.take(),
        read_back: read_back_both(giver, rng, &call)?,
        tallied: alongside::work_out(&mut giver.commands, &card.table, any(rng))?,
        listed: list_both(giver, rng, &card.table)?,
        call,
    };
    giver.expect(Expected {
        history,
        handed,
        before,
        carried_on,
        answer,
    })
}

/// Has the driver read the reply of a call that gave a right, and gives what the
/// reference makes of it; `None` where the call gave none. The driver is handed
/// the reference's reply, which is that of the archive too, or the call differs.
fn read_back_both(giver: &mut Giver<Expected>, rng: &mut Rng, call: &Call) -> Result<Option<Read>> {
    if call.number != DONE || call.reply[0] != 0x23 || call.reply[1] & 0x7F != 0 {
        return Ok(None);
    }
    let length = 4 + usize::from(u16::from_be_bytes([call.reply[2], call.reply[3]]));
    let frame = &call.reply[..length];
    let key = [0; 16].map(|_: u8| rng.byte());
    let numbers = Numbers::default().map(|_| rng.word());
    giver.commands.read_reply(frame, &key, &numbers)?;
    Ok(Some(device::expected(frame, key, numbers)))
}

/// Has the driver list its table, and gives what the reference makes of it.
fn list_both(giver: &mut Giver<Expected>, rng: &mut Rng, table: &[u8]) -> Result<Listed> {
    let mut out = listing_buffer(rng);
    giver.commands.list(&out)?;
    let listing = reference::listing(table);
    out[..listing.len()].copy_from_slice(&listing);
    let length = u16::try_from(listing.len()).expect("no listing is so long");
    Ok(Listed { length, out })
}

/// Checks one call after another.
#[derive(Default)]
struct Checker {
    checked: u64,
    seen: Seen,
    ledger: Ledger,
    counts: CountsTold,
    began: Began,
}

impl Checker {
    fn check(&mut self, given: &Answer, expected: &Expected) {
        let same = given.same_as(&expected.answer).and_then(|()| {
            let (call, frame) = (&given.call, &expected.handed.frame);
            let outcome = Outcome::of(call.number, frame, &call.reply);
            self.seen.note(outcome, expected)?;
            self.seen.note_unhashed(&expected.before, frame, given)?;
            let returned = Returned::of(&expected.before, call.number, frame, &call.reply);
            if let Some(returned) = returned {
                *self.seen.returns.entry(returned).or_default() += 1;
            }
            let first = first_line(&given.listed);
            *self.seen.listings.entry(first).or_default() += 1;
            self.follow(expected, outcome, &call.table)
        });
        if let Err(difference) = same {
            panic!(
                "call {}, {}: {difference}",
                self.checked,
                describe(expected)
            );
        }
        self.checked += 1;
    }

    /// Compares a table with its history, told by requests and statuses. The ledger
    /// is read off the table once, where the history begins. No call of the history
    /// gives 103, and no count rises (PROFILE 8.3).
    fn follow(&mut self, call: &Expected, outcome: Outcome, table: &[u8]) -> Same {
        match call.history {
            History::Apart => return Ok(()),
            History::Begins(began) => {
                self.began = began;
                self.ledger = Ledger::read_off(&call.before)
                    .map_err(|number| format!("the table at first is refused with {number}"))?;
                self.counts = CountsTold::of(&self.ledger);
            }
            History::GoesOn => {}
        }
        if outcome == Outcome::Refused(TABLE_NOT_WELL_FORMED) {
            return Err("it refused the table that the last call left".into());
        }
        *self.seen.told.entry(self.began).or_default() += 1;
        self.tell(&call.handed.frame, outcome);
        agrees(&self.ledger, table)?;
        self.counts.go_on(&self.ledger)
    }

    /// Tells the ledger the request, if the frame is one and had a reply.
    fn tell(&mut self, frame: &[u8], outcome: Outcome) {
        if let (Outcome::Replied { status, .. }, ReadRequest::Request(request)) =
            (outcome, read_request(frame))
        {
            self.ledger.tell(&request, status);
        }
    }
}

/// The first line of a listing.
fn first_line(listed: &Listed) -> String {
    let line = listed.out.split(|&byte| byte == b'\n').next();
    String::from_utf8_lossy(line.expect("there is one")).into_owned()
}

/// A call in words, with as much of its frame as can be looked at.
fn describe(expected: &Expected) -> String {
    let Handed {
        tally,
        start,
        frame,
    } = &expected.handed;
    let table = match expected.history {
        History::Apart => "damaged",
        History::Begins(_) | History::GoesOn => "reached",
    };
    format!(
        "on a {table} table of {} bytes, with {tally:?}, from {start}, with a frame of {} bytes that begins {:02x?}",
        expected.before.len(),
        frame.len(),
        &frame[..frame.len().min(64)]
    )
}
