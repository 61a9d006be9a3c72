//! Tables from before a count had its bit, turned at random.

use crate::alongside;
use crate::frames::Asker;
use crate::pipeline::{self, Giver};
use crate::starts::inside;
use crate::tables::{before_turning, blank, damaged, with_unhashed};
use crate::tallies::tally_of;
use driver::Turned;
use random::Rng;
use reference::{slot, table, MAX_SLOTS, REPLY_ROOM};
use std::collections::BTreeMap;
use std::fmt;
use std::io::Result;

/// How many requests fill a table.
const REQUESTS: usize = 90;

/// How many turnings there are of a table, as it is filled.
const TURNINGS: usize = 30;

/// What came of a turning, in short.
#[derive(Clone, Copy, Debug, PartialEq, Eq, PartialOrd, Ord)]
pub enum Turning {
    /// It gave this number, and changed nothing.
    Refused(u16),
    /// It gave 0, and there was nothing to change.
    NothingToTurn,
    /// It gave 0, and set a bit.
    Turned,
    /// It gave 0, and set the bit of a right without a hash.
    TurnedUnhashed,
}

impl Turning {
    /// All that can come of a turning.
    pub const ALL: [Turning; 5] = [
        Turning::Refused(102),
        Turning::Refused(103),
        Turning::NothingToTurn,
        Turning::Turned,
        Turning::TurnedUnhashed,
    ];

    fn of(before: &[u8], given: &Turned) -> Turning {
        match (given.number, given.table == before) {
            (0, true) => Turning::NothingToTurn,
            (0, false) if turned_unhashed(before, &given.table) => Turning::TurnedUnhashed,
            (0, false) => Turning::Turned,
            (number, _) => Turning::Refused(number),
        }
    }
}

/// Whether a turning changed a slot that has no hash.
fn turned_unhashed(before: &[u8], after: &[u8]) -> bool {
    let mut slots = table::slots(before).iter().zip(table::slots(after));
    slots.any(|(old, new)| old != new && slot::hash_count(new) == 0)
}

impl fmt::Display for Turning {
    fn fmt(&self, f: &mut fmt::Formatter<'_>) -> fmt::Result {
        match self {
            Turning::Refused(number) => write!(f, "turning: {number}"),
            Turning::NothingToTurn => f.write_str("turning: 0, nothing to turn"),
            Turning::Turned => f.write_str("turning: 0"),
            Turning::TurnedUnhashed => f.write_str("turning: 0, a right without a hash turned"),
        }
    }
}

/// A table before a turning, and what the reference makes of it.
struct Expected {
    before: Vec<u8>,
    turned: Turned,
}

/// Has at least this many tables of 1 to 15 slots turned, and checks each. Gives
/// what came of them, and how often.
///
/// # Panics
///
/// Where the archive and the reference differ.
pub fn compare_turnings(mut rng: Rng, turnings: u64) -> BTreeMap<Turning, u64> {
    let mut counts = BTreeMap::new();
    pipeline::run(
        move |giver| {
            let mut made = 0;
            while made < turnings {
                for slots in 1..=MAX_SLOTS {
                    made += fill_and_turn(giver, &mut rng, slots)?;
                }
            }
            Ok(())
        },
        |answers, Expected { before, turned }| {
            let given = answers.turned();
            if let Err(difference) = given.same_as(&turned) {
                panic!("a table of {} bytes: {difference}", before.len());
            }
            let turning = Turning::of(&before, &given);
            *counts.entry(turning).or_default() += 1;
        },
    );
    counts
}

/// Fills a table by requests, a blank one or one with rights without a hash, and
/// has it turned as it is and as it was before a count had its bit, whole and
/// damaged, and once more where it was turned. Gives how many turnings it made.
fn fill_and_turn(giver: &mut Giver<Expected>, rng: &mut Rng, slots: usize) -> Result<u64> {
    let asker = Asker::new(slots);
    let mut table = match rng.below(2) {
        0 => blank(slots),
        _ => with_unhashed(rng, &asker, slots),
    };
    let mut tally = tally_of(&table).into();
    let mut made = 0;
    for step in 0..REQUESTS {
        let (start, frame) = (inside(rng, slots), asker.frame(rng));
        let reply = &mut [0; REPLY_ROOM];
        reference::call(&mut table, &mut tally, start, &frame, reply);
        if step % (REQUESTS / TURNINGS) != 0 {
            continue;
        }
        let old = before_turning(&table);
        let other = match rng.below(6) {
            0 => table.clone(),
            1 => damaged(rng, &table),
            2..4 => damaged(rng, &old),
            _ => old,
        };
        let turned = turn(giver, &other)?;
        made += 1;
        if rng.one_in(4) {
            turn(giver, &turned)?;
            made += 1;
        }
    }
    Ok(made)
}

/// Has a table turned, and gives what the reference makes of it.
fn turn(giver: &mut Giver<Expected>, before: &[u8]) -> Result<Vec<u8>> {
    giver.commands.table(before)?;
    let turned = alongside::turn(&mut giver.commands, before)?;
    let table = turned.table.clone();
    giver.expect(Expected {
        before: before.to_vec(),
        turned,
    })?;
    Ok(table)
}
