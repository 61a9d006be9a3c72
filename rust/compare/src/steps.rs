//! How the tally changed with a call, and which numbers of a tally differed where
//! a call gave 106.

use crate::tallies::counted;
use driver::{Call, Same, Tally, TALLY_WORDS};
use reference::number::DONE;
use std::cmp::Ordering;
use std::fmt;

/// What a success did to the numbers of the tally.
#[derive(Clone, Copy, Debug, PartialEq, Eq, PartialOrd, Ord)]
pub struct Step {
    /// The kind.
    pub kind: u8,
    /// Which numbers are greater than before, and which are less.
    pub changes: [Ordering; 5],
}

impl Step {
    /// What a call that was lent this tally did; `None` where it was no success.
    pub fn of(lent: &Tally, call: &Call) -> Option<Step> {
        if call.number != DONE {
            return None;
        }
        let kind = call.reply[0] & 31;
        let status = match kind {
            3 | 9 => call.reply[1] & 0x7F,
            _ => call.reply[1],
        };
        (status == 0).then(|| Step {
            kind,
            changes: [0, 1, 2, 3, 4].map(|i| call.tally[i].cmp(&lent[i])),
        })
    }

    /// All that can occur: the rows of the table in PROFILE 2.8, and successes
    /// that change no slot.
    pub fn that_can_occur() -> Vec<Step> {
        use Ordering::{Equal as E, Greater as G, Less as L};
        let rows = [
            (1, [L, G, E, E, E]),
            (2, [E, L, G, E, G]),
            (3, [E, E, L, G, E]),
            (4, [E, E, L, G, E]),
            (5, [E, E, G, L, E]),
            (5, [E; 5]),
            (6, [G, E, L, E, L]),
            (6, [G, E, E, L, L]),
            (7, [G, L, E, E, E]),
            (8, [E; 5]),
            (9, [E; 5]),
        ];
        rows.map(|(kind, changes)| Step { kind, changes }).into()
    }
}

impl fmt::Display for Step {
    fn fmt(&self, f: &mut fmt::Formatter<'_>) -> fmt::Result {
        write!(f, "tally after kind {}:", self.kind)?;
        let changed = TALLY_WORDS.iter().zip(self.changes);
        for (word, change) in changed {
            match change {
                Ordering::Greater => write!(f, " +{word}")?,
                Ordering::Less => write!(f, " -{word}")?,
                Ordering::Equal => {}
            }
        }
        Ok(())
    }
}

/// Whether a call left the tally that it must leave (PROFILE 8.5): that of the
/// table if it gave 0, and else the one that it was lent.
///
/// # Errors
///
/// A sentence, where it left another.
pub fn left_right(lent: &Tally, call: &Call) -> Same {
    let wanted = match call.number {
        DONE => counted(&call.table),
        _ => lent.map(u32::from),
    };
    if call.tally.map(u32::from) != wanted {
        let left = call.tally;
        return Err(format!("it left the tally {left:?} and not {wanted:?}"));
    }
    Ok(())
}

/// A number of the tally that was not the table's, where a call gave 106.
#[derive(Clone, Copy, Debug, PartialEq, Eq, PartialOrd, Ord)]
pub struct Difference {
    /// The index of the number.
    pub number: usize,
    /// Whether it was greater than the table's.
    pub over: bool,
    /// Whether all other numbers were right.
    pub alone: bool,
}

impl Difference {
    /// Every number of the tally lent that is not the table's.
    pub fn all_of(lent: &Tally, table: &[u8]) -> Vec<Difference> {
        let right = counted(table);
        let wrong = |&i: &usize| u32::from(lent[i]) != right[i];
        let wrong: Vec<usize> = (0..lent.len()).filter(wrong).collect();
        let difference = |&number: &usize| Difference {
            number,
            over: u32::from(lent[number]) > right[number],
            alone: wrong.len() == 1,
        };
        wrong.iter().map(difference).collect()
    }

    /// All that can occur.
    pub fn that_can_occur() -> Vec<Difference> {
        let mut differences = Vec::new();
        for number in 0..TALLY_WORDS.len() {
            for over in [false, true] {
                differences.extend([false, true].map(|alone| Difference {
                    number,
                    over,
                    alone,
                }));
            }
        }
        differences
    }
}

impl fmt::Display for Difference {
    fn fmt(&self, f: &mut fmt::Formatter<'_>) -> fmt::Result {
        let way = if self.over { "too great" } else { "too small" };
        let others = if self.alone { "alone" } else { "with others" };
        write!(f, "106 for {} {way}, {others}", TALLY_WORDS[self.number])
    }
}
