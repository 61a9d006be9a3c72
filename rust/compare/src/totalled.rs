//! What came of totalling calls.

use crate::card::Handed;
use crate::refusals::reasons;
use crate::totals::{beyond, sign, Reason, MOST_CHANGE, MOST_RETURNS};
use driver::{Totalled, Totals};
use reference::number::{DONE, NO_FRAME, REPLY_BUFFER_SHORT, START_OUTSIDE};
use reference::number::{TABLE_LENGTH, TABLE_NOT_WELL_FORMED, TALLY_DIFFERS, TOTAL_OUTSIDE};
use reference::slot::SlotBytes;
use reference::{slot, table, Place};
use std::cmp::Ordering;
use std::fmt;

/// The returns of totals whose bounds are looked at.
const AT_BOUNDS: [u16; 3] = [0, 1, MOST_RETURNS - 1];

/// The numbers of the call.
const NUMBERS: [u16; 7] = [
    DONE,
    REPLY_BUFFER_SHORT,
    TABLE_LENGTH,
    START_OUTSIDE,
    TABLE_NOT_WELL_FORMED,
    TALLY_DIFFERS,
    NO_FRAME,
];

/// What a totalling call is lent.
pub struct Lent {
    /// What a call is handed.
    pub handed: Handed,
    /// The table.
    pub table: Vec<u8>,
    /// The reply buffer.
    pub reply: Vec<u8>,
    /// The three numbers.
    pub totals: Totals,
}

/// What came of a totalling call.
#[derive(Clone, Copy, Debug, PartialEq, Eq, PartialOrd, Ord)]
pub enum Came {
    /// It gave this number.
    Number(u16),
    /// It gave 108 for this reason alone, and had a reason for this number too; where
    /// the number is 0, the call would have been answered.
    Outside(Reason, u16),
    /// It gave 108 for its returns, and its total was beyond a bound too.
    OutsideTwice(Reason),
    /// Its total was at a bound, one inside or one outside.
    Bound {
        /// How many returns were in the total.
        returns: u16,
        /// The side of the bound.
        side: Reason,
        /// Whether it was inside, at the bound or outside.
        beyond: Ordering,
    },
    /// It had so many returns, close to the most, and a total that can be: it counted
    /// one more, or gave 108.
    Near(u16),
    /// A return was counted, with a change of 0 or below.
    Counted(Ordering),
    /// A return was counted, with the least change.
    Least,
    /// A return was counted, with a change of 0 or below, in a total above 0.
    CountedAbove(Ordering),
    /// A right was returned, but not counted.
    Uncounted(Keep),
    /// A right for use was returned once more. Where both keep a count, these differ.
    Again(Keep),
    /// A return was refused.
    Refused {
        /// With this status.
        status: u8,
        /// Whether there is a lent right with a count under its handle, and the
        /// request keeps one too.
        countable: bool,
    },
    /// A request of this kind, which is no return, succeeded.
    Other(u8),
}

/// Which of record and request keep a count.
#[derive(Clone, Copy, Debug, PartialEq, Eq, PartialOrd, Ord)]
pub struct Keep {
    /// The record, before the call.
    pub record: bool,
    /// The request.
    pub request: bool,
}

impl Keep {
    const NEITHER: Keep = Keep {
        record: false,
        request: false,
    };

    const BOTH: Keep = Keep {
        record: true,
        request: true,
    };
}

impl Came {
    /// All that came of a totalling call.
    pub fn all_of(lent: &Lent, given: &Totalled) -> Vec<Came> {
        let mut came = at_bounds(&lent.totals);
        came.push(Came::Number(given.call.number));
        match given.call.number {
            TOTAL_OUTSIDE => came.extend(outside(lent, given)),
            DONE => came.extend(answered(lent, given)),
            _ => {}
        }
        let counted = given.totals.returns != lent.totals.returns;
        if counted && lent.totals.returns >= MOST_RETURNS - 2 {
            came.push(Came::Near(lent.totals.returns));
        }
        came
    }

    /// All that can occur.
    pub fn that_can_occur() -> Vec<Came> {
        use Ordering::{Equal, Less};
        let mut all = numbers_that_can_occur();
        all.extend(bounds_that_can_occur());
        all.extend((MOST_RETURNS - 2..=MOST_RETURNS + 1).map(Came::Near));
        all.extend([Less, Equal].map(Came::Counted));
        all.extend([Less, Equal].map(Came::CountedAbove));
        all.extend([Came::Least, Came::Uncounted(Keep::NEITHER)]);
        for record in [false, true] {
            all.extend([false, true].map(|request| Came::Again(Keep { record, request })));
        }
        let refused = [
            (1, false),
            (1, true),
            (2, false),
            (2, true),
            (4, false),
            (6, false),
            (9, false),
            (9, true),
        ];
        all.extend(refused.map(|(status, countable)| Came::Refused { status, countable }));
        all.extend([1, 2, 3, 4, 6, 7, 8, 9].map(Came::Other));
        all
    }
}

/// Each number; and each reason for 108, beside a call that would have been answered
/// and beside each number of the call.
fn numbers_that_can_occur() -> Vec<Came> {
    let mut all = vec![Came::Number(TOTAL_OUTSIDE)];
    all.extend(NUMBERS.map(Came::Number));
    all.extend([Reason::Above, Reason::Below].map(Came::OutsideTwice));
    for reason in Reason::ALL {
        all.extend(NUMBERS.map(|number| Came::Outside(reason, number)));
    }
    all
}

/// Both bounds, from both sides. No total of 0 returns is inside.
fn bounds_that_can_occur() -> Vec<Came> {
    let mut all = Vec::new();
    for returns in AT_BOUNDS {
        for side in [Reason::Above, Reason::Below] {
            let of = |beyond| Came::Bound {
                returns,
                side,
                beyond,
            };
            all.extend([Ordering::Equal, Ordering::Greater].map(of));
            all.extend((returns > 0).then(|| of(Ordering::Less)));
        }
    }
    all
}

/// The bounds that a total is at, or next to.
fn at_bounds(totals: &Totals) -> Vec<Came> {
    let returns = totals.returns;
    let sides = [Reason::Above, Reason::Below].into_iter();
    let bounds = sides.filter_map(|side| match beyond(totals, side) {
        -1 if returns == 0 => None,
        far @ -1..=1 => Some(Came::Bound {
            returns,
            side,
            beyond: far.cmp(&0),
        }),
        _ => None,
    });
    bounds.filter(|_| AT_BOUNDS.contains(&returns)).collect()
}

/// What 108 was given for, and what else was wrong with the call.
fn outside(lent: &Lent, given: &Totalled) -> Vec<Came> {
    match Reason::all_of(&lent.totals)[..] {
        [reason] => {
            let mut numbers = reasons(&lent.handed, &given.call);
            if numbers.is_empty() {
                numbers.push(DONE);
            }
            let mut came: Vec<Came> = numbers
                .iter()
                .map(|&number| Came::Outside(reason, number))
                .collect();
            let returns = lent.totals.returns;
            if reason == Reason::Returns && returns <= MOST_RETURNS + 1 {
                came.push(Came::Near(returns));
            }
            came
        }
        [_, side] => vec![Came::OutsideTwice(side)],
        _ => Vec::new(),
    }
}

/// What came of a call that was answered.
fn answered(lent: &Lent, given: &Totalled) -> Vec<Came> {
    let (kind, status) = (given.call.reply[0] & 31, given.call.reply[1] & 0x7F);
    let frame = &lent.handed.frame;
    let record = record(&lent.table, frame);
    match (kind, status, record) {
        (5, 0, Some(record)) => returned(record, lent, given.totals.change),
        (5, status, record) => {
            let countable = record.is_some_and(|record| {
                slot::place(record) == Place::Disabled && keep(record, frame) == Keep::BOTH
            });
            vec![Came::Refused { status, countable }]
        }
        (kind, 0, _) => vec![Came::Other(kind)],
        _ => Vec::new(),
    }
}

/// The record under the handle that is first in the body of a frame, if it has one.
fn record<'a>(table: &'a [u8], frame: &[u8]) -> Option<&'a SlotBytes> {
    let handle = frame.get(4..14)?.try_into().expect("ten bytes");
    let mut slots = table::slots(table).iter();
    slots.find(|slot| slot::has_handle(slot, &handle))
}

/// Which of a record and the frame of a return keep a count.
fn keep(record: &SlotBytes, frame: &[u8]) -> Keep {
    Keep {
        record: slot::kept(record),
        request: frame[1] & 0x40 != 0,
    }
}

/// What came of a return that succeeded, with this change.
fn returned(record: &SlotBytes, lent: &Lent, change: i32) -> Vec<Came> {
    let frame = &lent.handed.frame;
    let keep = keep(record, frame);
    let same = slot::count_number(record).to_be_bytes() == frame[14..16];
    match slot::place(record) {
        Place::Disabled if keep == Keep::BOTH => {
            let mut came = vec![Came::Counted(change.cmp(&0))];
            came.extend((change == -MOST_CHANGE).then_some(Came::Least));
            if lent.totals.total > 0 {
                came.push(Came::CountedAbove(change.cmp(&0)));
            }
            came
        }
        Place::Disabled => vec![Came::Uncounted(keep)],
        _ if keep == Keep::BOTH && same => Vec::new(),
        _ => vec![Came::Again(keep)],
    }
}

impl fmt::Display for Keep {
    fn fmt(&self, f: &mut fmt::Formatter<'_>) -> fmt::Result {
        f.write_str(match (self.record, self.request) {
            (false, false) => "no count",
            (false, true) => "a count in the request",
            (true, false) => "a count in the record",
            (true, true) => "two counts",
        })
    }
}

impl fmt::Display for Came {
    fn fmt(&self, f: &mut fmt::Formatter<'_>) -> fmt::Result {
        match self {
            Came::Number(number) => write!(f, "totalling call: {number}"),
            Came::Outside(reason, 0) => write!(f, "108 for {}", reason.words()),
            Came::Outside(reason, number) => {
                write!(f, "108 for {}, and not {number}", reason.words())
            }
            Came::OutsideTwice(reason) => write!(f, "108 for the returns and {}", reason.words()),
            Came::Bound {
                returns,
                side,
                beyond,
            } => {
                let beyond = match beyond {
                    Ordering::Less => "one inside",
                    Ordering::Equal => "none beyond",
                    Ordering::Greater => "one beyond",
                };
                write!(f, "{}, {returns} returns: {beyond}", side.words())
            }
            Came::Near(returns) => write!(f, "{returns} returns before the call"),
            Came::Counted(change) => write!(f, "counted, change {}", sign(*change)),
            Came::Least => write!(f, "counted, the least change"),
            Came::CountedAbove(change) => {
                write!(f, "counted in a total above 0, change {}", sign(*change))
            }
            Came::Uncounted(keep) => write!(f, "returned with {keep}"),
            Came::Again(keep) => write!(f, "returned once more, with {keep}"),
            Came::Refused { status, countable } => {
                let what = if *countable { "a countable" } else { "another" };
                write!(f, "status {status} for {what} return")
            }
            Came::Other(kind) => write!(f, "kind {kind}, no change"),
        }
    }
}
