//! The totalling call: what returns did to counts, and the sum of it (PROFILE 4.4,
//! 4.5).
//!
//! It makes a call as any other, and then looks at the table as it was before: what
//! a return did follows from the record that it found there.

use crate::number::{DONE, TOTAL_OUTSIDE};
use crate::slot::{self, Place};
use crate::{call, read_request, table, Count, Kind, ReadRequest, Status, Tally};

/// The most that one return can add to a total or take from it.
pub const MOST_CHANGE: i32 = 65_535;

/// The most counted returns that a total can have in it.
pub const MOST_RETURNS: u16 = 30_000;

/// The three numbers that are lent with a totalling call.
#[derive(Clone, Copy, Debug, Default, PartialEq, Eq, PartialOrd, Ord)]
pub struct Totals {
    /// The sum of the changes so far.
    pub total: i32,
    /// How many counted returns are in the total.
    pub returns: u16,
    /// The change of the last call; what it holds before a call makes no
    /// difference.
    pub change: i32,
}

impl Totals {
    /// Whether one more return has room, and the total can be a sum of so many
    /// changes.
    fn can_go_on(&self) -> bool {
        let total = i64::from(self.total);
        let most = i64::from(MOST_CHANGE) * i64::from(self.returns);
        self.returns < MOST_RETURNS && total <= most && total >= -most
    }

    /// Adds what a call did: a counted return with its change, and nothing for
    /// every other call. It has room where [`Totals::can_go_on`].
    fn add(&mut self, counted: Option<i32>) {
        self.change = counted.unwrap_or(0);
        self.total += self.change;
        self.returns += u16::from(counted.is_some());
    }
}

/// One totalling call.
///
/// It gives 108 before every number of the call where no further return has room,
/// or where total and returns cannot be, and changes nothing then, the change
/// included. Otherwise it is the call, and total, returns and change become those
/// after it; with a number other than 0 only the change does, which is 0.
pub fn call_totalling(
    table: &mut [u8],
    tally: &mut Tally,
    start: u64,
    frame: &[u8],
    reply: &mut [u8],
    totals: &mut Totals,
) -> u16 {
    if !totals.can_go_on() {
        return TOTAL_OUTSIDE;
    }
    let before = table.to_vec();
    let number = call(table, tally, start, frame, reply);
    totals.add(match number {
        DONE => counted_change(&before, frame, reply[1]),
        _ => None,
    });
    number
}

/// The change of a counted return, told by the table before the call, the request
/// and the status; `None` for every other call, whose change is 0.
fn counted_change(before: &[u8], frame: &[u8], status: u8) -> Option<i32> {
    let ReadRequest::Request(request) = read_request(frame) else {
        return None;
    };
    if request.kind != Kind::RightsEnablement || status != Status::Success.number() {
        return None;
    }
    let slots = table::slots(before);
    let record = &slots[table::find(slots, &request.fields.handle)?];
    if slot::place(record) != Place::Disabled {
        return None;
    }
    difference(slot::count(record), request.fields.count)
}

/// What was sent minus what was stored; `None` unless both are kept.
fn difference(stored: Count, sent: Count) -> Option<i32> {
    match (stored, sent) {
        (Count::Kept(stored), Count::Kept(sent)) => Some(i32::from(sent) - i32::from(stored)),
        _ => None,
    }
}
