//! What a report says of one period.

use crate::row::{Entry, Returned};
use cavernlull::Totals;

/// Starts, and the returns that they were in.
#[derive(Clone, Copy, Debug, Default, PartialEq, Eq)]
pub struct Part {
    /// How many starts.
    pub starts: u32,
    /// In how many returns.
    pub returns: usize,
}

impl Part {
    fn add(&mut self, change: i32) {
        self.starts += change.unsigned_abs();
        self.returns += 1;
    }
}

/// A period: the calls from a total that was taken up, or from 0 and 0, until the
/// total is full or the recording ends.
///
/// The total is that of the beginning, less what was used. The returns are those
/// of the beginning, those in which starts were used, and those unchanged.
#[derive(Clone, Copy, Debug, PartialEq, Eq)]
pub struct Summary {
    /// The period, counted from 1.
    pub period: usize,
    /// The totals at its beginning.
    pub from: Totals,
    /// The totals at its end.
    pub totals: Totals,
    /// How many calls were made in it.
    pub calls: usize,
    /// Starts that were used: the changes below 0.
    pub used: Part,
    /// Counted returns with a change of 0.
    pub unchanged: usize,
    /// Returns of courses that were for use already.
    pub again: usize,
    /// Returns of courses that keep no count.
    pub no_count: usize,
    /// Returns that the card refused with status 9, since they would have raised
    /// a count.
    pub raised: usize,
    /// Returns that the card refused with another status.
    pub refused: usize,
    /// Calls without a reply.
    pub no_reply: usize,
}

impl Summary {
    /// A period that begins with these totals.
    pub fn begin(period: usize, from: Totals) -> Summary {
        Summary {
            period,
            from,
            totals: from,
            calls: 0,
            used: Part::default(),
            unchanged: 0,
            again: 0,
            no_count: 0,
            raised: 0,
            refused: 0,
            no_reply: 0,
        }
    }

    /// Adds one call of this period.
    pub fn add(&mut self, entry: &Entry) {
        self.calls += 1;
        self.totals = entry.totals;
        self.no_reply += usize::from(entry.outcome.status().is_none());
        match entry.returned {
            Some(Returned::Counted) if entry.change == 0 => self.unchanged += 1,
            Some(Returned::Counted) => self.used.add(entry.change),
            Some(Returned::Again) => self.again += 1,
            Some(Returned::NoCount) => self.no_count += 1,
            Some(Returned::Raised) => self.raised += 1,
            Some(Returned::Refused) => self.refused += 1,
            None => {}
        }
    }
}
