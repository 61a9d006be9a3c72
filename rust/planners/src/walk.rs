//! Makes the recorded calls, one after the other, and gives the rows of the
//! report.

use crate::recording::Recorded;
use crate::row::{handles_in, kind_bits, Entry, Outcome, Returned, Row};
use crate::summary::Summary;
use cavernlull::{Card, Kind, Reply, Status, Tally, Totalled, TotallingError, Totals};
use cavernlull::{MOST_CHANGE, MOST_RETURNS, REPLY_ROOM};

/// The rows of a report: one for each call, and a summary at the end of each
/// period. Where the totals have no room for another return, a new period begins
/// before the next call.
///
/// Setups look from slot 0 on. Where a record stands makes no difference to any
/// count (PROFILE 8.4).
///
/// # Errors
///
/// A sentence that says what is wrong: the card is no well-formed table, or the
/// total cannot be the sum of so many returns.
pub fn rows(calls: &[Recorded], card: Card, from: Totals) -> Result<Vec<Row>, String> {
    if let Err(error) = Tally::of(card.table()) {
        return Err(format!("the card is refused: {} {error}", error.number()));
    }
    if !can_be(from) {
        return Err(format!(
            "{from} cannot be: a return changes the total by {MOST_CHANGE} at most, and a total \
             has {MOST_RETURNS} returns at most"
        ));
    }
    let mut walk = Walk::begin(card, from);
    calls.iter().for_each(|recorded| walk.call(recorded));
    walk.end_period();
    Ok(walk.rows)
}

/// Whether a total can be the sum of so many changes. One that is full can be,
/// though no further call is made with it.
fn can_be(totals: Totals) -> bool {
    let full = totals.returns() == MOST_RETURNS;
    let most = i64::from(MOST_CHANGE) * i64::from(totals.returns());
    totals.holds() || full && i64::from(totals.total()).abs() <= most
}

/// A card on its way through the calls of a recording.
struct Walk {
    card: Card,
    totals: Totals,
    period: Summary,
    calls: usize,
    rows: Vec<Row>,
}

impl Walk {
    fn begin(card: Card, from: Totals) -> Walk {
        Walk {
            card,
            totals: from,
            period: Summary::begin(1, from),
            calls: 0,
            rows: Vec::new(),
        }
    }

    fn end_period(&mut self) {
        self.rows.push(Row::Summary(self.period));
        self.totals = Totals::new();
        self.period = Summary::begin(self.period.period + 1, self.totals);
    }

    fn call(&mut self, recorded: &Recorded) {
        if self.totals.is_full() {
            self.end_period();
        }
        let frame = &recorded.frame;
        let (lent, mut buffer) = (self.card.tally().disabled, [0; REPLY_ROOM]);
        let given = self.totals.call_frame(&mut self.card, frame, &mut buffer);
        let returned = given
            .ok()
            .filter(|_| kind_bits(frame) == Kind::RightsEnablement.number())
            .map(|totalled| returned(&totalled, lent != self.card.tally().disabled));
        self.calls += 1;
        let [handle, new_handle] = given.map_or([None, None], |_| handles_in(frame));
        let entry = Entry {
            period: self.period.period,
            call: self.calls,
            line: recorded.line,
            kind: kind_bits(frame),
            handle,
            new_handle,
            outcome: outcome(&given),
            returned,
            change: given.map_or(0, |totalled| totalled.change),
            totals: self.totals,
        };
        self.period.add(&entry);
        self.rows.push(Row::Call(entry));
    }
}

/// What a call came to.
fn outcome(given: &Result<Totalled<&[u8]>, TotallingError>) -> Outcome {
    match given {
        Ok(totalled) => Outcome::Reply(status(totalled.reply)),
        Err(TotallingError::Call(error)) => Outcome::NoReply(*error),
        Err(error) => unreachable!("the totals hold, and frames are not written: {error}"),
    }
}

fn status(reply: &[u8]) -> Status {
    Reply::read(reply).expect("a card's reply is one").status()
}

/// What became of a Rights Enablement that has a reply. It takes one from the
/// lent rights exactly where the course was lent.
fn returned(totalled: &Totalled<&[u8]>, was_lent: bool) -> Returned {
    match status(totalled.reply) {
        Status::Success if totalled.counted => Returned::Counted,
        Status::Success if was_lent => Returned::NoCount,
        Status::Success => Returned::Again,
        Status::CountRaised => Returned::Raised,
        _ => Returned::Refused,
    }
}
