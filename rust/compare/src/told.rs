//! What the ledger tells of a total: the sum of the changes, and how many returns were
//! counted (PROFILE 8.7).

use crate::mended::Began;
use crate::totals::{sign, MOST_RETURNS};
use driver::{Same, Totalled, Totals};
use reference::ledger::{agrees, Ledger};
use reference::number::{DONE, TOTAL_OUTSIDE};
use reference::{read_request, CountsTold, ReadRequest};
use std::cmp::Ordering;
use std::fmt;

/// A ledger, and the sum of what it has told since the total began. The sum has more
/// bits than the total, so that nothing is lost.
#[derive(Default)]
pub struct Told {
    ledger: Ledger,
    counts: CountsTold,
    total: i64,
    returns: u64,
}

impl Told {
    /// Goes on with another card, whose ledger is read off its table.
    ///
    /// # Errors
    ///
    /// A sentence, where the table is refused.
    pub fn read_off(&mut self, table: &[u8]) -> Same {
        self.ledger = Ledger::read_off(table)
            .map_err(|number| format!("the table at first is refused with {number}"))?;
        self.counts = CountsTold::of(&self.ledger);
        Ok(())
    }

    /// Begins with these numbers, which are 0 and 0 or were left by other cards.
    pub fn begin(&mut self, totals: &Totals) {
        self.total = totals.total.into();
        self.returns = totals.returns.into();
    }

    /// Whether as many returns were counted as a total can have in it.
    pub fn is_full(&self) -> bool {
        self.returns == MOST_RETURNS.into()
    }

    /// Tells the next call, and gives the change of a counted return.
    ///
    /// # Errors
    ///
    /// A sentence, where the call gave 108 too early or too late, where its numbers
    /// are not those told, where table and ledger do not agree, or where a count has
    /// risen.
    pub fn tell(&mut self, frame: &[u8], given: &Totalled) -> Result<Option<i32>, String> {
        let number = given.call.number;
        if self.is_full() != (number == TOTAL_OUTSIDE) {
            let returns = self.returns;
            return Err(format!("it gave {number} after {returns} counted returns"));
        }
        let told = self.exchange(frame, given);
        self.total += i64::from(told.unwrap_or(0));
        self.returns += u64::from(told.is_some());
        if number != TOTAL_OUTSIDE {
            let change = told.unwrap_or(0);
            same("the change", given.totals.change.into(), change.into())?;
        }
        same("the total", given.totals.total.into(), self.total)?;
        let returns = self.returns as i64;
        same("returns", given.totals.returns.into(), returns)?;
        agrees(&self.ledger, &given.call.table)?;
        self.counts.go_on(&self.ledger)?;
        Ok(told)
    }

    /// Tells the ledger the request, if the frame is one and had a reply.
    fn exchange(&mut self, frame: &[u8], given: &Totalled) -> Option<i32> {
        let (DONE, ReadRequest::Request(request)) = (given.call.number, read_request(frame)) else {
            return None;
        };
        let status = given.call.reply[1] & 0x7F;
        let told = self.ledger.change_told(&request, status);
        self.ledger.tell(&request, status);
        told
    }
}

fn same(what: &str, given: i64, told: i64) -> Same {
    if given != told {
        return Err(format!("{what} is {given} where {told} was told"));
    }
    Ok(())
}

/// What was told along histories.
#[derive(Clone, Copy, Debug, PartialEq, Eq, PartialOrd, Ord)]
pub enum Along {
    /// A counted return, with a change of 0 or below, in a history that began with
    /// this.
    Counted(Began, Ordering),
    /// The last return that has room.
    Last,
    /// 108 after it.
    Full,
    /// A total that began anew after that, with 0 and 0.
    Anew,
}

impl Along {
    /// All that can occur.
    pub fn that_can_occur() -> Vec<Along> {
        let signs = [Ordering::Less, Ordering::Equal];
        let mut all = vec![Along::Last, Along::Full, Along::Anew];
        for began in Began::ALL {
            all.extend(signs.map(|sign| Along::Counted(began, sign)));
        }
        all
    }
}

impl fmt::Display for Along {
    fn fmt(&self, f: &mut fmt::Formatter<'_>) -> fmt::Result {
        match self {
            Along::Counted(began, change) => write!(f, "{began}: change {}", sign(*change)),
            Along::Last => write!(f, "told: the last return"),
            Along::Full => write!(f, "told: 108 after the last return"),
            Along::Anew => write!(f, "told: from 0 and 0 after 108"),
        }
    }
}
