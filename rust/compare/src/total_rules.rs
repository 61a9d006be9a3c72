//! What holds of every totalling call, whatever it is lent (PROFILE 4.5, 8.7).

use crate::totalled::Lent;
use crate::totals::{most, Reason, MOST_CHANGE, MOST_RETURNS};
use driver::{Call, Same, Totalled, Totals};
use reference::number::{DONE, TOTAL_OUTSIDE};

/// Whether a totalling call gave and left what it must, beside what the call itself
/// does. `plain` is that call, made with the same arguments.
///
/// # Errors
///
/// A sentence that says what does not hold.
pub fn holds(lent: &Lent, plain: Option<&Call>, given: &Totalled) -> Same {
    let number = given.call.number;
    let outside = !Reason::all_of(&lent.totals).is_empty();
    if outside != (number == TOTAL_OUTSIDE) {
        return Err(format!("it gave {number} for {:?}", lent.totals));
    }
    if outside {
        return nothing_changed(lent, given);
    }
    if let Some(plain) = plain {
        let same = given.call.same_as(plain);
        same.map_err(|difference| format!("beside the call, {difference}"))?;
    }
    adds_up(lent, given)?;
    is_within(&given.totals)
}

/// With 108 nothing changes, the change included.
fn nothing_changed(lent: &Lent, given: &Totalled) -> Same {
    let call = &given.call;
    let same = call.table == lent.table
        && call.reply == lent.reply
        && call.tally == lent.handed.tally
        && given.totals == lent.totals;
    same.then_some(()).ok_or("108, and it changed".into())
}

/// The change is in the total, and in returns one return at most. It is never above 0,
/// and it is 0 with every number but 0, where no return is counted, and where the table
/// stays as it was.
fn adds_up(lent: &Lent, given: &Totalled) -> Same {
    let (before, after) = (&lent.totals, &given.totals);
    let added = i64::from(after.total) - i64::from(before.total);
    let counted = i32::from(after.returns) - i32::from(before.returns);
    let changed = given.call.number == DONE && given.call.table != lent.table;
    let holds = added == after.change.into()
        && (0..=1).contains(&counted)
        && (-MOST_CHANGE..=0).contains(&after.change)
        && (counted == 1 || after.change == 0)
        && (changed || counted == 0);
    holds
        .then_some(())
        .ok_or_else(|| format!("{before:?} became {after:?}"))
}

/// A total that could be is one that can be afterwards.
fn is_within(totals: &Totals) -> Same {
    let most = most(totals.returns);
    let within = (-most..=most).contains(&totals.total.into());
    (within && totals.returns <= MOST_RETURNS)
        .then_some(())
        .ok_or_else(|| format!("{totals:?} cannot be"))
}
