//! What holds of every salvage (PROFILE 2.10), told by what it was lent and what it
//! gave and left.

use crate::found::Lent;
use crate::tallies::tally_of;
use driver::{Salvaged, Same, Tallied};
use reference::number::{DONE, REPORT_BUFFER_SHORT, TABLE_LENGTH};
use reference::slot::SlotBytes;
use reference::{slot, table, Finding, SLOT_BYTES};

/// Whether all of it holds of a salvage.
///
/// # Errors
///
/// A sentence that names the first thing that does not hold.
pub fn holds(lent: &Lent, given: &Salvaged) -> Same {
    if is_refused(given) {
        let same = given.table == lent.table && given.report == lent.report;
        return must(same, "it was refused and changed something");
    }
    let slots = table::slots(&lent.table).len();
    let (report, rest) = given.report.split_at(slots);
    must(rest == &lent.report[slots..], "the report's rest changed")?;
    let cleared: Vec<usize> = (0..slots).filter(|&slot| report[slot] != 0).collect();
    let number = usize::from(given.number);
    must(
        number == cleared.len(),
        "it cleared another number of slots",
    )?;
    for (index, found) in report.iter().enumerate() {
        let [old, new] = [&lent.table, &given.table].map(|table| &table::slots(table)[index]);
        must(
            slot_holds(*found, old, new),
            "a slot is not as it was found",
        )?;
    }
    must(
        one_changed_holds(lent, report, &cleared),
        "too much is cleared",
    )
}

/// Whether a second salvage left everything as it was, but for a report of zeros.
///
/// # Errors
///
/// A sentence, where it did not.
pub fn clears_nothing(first: &Salvaged, second: &Salvaged) -> Same {
    must(
        second.table == first.table,
        "a second run changed the table",
    )?;
    if is_refused(first) {
        return must(
            second.number == first.number,
            "a second run was not refused",
        );
    }
    let slots = table::slots(&second.table).len();
    let zeros = second.report[..slots].iter().all(|&found| found == 0);
    must(
        second.number == DONE && zeros,
        "a second run found something",
    )
}

/// Whether the tally that was worked out after a salvage is that of the table left,
/// which has one as it is well formed. Of a table that was refused for its length
/// there is none.
///
/// # Errors
///
/// A sentence, where it is another.
pub fn is_tallied(salvaged: &Salvaged, tallied: &Tallied) -> Same {
    match salvaged.number {
        TABLE_LENGTH => must(tallied.number == TABLE_LENGTH, "it has a tally"),
        REPORT_BUFFER_SHORT => Ok(()),
        _ => {
            let right = tallied.tally == tally_of(&salvaged.table);
            must(tallied.number == DONE && right, "the tally is another")
        }
    }
}

/// Whether a salvage gave a number that is no number of cleared slots.
fn is_refused(given: &Salvaged) -> bool {
    matches!(given.number, TABLE_LENGTH | REPORT_BUFFER_SHORT)
}

/// Whether a slot is what is said of it: every byte is kept, or every byte is zero and
/// the slot was damaged, or well formed and so repeated.
fn slot_holds(found: u8, old: &SlotBytes, new: &SlotBytes) -> bool {
    let zeros = |slot: &SlotBytes| slot == &[0; SLOT_BYTES];
    match Finding::from_number(found) {
        Some(Finding::Kept) => new == old,
        Some(Finding::Damaged) => zeros(new) && !slot::well_formed(old),
        Some(Finding::Repeated) => zeros(new) && slot::well_formed(old),
        None => false,
    }
}

/// Where the bytes of at most one slot were changed: whether no other was cleared or,
/// if the slot is well formed and has come to another's handle, the higher of the
/// two.
fn one_changed_holds(lent: &Lent, report: &[u8], cleared: &[usize]) -> bool {
    match (&lent.changed[..], cleared) {
        ([], cleared) => cleared.is_empty(),
        ([_], []) => true,
        ([changed], [index]) if report[*index] == Finding::Damaged.number() => index == changed,
        ([changed], [index]) => {
            let alike = alike(table::slots(&lent.table), *changed);
            alike.len() == 2 && alike[1] == *index
        }
        ([_], _) => false,
        _ => true,
    }
}

/// The slots that are not empty and have the handle of this one.
fn alike(slots: &[SlotBytes], index: usize) -> Vec<usize> {
    let handle = slot::handle(&slots[index]);
    let alike = |&other: &usize| slot::has_handle(&slots[other], &handle);
    (0..slots.len()).filter(alike).collect()
}

fn must(holds: bool, otherwise: &str) -> Same {
    match holds {
        true => Ok(()),
        false => Err(otherwise.to_owned()),
    }
}
