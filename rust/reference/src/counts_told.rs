//! The count of a right never rises (PROFILE 8.3): what a ledger tells of counts,
//! held against what it told before.

use crate::ledger::{Ledger, Right};
use crate::Count;

/// The count of each right that a ledger told of when it was last looked at, by the
/// number of the right. A right that is gone has the last count that it had.
#[derive(Clone, Debug, Default, PartialEq, Eq)]
pub struct CountsTold(Vec<Count>);

impl CountsTold {
    /// The counts that this ledger tells at first.
    pub fn of(ledger: &Ledger) -> Self {
        CountsTold(counts(ledger.rights()))
    }

    /// Goes on with the counts that the ledger tells later on the same card.
    ///
    /// # Errors
    ///
    /// A sentence that names the first right whose count has risen.
    pub fn go_on(&mut self, ledger: &Ledger) -> Result<(), String> {
        let now = counts(ledger.rights());
        let pairs = self.0.iter().zip(&now).enumerate();
        for (number, (&earlier, &later)) in pairs {
            if !may_follow(earlier, later) {
                return Err(format!(
                    "the count of right {number} rose from {earlier:?} to {later:?}"
                ));
            }
        }
        self.0 = now;
        Ok(())
    }
}

fn counts(rights: &[Right]) -> Vec<Count> {
    rights.iter().map(|right| right.count).collect()
}

/// A kept count stays kept and is at most what it was; where none was kept, none is.
fn may_follow(earlier: Count, later: Count) -> bool {
    match earlier {
        Count::NotKept => later == Count::NotKept,
        Count::Kept(most) => matches!(later, Count::Kept(number) if number <= most),
    }
}
