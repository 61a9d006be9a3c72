//! The count of a right: a case, and in bytes a bit and a number.

/// The count of a right (PROFILE 2.6).
#[derive(Clone, Copy, Debug, Default, PartialEq, Eq, PartialOrd, Ord)]
pub enum Count {
    /// No count is kept.
    #[default]
    NotKept,
    /// A count is kept, and this is it; 0 says that it is used up.
    Kept(u16),
}

impl Count {
    /// The count that a bit and a number say. A number other than 0 without the
    /// bit says no count, and is `None`.
    pub fn said(kept: bool, number: u16) -> Option<Count> {
        match (kept, number) {
            (true, number) => Some(Count::Kept(number)),
            (false, 0) => Some(Count::NotKept),
            (false, _) => None,
        }
    }

    /// Whether this count, sent with a return, raises the one stored (PROFILE 5.5):
    /// exactly one of the two is kept, or both are and this number is the greater.
    pub fn raises(self, stored: Count) -> bool {
        match (stored, self) {
            (Count::NotKept, Count::NotKept) => false,
            (Count::NotKept, Count::Kept(_)) => true,
            (Count::Kept(_), Count::NotKept) => true,
            (Count::Kept(stored), Count::Kept(sent)) => sent > stored,
        }
    }

    /// The bit: whether a count is kept.
    pub fn is_kept(self) -> bool {
        matches!(self, Count::Kept(_))
    }

    /// The number, which is 0 where no count is kept.
    pub fn number(self) -> u16 {
        match self {
            Count::NotKept => 0,
            Count::Kept(number) => number,
        }
    }
}
