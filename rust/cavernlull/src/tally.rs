//! The tally of a table: five numbers that say how it is filled.

use crate::archive;
use crate::{TallyError, MOST_SLOTS};
use std::fmt;

/// The tally of a table (PROFILE 2.8): how many of its slots are empty, reserved,
/// enabled and disabled, and how many payload bytes the enabled and disabled
/// ones hold.
///
/// It says nothing that the table does not. It is kept beside the table, so that
/// a screen need not read the table to show it. A [`Card`](crate::Card) has its
/// tally, and brings it up to date at each call. The default tally, all zeros,
/// is that of no table.
///
/// ```
/// use cavernlull::{Card, Handle, Request, Tally, Verdict};
///
/// let mut card = Card::blank(3);
/// assert_eq!(card.tally(), Tally::blank(3));
///
/// let setup = Request::InstallationSetup { handle: Handle([7; 10]), room: 300 };
/// card.call(&setup, Verdict::Held)?;
/// assert_eq!(card.tally(), Tally { empty: 2, reserved: 1, ..Tally::default() });
/// assert_eq!(
///     card.tally().to_string(),
///     "2 empty, 1 reserved, 0 enabled, 0 disabled, 0 payload bytes"
/// );
/// # Ok::<(), cavernlull::Error>(())
/// ```
#[repr(C)]
#[derive(Clone, Copy, Debug, Default, PartialEq, Eq, Hash)]
pub struct Tally {
    /// How many slots are empty.
    pub empty: u16,
    /// How many are reserved: room is kept for a right that is to come.
    pub reserved: u16,
    /// How many hold a right for use.
    pub enabled: u16,
    /// How many hold a right that is lent or being moved.
    pub disabled: u16,
    /// The bytes of all payloads, at most 61,440. Room that is only reserved is
    /// not among them.
    pub payload: u16,
}

impl Tally {
    /// The tally of a blank card of so many slots. Unless there are 1 to 15,
    /// there is no such card, and all numbers are 0.
    pub const fn blank(slots: usize) -> Tally {
        let empty = if slots <= MOST_SLOTS { slots as u16 } else { 0 };
        Tally {
            empty,
            reserved: 0,
            enabled: 0,
            disabled: 0,
            payload: 0,
        }
    }

    /// Works out the tally of a table.
    ///
    /// # Errors
    ///
    /// Where the bytes are not 1 to 15 slots, or not a well-formed table.
    ///
    /// ```
    /// use cavernlull::{Tally, TallyError, SLOT_BYTES};
    ///
    /// assert_eq!(Tally::of(&[0; 4 * SLOT_BYTES])?, Tally::blank(4));
    /// assert_eq!(Tally::of(&[0; 100]), Err(TallyError::TableLength));
    /// assert_eq!(Tally::of(&[1; SLOT_BYTES]), Err(TallyError::TableNotWellFormed));
    /// # Ok::<(), TallyError>(())
    /// ```
    pub fn of(table: &[u8]) -> Result<Tally, TallyError> {
        let mut tally = Tally::default();
        TallyError::of(archive::tally(table, &mut tally))?;
        Ok(tally)
    }

    /// How many slots these are in all: the sum of the first four numbers.
    pub const fn slots(&self) -> usize {
        self.empty as usize
            + self.reserved as usize
            + self.enabled as usize
            + self.disabled as usize
    }
}

/// The five numbers in one line, as a loading screen shows them.
impl fmt::Display for Tally {
    fn fmt(&self, f: &mut fmt::Formatter<'_>) -> fmt::Result {
        let Tally {
            empty,
            reserved,
            enabled,
            disabled,
            payload,
        } = self;
        let bytes = if *payload == 1 { "byte" } else { "bytes" };
        write!(
            f,
            "{empty} empty, {reserved} reserved, {enabled} enabled, {disabled} disabled, \
             {payload} payload {bytes}"
        )
    }
}
