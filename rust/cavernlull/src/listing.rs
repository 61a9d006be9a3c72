//! The listing of a table.

use crate::archive;
use crate::LISTING_ROOM;
use std::fmt;
use std::str;

/// The listing of a table, as the program `cardlist` prints it: a header, then
/// a line for each slot with its index, its place (`empty`, `reserved`,
/// `enabled` or `disabled`), hash count, count (0 also where none is kept) and
/// payload length. For a table that the agent would refuse it is one line,
/// `refused 102` or `refused 103`.
///
/// ```
/// use cavernlull::{Card, Handle, Request, Verdict};
///
/// let mut card = Card::blank(1);
/// let setup = Request::InstallationSetup { handle: Handle([1; 10]), room: 5 };
/// card.call(&setup, Verdict::Held)?;
/// assert_eq!(
///     card.listing().to_string(),
///     "slot place hashes count length\n0 reserved 0 0 5\n"
/// );
/// # Ok::<(), cavernlull::Error>(())
/// ```
#[derive(Clone, Copy)]
pub struct Listing {
    bytes: [u8; LISTING_ROOM],
    length: usize,
}

impl Listing {
    /// The listing of any bytes, a table or not.
    pub fn of(table: &[u8]) -> Listing {
        let mut bytes = [0; LISTING_ROOM];
        let length = archive::list(table, &mut bytes);
        Listing { bytes, length }
    }

    /// The listing as text. Every line of it ends in a newline.
    pub fn as_str(&self) -> &str {
        str::from_utf8(&self.bytes[..self.length]).expect("a listing is words and digits")
    }
}

impl fmt::Display for Listing {
    fn fmt(&self, f: &mut fmt::Formatter<'_>) -> fmt::Result {
        f.write_str(self.as_str())
    }
}

impl fmt::Debug for Listing {
    fn fmt(&self, f: &mut fmt::Formatter<'_>) -> fmt::Result {
        f.debug_tuple("Listing").field(&self.as_str()).finish()
    }
}

impl PartialEq for Listing {
    fn eq(&self, other: &Listing) -> bool {
        self.as_str() == other.as_str()
    }
}

impl Eq for Listing {}
