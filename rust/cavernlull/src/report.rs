//! What a salvage found of the slots of a table.

use crate::MOST_SLOTS;
use std::fmt;

/// What a salvage found of one slot, with its number in the report (PROFILE
/// 2.10).
#[derive(Clone, Copy, Debug, PartialEq, Eq, PartialOrd, Ord, Hash)]
#[repr(u8)]
pub enum Finding {
    /// The slot is in order, or empty: every byte of it is as it was.
    Kept = 0,
    /// The slot was not well formed by itself, and is all zeros now.
    Damaged = 1,
    /// The slot had the handle of a lower one, and is all zeros now.
    Repeated = 2,
}

impl Finding {
    /// All findings, in the order of their numbers.
    pub const ALL: [Finding; 3] = [Finding::Kept, Finding::Damaged, Finding::Repeated];

    /// The finding's number, 0 to 2.
    pub const fn number(self) -> u8 {
        self as u8
    }

    /// The finding of this number, if it is 0 to 2.
    ///
    /// ```
    /// use cavernlull::Finding;
    ///
    /// assert_eq!(Finding::from_number(2), Some(Finding::Repeated));
    /// assert_eq!(Finding::from_number(3), None);
    /// ```
    pub fn from_number(number: u8) -> Option<Finding> {
        Finding::ALL
            .into_iter()
            .find(|finding| finding.number() == number)
    }
}

/// One word: `kept`, `damaged` or `repeated`.
impl fmt::Display for Finding {
    fn fmt(&self, f: &mut fmt::Formatter<'_>) -> fmt::Result {
        f.pad(match self {
            Finding::Kept => "kept",
            Finding::Damaged => "damaged",
            Finding::Repeated => "repeated",
        })
    }
}

/// The report of a [salvage](crate::Card::salvage): what was found of each slot.
///
/// As text it is what the program `cardsalvage` prints of it: a line for each
/// slot, and one with the number of slots that were cleared.
///
/// ```
/// use cavernlull::{Card, Finding, SLOT_BYTES};
///
/// // Slots 1 and 2 are reserved under one handle, and slot 0 is worn.
/// let mut image = vec![0; 3 * SLOT_BYTES];
/// for slot in image.chunks_exact_mut(SLOT_BYTES) {
///     (slot[0], slot[30]) = (0x40, 9);
///     slot[1..11].fill(7);
/// }
/// image[191] = 1;
///
/// let report = Card::from(image).salvage()?;
/// assert_eq!(report.to_string(), "0 damaged\n1 kept\n2 repeated\ncleared 2\n");
/// for (slot, finding) in report.iter().filter(|(_, found)| *found == Finding::Damaged) {
///     println!("send the block of slot {slot} to the bench: it is {finding}");
/// }
/// # Ok::<(), cavernlull::SalvageError>(())
/// ```
#[derive(Clone, Copy, Debug, PartialEq, Eq, Hash)]
pub struct Report {
    /// Those after the last slot are [`Finding::Kept`].
    findings: [Finding; MOST_SLOTS],
    slots: usize,
}

impl Report {
    /// The report that the archive has written: a byte for each slot.
    pub(crate) fn read(bytes: &[u8]) -> Report {
        let mut findings = [Finding::Kept; MOST_SLOTS];
        for (finding, byte) in findings.iter_mut().zip(bytes) {
            *finding = Finding::from_number(*byte).expect("a report has no other bytes");
        }
        let slots = bytes.len();
        Report { findings, slots }
    }

    /// What was found of each slot: that of slot *i* has the index *i*.
    pub fn findings(&self) -> &[Finding] {
        &self.findings[..self.slots]
    }

    /// Each slot, counted from 0, with what was found of it.
    pub fn iter(&self) -> impl Iterator<Item = (usize, Finding)> + '_ {
        self.findings().iter().copied().enumerate()
    }

    /// How many slots were cleared: those that were damaged or repeated.
    pub fn cleared(&self) -> usize {
        self.iter()
            .filter(|(_, found)| *found != Finding::Kept)
            .count()
    }
}

/// The report in words. Every line of it ends in a newline.
impl fmt::Display for Report {
    fn fmt(&self, f: &mut fmt::Formatter<'_>) -> fmt::Result {
        for (slot, finding) in self.iter() {
            writeln!(f, "{slot} {finding}")?;
        }
        writeln!(f, "cleared {}", self.cleared())
    }
}
