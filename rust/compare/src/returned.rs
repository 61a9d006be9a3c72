//! How the count of a return compares with that of its record, and the status that it
//! had (PROFILE 5.5).

use reference::number::DONE;
use reference::Count::{self, Kept, NotKept};
use reference::{read_request, slot, table, Kind, Place, ReadRequest};
use std::cmp::Ordering;
use std::fmt;

/// The count sent, beside the one stored.
#[derive(Clone, Copy, Debug, PartialEq, Eq, PartialOrd, Ord)]
pub enum Sent {
    /// None, for a right without a count.
    NoneForNone,
    /// None, for a right with a kept count.
    NoneForKept {
        /// Whether that is 0.
        used_up: bool,
    },
    /// A kept count, for a right without one.
    KeptForNone {
        /// Whether it is 0.
        used_up: bool,
    },
    /// The same kept count.
    Equal {
        /// Whether it is 0.
        used_up: bool,
    },
    /// A smaller number.
    Fewer,
    /// A smaller number whose low byte is greater.
    FewerByHighByte,
    /// The next number.
    OneMore,
    /// A greater number whose low byte is no greater.
    MoreByHighByte,
    /// Any other greater number.
    More,
}

impl Sent {
    /// All that there can be.
    const ALL: [Sent; 12] = [
        Sent::NoneForNone,
        Sent::NoneForKept { used_up: false },
        Sent::NoneForKept { used_up: true },
        Sent::KeptForNone { used_up: false },
        Sent::KeptForNone { used_up: true },
        Sent::Equal { used_up: false },
        Sent::Equal { used_up: true },
        Sent::Fewer,
        Sent::FewerByHighByte,
        Sent::OneMore,
        Sent::MoreByHighByte,
        Sent::More,
    ];

    /// What this count is beside the one stored.
    fn beside(stored: Count, sent: Count) -> Sent {
        match (stored, sent) {
            (NotKept, NotKept) => Sent::NoneForNone,
            (Kept(stored), NotKept) => Sent::NoneForKept {
                used_up: stored == 0,
            },
            (NotKept, Kept(sent)) => Sent::KeptForNone { used_up: sent == 0 },
            (Kept(stored), Kept(sent)) => Sent::number(stored, sent),
        }
    }

    fn number(stored: u16, sent: u16) -> Sent {
        let low = (sent & 0xFF).cmp(&(stored & 0xFF));
        match sent.cmp(&stored) {
            Ordering::Equal => Sent::Equal { used_up: sent == 0 },
            Ordering::Less if low == Ordering::Greater => Sent::FewerByHighByte,
            Ordering::Less => Sent::Fewer,
            Ordering::Greater if sent - stored == 1 => Sent::OneMore,
            Ordering::Greater if low == Ordering::Greater => Sent::More,
            Ordering::Greater => Sent::MoreByHighByte,
        }
    }

    /// Whether it is refused for a lent right.
    fn raises(self) -> bool {
        !matches!(
            self,
            Sent::NoneForNone | Sent::Equal { .. } | Sent::Fewer | Sent::FewerByHighByte
        )
    }
}

/// A return of a right that is on the card.
#[derive(Clone, Copy, Debug, PartialEq, Eq, PartialOrd, Ord)]
pub struct Returned {
    /// Whether the right was lent; one for use takes no notice of the count.
    pub lent: bool,
    /// The count sent.
    pub sent: Sent,
    /// The status.
    pub status: u8,
}

impl Returned {
    /// The return that a call made which found the table `before`, gave this number for
    /// this frame and left this reply buffer; `None` where it is no request to return a
    /// right that is there.
    pub fn of(before: &[u8], number: u16, frame: &[u8], reply: &[u8]) -> Option<Returned> {
        let (DONE, ReadRequest::Request(request)) = (number, read_request(frame)) else {
            return None;
        };
        if request.kind != Kind::RightsEnablement {
            return None;
        }
        let mut slots = table::slots(before).iter();
        let record = slots.find(|slot| slot::has_handle(slot, &request.fields.handle))?;
        (slot::place(record) >= Place::Enabled).then(|| Returned {
            lent: slot::place(record) == Place::Disabled,
            sent: Sent::beside(slot::count(record), request.fields.count),
            status: reply[1],
        })
    }

    /// All that can occur: each count that can be sent, with the one status that it can
    /// have.
    pub fn that_can_occur() -> Vec<Returned> {
        let with_status = |lent, sent: Sent| Returned {
            lent,
            sent,
            status: if lent && sent.raises() { 9 } else { 0 },
        };
        let of = |lent| Sent::ALL.map(|sent| with_status(lent, sent));
        [of(false), of(true)].concat()
    }
}

impl fmt::Display for Sent {
    fn fmt(&self, f: &mut fmt::Formatter<'_>) -> fmt::Result {
        f.write_str(match self {
            Sent::NoneForNone => "no count for none",
            Sent::NoneForKept { used_up: true } => "no count for a kept 0",
            Sent::NoneForKept { used_up: false } => "no count for a kept one",
            Sent::KeptForNone { used_up: true } => "a kept 0 for none",
            Sent::KeptForNone { used_up: false } => "a kept count for none",
            Sent::Equal { used_up: true } => "0 for 0",
            Sent::Equal { used_up: false } => "the same count",
            Sent::Fewer => "fewer",
            Sent::FewerByHighByte => "fewer by the high byte",
            Sent::OneMore => "one more",
            Sent::MoreByHighByte => "more by the high byte",
            Sent::More => "more",
        })
    }
}

impl fmt::Display for Returned {
    fn fmt(&self, f: &mut fmt::Formatter<'_>) -> fmt::Result {
        let right = if self.lent { "lent" } else { "for use" };
        let Returned { sent, status, .. } = self;
        write!(f, "return of a right {right}, {sent}: status {status}")
    }
}
