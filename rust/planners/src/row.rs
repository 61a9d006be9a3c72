//! What a report says of one call.

use crate::summary::Summary;
use cavernlull::{CallError, Handle, Kind, Status, Totals, HANDLE_BYTES};
use std::fmt;

/// A row of a report.
#[derive(Clone, Debug, PartialEq, Eq)]
pub enum Row {
    /// One call.
    Call(Entry),
    /// The end of a period.
    Summary(Summary),
}

/// What is said of one call.
#[derive(Clone, Debug, PartialEq, Eq)]
pub struct Entry {
    /// The period, counted from 1.
    pub period: usize,
    /// The call, counted from 1 over all periods.
    pub call: usize,
    /// Its line in the recording, counted from 1.
    pub line: usize,
    /// The five kind bits of the frame, 0 to 31.
    pub kind: u8,
    /// The handle that the request names, if its kind has one and it is as long
    /// as its kind is; nothing where there is no reply.
    pub handle: Option<Handle>,
    /// The new handle, in the same way: that under which a course is lent.
    pub new_handle: Option<Handle>,
    /// What the card answered.
    pub outcome: Outcome,
    /// What became of a return; nothing where the request is of another kind or
    /// there is no reply.
    pub returned: Option<Returned>,
    /// What the call did to the count.
    pub change: i32,
    /// The totals after the call.
    pub totals: Totals,
}

/// What the card answered.
#[derive(Clone, Copy, Debug, PartialEq, Eq)]
pub enum Outcome {
    /// A reply, with this status.
    Reply(Status),
    /// No reply, for this reason.
    NoReply(CallError),
}

impl Outcome {
    /// The number that the archive gave: 0 with a reply.
    pub fn number(self) -> u16 {
        match self {
            Outcome::Reply(_) => 0,
            Outcome::NoReply(error) => error.number(),
        }
    }

    /// The status of the reply, if there is one.
    pub fn status(self) -> Option<Status> {
        match self {
            Outcome::Reply(status) => Some(status),
            Outcome::NoReply(_) => None,
        }
    }
}

/// The status, or why there is no reply.
impl fmt::Display for Outcome {
    fn fmt(&self, f: &mut fmt::Formatter<'_>) -> fmt::Result {
        match self {
            Outcome::Reply(status) => status.fmt(f),
            Outcome::NoReply(error) => error.fmt(f),
        }
    }
}

/// What became of a Rights Enablement (PROFILE 4.4).
#[derive(Clone, Copy, Debug, PartialEq, Eq)]
pub enum Returned {
    /// The course was lent and is back; record and request keep a count.
    Counted,
    /// The course was for use already: nothing changed.
    Again,
    /// The course is back; neither record nor request keeps a count.
    NoCount,
    /// The course is not back: the count sent would raise the one that was lent,
    /// and the card refused it with status 9 (PROFILE 5.5).
    Raised,
    /// The course is not back: the card refused the request with another status.
    Refused,
}

/// In a few words, as JSON has it.
impl fmt::Display for Returned {
    fn fmt(&self, f: &mut fmt::Formatter<'_>) -> fmt::Result {
        f.write_str(match self {
            Returned::Counted => "counted",
            Returned::Again => "sent again",
            Returned::NoCount => "no count",
            Returned::Raised => "count raised",
            Returned::Refused => "refused",
        })
    }
}

/// The five kind bits of a frame, in its first byte (PROFILE 3).
pub(crate) fn kind_bits(frame: &[u8]) -> u8 {
    frame.first().map_or(0, |byte| byte & 0x1F)
}

/// The handle and the new handle that a frame names, if its kind has them and it
/// is as long as its kind is (PROFILE 3.3). In other bytes a key could stand where
/// a handle does.
pub(crate) fn handles_in(frame: &[u8]) -> [Option<Handle>; 2] {
    let Some(kind) = Kind::from_number(kind_bits(frame)) else {
        return [None, None];
    };
    let (fits, both) = match kind {
        Kind::InstallationSetup | Kind::RightsEnablement => (frame.len() == 16, false),
        Kind::RightsInstallation => (frame.len() >= 34, false),
        Kind::RightsRetrieval | Kind::RekQuery => (frame.len() == 24, true),
        Kind::RightsRemoval | Kind::HandleRemoval => (frame.len() == 14, false),
        Kind::RightsInformationQuery => (frame.len() == 14, false),
        Kind::HandleListQuery => (false, false),
    };
    let at = |offset| {
        let bytes = frame.get(offset..)?.get(..HANDLE_BYTES)?;
        Some(Handle(bytes.try_into().expect("ten bytes")))
    };
    [(fits, 4), (fits && both, 14)].map(|(has, offset)| at(offset).filter(|_| has))
}

/// A handle as letters, where all ten bytes are printable and none is a space.
///
/// ```
/// use cavernlull::Handle;
/// use planners::row::name;
///
/// assert_eq!(name(&Handle(*b"LENT-TO-42")), Some("LENT-TO-42".to_owned()));
/// assert_eq!(name(&Handle([7; 10])), None);
/// ```
pub fn name(handle: &Handle) -> Option<String> {
    let printable = handle.0.iter().all(u8::is_ascii_graphic);
    printable.then(|| handle.0.iter().map(|byte| char::from(*byte)).collect())
}
