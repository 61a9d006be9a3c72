//! Calls that gave a number: what else was wrong with them, and what was asked
//! where start or tally were wrong.

use crate::card::Handed;
use crate::tallies::counted;
use driver::Call;
use reference::number::{DONE, NO_FRAME, REPLY_BUFFER_SHORT, START_OUTSIDE};
use reference::number::{TABLE_LENGTH, TABLE_NOT_WELL_FORMED, TALLY_DIFFERS};
use reference::{read_request, table, Kind, ReadRequest, Status, REPLY_ROOM, SLOT_BYTES};
use std::fmt;

/// The number that a call gave, and one that it had a reason for too.
#[derive(Clone, Copy, Debug, PartialEq, Eq, PartialOrd, Ord)]
pub struct Precedence {
    /// The number given.
    pub given: u16,
    /// The other, whose test comes later.
    pub passed_over: u16,
}

impl Precedence {
    /// Every number that a call passed over; none where it was answered.
    ///
    /// # Errors
    ///
    /// A sentence, where the call did not give the first number that it had a
    /// reason for.
    pub fn all_of(handed: &Handed, call: &Call) -> Result<Vec<Precedence>, String> {
        let given = call.number;
        if given == DONE {
            return Ok(Vec::new());
        }
        let mut reasons = reasons(handed, call).into_iter();
        let first = reasons.next().unwrap_or(DONE);
        if given != first {
            return Err(format!("it gave {given} where {first} comes first"));
        }
        let rest = reasons.map(|passed_over| Precedence { given, passed_over });
        Ok(rest.collect())
    }

    /// All that can occur. A table has a length that is wrong or slots that are
    /// looked at and counted, so 102 meets neither 103 nor 106: what is not a
    /// table has no tally from which another could differ.
    pub fn that_can_occur() -> Vec<Precedence> {
        let pairs = [
            (REPLY_BUFFER_SHORT, TABLE_LENGTH),
            (REPLY_BUFFER_SHORT, START_OUTSIDE),
            (REPLY_BUFFER_SHORT, TABLE_NOT_WELL_FORMED),
            (REPLY_BUFFER_SHORT, TALLY_DIFFERS),
            (REPLY_BUFFER_SHORT, NO_FRAME),
            (TABLE_LENGTH, START_OUTSIDE),
            (TABLE_LENGTH, NO_FRAME),
            (START_OUTSIDE, TABLE_NOT_WELL_FORMED),
            (START_OUTSIDE, TALLY_DIFFERS),
            (START_OUTSIDE, NO_FRAME),
            (TABLE_NOT_WELL_FORMED, TALLY_DIFFERS),
            (TABLE_NOT_WELL_FORMED, NO_FRAME),
            (TALLY_DIFFERS, NO_FRAME),
        ];
        pairs
            .map(|(given, passed_over)| Precedence { given, passed_over })
            .into()
    }
}

impl fmt::Display for Precedence {
    fn fmt(&self, f: &mut fmt::Formatter<'_>) -> fmt::Result {
        write!(f, "{} and not {}", self.given, self.passed_over)
    }
}

/// The numbers that a refused call has a reason for, in the order of their tests
/// (PROFILE 4.1). The call has left its table as it was. The tally of whole slots
/// that are not well formed is taken to be that of their places and lengths.
pub fn reasons(handed: &Handed, call: &Call) -> Vec<u16> {
    let checked = table::check(&call.table);
    let whole = checked != Err(TABLE_LENGTH);
    let slots = call.table.len() / SLOT_BYTES;
    let differs = handed.tally.map(u32::from) != counted(&call.table);
    let no_frame = read_request(&handed.frame) == ReadRequest::NoFrame;
    let reasons = [
        (REPLY_BUFFER_SHORT, call.reply.len() < REPLY_ROOM),
        (TABLE_LENGTH, !whole),
        (START_OUTSIDE, handed.start >= slots as u64),
        (TABLE_NOT_WELL_FORMED, checked == Err(TABLE_NOT_WELL_FORMED)),
        (TALLY_DIFFERS, whole && differs),
        (NO_FRAME, no_frame),
    ];
    let reasons = reasons.iter().filter(|(_, given)| *given);
    reasons.map(|(number, _)| *number).collect()
}

/// What a frame asks, in short.
#[derive(Clone, Copy, Debug, PartialEq, Eq, PartialOrd, Ord)]
pub enum Asked {
    /// The frame is none.
    NoFrame,
    /// The frame is refused with this status, whatever the table.
    Refused(Status),
    /// The frame is a request of this kind.
    Request(Kind),
}

impl Asked {
    /// What this frame asks.
    pub fn of(frame: &[u8]) -> Asked {
        match read_request(frame) {
            ReadRequest::NoFrame => Asked::NoFrame,
            ReadRequest::Refused(status) => Asked::Refused(status),
            ReadRequest::Request(request) => Asked::Request(request.kind),
        }
    }

    /// All that can be asked.
    pub fn that_can_occur() -> Vec<Asked> {
        let refused = [
            Status::FieldIntegrityVerificationFailed,
            Status::ParameterFailed,
            Status::RequestNotSupported,
        ];
        let mut asked = vec![Asked::NoFrame];
        asked.extend(refused.map(Asked::Refused));
        asked.extend(Kind::ALL.map(Asked::Request));
        asked
    }
}

impl fmt::Display for Asked {
    fn fmt(&self, f: &mut fmt::Formatter<'_>) -> fmt::Result {
        match self {
            Asked::NoFrame => write!(f, "no frame"),
            Asked::Refused(status) => write!(f, "what is status {}", status.number()),
            Asked::Request(kind) => write!(f, "kind {}", kind.number()),
        }
    }
}

/// A number that is given whatever the frame, and what was asked.
#[derive(Clone, Copy, Debug, PartialEq, Eq, PartialOrd, Ord)]
pub struct Regardless {
    /// The number, 105 or 106.
    pub number: u16,
    /// What was asked.
    pub asked: Asked,
}

impl Regardless {
    /// What a call with this frame gave; `None` where it gave another number.
    pub fn of(frame: &[u8], number: u16) -> Option<Regardless> {
        matches!(number, START_OUTSIDE | TALLY_DIFFERS).then(|| Regardless {
            number,
            asked: Asked::of(frame),
        })
    }

    /// All that can occur: both numbers, for all that can be asked.
    pub fn that_can_occur() -> Vec<Regardless> {
        let numbers = [START_OUTSIDE, TALLY_DIFFERS];
        let given_for = |asked| numbers.map(|number| Regardless { number, asked });
        let asked = Asked::that_can_occur().into_iter();
        asked.flat_map(given_for).collect()
    }
}

impl fmt::Display for Regardless {
    fn fmt(&self, f: &mut fmt::Formatter<'_>) -> fmt::Result {
        write!(f, "{} for {}", self.number, self.asked)
    }
}
