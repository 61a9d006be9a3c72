//! What the agent, the request writer, the reply reader, the turning, the
//! working out of a tally, the salvage and the totalling call refuse.
//!
//! A refusal leaves all lent memory as it was.

use crate::{Kind, Request, MOST_HASHES};
use std::error;
use std::fmt;

/// The agent did not answer: there is no reply, and table and tally are as they
/// were.
///
/// A request that the card will not carry out is not such an error: it has a
/// reply, with a [status](crate::Status) other than
/// [`Success`](crate::Status::Success).
#[derive(Clone, Copy, Debug, PartialEq, Eq, Hash)]
pub enum CallError {
    /// 101: the reply buffer has fewer than 4,279 bytes.
    ReplyBufferShort,
    /// 102: the table is not 1 to 15 slots of 4,288 bytes.
    TableLength,
    /// 103: a slot is not well formed, or two records have the same handle. An
    /// old table is not well formed where it has counts, until it is
    /// [turned](crate::Card::turn). What is in order on a damaged card is kept by
    /// a [salvage](crate::Card::salvage).
    TableNotWellFormed,
    /// 104: the frame has fewer than 4 bytes, or is not 4 bytes and its body
    /// length long.
    NoFrame,
    /// 105: the start is not below the number of slots. It is looked at after
    /// the table's length and before what is in the table, whatever the frame.
    StartOutside,
    /// 106: the tally is not that of the table. It is looked at after what is
    /// in the table and before the frame, whatever the frame.
    ///
    /// A card that works its tally out itself is never refused so, only one
    /// that was [handed another](crate::Card::with_tally).
    TallyDiffers,
}

/// The request writer did not write: the buffer is as it was.
///
/// Where a request has several of the faults that give 202, the error is the
/// first of them in the order below. 201 is for a request without them.
///
/// ```
/// use cavernlull::{AssetHash, Handle, Request, Right, WriteError};
///
/// let install = |hashes, payload| {
///     let right = Right { hashes, payload, ..Right::default() };
///     Request::RightsInstallation { handle: Handle([1; 10]), right }.to_frame()
/// };
/// let hash = AssetHash([7; 20]);
/// assert_eq!(install(vec![], vec![]), Err(WriteError::NoHash));
/// assert_eq!(install(vec![hash; 9], vec![]), Err(WriteError::TooManyHashes));
/// assert_eq!(install(vec![hash], vec![]), Err(WriteError::PayloadLength));
/// assert!(install(vec![hash], b"course".to_vec()).is_ok());
/// ```
#[derive(Clone, Copy, Debug, PartialEq, Eq, Hash)]
pub enum WriteError {
    /// 201: the frame does not fit into the buffer.
    BufferShort,
    /// 202: the installation has no asset hash. A course is found by its
    /// hashes, so each is installed with one at least (PROFILE 5.2).
    NoHash,
    /// 202: the installation or the list query has more than 8 hashes.
    TooManyHashes,
    /// 202: the payload of the installation is not 1 to 4,096 bytes.
    PayloadLength,
}

/// 203: the bytes are not the frame of a reply.
///
/// The frame is not 4 bytes and its body length long, its version is not 1, its
/// status is not 0 to 7 or 9, it has a body though its status is not 0, its
/// status is 0 and its body is not of its kind's shape, the count's bit is set
/// though it is no success of kind 3 or 9, or it has a count that is not 0 without
/// that bit.
#[derive(Clone, Copy, Debug, PartialEq, Eq, Hash)]
pub struct ReadError;

/// An old table was not turned: it is as it was.
#[derive(Clone, Copy, Debug, PartialEq, Eq, Hash)]
pub enum TurnError {
    /// 102: the table is not 1 to 15 slots of 4,288 bytes.
    TableLength,
    /// 103: a slot is not well formed by the rules of old tables, or two
    /// records have the same handle. By these rules no count has a bit, so a
    /// table that was turned is refused where a count is kept.
    TableNotWellFormed,
}

/// There is no tally of these bytes: they are no table that the agent takes.
#[derive(Clone, Copy, Debug, PartialEq, Eq, Hash)]
pub enum TallyError {
    /// 102: the table is not 1 to 15 slots of 4,288 bytes.
    TableLength,
    /// 103: a slot is not well formed, or two records have the same handle. The
    /// agent refuses the same tables with
    /// [the same number](CallError::TableNotWellFormed).
    TableNotWellFormed,
}

/// A table was not salvaged: it is as it was, and so is the report buffer.
#[derive(Clone, Copy, Debug, PartialEq, Eq, Hash)]
pub enum SalvageError {
    /// 102: the table is not 1 to 15 slots of 4,288 bytes.
    TableLength,
    /// 107: the report buffer has fewer bytes than the table has slots. It is
    /// looked at after the table's length.
    ///
    /// Only [`salvage_into`](crate::Card::salvage_into), which is lent a buffer,
    /// is refused so.
    ReportBufferShort,
}

/// A totalling call was not answered: there is no reply, and table, tally and
/// totals are as they were.
///
/// ```
/// use cavernlull::{CallError, Card, TotallingError, Totals, REPLY_ROOM};
///
/// let (mut card, mut buffer) = (Card::blank(1), [0; REPLY_ROOM]);
/// let no_frame = Totals::new().call_frame(&mut card, &[], &mut buffer);
/// assert_eq!(no_frame, Err(TotallingError::Call(CallError::NoFrame)));
/// let mixed_up = Totals::from_parts(3, 0).call_frame(&mut card, &[], &mut buffer);
/// assert_eq!(mixed_up, Err(TotallingError::TotalOutside));
/// ```
#[derive(Clone, Copy, Debug, PartialEq, Eq, Hash)]
pub enum TotallingError {
    /// 108: 30,000 returns are counted, or the total is more than 65,535 for
    /// each of its returns, above or below 0. It is looked at before everything
    /// that a call looks at, whatever the card and the frame.
    ///
    /// Totals that began with 0 and 0 are refused so when they are
    /// [full](crate::Totals::is_full), and never before.
    TotalOutside,
    /// The request cannot be written. A call with a frame is never refused so.
    Write(WriteError),
    /// The agent did not answer.
    Call(CallError),
    /// The reply cannot be read. A call with a frame is never refused so.
    Read(ReadError),
}

/// Any of these errors but [`SalvageError`] and [`TotallingError`], for functions
/// that can meet several. Those came in minor versions, and a `match` on this
/// type stays complete.
#[derive(Clone, Copy, Debug, PartialEq, Eq, Hash)]
pub enum Error {
    /// The request cannot be written.
    Write(WriteError),
    /// The agent did not answer.
    Call(CallError),
    /// The reply cannot be read.
    Read(ReadError),
    /// The old table cannot be turned.
    Turn(TurnError),
    /// The table has no tally.
    Tally(TallyError),
}

impl CallError {
    /// The number that the archive gives for this error, 101 to 106.
    pub const fn number(self) -> u16 {
        match self {
            CallError::ReplyBufferShort => 101,
            CallError::TableLength => 102,
            CallError::TableNotWellFormed => 103,
            CallError::NoFrame => 104,
            CallError::StartOutside => 105,
            CallError::TallyDiffers => 106,
        }
    }

    /// What a number from the archive means.
    pub(crate) fn of(number: u16) -> Result<(), CallError> {
        Err(match number {
            0 => return Ok(()),
            101 => CallError::ReplyBufferShort,
            102 => CallError::TableLength,
            103 => CallError::TableNotWellFormed,
            104 => CallError::NoFrame,
            105 => CallError::StartOutside,
            106 => CallError::TallyDiffers,
            _ => unknown(number),
        })
    }
}

impl WriteError {
    /// The number that the archive gives for this error, 201 or 202.
    pub const fn number(self) -> u16 {
        match self {
            WriteError::BufferShort => 201,
            WriteError::NoHash | WriteError::TooManyHashes | WriteError::PayloadLength => 202,
        }
    }

    /// What a number from the archive means, where it was asked to write this
    /// request.
    pub(crate) fn of(number: u16, request: &Request) -> Result<(), WriteError> {
        Err(match number {
            0 => return Ok(()),
            201 => WriteError::BufferShort,
            202 => WriteError::of_fields(request),
            _ => unknown(number),
        })
    }

    /// Why the archive does not take the fields of this request. That it does
    /// not is the archive's word; with the types of this crate there are only
    /// these three reasons.
    fn of_fields(request: &Request) -> WriteError {
        match (request.kind(), request.hashes().len()) {
            (Kind::RightsInstallation, 0) => WriteError::NoHash,
            (_, hashes) if hashes > MOST_HASHES => WriteError::TooManyHashes,
            _ => WriteError::PayloadLength,
        }
    }
}

impl ReadError {
    /// The number that the archive gives for this error, 203.
    pub const fn number(self) -> u16 {
        203
    }

    /// What a number from the archive means.
    pub(crate) fn of(number: u16) -> Result<(), ReadError> {
        match number {
            0 => Ok(()),
            203 => Err(ReadError),
            _ => unknown(number),
        }
    }
}

impl TurnError {
    /// The number that the archive gives for this error, 102 or 103.
    pub const fn number(self) -> u16 {
        match self {
            TurnError::TableLength => 102,
            TurnError::TableNotWellFormed => 103,
        }
    }

    /// What a number from the archive means.
    pub(crate) fn of(number: u16) -> Result<(), TurnError> {
        Err(match number {
            0 => return Ok(()),
            102 => TurnError::TableLength,
            103 => TurnError::TableNotWellFormed,
            _ => unknown(number),
        })
    }
}

impl TallyError {
    /// The number that the archive gives for this error, 102 or 103.
    pub const fn number(self) -> u16 {
        match self {
            TallyError::TableLength => 102,
            TallyError::TableNotWellFormed => 103,
        }
    }

    /// What a number from the archive means.
    pub(crate) fn of(number: u16) -> Result<(), TallyError> {
        Err(match number {
            0 => return Ok(()),
            102 => TallyError::TableLength,
            103 => TallyError::TableNotWellFormed,
            _ => unknown(number),
        })
    }
}

impl SalvageError {
    /// The number that the archive gives for this error, 102 or 107.
    pub const fn number(self) -> u16 {
        match self {
            SalvageError::TableLength => 102,
            SalvageError::ReportBufferShort => 107,
        }
    }

    /// What a number from the archive means: 0 to 15 is how many slots were
    /// cleared.
    pub(crate) fn of(number: u16) -> Result<usize, SalvageError> {
        Err(match number {
            0..=15 => return Ok(number.into()),
            102 => SalvageError::TableLength,
            107 => SalvageError::ReportBufferShort,
            _ => unknown(number),
        })
    }
}

impl TotallingError {
    /// The number that the archive gives for this error: 108, or the number of
    /// the error within.
    pub const fn number(self) -> u16 {
        match self {
            TotallingError::TotalOutside => 108,
            TotallingError::Write(error) => error.number(),
            TotallingError::Call(error) => error.number(),
            TotallingError::Read(error) => error.number(),
        }
    }

    /// What a number from the archive means.
    pub(crate) fn of(number: u16) -> Result<(), TotallingError> {
        match number {
            108 => Err(TotallingError::TotalOutside),
            _ => Ok(CallError::of(number)?),
        }
    }
}

/// The archive is proved to give no number but those above.
fn unknown(number: u16) -> ! {
    panic!("the archive gave {number}, which it never does: is it another version's?")
}

impl Error {
    /// The number that the archive gives for this error.
    pub const fn number(self) -> u16 {
        match self {
            Error::Write(error) => error.number(),
            Error::Call(error) => error.number(),
            Error::Read(error) => error.number(),
            Error::Turn(error) => error.number(),
            Error::Tally(error) => error.number(),
        }
    }
}

impl fmt::Display for CallError {
    fn fmt(&self, f: &mut fmt::Formatter<'_>) -> fmt::Result {
        f.write_str(match self {
            CallError::ReplyBufferShort => "the reply buffer has fewer than 4,279 bytes",
            CallError::TableLength => "the table is not 1 to 15 slots of 4,288 bytes",
            CallError::TableNotWellFormed => "the table is not well formed",
            CallError::NoFrame => "the bytes are no frame: their length is not what they say",
            CallError::StartOutside => "the start is not below the number of slots",
            CallError::TallyDiffers => "the tally is not that of the table",
        })
    }
}

impl fmt::Display for WriteError {
    fn fmt(&self, f: &mut fmt::Formatter<'_>) -> fmt::Result {
        f.write_str(match self {
            WriteError::BufferShort => "the request does not fit into the buffer",
            WriteError::NoHash => {
                "the installation has no asset hash, by which its course would be found"
            }
            WriteError::TooManyHashes => "the request has more than 8 asset hashes",
            WriteError::PayloadLength => "the payload of the installation is not 1 to 4,096 bytes",
        })
    }
}

impl fmt::Display for ReadError {
    fn fmt(&self, f: &mut fmt::Formatter<'_>) -> fmt::Result {
        f.write_str("the bytes are not the frame of a reply")
    }
}

impl fmt::Display for TurnError {
    fn fmt(&self, f: &mut fmt::Formatter<'_>) -> fmt::Result {
        f.write_str(match self {
            TurnError::TableLength => "the old table is not 1 to 15 slots of 4,288 bytes",
            TurnError::TableNotWellFormed => "the table is not a well-formed old table",
        })
    }
}

impl fmt::Display for TallyError {
    fn fmt(&self, f: &mut fmt::Formatter<'_>) -> fmt::Result {
        match self {
            TallyError::TableLength => CallError::TableLength.fmt(f),
            TallyError::TableNotWellFormed => CallError::TableNotWellFormed.fmt(f),
        }
    }
}

impl fmt::Display for SalvageError {
    fn fmt(&self, f: &mut fmt::Formatter<'_>) -> fmt::Result {
        match self {
            SalvageError::TableLength => CallError::TableLength.fmt(f),
            SalvageError::ReportBufferShort => {
                f.write_str("the report buffer has fewer bytes than the table has slots")
            }
        }
    }
}

impl fmt::Display for TotallingError {
    fn fmt(&self, f: &mut fmt::Formatter<'_>) -> fmt::Result {
        match self {
            TotallingError::TotalOutside => {
                f.write_str("the total is full, or cannot be the sum of so many returns")
            }
            TotallingError::Write(error) => error.fmt(f),
            TotallingError::Call(error) => error.fmt(f),
            TotallingError::Read(error) => error.fmt(f),
        }
    }
}

impl fmt::Display for Error {
    fn fmt(&self, f: &mut fmt::Formatter<'_>) -> fmt::Result {
        match self {
            Error::Write(error) => error.fmt(f),
            Error::Call(error) => error.fmt(f),
            Error::Read(error) => error.fmt(f),
            Error::Turn(error) => error.fmt(f),
            Error::Tally(error) => error.fmt(f),
        }
    }
}

impl error::Error for CallError {}

impl error::Error for WriteError {}

impl error::Error for ReadError {}

impl error::Error for TurnError {}

impl error::Error for TallyError {}

impl error::Error for SalvageError {}

impl error::Error for TotallingError {}

impl error::Error for Error {}

impl From<CallError> for Error {
    fn from(error: CallError) -> Error {
        Error::Call(error)
    }
}

impl From<WriteError> for Error {
    fn from(error: WriteError) -> Error {
        Error::Write(error)
    }
}

impl From<ReadError> for Error {
    fn from(error: ReadError) -> Error {
        Error::Read(error)
    }
}

impl From<TurnError> for Error {
    fn from(error: TurnError) -> Error {
        Error::Turn(error)
    }
}

impl From<TallyError> for Error {
    fn from(error: TallyError) -> Error {
        Error::Tally(error)
    }
}

impl From<CallError> for TotallingError {
    fn from(error: CallError) -> TotallingError {
        TotallingError::Call(error)
    }
}

impl From<WriteError> for TotallingError {
    fn from(error: WriteError) -> TotallingError {
        TotallingError::Write(error)
    }
}

impl From<ReadError> for TotallingError {
    fn from(error: ReadError) -> TotallingError {
        TotallingError::Read(error)
    }
}
