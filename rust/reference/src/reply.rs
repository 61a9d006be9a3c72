//! Replies and their reader.

use crate::bytes::{array_at, u16_at};
use crate::content::{payload_length_is_right, Content};
use crate::frame::{self, Frame};
use crate::number::NO_REPLY;
use crate::{Count, Key, Kind, Status, HANDLE_BYTES, KEY_BYTES, MAX_SLOTS};

/// The bit of the second byte that says that a count is kept, in successful
/// replies to kinds 3 and 9; in all others it is 0 (PROFILE 3.2).
const KEPT: u8 = 0b1000_0000;

/// The seven bits of the second byte that are the status.
const STATUS_BITS: u8 = 0b0111_1111;

/// The bit of kind 8's first body byte that says that a handle was left off.
const MORE: u8 = 0b1000_0000;

/// The seven zero bits beside it.
const ZERO_BITS: u8 = 0b0111_1111;

/// In the body of kind 9, the count number comes before the payload.
const COUNT_BYTES: usize = 2;

/// The fields of a reply. A field that the reply lacks is zero or empty.
///
/// | kind, at success | fields |
/// |---|---|
/// | 3 | key, count, hashes, payload |
/// | 4 | key |
/// | 8 | more, handles |
/// | 9 | count, payload |
#[derive(Clone, Copy, Debug, Default, PartialEq, Eq)]
pub struct ReplyFields<'a> {
    /// The key (REK) of the right.
    pub key: Key,
    /// The count of the right; none is kept where the reply has no count.
    pub count: Count,
    /// The asset hashes of the right, one after another.
    pub hashes: &'a [u8],
    /// The payload of the right.
    pub payload: &'a [u8],
    /// Whether a handle was left off the list.
    pub more: bool,
    /// The listed handles, one after another.
    pub handles: &'a [u8],
}

/// A reply that the reader accepts.
#[derive(Clone, Copy, Debug, PartialEq, Eq)]
pub struct Reply<'a> {
    /// The kind bits of the request: 0 to 31, and 1 to 9 where the status is 0.
    pub kind: u8,
    /// The status.
    pub status: Status,
    /// The fields that the reply has; the others are zero or empty.
    pub fields: ReplyFields<'a>,
}

/// Reads a reply frame (PROFILE 6.3). It is refused with 203 unless its length
/// and version are right, the status is 0 to 7 or 9, the body is of its kind's
/// shape at status 0 and empty at any other, and the bit of the count is set only
/// where the reply has a count, and always where this is not 0.
pub fn read_reply(bytes: &[u8]) -> Result<Reply<'_>, u16> {
    read(bytes).ok_or(NO_REPLY)
}

fn read(bytes: &[u8]) -> Option<Reply<'_>> {
    let frame = Frame::split(bytes).filter(Frame::version_is_right)?;
    let kept = frame.second & KEPT != 0;
    let status = Status::from_number(frame.second & STATUS_BITS)?;
    let fields = match status {
        Status::Success => read_success(frame.kind_bits(), kept, frame.body)?,
        _ => read_empty(frame.body)?,
    };
    (fields.count.is_kept() == kept).then_some(Reply {
        kind: frame.kind_bits(),
        status,
        fields,
    })
}

/// Reads the body of a reply with status 0. A kind outside 1 to 9 has no
/// success.
fn read_success(kind_bits: u8, kept: bool, body: &[u8]) -> Option<ReplyFields<'_>> {
    match Kind::from_number(kind_bits)? {
        Kind::InstallationSetup
        | Kind::RightsInstallation
        | Kind::RightsEnablement
        | Kind::RightsRemoval
        | Kind::HandleRemoval => read_empty(body),
        Kind::RightsRetrieval => read_content(kept, body),
        Kind::RekQuery => read_key(body),
        Kind::HandleListQuery => read_handles(body),
        Kind::RightsInformationQuery => read_information(kept, body),
    }
}

/// No body: that of every status but 0, and of some successes.
fn read_empty(body: &[u8]) -> Option<ReplyFields<'_>> {
    body.is_empty().then(ReplyFields::default)
}

/// Kind 3: a content with its zero bits 0, 0 to 8 hashes, a payload of 1 to
/// 4,096 bytes, and no count without its bit. It is one that a table may hold, so
/// it may be without a hash (PROFILE 6.3).
fn read_content(kept: bool, body: &[u8]) -> Option<ReplyFields<'_>> {
    let content = Content::read(body, kept)?;
    Some(ReplyFields {
        key: content.key,
        count: content.count,
        hashes: content.hashes,
        payload: content.payload,
        ..ReplyFields::default()
    })
}

/// Kind 4: the key and nothing else.
fn read_key(body: &[u8]) -> Option<ReplyFields<'_>> {
    (body.len() == KEY_BYTES).then(|| ReplyFields {
        key: array_at(body, 0),
        ..ReplyFields::default()
    })
}

/// Kind 8: a byte whose seven zero bits are 0, then 0 to 15 whole handles.
fn read_handles(body: &[u8]) -> Option<ReplyFields<'_>> {
    let (&first, handles) = body.split_first()?;
    (first & ZERO_BITS == 0 && handles_are_whole(handles)).then_some(ReplyFields {
        more: first & MORE != 0,
        handles,
        ..ReplyFields::default()
    })
}

fn handles_are_whole(handles: &[u8]) -> bool {
    handles.len().is_multiple_of(HANDLE_BYTES) && handles.len() <= HANDLE_BYTES * MAX_SLOTS
}

/// Kind 9: the count, not without its bit, then a payload of 1 to 4,096 bytes.
fn read_information(kept: bool, body: &[u8]) -> Option<ReplyFields<'_>> {
    let (number, payload) = body.split_at_checked(COUNT_BYTES)?;
    let count = Count::said(kept, u16_at(number, 0))?;
    payload_length_is_right(payload.len()).then_some(ReplyFields {
        count,
        payload,
        ..ReplyFields::default()
    })
}

/// What a request that was carried out gives.
#[derive(Debug, Default)]
pub(crate) struct Success {
    /// Whether the reply says that a count is kept; only that of kind 3 or 9 may.
    pub kept: bool,
    pub body: Vec<u8>,
}

impl Success {
    /// A success that has no count to tell.
    pub fn with_body(body: Vec<u8>) -> Self {
        Success { kept: false, body }
    }
}

/// The frame of the reply to a request, carried out or refused: the kind bits
/// are those of the request, and a refusal has an empty body (PROFILE 3.2).
pub(crate) fn reply_frame(kind_bits: u8, outcome: &Result<Success, Status>) -> Vec<u8> {
    match outcome {
        Ok(success) => {
            let kept = if success.kept { KEPT } else { 0 };
            frame::join(kind_bits, kept | Status::Success.number(), &success.body)
        }
        Err(status) => frame::join(kind_bits, status.number(), &[]),
    }
}

/// The body of kind 8: a byte with the bit "more", then the handles.
pub(crate) fn handles_body(more: bool, handles: &[crate::Handle]) -> Vec<u8> {
    let mut body = vec![if more { MORE } else { 0 }];
    body.extend(handles.as_flattened());
    body
}

/// The body of kind 9: the count number, then the payload.
pub(crate) fn information_body(count: Count, payload: &[u8]) -> Vec<u8> {
    let mut body = count.number().to_be_bytes().to_vec();
    body.extend(payload);
    body
}
