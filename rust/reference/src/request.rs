//! Requests: their fields, their reader and their writer.

use crate::bytes::{array_at, u16_at};
use crate::content::{hash_count, Content};
use crate::frame::{self, Frame};
use crate::number::{DONE, WRITER_BUFFER_SHORT, WRITER_FIELDS};
use crate::{Count, Handle, Key, Kind, Status, HANDLE_BYTES, HASH_BYTES, MAX_HASHES};

/// The verdict bit in the second byte of a request, set where the MAC held
/// (PROFILE 3.1).
const VERDICT: u8 = 0b1000_0000;

/// The bit of the second byte that says that a count is kept, in kinds 2 and 5.
/// For every other kind it is one of the zero bits.
const KEPT: u8 = 0b0100_0000;

/// The six bits of the second byte that are zero bits for every kind.
const ZERO_BITS: u8 = 0b0011_1111;

/// The bytes before the hashes in the body of kind 8: a limit of 16 bits and a
/// hash count of 8 bits.
const LIST_HEAD_BYTES: usize = 3;

/// The fields of a request of any kind. A field that the kind lacks is zero
/// or empty.
///
/// | kinds | fields |
/// |---|---|
/// | 1 | handle, length |
/// | 2 | handle, key, count, hashes, payload |
/// | 3, 4 | handle, new handle |
/// | 5 | handle, count |
/// | 6, 7, 9 | handle |
/// | 8 | limit, hashes |
#[derive(Clone, Copy, Debug, Default, PartialEq, Eq)]
pub struct Fields<'a> {
    /// The handle that the request is about.
    pub handle: Handle,
    /// The handle that a lent right is to have.
    pub new_handle: Handle,
    /// The key (REK) of a right to be installed.
    pub key: Key,
    /// The room asked for by a setup.
    pub length: u16,
    /// The count of a right.
    pub count: Count,
    /// The bytes of handles that a list may have; 0 for no limit.
    pub limit: u16,
    /// Asset hashes, one after another.
    pub hashes: &'a [u8],
    /// The payload of a right to be installed.
    pub payload: &'a [u8],
}

/// The fields that the writer is handed (PROFILE 6.2): those of [`Fields`], with
/// the count as two numbers, not all of which say a count.
#[derive(Clone, Copy, Debug, Default, PartialEq, Eq)]
pub struct WriterFields<'a> {
    /// The handle that the request is about.
    pub handle: Handle,
    /// The handle that a lent right is to have.
    pub new_handle: Handle,
    /// The key (REK) of a right to be installed.
    pub key: Key,
    /// The room asked for by a setup.
    pub length: u16,
    /// The count number.
    pub count: u16,
    /// 1 where a count is kept, and 0 where none is.
    pub kept: u8,
    /// The bytes of handles that a list may have; 0 for no limit.
    pub limit: u16,
    /// Asset hashes, one after another.
    pub hashes: &'a [u8],
    /// The payload of a right to be installed.
    pub payload: &'a [u8],
}

impl<'a> WriterFields<'a> {
    /// The fields, where count and `kept` say a count; `None` for a `kept` other
    /// than 0 and 1, and for a count other than 0 with a `kept` of 0.
    fn said(&self) -> Option<Fields<'a>> {
        let kept = match self.kept {
            0 => false,
            1 => true,
            _ => return None,
        };
        Some(Fields {
            handle: self.handle,
            new_handle: self.new_handle,
            key: self.key,
            length: self.length,
            count: Count::said(kept, self.count)?,
            limit: self.limit,
            hashes: self.hashes,
            payload: self.payload,
        })
    }
}

impl<'a> From<Fields<'a>> for WriterFields<'a> {
    fn from(fields: Fields<'a>) -> Self {
        WriterFields {
            handle: fields.handle,
            new_handle: fields.new_handle,
            key: fields.key,
            length: fields.length,
            count: fields.count.number(),
            kept: fields.count.is_kept().into(),
            limit: fields.limit,
            hashes: fields.hashes,
            payload: fields.payload,
        }
    }
}

/// A request that passed every test that needs no table.
///
/// The verdict is not kept: in kinds 1 to 7 it is 1, and 8 and 9 ignore it.
#[derive(Clone, Copy, Debug, PartialEq, Eq)]
pub struct Request<'a> {
    /// The kind.
    pub kind: Kind,
    /// The fields that the kind has; the others are zero or empty.
    pub fields: Fields<'a>,
}

/// What a frame reads as: a request with its fields, or exactly one refusal
/// (PROFILE 6.1).
#[derive(Clone, Copy, Debug, PartialEq, Eq)]
pub enum ReadRequest<'a> {
    /// 104: the bytes are not a frame.
    NoFrame,
    /// A frame that the agent answers with this status, whatever the table.
    Refused(Status),
    /// A request with its fields.
    Request(Request<'a>),
}

/// Reads a request frame (PROFILE 6.1): tests first for 104, then what is tested
/// for all kinds, then the fields of kinds 2, 5 and 8. The agent, not the reader,
/// refuses length 0 in kind 1.
pub fn read_request(bytes: &[u8]) -> ReadRequest<'_> {
    let Some(frame) = Frame::split(bytes) else {
        return ReadRequest::NoFrame;
    };
    match read_frame(&frame) {
        Ok(request) => ReadRequest::Request(request),
        Err(status) => ReadRequest::Refused(status),
    }
}

fn read_frame<'a>(frame: &Frame<'a>) -> Result<Request<'a>, Status> {
    let kind = test_for_all_kinds(frame)?;
    let kept = frame.second & KEPT != 0;
    let fields = read_fields(kind, kept, frame.body).ok_or(Status::ParameterFailed)?;
    Ok(Request { kind, fields })
}

/// The tests for all kinds, in their order (PROFILE 4.3): status 2 for a
/// version other than 1 or a zero bit that is set, 3 for a kind outside 1 to 9,
/// 2 for a body length that the kind cannot have, and 1 for a verdict of 0 in
/// kinds 1 to 7.
fn test_for_all_kinds(frame: &Frame<'_>) -> Result<Kind, Status> {
    if !frame.version_is_right() || frame.second & zero_bits(frame.kind_bits()) != 0 {
        return Err(Status::ParameterFailed);
    }
    let kind = Kind::from_number(frame.kind_bits()).ok_or(Status::RequestNotSupported)?;
    if !kind.takes_body_of(frame.body.len()) {
        return Err(Status::ParameterFailed);
    }
    if kind.heeds_verdict() && frame.second & VERDICT == 0 {
        return Err(Status::FieldIntegrityVerificationFailed);
    }
    Ok(kind)
}

/// The zero bits of the second byte: seven, for kinds outside 1 to 9 too, but
/// six for the two kinds that say whether a count is kept (PROFILE 3.1).
fn zero_bits(kind_bits: u8) -> u8 {
    match Kind::from_number(kind_bits) {
        Some(kind) if kind.has_count() => ZERO_BITS,
        _ => ZERO_BITS | KEPT,
    }
}

/// Reads the fields of a body whose length is the kind's, where the head has the
/// bit `kept`; `None` where a field test of kind 2, 5 or 8 fails.
fn read_fields(kind: Kind, kept: bool, body: &[u8]) -> Option<Fields<'_>> {
    let none = Fields::default();
    if kind == Kind::HandleListQuery {
        return read_list_fields(body);
    }
    let (handle, rest) = (array_at(body, 0), &body[HANDLE_BYTES..]);
    let fields = match kind {
        Kind::InstallationSetup => Fields {
            length: u16_at(rest, 0),
            ..none
        },
        Kind::RightsInstallation => read_content_fields(kept, rest)?,
        Kind::RightsRetrieval | Kind::RekQuery => Fields {
            new_handle: array_at(rest, 0),
            ..none
        },
        Kind::RightsEnablement => Fields {
            count: Count::said(kept, u16_at(rest, 0))?,
            ..none
        },
        _ => none,
    };
    Some(Fields { handle, ..fields })
}

/// The field tests of kind 2 (PROFILE 5.2): no count without its bit, 1 to 8
/// hashes, the four zero bits 0, and a payload of 1 to 4,096 bytes after the
/// hashes.
fn read_content_fields(kept: bool, content: &[u8]) -> Option<Fields<'_>> {
    let content = Content::read(content, kept)?;
    content.may_be_installed().then_some(Fields {
        key: content.key,
        count: content.count,
        hashes: content.hashes,
        payload: content.payload,
        ..Fields::default()
    })
}

/// The field tests of kind 8 (PROFILE 5.8): at most 8 hashes, and a body that
/// ends where they end.
fn read_list_fields(body: &[u8]) -> Option<Fields<'_>> {
    let (head, hashes) = body.split_at_checked(LIST_HEAD_BYTES)?;
    let hash_count = usize::from(head[2]);
    (hash_count <= MAX_HASHES && hashes.len() == HASH_BYTES * hash_count).then_some(Fields {
        limit: u16_at(head, 0),
        hashes,
        ..Fields::default()
    })
}

/// Writes a request frame at the start of `out`, with a verdict of 1, and gives
/// 0; or refuses with 202 or 201, tested in that order (PROFILE 6.2). The bytes
/// after the frame keep what they held, and a refusal changes no byte.
///
/// No kind takes a count that bit and number do not say.
pub fn write_request(kind: u8, fields: &WriterFields<'_>, out: &mut [u8]) -> u16 {
    let (Some(kind), Some(fields)) = (Kind::from_number(kind), fields.said()) else {
        return WRITER_FIELDS;
    };
    if !fields_are_right(kind, &fields) {
        return WRITER_FIELDS;
    }
    let kept = if fields.count.is_kept() { KEPT } else { 0 };
    let frame = frame::join(kind.number(), VERDICT | kept, &body(kind, &fields));
    let Some(place) = out.get_mut(..frame.len()) else {
        return WRITER_BUFFER_SHORT;
    };
    place.copy_from_slice(&frame);
    DONE
}

/// Whether the writer takes these fields (PROFILE 6.2): the hashes are 0 to 8
/// times 20 bytes, kind 2 has a hash and a payload of 1 to 4,096 bytes, and every
/// field that the kind lacks is zero or empty.
fn fields_are_right(kind: Kind, fields: &Fields<'_>) -> bool {
    hashes_are_whole(fields.hashes)
        && (kind != Kind::RightsInstallation || content_of(fields).may_be_installed())
        && *fields == own_fields(kind, fields)
}

fn hashes_are_whole(hashes: &[u8]) -> bool {
    hashes.len().is_multiple_of(HASH_BYTES) && hashes.len() <= HASH_BYTES * MAX_HASHES
}

/// The fields that the kind has, as they are, with all others zero or empty.
fn own_fields<'a>(kind: Kind, fields: &Fields<'a>) -> Fields<'a> {
    let handle_only = Fields {
        handle: fields.handle,
        ..Fields::default()
    };
    match kind {
        Kind::InstallationSetup => Fields {
            length: fields.length,
            ..handle_only
        },
        Kind::RightsInstallation => Fields {
            key: fields.key,
            count: fields.count,
            hashes: fields.hashes,
            payload: fields.payload,
            ..handle_only
        },
        Kind::RightsRetrieval | Kind::RekQuery => Fields {
            new_handle: fields.new_handle,
            ..handle_only
        },
        Kind::RightsEnablement => Fields {
            count: fields.count,
            ..handle_only
        },
        Kind::RightsRemoval | Kind::HandleRemoval | Kind::RightsInformationQuery => handle_only,
        Kind::HandleListQuery => Fields {
            limit: fields.limit,
            hashes: fields.hashes,
            ..Fields::default()
        },
    }
}

/// The body of a request whose fields are right.
fn body(kind: Kind, fields: &Fields<'_>) -> Vec<u8> {
    if kind == Kind::HandleListQuery {
        return list_body(fields);
    }
    let mut body = fields.handle.to_vec();
    match kind {
        Kind::InstallationSetup => body.extend(fields.length.to_be_bytes()),
        Kind::RightsInstallation => content_of(fields).write_to(&mut body),
        Kind::RightsRetrieval | Kind::RekQuery => body.extend(fields.new_handle),
        Kind::RightsEnablement => body.extend(fields.count.number().to_be_bytes()),
        _ => {}
    }
    body
}

/// The body of kind 8: the limit, the hash count and the hashes.
fn list_body(fields: &Fields<'_>) -> Vec<u8> {
    let mut body = fields.limit.to_be_bytes().to_vec();
    body.push(hash_count(fields.hashes));
    body.extend(fields.hashes);
    body
}

/// The content that a request of kind 2 carries.
pub(crate) fn content_of<'a>(fields: &Fields<'a>) -> Content<'a> {
    Content {
        key: fields.key,
        count: fields.count,
        hashes: fields.hashes,
        payload: fields.payload,
    }
}
