//! Request frames, and the tests that need no table.

use crate::slots::{HASH, HASHES, PAYLOAD};

/// Statuses other than success.
#[derive(Clone, Copy, Debug, PartialEq, Eq)]
pub enum Status {
    Integrity = 1,
    Parameter = 2,
    Unsupported = 3,
    NotFound = 4,
    Duplicate = 5,
    Unexpected = 6,
    NoSpace = 7,
    Raised = 9,
}

/// The head and the body of a frame, if the bytes are one.
pub fn split(frame: &[u8]) -> Option<(&[u8; 4], &[u8])> {
    let (head, body) = frame.split_first_chunk::<4>()?;
    (body.len() == usize::from(u16::from_be_bytes([head[2], head[3]]))).then_some((head, body))
}

/// The bits of a request's second byte: the verdict, and whether a count is
/// kept, which kinds 2 and 5 have. All others are zero bits.
const VERDICT: u8 = 0x80;
pub const KEPT: u8 = 0x40;

fn zero_bits(kind: u8) -> u8 {
    match kind {
        2 | 5 => !(VERDICT | KEPT),
        _ => !VERDICT,
    }
}

/// The tests for all kinds, then the field tests of kinds 2, 5 and 8.
pub fn test(head: &[u8; 4], body: &[u8]) -> Result<(), Status> {
    let kind = head[0] & 31;
    if head[0] >> 5 != 1 || head[1] & zero_bits(kind) != 0 {
        return Err(Status::Parameter);
    }
    let long_enough = match kind {
        1 | 5 => body.len() == 12,
        2 => body.len() >= 30,
        3 | 4 => body.len() == 20,
        6 | 7 | 9 => body.len() == 10,
        8 => body.len() >= 3,
        _ => return Err(Status::Unsupported),
    };
    if !long_enough {
        return Err(Status::Parameter);
    }
    if kind <= 7 && head[1] & VERDICT == 0 {
        return Err(Status::Integrity);
    }
    if fields_hold(kind, head[1] & KEPT != 0, body) {
        Ok(())
    } else {
        Err(Status::Parameter)
    }
}

/// The field tests. A count that is not kept must be 0, and an installation has
/// a hash.
fn fields_hold(kind: u8, kept: bool, body: &[u8]) -> bool {
    match kind {
        2 => {
            let hashes = usize::from(body[28] >> 4);
            let used = 29 + HASH * hashes;
            (kept || body[26..28] == [0, 0])
                && (1..=HASHES).contains(&hashes)
                && body[28] & 15 == 0
                && body.len() > used
                && body.len() - used <= PAYLOAD
        }
        5 => kept || body[10..12] == [0, 0],
        8 => {
            let hashes = usize::from(body[2]);
            hashes <= HASHES && body.len() == 3 + HASH * hashes
        }
        _ => true,
    }
}
