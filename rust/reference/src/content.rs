//! The content of a right, in the one form in which it travels.
//!
//! The body of a request of kind 2 is a handle and then the content
//! (PROFILE 3.3); the body of a successful reply of kind 3 is the content alone
//! (PROFILE 3.4). The content is the key, the count number, a byte with the hash
//! count in its four high bits and zeros in the others, the hashes, and the
//! payload. The count's bit travels in the head of the frame.

use std::ops::RangeInclusive;

use crate::bytes::{array_at, u16_at};
use crate::{Count, Key, HASH_BYTES, MAX_HASHES, MAX_PAYLOAD};

/// How many hashes a right may have that a table holds, and so one that a reply
/// gives (PROFILE 2.4, 6.3).
pub(crate) const HASHES_IN_A_RECORD: RangeInclusive<usize> = 0..=MAX_HASHES;

/// How many hashes a right may have that a request installs: without one it
/// would be found by no course (PROFILE 2.9, 5.2).
const HASHES_IN_AN_INSTALLATION: RangeInclusive<usize> = 1..=MAX_HASHES;

/// Key, count, and the byte with the hash count.
const HEAD_BYTES: usize = 19;

const COUNT_AT: usize = 16;
const HASH_COUNT_AT: usize = 18;

/// What a right holds beside its handle and its place, as a table may hold it.
/// What a request may install is less: see [`Content::may_be_installed`].
#[derive(Clone, Copy, Debug, PartialEq, Eq)]
pub(crate) struct Content<'a> {
    pub key: Key,
    pub count: Count,
    pub hashes: &'a [u8],
    pub payload: &'a [u8],
}

impl<'a> Content<'a> {
    /// Reads a content that fills all of `bytes` and that a table may hold, where
    /// the frame's head has the bit `kept`; `None` where there is a count without
    /// its bit, the hash count is over 8, one of the four zero bits is set, or the
    /// payload is not 1 to 4,096 bytes. Hashes that overrun `bytes` leave no
    /// payload, so they are refused as well.
    pub fn read(bytes: &'a [u8], kept: bool) -> Option<Self> {
        let (head, rest) = bytes.split_at_checked(HEAD_BYTES)?;
        let count = Count::said(kept, u16_at(head, COUNT_AT))?;
        let hash_count = read_hash_count(head[HASH_COUNT_AT])?;
        let (hashes, payload) = rest.split_at_checked(HASH_BYTES * hash_count)?;
        payload_length_is_right(payload.len()).then_some(Content {
            key: array_at(head, 0),
            count,
            hashes,
            payload,
        })
    }

    /// Whether a request may install this content: it has a hash, and at most 8,
    /// and a payload of 1 to 4,096 bytes (PROFILE 5.2). The hashes are whole.
    pub fn may_be_installed(&self) -> bool {
        HASHES_IN_AN_INSTALLATION.contains(&(self.hashes.len() / HASH_BYTES))
            && payload_length_is_right(self.payload.len())
    }

    /// Appends this content to `out`, all but the count's bit.
    pub fn write_to(&self, out: &mut Vec<u8>) {
        out.extend(self.key);
        out.extend(self.count.number().to_be_bytes());
        out.push(hash_count(self.hashes) << 4);
        out.extend(self.hashes);
        out.extend(self.payload);
    }
}

/// The hash count in its byte; `None` where a zero bit is set or the count is
/// over 8.
fn read_hash_count(byte: u8) -> Option<usize> {
    let count = usize::from(byte >> 4);
    (HASHES_IN_A_RECORD.contains(&count) && byte & 0x0F == 0).then_some(count)
}

/// The number of hashes in `hashes`, which has 0 to 8 whole ones.
pub(crate) fn hash_count(hashes: &[u8]) -> u8 {
    u8::try_from(hashes.len() / HASH_BYTES).expect("there are at most 8 hashes")
}

/// Whether a payload may have this length, 1 to 4,096.
pub(crate) fn payload_length_is_right(length: usize) -> bool {
    (1..=MAX_PAYLOAD).contains(&length)
}
