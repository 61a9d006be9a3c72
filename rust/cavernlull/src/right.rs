//! Rights, and the fixed strings of bytes that they have.

use crate::{HANDLE_BYTES, HASH_BYTES, KEY_BYTES};
use std::fmt;

/// The handle that a record is under. Any ten bytes may be one.
#[derive(Clone, Copy, Default, PartialEq, Eq, PartialOrd, Ord, Hash)]
pub struct Handle(pub [u8; HANDLE_BYTES]);

/// The hash of an asset that a right is for: the 20 bytes of a SHA-1.
#[derive(Clone, Copy, Default, PartialEq, Eq, PartialOrd, Ord, Hash)]
pub struct AssetHash(pub [u8; HASH_BYTES]);

/// The key (REK) of a right. [`Debug`](fmt::Debug) does not show it.
#[derive(Clone, Copy, Default, PartialEq, Eq)]
pub struct Key(pub [u8; KEY_BYTES]);

/// What a right holds, as it is installed and as it is retrieved.
///
/// To be installed, a right needs at least one hash, since its course is found
/// by its hashes. A right that a card gives may have none, if a version before
/// 6.0.0 installed it (PROFILE 2.9). It is lent, returned and removed like any
/// other, but it is not installed again
/// ([`WriteError::NoHash`](crate::WriteError::NoHash)).
///
/// A right keeps a count, or it keeps none. A count that is used up is still a
/// count:
///
/// ```
/// use cavernlull::{AssetHash, Card, Handle, Reply, Request, Right, Verdict};
///
/// let (course, lent) = (Handle([1; 10]), Handle([2; 10]));
/// let hashes = vec![AssetHash([7; 20])];
/// let payload = b"course".to_vec();
/// let right = Right { count: Some(1), hashes, payload, ..Right::default() };
/// let mut card = Card::blank(1);
/// for request in [
///     Request::InstallationSetup { handle: course, room: 6 },
///     Request::RightsInstallation { handle: course, right },
///     Request::RekQuery { handle: course, new_handle: lent },
///     Request::RightsEnablement { handle: lent, count: Some(0) },
/// ] {
///     card.call(&request, Verdict::Held)?;
/// }
/// let query = Request::RightsInformationQuery { handle: lent };
/// let told = Reply::Information { count: Some(0), payload: b"course".to_vec() };
/// assert_eq!(card.call(&query, Verdict::Held)?, told);
/// # Ok::<(), cavernlull::Error>(())
/// ```
#[derive(Clone, Debug, Default, PartialEq, Eq)]
pub struct Right {
    /// The key.
    pub key: Key,
    /// The count: `None` where none is kept, `Some(0)` where it is used up.
    pub count: Option<u16>,
    /// The hashes of the assets that the right is for: 1 to 8 to install it, and
    /// 0 to 8 where a card gives it.
    pub hashes: Vec<AssetHash>,
    /// The payload: 1 to 4,096 bytes, which neither card nor library interprets.
    pub payload: Vec<u8>,
}

/// In hex.
impl fmt::Display for Handle {
    fn fmt(&self, f: &mut fmt::Formatter<'_>) -> fmt::Result {
        write_hex(&self.0, f)
    }
}

impl fmt::Debug for Handle {
    fn fmt(&self, f: &mut fmt::Formatter<'_>) -> fmt::Result {
        write!(f, "Handle({self})")
    }
}

/// In hex.
impl fmt::Display for AssetHash {
    fn fmt(&self, f: &mut fmt::Formatter<'_>) -> fmt::Result {
        write_hex(&self.0, f)
    }
}

impl fmt::Debug for AssetHash {
    fn fmt(&self, f: &mut fmt::Formatter<'_>) -> fmt::Result {
        write!(f, "AssetHash({self})")
    }
}

/// Shows only that it is a key: no key should get into a log.
impl fmt::Debug for Key {
    fn fmt(&self, f: &mut fmt::Formatter<'_>) -> fmt::Result {
        f.write_str("Key(..)")
    }
}

fn write_hex(bytes: &[u8], f: &mut fmt::Formatter<'_>) -> fmt::Result {
    bytes.iter().try_for_each(|byte| write!(f, "{byte:02x}"))
}

#[cfg(test)]
mod tests {
    use super::*;

    #[test]
    fn handles_and_hashes_are_shown_in_hex() {
        let handle = Handle([0, 1, 2, 0xA, 0xFF, 0x10, 6, 7, 8, 9]);
        assert_eq!(handle.to_string(), "0001020aff1006070809");
        assert_eq!(format!("{handle:?}"), "Handle(0001020aff1006070809)");
        let hash = AssetHash([0xB7; 20]);
        assert_eq!(hash.to_string(), "b7".repeat(20));
        assert_eq!(format!("{hash:?}"), format!("AssetHash({hash})"));
    }

    #[test]
    fn no_key_is_shown() {
        let right = Right {
            key: Key([0xEE; 16]),
            ..Right::default()
        };
        assert_eq!(format!("{:?}", right.key), "Key(..)");
        let shown = format!("{right:?} {right:#?}").to_lowercase();
        assert!(!shown.contains("ee") && !shown.contains("238"), "{shown}");
    }
}
