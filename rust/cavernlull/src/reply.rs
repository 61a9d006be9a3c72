//! Replies, read from their frames.

use crate::archive::{self, Numbers};
use crate::{AssetHash, Handle, Key, Kind, ReadError, Right, Status};
use crate::{HANDLE_BYTES, HASH_BYTES, KEY_BYTES};

/// What a card answered: a success, with what it gives, or a refusal.
#[derive(Clone, Debug, PartialEq, Eq)]
pub enum Reply {
    /// A request of this kind was carried out, and there is nothing to give:
    /// kinds 1, 2, 5, 6 and 7.
    Done(Kind),
    /// Kind 3: the right is lent, and this is all of it.
    Right(Right),
    /// Kind 4: the right is lent, and this is its key.
    Key(Key),
    /// Kind 8: the handles of rights for use.
    Handles {
        /// The handles, in the order of their slots.
        handles: Vec<Handle>,
        /// Whether some were left off because of the limit.
        more: bool,
    },
    /// Kind 9: the count and the payload of a right for use.
    Information {
        /// The count, if one is kept.
        count: Option<u16>,
        /// The payload.
        payload: Vec<u8>,
    },
    /// The request was not carried out, and the table is as it was.
    Refused {
        /// The five kind bits of the request, 0 to 31.
        kind: u8,
        /// Why; not [`Status::Success`].
        status: Status,
    },
}

impl Reply {
    /// Reads the frame of a reply.
    ///
    /// # Errors
    ///
    /// Where the bytes are not such a frame.
    ///
    /// ```
    /// use cavernlull::{ReadError, Reply, Status};
    ///
    /// let refused = Reply::Refused { kind: 4, status: Status::DuplicateHandle };
    /// assert_eq!(Reply::read(&[0x24, 5, 0, 0]), Ok(refused));
    /// assert_eq!(Reply::read(&[0x24, 5, 0]), Err(ReadError));
    /// let refused = Reply::Refused { kind: 5, status: Status::CountRaised };
    /// assert_eq!(Reply::read(&[0x25, 9, 0, 0]), Ok(refused));
    /// ```
    pub fn read(frame: &[u8]) -> Result<Reply, ReadError> {
        let mut key = [0; KEY_BYTES];
        let mut numbers = Numbers::default();
        ReadError::of(archive::read_reply(frame, &mut key, &mut numbers))?;
        let [kind, status] = [numbers[0] as u8, numbers[1] as u8];
        Ok(
            match (Status::from_number(status), Kind::from_number(kind)) {
                (Some(Status::Success), Some(kind)) => success(kind, frame, Key(key), &numbers),
                (Some(status), _) => Reply::Refused { kind, status },
                (None, _) => unreachable!("the reader is proved to refuse every other number"),
            },
        )
    }

    /// The status of the reply.
    pub fn status(&self) -> Status {
        match self {
            Reply::Refused { status, .. } => *status,
            _ => Status::Success,
        }
    }

    /// The five bits of the kind: the number of a [`Kind`], or for a refusal
    /// any number from 0 to 31.
    pub fn kind_number(&self) -> u8 {
        match self {
            Reply::Done(kind) => kind.number(),
            Reply::Right(_) => Kind::RightsRetrieval.number(),
            Reply::Key(_) => Kind::RekQuery.number(),
            Reply::Handles { .. } => Kind::HandleListQuery.number(),
            Reply::Information { .. } => Kind::RightsInformationQuery.number(),
            Reply::Refused { kind, .. } => *kind,
        }
    }
}

/// What the success of a kind gives. The numbers are those of
/// `cavernlull_read_reply`, whose offsets and lengths are within the frame.
fn success(kind: Kind, frame: &[u8], key: Key, numbers: &Numbers) -> Reply {
    let [_, _, count, hashes, hashes_at, payload_at, payload, more, handles, handles_at, kept] =
        *numbers;
    let count = (kept != 0).then_some(count);
    let part = |at: u16, length: usize| &frame[usize::from(at)..usize::from(at) + length];
    let payload = part(payload_at, usize::from(payload)).to_vec();
    match kind {
        Kind::RightsRetrieval => Reply::Right(Right {
            key,
            count,
            hashes: part(hashes_at, HASH_BYTES * usize::from(hashes))
                .chunks_exact(HASH_BYTES)
                .map(|hash| AssetHash(hash.try_into().expect("a chunk is a hash")))
                .collect(),
            payload,
        }),
        Kind::RekQuery => Reply::Key(key),
        Kind::HandleListQuery => Reply::Handles {
            handles: part(handles_at, HANDLE_BYTES * usize::from(handles))
                .chunks_exact(HANDLE_BYTES)
                .map(|handle| Handle(handle.try_into().expect("a chunk is a handle")))
                .collect(),
            more: more != 0,
        },
        Kind::RightsInformationQuery => Reply::Information { count, payload },
        _ => Reply::Done(kind),
    }
}
