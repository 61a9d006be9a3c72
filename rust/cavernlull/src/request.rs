//! Requests, and the frames that they are written as.

use crate::archive::{self, Fields};
use crate::{AssetHash, Handle, Kind, Right, WriteError, REQUEST_ROOM};

/// A request, with the fields of its kind.
#[derive(Clone, Debug, PartialEq, Eq)]
pub enum Request {
    /// Kind 1: reserve a slot for a right under this handle.
    InstallationSetup {
        /// The handle of the right to come.
        handle: Handle,
        /// The bytes to reserve for its payload, 1 to 4,096.
        room: u16,
    },
    /// Kind 2: install a right in the slot reserved under this handle.
    RightsInstallation {
        /// The handle of the reserved slot.
        handle: Handle,
        /// The right. It has at least one hash, by which its course is found.
        right: Right,
    },
    /// Kind 3: lend the right under a new handle and give all of it.
    RightsRetrieval {
        /// The handle of the right.
        handle: Handle,
        /// The handle that it is lent under.
        new_handle: Handle,
    },
    /// Kind 4: lend the right under a new handle and give its key.
    RekQuery {
        /// The handle of the right.
        handle: Handle,
        /// The handle that it is lent under.
        new_handle: Handle,
    },
    /// Kind 5: take the right that is lent under this handle back, for use.
    /// If the right is for use already, nothing changes, whatever the count.
    ///
    /// A return may not add starts (PROFILE 5.5). With a count that is greater
    /// than was lent, or where only one of the two counts is kept, it is refused
    /// with [`CountRaised`](crate::Status::CountRaised). The right stays lent as
    /// it was, under the same handle, and can be returned with another count:
    ///
    /// ```
    /// # use cavernlull::{AssetHash, Card, Handle, Request, Right, Status, Verdict};
    /// # let (course, lent) = (Handle([1; 10]), Handle([2; 10]));
    /// # let hashes = vec![AssetHash([7; 20])];
    /// # let payload = b"course".to_vec();
    /// # let right = Right { count: Some(5), hashes, payload, ..Right::default() };
    /// # let mut card = Card::blank(1);
    /// # for request in [
    /// #     Request::InstallationSetup { handle: course, room: 6 },
    /// #     Request::RightsInstallation { handle: course, right },
    /// #     Request::RekQuery { handle: course, new_handle: lent },
    /// # ] {
    /// #     card.call(&request, Verdict::Held)?;
    /// # }
    /// // The course is lent with a kept count of 5.
    /// let mut give_back = |count| {
    ///     let request = Request::RightsEnablement { handle: lent, count };
    ///     card.call(&request, Verdict::Held).map(|reply| reply.status())
    /// };
    /// assert_eq!(give_back(Some(6))?, Status::CountRaised);
    /// assert_eq!(give_back(None)?, Status::CountRaised);
    /// assert_eq!(give_back(Some(4))?, Status::Success);
    /// assert_eq!(give_back(Some(6))?, Status::Success, "it is for use already");
    /// # Ok::<(), cavernlull::Error>(())
    /// ```
    ///
    /// A device that does not know what was lent sends `None`, and where that is
    /// refused so, `Some(0)`: the right comes back, used up.
    RightsEnablement {
        /// The handle that the right is lent under.
        handle: Handle,
        /// The count that the right has from then on: no greater than was lent;
        /// `None` where none is kept, `Some(0)` where it is used up.
        count: Option<u16>,
    },
    /// Kind 6: remove a right, for use or lent.
    RightsRemoval {
        /// The handle of the right.
        handle: Handle,
    },
    /// Kind 7: give up a reserved slot.
    HandleRemoval {
        /// The handle of the reserved slot.
        handle: Handle,
    },
    /// Kind 8: list the handles of the rights for use.
    HandleListQuery {
        /// The most bytes of handles to be listed; 0 for no limit.
        limit: u16,
        /// Up to 8 hashes: only rights that have one of them are listed. With
        /// no hashes, all rights are, also those that have no hash themselves.
        hashes: Vec<AssetHash>,
    },
    /// Kind 9: give the count and the payload of a right for use.
    RightsInformationQuery {
        /// The handle of the right.
        handle: Handle,
    },
}

impl Request {
    /// The kind of the request.
    pub fn kind(&self) -> Kind {
        match self {
            Request::InstallationSetup { .. } => Kind::InstallationSetup,
            Request::RightsInstallation { .. } => Kind::RightsInstallation,
            Request::RightsRetrieval { .. } => Kind::RightsRetrieval,
            Request::RekQuery { .. } => Kind::RekQuery,
            Request::RightsEnablement { .. } => Kind::RightsEnablement,
            Request::RightsRemoval { .. } => Kind::RightsRemoval,
            Request::HandleRemoval { .. } => Kind::HandleRemoval,
            Request::HandleListQuery { .. } => Kind::HandleListQuery,
            Request::RightsInformationQuery { .. } => Kind::RightsInformationQuery,
        }
    }

    /// The hashes that the request sends: those of an installation or of a list
    /// query. No other kind has any.
    pub(crate) fn hashes(&self) -> &[AssetHash] {
        match self {
            Request::RightsInstallation { right, .. } => &right.hashes,
            Request::HandleListQuery { hashes, .. } => hashes,
            _ => &[],
        }
    }

    /// The frame of the request, with the verdict that the MAC held.
    ///
    /// # Errors
    ///
    /// [`WriteError::NoHash`] for an installation without a hash,
    /// [`WriteError::TooManyHashes`] for more than 8 hashes, and
    /// [`WriteError::PayloadLength`] for an installation whose payload is not 1
    /// to 4,096 bytes.
    ///
    /// ```
    /// use cavernlull::{Handle, Request};
    ///
    /// let request = Request::RightsRemoval { handle: Handle([1; 10]) };
    /// let frame = request.to_frame()?;
    /// assert_eq!(frame[..4], [0x26, 0x80, 0, 10]);
    /// assert_eq!(frame[4..], [1; 10]);
    /// # Ok::<(), cavernlull::WriteError>(())
    /// ```
    pub fn to_frame(&self) -> Result<Vec<u8>, WriteError> {
        let mut frame = vec![0; REQUEST_ROOM];
        let length = self.write(&mut frame)?.len();
        frame.truncate(length);
        Ok(frame)
    }

    /// Writes the frame of the request at the start of a buffer, and gives
    /// that part of it. The bytes after it keep what they held.
    ///
    /// # Errors
    ///
    /// Those of [`to_frame`](Request::to_frame), and
    /// [`WriteError::BufferShort`]. The buffer is not changed then.
    pub fn write<'out>(&self, out: &'out mut [u8]) -> Result<&'out [u8], WriteError> {
        let number = archive::write_request(self.kind().number(), &self.fields(), out);
        WriteError::of(number, self)?;
        Ok(archive::frame_in(out))
    }

    /// The fields that the kind has; those that it lacks are zero or empty.
    fn fields(&self) -> Fields<'_> {
        let mut fields = Fields::default();
        match self {
            Request::InstallationSetup { handle, room } => {
                fields.handle = handle.0;
                fields.room = *room;
            }
            Request::RightsInstallation { handle, right } => {
                fields.handle = handle.0;
                fields.key = right.key.0;
                fields.put_count(right.count);
                fields.hashes = one_after_another(&right.hashes);
                fields.payload = &right.payload;
            }
            Request::RightsRetrieval { handle, new_handle }
            | Request::RekQuery { handle, new_handle } => {
                fields.handle = handle.0;
                fields.new_handle = new_handle.0;
            }
            Request::RightsEnablement { handle, count } => {
                fields.handle = handle.0;
                fields.put_count(*count);
            }
            Request::RightsRemoval { handle }
            | Request::HandleRemoval { handle }
            | Request::RightsInformationQuery { handle } => fields.handle = handle.0,
            Request::HandleListQuery { limit, hashes } => {
                fields.limit = *limit;
                fields.hashes = one_after_another(hashes);
            }
        }
        fields
    }
}

fn one_after_another(hashes: &[AssetHash]) -> Vec<u8> {
    hashes.iter().flat_map(|hash| hash.0).collect()
}
