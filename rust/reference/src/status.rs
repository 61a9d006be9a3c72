//! The statuses of a reply.

/// The status of a reply, with its number (PROFILE 4.2).
#[derive(Clone, Copy, Debug, PartialEq, Eq, PartialOrd, Ord)]
#[repr(u8)]
pub enum Status {
    /// The request was carried out.
    Success = 0,
    /// The front end's verdict is 0 and the kind heeds it.
    FieldIntegrityVerificationFailed = 1,
    /// A field of the frame has a value that it may not have.
    ParameterFailed = 2,
    /// The kind is not 1 to 9.
    RequestNotSupported = 3,
    /// The request's handle is in no slot.
    HandleNotFound = 4,
    /// A handle to be given out is in some slot already.
    DuplicateHandle = 5,
    /// The record is in a place that the request is not for.
    UnexpectedRequest = 6,
    /// No slot is empty, or the length is more than there is room for.
    NotEnoughSpace = 7,
    /// The count returned would raise the one that was lent.
    CountRaised = 9,
}

impl Status {
    /// All statuses, in the order of their numbers.
    pub const ALL: [Status; 9] = [
        Status::Success,
        Status::FieldIntegrityVerificationFailed,
        Status::ParameterFailed,
        Status::RequestNotSupported,
        Status::HandleNotFound,
        Status::DuplicateHandle,
        Status::UnexpectedRequest,
        Status::NotEnoughSpace,
        Status::CountRaised,
    ];

    /// The status of this number; `None` unless it is 0 to 7 or 9.
    pub fn from_number(number: u8) -> Option<Status> {
        Status::ALL
            .into_iter()
            .find(|status| status.number() == number)
    }

    /// The number of this status, 0 to 7 or 9.
    pub fn number(self) -> u8 {
        self as u8
    }
}
