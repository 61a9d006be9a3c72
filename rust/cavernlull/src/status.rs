//! The statuses of a reply.

use std::fmt;

/// The status of a reply, with its number. Every status but
/// [`Success`](Status::Success) leaves the table as it was.
#[derive(Clone, Copy, Debug, PartialEq, Eq, PartialOrd, Ord, Hash)]
#[repr(u8)]
pub enum Status {
    /// The request was carried out.
    Success = 0,
    /// The front end's verdict is that the MAC did not hold.
    FieldIntegrityVerificationFailed = 1,
    /// A field of the request has a value that it may not have.
    ParameterFailed = 2,
    /// The kind is not 1 to 9.
    RequestNotSupported = 3,
    /// No record is under the request's handle.
    HandleNotFound = 4,
    /// The handle of the setup, or the new handle, is in use already.
    DuplicateHandle = 5,
    /// The record is not in the place that the request is for: it is lent, or
    /// not yet installed, or installed already.
    UnexpectedRequest = 6,
    /// No slot is empty, or the length is more than there is room for.
    NotEnoughSpace = 7,
    /// The count returned would raise the one that was lent: it is greater, or
    /// only one of the two is kept. The right stays lent, and can be
    /// [returned with another count](crate::Request::RightsEnablement).
    CountRaised = 9,
}

impl Status {
    /// All statuses, in the order of their numbers.
    pub const ALL: [Status; 9] = [
        Status::Success,
        Status::FieldIntegrityVerificationFailed,
        Status::ParameterFailed,
        Status::RequestNotSupported,
        Status::HandleNotFound,
        Status::DuplicateHandle,
        Status::UnexpectedRequest,
        Status::NotEnoughSpace,
        Status::CountRaised,
    ];

    /// The status's number, 0 to 7 or 9.
    pub const fn number(self) -> u8 {
        self as u8
    }

    /// The status of this number, if it is 0 to 7 or 9. No other number is a
    /// status, and 8 is none either: a reply with one is refused
    /// ([`ReadError`](crate::ReadError)).
    ///
    /// ```
    /// use cavernlull::{ReadError, Reply, Status};
    ///
    /// assert_eq!(Status::from_number(7), Some(Status::NotEnoughSpace));
    /// assert_eq!(Status::from_number(8), None);
    /// assert_eq!(Status::from_number(9), Some(Status::CountRaised));
    /// assert_eq!(Reply::read(&[0x25, 8, 0, 0]), Err(ReadError));
    /// ```
    pub fn from_number(number: u8) -> Option<Status> {
        Status::ALL
            .into_iter()
            .find(|status| status.number() == number)
    }
}

impl fmt::Display for Status {
    fn fmt(&self, f: &mut fmt::Formatter<'_>) -> fmt::Result {
        f.pad(match self {
            Status::Success => "Success",
            Status::FieldIntegrityVerificationFailed => "Field Integrity Verification Failed",
            Status::ParameterFailed => "Parameter Failed",
            Status::RequestNotSupported => "Request Not Supported",
            Status::HandleNotFound => "Handle Not Found",
            Status::DuplicateHandle => "Duplicate Handle",
            Status::UnexpectedRequest => "Unexpected Request",
            Status::NotEnoughSpace => "Not Enough Space",
            Status::CountRaised => "Count Raised",
        })
    }
}
