//! The nine kinds of request.

use std::fmt;

/// The kind of a request, with its number.
#[derive(Clone, Copy, Debug, PartialEq, Eq, PartialOrd, Ord, Hash)]
#[repr(u8)]
pub enum Kind {
    /// Reserves a slot for a right under a handle.
    InstallationSetup = 1,
    /// Installs a right in the slot reserved under its handle.
    RightsInstallation = 2,
    /// Lends a right under a new handle and gives the whole right.
    RightsRetrieval = 3,
    /// Lends a right under a new handle and gives its key.
    RekQuery = 4,
    /// Takes a lent right back, for use, with a count.
    RightsEnablement = 5,
    /// Removes a right.
    RightsRemoval = 6,
    /// Gives up a reserved slot.
    HandleRemoval = 7,
    /// Lists the handles of the rights for use.
    HandleListQuery = 8,
    /// Gives the count and the payload of a right for use.
    RightsInformationQuery = 9,
}

impl Kind {
    /// All kinds, in the order of their numbers.
    pub const ALL: [Kind; 9] = [
        Kind::InstallationSetup,
        Kind::RightsInstallation,
        Kind::RightsRetrieval,
        Kind::RekQuery,
        Kind::RightsEnablement,
        Kind::RightsRemoval,
        Kind::HandleRemoval,
        Kind::HandleListQuery,
        Kind::RightsInformationQuery,
    ];

    /// The kind's number, 1 to 9.
    pub const fn number(self) -> u8 {
        self as u8
    }

    /// The kind of this number, if it is 1 to 9.
    ///
    /// ```
    /// use cavernlull::Kind;
    ///
    /// assert_eq!(Kind::from_number(4), Some(Kind::RekQuery));
    /// assert_eq!(Kind::from_number(10), None);
    /// ```
    pub fn from_number(number: u8) -> Option<Kind> {
        Kind::ALL.into_iter().find(|kind| kind.number() == number)
    }
}

impl fmt::Display for Kind {
    fn fmt(&self, f: &mut fmt::Formatter<'_>) -> fmt::Result {
        f.pad(match self {
            Kind::InstallationSetup => "Installation Setup",
            Kind::RightsInstallation => "Rights Installation",
            Kind::RightsRetrieval => "Rights Retrieval",
            Kind::RekQuery => "REK Query",
            Kind::RightsEnablement => "Rights Enablement",
            Kind::RightsRemoval => "Rights Removal",
            Kind::HandleRemoval => "Handle Removal",
            Kind::HandleListQuery => "Handle List Query",
            Kind::RightsInformationQuery => "Rights Information Query",
        })
    }
}
