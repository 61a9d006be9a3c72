//! The nine kinds of request.

/// The kind of a request, with its number (PROFILE 5).
#[derive(Clone, Copy, Debug, PartialEq, Eq, PartialOrd, Ord)]
#[repr(u8)]
pub enum Kind {
    /// Kind 1 reserves a slot.
    InstallationSetup = 1,
    /// Kind 2 fills a reserved slot.
    RightsInstallation = 2,
    /// Kind 3 lends a right and gives its whole content.
    RightsRetrieval = 3,
    /// Kind 4 lends a right and gives its key.
    RekQuery = 4,
    /// Kind 5 takes a lent right back.
    RightsEnablement = 5,
    /// Kind 6 clears a slot that holds a right.
    RightsRemoval = 6,
    /// Kind 7 clears a reserved slot.
    HandleRemoval = 7,
    /// Kind 8 lists the handles of enabled records.
    HandleListQuery = 8,
    /// Kind 9 gives the count and the payload of a right.
    RightsInformationQuery = 9,
}

impl Kind {
    /// All kinds, in the order of their numbers.
    pub const ALL: [Kind; 9] = [
        Kind::InstallationSetup,
        Kind::RightsInstallation,
        Kind::RightsRetrieval,
        Kind::RekQuery,
        Kind::RightsEnablement,
        Kind::RightsRemoval,
        Kind::HandleRemoval,
        Kind::HandleListQuery,
        Kind::RightsInformationQuery,
    ];

    /// The kind of this number; `None` unless it is 1 to 9.
    pub fn from_number(number: u8) -> Option<Kind> {
        Kind::ALL.into_iter().find(|kind| kind.number() == number)
    }

    /// The number of this kind, 1 to 9.
    pub fn number(self) -> u8 {
        self as u8
    }

    /// Whether a request of this kind may have a body of `length` bytes
    /// (PROFILE 3.3). Of kind 2, bodies of 30 to 49 bytes have no room for a hash
    /// and a payload; it is the field test that refuses them, after the verdict
    /// (PROFILE 5.2).
    pub(crate) fn takes_body_of(self, length: usize) -> bool {
        match self {
            Kind::InstallationSetup | Kind::RightsEnablement => length == 12,
            Kind::RightsInstallation => length >= 30,
            Kind::RightsRetrieval | Kind::RekQuery => length == 20,
            Kind::RightsRemoval | Kind::HandleRemoval | Kind::RightsInformationQuery => {
                length == 10
            }
            Kind::HandleListQuery => length >= 3,
        }
    }

    /// Whether a request of this kind has a count, and so a bit in its head that
    /// says whether one is kept (PROFILE 3.1).
    pub(crate) fn has_count(self) -> bool {
        matches!(self, Kind::RightsInstallation | Kind::RightsEnablement)
    }

    /// Whether a verdict of 0 is status 1 for this kind: kinds 8 and 9 ignore
    /// the verdict (PROFILE 4.3).
    pub(crate) fn heeds_verdict(self) -> bool {
        self <= Kind::HandleRemoval
    }
}
