//! The front end's verdict on a frame.

/// The highest bit of a request's second byte, set where the MAC held.
const BIT: u8 = 0x80;

/// What the card's front end, which checks MACs, found out about a request.
///
/// The agent reads it from one bit of the frame. Kinds 8 and 9 ignore it; the
/// others answer a MAC that failed with
/// [`FieldIntegrityVerificationFailed`](crate::Status::FieldIntegrityVerificationFailed).
#[derive(Clone, Copy, Debug, PartialEq, Eq, Hash)]
pub enum Verdict {
    /// The MAC held.
    Held,
    /// The MAC did not hold.
    Failed,
}

impl Verdict {
    /// Puts this verdict into a request frame, instead of the one there. A
    /// frame that is too short to have a verdict stays as it is.
    ///
    /// ```
    /// use cavernlull::Verdict;
    ///
    /// let mut frame = [0x28, 0x80, 0, 3, 0, 0, 0];
    /// Verdict::Failed.put_into(&mut frame);
    /// assert_eq!(frame[1], 0);
    /// ```
    pub fn put_into(self, frame: &mut [u8]) {
        if let Some(byte) = frame.get_mut(1) {
            match self {
                Verdict::Held => *byte |= BIT,
                Verdict::Failed => *byte &= !BIT,
            }
        }
    }
}
