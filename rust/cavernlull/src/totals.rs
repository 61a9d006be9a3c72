//! What returns did to counts, over many calls.

use crate::archive::{self, Sums};
use crate::{Card, Reply, Request, TotallingError, Verdict};
use crate::{MOST_RETURNS, REPLY_ROOM};
use std::fmt;

/// What returns did to counts, over many calls: a running total, and how many
/// returns are in it (PROFILE 4.5).
///
/// A course is lent with a count of starts and returned with another. The
/// *change* of a return is the count sent minus the count that was stored: below
/// 0 where starts were used. It is never above 0: a count that is greater than was
/// lent is refused ([`CountRaised`](crate::Status::CountRaised)), and nothing is
/// returned. A return is *counted* where the record and the request both keep a
/// count, also where its change is 0. The total is the sum of the changes.
///
/// ```
/// use cavernlull::{AssetHash, Card, Handle, Request, Right, Status, Totals, Verdict};
///
/// let (course, lent) = (Handle([1; 10]), Handle([2; 10]));
/// let right = Right {
///     count: Some(10),
///     hashes: vec![AssetHash([7; 20])],
///     payload: b"course".to_vec(),
///     ..Right::default()
/// };
/// let (mut card, mut totals) = (Card::blank(1), Totals::new());
/// for request in [
///     Request::InstallationSetup { handle: course, room: 6 },
///     Request::RightsInstallation { handle: course, right },
///     Request::RekQuery { handle: course, new_handle: lent },
/// ] {
///     let totalled = totals.call(&mut card, &request, Verdict::Held)?;
///     assert_eq!((totalled.change, totalled.counted), (0, false));
/// }
///
/// // Eleven of ten starts are refused, and change nothing.
/// let too_many = Request::RightsEnablement { handle: lent, count: Some(11) };
/// let totalled = totals.call(&mut card, &too_many, Verdict::Held)?;
/// assert_eq!(totalled.reply.status(), Status::CountRaised);
/// assert_eq!((totalled.change, totalled.counted), (0, false));
///
/// // Three of the ten starts were used.
/// let give_back = Request::RightsEnablement { handle: lent, count: Some(7) };
/// let totalled = totals.call(&mut card, &give_back, Verdict::Held)?;
/// assert_eq!((totalled.change, totalled.counted), (-3, true));
/// assert_eq!(totals.to_string(), "total -3 in 1 return");
///
/// // The return is sent again, and is not counted again.
/// let totalled = totals.call(&mut card, &give_back, Verdict::Held)?;
/// assert_eq!((totalled.change, totalled.counted), (0, false));
/// assert_eq!((totals.total(), totals.returns()), (-3, 1));
/// # Ok::<(), cavernlull::TotallingError>(())
/// ```
///
/// Totals are two numbers, which are on no card. They are carried from call to
/// call, over one card or over many, stored where the planner likes, and
/// [taken up](Totals::from_parts) again. They have room for [`MOST_RETURNS`]
/// returns; [`is_full`](Totals::is_full) says when the planner notes them and
/// begins again.
#[derive(Clone, Copy, Debug, Default, PartialEq, Eq, Hash)]
pub struct Totals {
    total: i32,
    returns: u16,
}

/// What a totalling call answered: the reply, and what the call did to the count.
///
/// The reply is a [`Reply`] where the call had a request, and a frame where it
/// had one.
#[derive(Clone, Copy, Debug, PartialEq, Eq)]
pub struct Totalled<R = Reply> {
    /// The reply, which is that of the same call without totals.
    pub reply: R,
    /// The change of the call, which was added to the total: the count sent
    /// minus the count that was stored, −65,535 to 0. It is 0 for every call that
    /// is not counted.
    pub change: i32,
    /// Whether the call is a counted return: one of a record that was lent, where
    /// record and request both keep a count.
    pub counted: bool,
}

impl Totals {
    /// A total of 0, of no returns.
    pub const fn new() -> Totals {
        Totals {
            total: 0,
            returns: 0,
        }
    }

    /// Totals that are taken up again, from their [`total`](Totals::total) and
    /// their [`returns`](Totals::returns).
    ///
    /// Any numbers will do. Where the total is more than 65,535 for each return,
    /// above or below 0, they do not [hold](Totals::holds): each call is
    /// [`TotallingError::TotalOutside`], and changes nothing. A total above 0 that
    /// holds, from a card of a version before 7.0.0, is carried on.
    ///
    /// ```
    /// use cavernlull::Totals;
    ///
    /// let noted = Totals::from_parts(-41, 12);
    /// assert!(noted.holds());
    /// let mixed_up = Totals::from_parts(70_000, 1);
    /// assert!(!mixed_up.holds(), "one return changes a count by 65,535 at most");
    /// ```
    pub const fn from_parts(total: i32, returns: u16) -> Totals {
        Totals { total, returns }
    }

    /// The sum of the changes of all returns that were counted. From 0 and 0 on it
    /// is never above 0.
    pub const fn total(&self) -> i32 {
        self.total
    }

    /// How many returns were counted.
    pub const fn returns(&self) -> u16 {
        self.returns
    }

    /// Whether there is no room for another return: [`MOST_RETURNS`] are
    /// counted, and each further call is [`TotallingError::TotalOutside`]. The
    /// planner notes both numbers and begins again.
    ///
    /// ```
    /// use cavernlull::{Totals, MOST_RETURNS};
    ///
    /// let mut totals = Totals::from_parts(-65_000, MOST_RETURNS);
    /// let mut noted = Vec::new();
    /// if totals.is_full() {
    ///     noted.push(std::mem::take(&mut totals));
    /// }
    /// assert_eq!(totals, Totals::new());
    /// assert_eq!(noted[0].to_string(), "total -65000 in 30000 returns");
    /// ```
    pub const fn is_full(&self) -> bool {
        self.returns >= MOST_RETURNS
    }

    /// Whether the archive takes these numbers: they are not
    /// [full](Totals::is_full), and the total is at most 65,535 for each return,
    /// above or below 0. Totals that began with 0 and 0 hold until they are
    /// full.
    pub fn holds(&self) -> bool {
        // There is no card to be called, but the numbers are looked at first.
        let (mut asked, mut no_card) = (*self, Card::blank(0));
        asked.call_frame(&mut no_card, &[], &mut []) != Err(TotallingError::TotalOutside)
    }

    /// Has the card answer a request as [`Card::call`] does, and adds what it
    /// did to the count.
    ///
    /// # Errors
    ///
    /// [`TotallingError::Write`] where the request cannot be written, then
    /// [`TotallingError::TotalOutside`] where the numbers do not
    /// [hold](Totals::holds), and else those of [`Card::call`]. Neither card nor
    /// totals are changed then.
    pub fn call<T: AsRef<[u8]> + AsMut<[u8]>>(
        &mut self,
        card: &mut Card<T>,
        request: &Request,
        verdict: Verdict,
    ) -> Result<Totalled, TotallingError> {
        self.call_from(card, 0, request, verdict)
    }

    /// Has the card answer a request as [`call`](Totals::call) does, with a start
    /// for a setup, as [`Card::call_from`] has. With a
    /// [`Rotation`](crate::Rotation) it is
    /// [`Rotation::call_totalling`](crate::Rotation::call_totalling).
    ///
    /// # Errors
    ///
    /// Those of [`call`](Totals::call), and
    /// [`CallError::StartOutside`](crate::CallError::StartOutside) where the card
    /// has no such slot.
    pub fn call_from<T: AsRef<[u8]> + AsMut<[u8]>>(
        &mut self,
        card: &mut Card<T>,
        start: usize,
        request: &Request,
        verdict: Verdict,
    ) -> Result<Totalled, TotallingError> {
        let mut frame = request.to_frame()?;
        verdict.put_into(&mut frame);
        let mut buffer = [0; REPLY_ROOM];
        let totalled = self.call_frame_from(card, start, &frame, &mut buffer)?;
        Ok(Totalled {
            reply: Reply::read(totalled.reply)?,
            change: totalled.change,
            counted: totalled.counted,
        })
    }

    /// Has the card answer a request frame as [`Card::call_frame`] does, and
    /// adds what it did to the count.
    ///
    /// # Errors
    ///
    /// [`TotallingError::TotalOutside`] where the numbers do not
    /// [hold](Totals::holds), and else those of [`Card::call_frame`], as
    /// [`TotallingError::Call`]. Neither table, nor tally, nor buffer, nor totals
    /// are changed then.
    ///
    /// ```
    /// use cavernlull::{Card, Totals, REPLY_ROOM, SLOT_BYTES};
    ///
    /// // A right that is lent, with a kept count of 4.
    /// let mut image = vec![0; SLOT_BYTES];
    /// image[0] = 0xC2;
    /// image[1..11].fill(7);
    /// (image[28], image[30], image[192]) = (4, 1, b'!');
    ///
    /// // It is returned with 6, two more than were lent, and then with 1.
    /// let (mut card, mut totals) = (Card::from(image), Totals::new());
    /// let mut give_back = [0x25, 0xC0, 0, 12, 7, 7, 7, 7, 7, 7, 7, 7, 7, 7, 0, 6];
    /// let mut buffer = [0; REPLY_ROOM];
    /// let totalled = totals.call_frame(&mut card, &give_back, &mut buffer)?;
    /// assert_eq!((totalled.reply, totalled.change), (&[0x25, 9, 0, 0][..], 0));
    /// assert_eq!(totals, Totals::new());
    /// give_back[15] = 1;
    /// let totalled = totals.call_frame(&mut card, &give_back, &mut buffer)?;
    /// assert_eq!((totalled.reply, totalled.change), (&[0x25, 0, 0, 0][..], -3));
    /// assert_eq!(totals, Totals::from_parts(-3, 1));
    /// # Ok::<(), cavernlull::TotallingError>(())
    /// ```
    pub fn call_frame<'reply, T: AsRef<[u8]> + AsMut<[u8]>>(
        &mut self,
        card: &mut Card<T>,
        frame: &[u8],
        reply: &'reply mut [u8],
    ) -> Result<Totalled<&'reply [u8]>, TotallingError> {
        self.call_frame_from(card, 0, frame, reply)
    }

    /// Has the card answer a request frame as [`call_frame`](Totals::call_frame)
    /// does, with a start for a setup, as [`Card::call_frame_from`] has.
    ///
    /// # Errors
    ///
    /// Those of [`call_frame`](Totals::call_frame), and
    /// [`CallError::StartOutside`](crate::CallError::StartOutside) where the card
    /// has no such slot.
    pub fn call_frame_from<'reply, T: AsRef<[u8]> + AsMut<[u8]>>(
        &mut self,
        card: &mut Card<T>,
        start: usize,
        frame: &[u8],
        reply: &'reply mut [u8],
    ) -> Result<Totalled<&'reply [u8]>, TotallingError> {
        let mut sums = Sums {
            total: self.total,
            returns: self.returns,
            change: 0,
        };
        let (table, tally) = card.parts_mut();
        let number = archive::call_totalling(table, tally, start, frame, reply, &mut sums);
        TotallingError::of(number)?;
        let counted = sums.returns != self.returns;
        *self = Totals::from_parts(sums.total, sums.returns);
        Ok(Totalled {
            reply: archive::frame_in(reply),
            change: sums.change,
            counted,
        })
    }
}

/// Both numbers in words, such as `total -3 in 1 return`. A total above 0 has its
/// sign too.
impl fmt::Display for Totals {
    fn fmt(&self, f: &mut fmt::Formatter<'_>) -> fmt::Result {
        let Totals { total, returns } = self;
        let sign = if *total > 0 { "+" } else { "" };
        let word = if *returns == 1 { "return" } else { "returns" };
        write!(f, "total {sign}{total} in {returns} {word}")
    }
}

/// What the archive does to the change, which callers of this crate are given
/// only with a reply.
#[cfg(test)]
mod tests {
    use super::*;
    use crate::{Tally, SLOT_BYTES};

    /// What a totalling call is made with, beside its three numbers.
    struct Made {
        table: Vec<u8>,
        tally: Tally,
        start: usize,
        frame: Vec<u8>,
        reply: Vec<u8>,
    }

    /// A return with the count 0 of a right that is lent with a kept count of 1.
    fn give_back() -> Made {
        let mut table = vec![0; SLOT_BYTES];
        table[0] = 0xC2;
        table[1..11].fill(7);
        (table[28], table[30]) = (1, 1);
        Made {
            tally: Tally::of(&table).unwrap(),
            table,
            start: 0,
            frame: vec![0x25, 0xC0, 0, 12, 7, 7, 7, 7, 7, 7, 7, 7, 7, 7, 0, 0],
            reply: vec![0; REPLY_ROOM],
        }
    }

    /// The same, but that the call gives one of its numbers. The number is with
    /// it.
    fn refused() -> [(u16, Made); 6] {
        let with = |spoil: fn(&mut Made)| {
            let mut made = give_back();
            spoil(&mut made);
            made
        };
        [
            (101, with(|made| made.reply.truncate(REPLY_ROOM - 1))),
            (102, with(|made| made.table.truncate(SLOT_BYTES - 1))),
            (103, with(|made| made.table[191] = 1)),
            (104, with(|made| made.frame.truncate(15))),
            (105, with(|made| made.start = 1)),
            (106, with(|made| made.tally = Tally::blank(1))),
        ]
    }

    fn sums(total: i32, returns: u16, change: i32) -> Sums {
        Sums {
            total,
            returns,
            change,
        }
    }

    /// Asserts that a call with a change of 77 gives this number and leaves these
    /// three.
    fn assert_leaves(mut made: Made, (total, returns): (i32, u16), expected: (u16, Sums)) {
        let mut sums = sums(total, returns, 77);
        let number = archive::call_totalling(
            &mut made.table,
            &mut made.tally,
            made.start,
            &made.frame,
            &mut made.reply,
            &mut sums,
        );
        assert_eq!((number, sums), expected);
    }

    #[test]
    fn the_change_is_written_unless_the_number_is_108() {
        assert_leaves(give_back(), (-3, 5), (0, sums(-4, 6, -1)));
        for (number, made) in refused() {
            assert_leaves(made, (-3, 5), (number, sums(-3, 5, 0)));
        }
    }

    #[test]
    fn with_108_the_change_stays() {
        for (total, returns) in [(0, 30_000), (1, 0), (65_536, 1), (-65_536, 1)] {
            let stays = (108, sums(total, returns, 77));
            assert_leaves(give_back(), (total, returns), stays);
            for (_, made) in refused() {
                assert_leaves(made, (total, returns), stays);
            }
        }
    }
}
