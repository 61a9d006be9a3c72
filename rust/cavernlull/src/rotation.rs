//! Setups that take the slots of a card in rotation.

use crate::{CallError, Card, Error, Handle, Reply, Request, Verdict};
use crate::{Totalled, TotallingError, Totals};
use crate::{HANDLE_BYTES, SLOT_BYTES};

/// The reply to a setup that was carried out, and to nothing else.
const SETUP_DONE: [u8; 4] = [0x21, 0, 0, 0];

/// Where the handle of a setup is in its frame.
const HANDLE_AT: usize = 4;

/// The slots of a card in rotation, so that all of them wear alike: each setup
/// begins to look for an empty slot after the one that the last setup took, and
/// after the last slot at slot 0 again.
///
/// A card whose setups always begin at slot 0 writes that slot each time a
/// course comes and goes. In rotation the next course comes into the next slot:
///
/// ```
/// use cavernlull::{Card, Handle, Request, Rotation, Verdict};
///
/// let mut card = Card::blank(2);
/// let mut rotation = Rotation::new();
/// for (n, listed) in [
///     (1, "0 reserved 0 0 9\n1 empty 0 0 0\n"),
///     (2, "0 empty 0 0 0\n1 reserved 0 0 9\n"),
///     (3, "0 reserved 0 0 9\n1 empty 0 0 0\n"),
/// ] {
///     let handle = Handle([n; 10]);
///     let setup = Request::InstallationSetup { handle, room: 9 };
///     rotation.call(&mut card, &setup, Verdict::Held)?;
///     assert!(card.listing().as_str().ends_with(listed));
///     rotation.call(&mut card, &Request::HandleRemoval { handle }, Verdict::Held)?;
/// }
/// # Ok::<(), cavernlull::Error>(())
/// ```
///
/// A rotation is a number, [`start`](Rotation::start), which is not in the
/// card's table. It is saved with the table, and [taken up](Rotation::from_slot)
/// when the card is used again. Where it is lost, nothing goes wrong: setups
/// begin at slot 0 once more.
#[derive(Clone, Copy, Debug, Default, PartialEq, Eq, Hash)]
pub struct Rotation {
    start: usize,
}

impl Rotation {
    /// A rotation that begins at slot 0, as on a blank card.
    pub const fn new() -> Rotation {
        Rotation { start: 0 }
    }

    /// A rotation that begins at this slot: one that is taken up again, from
    /// its [`start`](Rotation::start).
    ///
    /// Any number will do: on a card with fewer slots, it is counted round those
    /// that there are.
    ///
    /// ```
    /// use cavernlull::{Card, Handle, Request, Rotation, Verdict};
    ///
    /// // A card is loaded with two courses, and put away.
    /// let mut card = Card::blank(3);
    /// let mut rotation = Rotation::new();
    /// let (first, second) = (Handle([1; 10]), Handle([2; 10]));
    /// for handle in [first, second] {
    ///     let setup = Request::InstallationSetup { handle, room: 9 };
    ///     rotation.call(&mut card, &setup, Verdict::Held)?;
    /// }
    /// let (start, (table, tally)) = (rotation.start(), card.into_parts());
    ///
    /// // It is emptied, and loaded again with two others.
    /// let (mut rotation, mut card) = (Rotation::from_slot(start), Card::with_tally(table, tally));
    /// for handle in [first, second] {
    ///     rotation.call(&mut card, &Request::HandleRemoval { handle }, Verdict::Held)?;
    /// }
    /// for (n, room) in [(3, 30), (4, 40)] {
    ///     let setup = Request::InstallationSetup { handle: Handle([n; 10]), room };
    ///     rotation.call(&mut card, &setup, Verdict::Held)?;
    /// }
    /// assert_eq!(
    ///     card.listing().as_str(),
    ///     "slot place hashes count length\n0 reserved 0 0 40\n1 empty 0 0 0\n2 reserved 0 0 30\n"
    /// );
    /// # Ok::<(), cavernlull::Error>(())
    /// ```
    pub const fn from_slot(slot: usize) -> Rotation {
        Rotation { start: slot }
    }

    /// The slot at which the next setup begins to look: what is saved with the
    /// card.
    pub const fn start(&self) -> usize {
        self.start
    }

    /// Has the card answer a request, as [`Card::call`] does, with the start of
    /// this rotation. After a setup that was carried out, the start is the slot
    /// after the one taken; nothing else moves it.
    ///
    /// # Errors
    ///
    /// Those of [`Card::call`]: the start is never outside the card.
    pub fn call<T: AsRef<[u8]> + AsMut<[u8]>>(
        &mut self,
        card: &mut Card<T>,
        request: &Request,
        verdict: Verdict,
    ) -> Result<Reply, Error> {
        let reply = card.call_from(self.start_on(card.table()), request, verdict)?;
        self.follow(card.table(), request, &reply);
        Ok(reply)
    }

    /// Has the card answer a request, as [`Totals::call`] does, with the start
    /// of this rotation, and moves it as [`call`](Rotation::call) does. So the
    /// slots of a card are used in turn and its returns are totalled.
    ///
    /// # Errors
    ///
    /// Those of [`Totals::call`]: the start is never outside the card.
    ///
    /// ```
    /// use cavernlull::{Card, Handle, Request, Rotation, Totals, Verdict};
    ///
    /// let mut card = Card::blank(3);
    /// let (mut rotation, mut totals) = (Rotation::new(), Totals::new());
    /// for n in [1, 2] {
    ///     let setup = Request::InstallationSetup { handle: Handle([n; 10]), room: 9 };
    ///     rotation.call_totalling(&mut totals, &mut card, &setup, Verdict::Held)?;
    /// }
    /// assert_eq!((rotation.start(), totals), (2, Totals::new()));
    /// # Ok::<(), cavernlull::TotallingError>(())
    /// ```
    pub fn call_totalling<T: AsRef<[u8]> + AsMut<[u8]>>(
        &mut self,
        totals: &mut Totals,
        card: &mut Card<T>,
        request: &Request,
        verdict: Verdict,
    ) -> Result<Totalled, TotallingError> {
        let start = self.start_on(card.table());
        let totalled = totals.call_from(card, start, request, verdict)?;
        self.follow(card.table(), request, &totalled.reply);
        Ok(totalled)
    }

    /// Has the card answer a request frame, as [`Card::call_frame`] does, with
    /// the start of this rotation, and moves it as [`call`](Rotation::call)
    /// does.
    ///
    /// # Errors
    ///
    /// Those of [`Card::call_frame`]: the start is never outside the card.
    ///
    /// ```
    /// use cavernlull::{Card, Rotation, REPLY_ROOM};
    ///
    /// let mut card = Card::blank(4);
    /// let mut rotation = Rotation::from_slot(2);
    /// let setup = [0x21, 0x80, 0, 12, 7, 7, 7, 7, 7, 7, 7, 7, 7, 7, 0, 9];
    /// let mut buffer = [0; REPLY_ROOM];
    /// let reply = rotation.call_frame(&mut card, &setup, &mut buffer)?;
    /// assert_eq!((reply, rotation.start()), (&[0x21, 0, 0, 0][..], 3));
    /// let reply = rotation.call_frame(&mut card, &setup, &mut buffer)?;
    /// assert_eq!((reply, rotation.start()), (&[0x21, 5, 0, 0][..], 3), "a duplicate");
    /// # Ok::<(), cavernlull::CallError>(())
    /// ```
    pub fn call_frame<'reply, T: AsRef<[u8]> + AsMut<[u8]>>(
        &mut self,
        card: &mut Card<T>,
        frame: &[u8],
        reply: &'reply mut [u8],
    ) -> Result<&'reply [u8], CallError> {
        let answer = card.call_frame_from(self.start_on(card.table()), frame, reply)?;
        self.follow_frame(card.table(), frame, answer);
        Ok(answer)
    }

    /// Has the card answer a request frame, as [`Totals::call_frame`] does, with
    /// the start of this rotation, and moves it as [`call`](Rotation::call)
    /// does.
    ///
    /// # Errors
    ///
    /// Those of [`Totals::call_frame`]: the start is never outside the card.
    pub fn call_frame_totalling<'reply, T: AsRef<[u8]> + AsMut<[u8]>>(
        &mut self,
        totals: &mut Totals,
        card: &mut Card<T>,
        frame: &[u8],
        reply: &'reply mut [u8],
    ) -> Result<Totalled<&'reply [u8]>, TotallingError> {
        let start = self.start_on(card.table());
        let totalled = totals.call_frame_from(card, start, frame, reply)?;
        self.follow_frame(card.table(), frame, totalled.reply);
        Ok(totalled)
    }

    /// The start on a card with this table. On one without a whole slot it is
    /// 0, and the agent refuses the table's length.
    fn start_on(&self, table: &[u8]) -> usize {
        let slots = table.len() / SLOT_BYTES;
        self.start.checked_rem(slots).unwrap_or(0)
    }

    /// Goes on after a setup that was carried out, and stays after all else.
    fn follow(&mut self, table: &[u8], request: &Request, reply: &Reply) {
        if let (Request::InstallationSetup { handle, .. }, Reply::Done(_)) = (request, reply) {
            self.pass(table, handle);
        }
    }

    /// The same for a frame and the frame of its reply.
    fn follow_frame(&mut self, table: &[u8], frame: &[u8], reply: &[u8]) {
        if reply == SETUP_DONE {
            let handle = frame[HANDLE_AT..][..HANDLE_BYTES].try_into();
            self.pass(table, &Handle(handle.expect("a setup has a handle")));
        }
    }

    /// Goes on to the slot after the one that has the record under this handle.
    fn pass(&mut self, table: &[u8], handle: &Handle) {
        let mut slots = table.chunks_exact(SLOT_BYTES);
        let count = slots.len();
        let taken = slots.position(|slot| is_under(slot, handle));
        self.start = (taken.expect("the setup was carried out") + 1) % count;
    }
}

/// Whether a slot has a record under this handle. An empty slot, which is all
/// zeros, has none (PROFILE 2.4).
fn is_under(slot: &[u8], handle: &Handle) -> bool {
    slot[0] != 0 && slot[1..=HANDLE_BYTES] == handle.0
}
