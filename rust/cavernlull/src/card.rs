//! A card: a table of slots with its tally, and the agent that answers requests
//! about it.

use crate::archive;
use crate::{CallError, Error, Listing, Reply, Report, Request, Tally, Verdict};
use crate::{SalvageError, TallyError, TurnError};
use crate::{MOST_SLOTS, REPLY_ROOM, SLOT_BYTES};
use std::fmt;

/// A card, over a table that it owns (`Card`) or is lent
/// (`Card<&mut [u8]>`).
///
/// A table is 1 to 15 slots of [`SLOT_BYTES`] bytes. A card may be made over any
/// bytes: the agent looks at them at each call, and answers no request where
/// the bytes are not a well-formed table. Where a worn block has damaged some
/// slots, a [salvage](Card::salvage) keeps the others.
///
/// Beside its table a card has the table's [`tally`](Card::tally), which says how
/// the card is filled. A card works it out when it is made, and each call brings
/// it up to date. One who stores the tally with the table
/// [hands it in](Card::with_tally) instead.
///
/// ```
/// use cavernlull::{CallError, Card, Error, Handle, Request, Verdict, SLOT_BYTES};
///
/// let mut memory = [0; 2 * SLOT_BYTES];
/// let mut card = Card::over(&mut memory);
/// let setup = Request::InstallationSetup { handle: Handle([7; 10]), room: 300 };
/// card.call(&setup, Verdict::Held)?;
/// assert_eq!(memory[1..11], [7; 10]);
///
/// let mut no_card = Card::from(vec![0; 100]);
/// let refused = no_card.call(&setup, Verdict::Held);
/// assert_eq!(refused, Err(Error::Call(CallError::TableLength)));
/// # Ok::<(), Error>(())
/// ```
#[derive(Clone)]
pub struct Card<T = Vec<u8>> {
    table: T,
    /// The table's tally. It is all zeros where the bytes are no table, and may
    /// be any numbers where it was handed in.
    tally: Tally,
}

impl Card {
    /// A card whose slots are all empty. Unless there are 1 to 15, every call
    /// is [`CallError::TableLength`].
    pub fn blank(slots: usize) -> Card {
        Card::with_tally(vec![0; slots * SLOT_BYTES], Tally::blank(slots))
    }
}

impl From<Vec<u8>> for Card {
    /// A card over these bytes as its table. Works out their tally.
    fn from(table: Vec<u8>) -> Card {
        let tally = tally_or_zeros(&table);
        Card::with_tally(table, tally)
    }
}

impl<'table> Card<&'table mut [u8]> {
    /// A card over a table that is lent. Works out its tally.
    pub fn over(table: &'table mut [u8]) -> Card<&'table mut [u8]> {
        let tally = tally_or_zeros(table);
        Card::with_tally(table, tally)
    }
}

/// The tally of a table, or all zeros where the bytes are none: the call refuses
/// such bytes before it looks at the tally.
fn tally_or_zeros(table: &[u8]) -> Tally {
    Tally::of(table).unwrap_or_default()
}

impl<T: AsRef<[u8]> + AsMut<[u8]>> Card<T> {
    /// A card over a table, owned or lent, whose tally was kept beside it.
    /// Neither is looked at: this is for one who stores a card and takes it up
    /// again, and need not have its tally worked out each time.
    ///
    /// If it is not the table's tally, no call is answered, and none changes
    /// anything: each is [`CallError::TallyDiffers`], unless it is refused for
    /// its buffer, its start or its table first. That lasts until
    /// [`retally`](Card::retally) works the tally out.
    ///
    /// ```
    /// use cavernlull::{CallError, Card, Error, Handle, Request, Tally, Verdict};
    ///
    /// let setup = |n| Request::InstallationSetup { handle: Handle([n; 10]), room: 300 };
    /// let mut card = Card::blank(2);
    /// card.call(&setup(1), Verdict::Held)?;
    /// let (table, tally) = card.into_parts();
    ///
    /// // The card is taken up again: first with its tally, then with a wrong one.
    /// let mut card = Card::with_tally(table.clone(), tally);
    /// card.call(&setup(2), Verdict::Held)?;
    /// assert_eq!(card.tally(), Tally { reserved: 2, ..Tally::default() });
    ///
    /// let mut card = Card::with_tally(table, Tally::blank(2));
    /// let refused = card.call(&setup(2), Verdict::Held);
    /// assert_eq!(refused, Err(Error::Call(CallError::TallyDiffers)));
    /// assert_eq!(card.retally()?, tally);
    /// card.call(&setup(2), Verdict::Held)?;
    /// # Ok::<(), Error>(())
    /// ```
    pub fn with_tally(table: T, tally: Tally) -> Card<T> {
        Card { table, tally }
    }

    /// How the card is filled: the tally of its table, as the last call left
    /// it. All numbers are 0 where the bytes are not a well-formed table. Where
    /// a tally was [handed in](Card::with_tally), it is that one until a call
    /// is answered.
    pub fn tally(&self) -> Tally {
        self.tally
    }

    /// Works the tally out afresh from the table, and gives it. A card whose
    /// tally was not [handed in](Card::with_tally) never needs it.
    ///
    /// # Errors
    ///
    /// Where the bytes are not 1 to 15 slots, or not a well-formed table. The
    /// card keeps what it had as its tally then.
    pub fn retally(&mut self) -> Result<Tally, TallyError> {
        self.tally = Tally::of(self.table())?;
        Ok(self.tally)
    }

    /// Has the card answer a request: writes its frame, with the front end's
    /// verdict, calls the agent and reads the reply.
    ///
    /// A setup takes the lowest empty slot; [`call_from`](Card::call_from) has
    /// it look from another slot on.
    ///
    /// A request that the card refuses to carry out is not an error: it is a
    /// [`Reply::Refused`].
    ///
    /// # Errors
    ///
    /// [`Error::Write`] where an installation has no hash, where there are too
    /// many, or where a payload has a wrong length; [`Error::Call`] where the
    /// bytes are not a well-formed table, or have another tally than the one
    /// [handed in](Card::with_tally). Nothing is changed then.
    pub fn call(&mut self, request: &Request, verdict: Verdict) -> Result<Reply, Error> {
        self.call_from(0, request, verdict)
    }

    /// Has the card answer a request as [`call`](Card::call) does, and gives
    /// it a start: the slot, counted from 0, at which a setup begins to look
    /// for an empty one. It looks upward from there and, after the last slot,
    /// from slot 0 up to the slot before the start, and takes the first that
    /// is empty.
    ///
    /// Only a setup uses the start. A [`Rotation`](crate::Rotation) chooses
    /// starts by which all slots wear alike.
    ///
    /// # Errors
    ///
    /// Those of [`call`](Card::call), and [`CallError::StartOutside`] where the
    /// card has no such slot, whatever the kind of the request.
    ///
    /// ```
    /// use cavernlull::{CallError, Card, Error, Handle, Request, Verdict};
    ///
    /// let mut card = Card::blank(3);
    /// for (n, room) in [(1, 100), (2, 200)] {
    ///     let setup = Request::InstallationSetup { handle: Handle([n; 10]), room };
    ///     card.call_from(2, &setup, Verdict::Held)?;
    /// }
    /// assert_eq!(
    ///     card.listing().as_str(),
    ///     "slot place hashes count length\n0 reserved 0 0 200\n1 empty 0 0 0\n2 reserved 0 0 100\n"
    /// );
    ///
    /// let list = Request::HandleListQuery { limit: 0, hashes: vec![] };
    /// let refused = card.call_from(3, &list, Verdict::Held);
    /// assert_eq!(refused, Err(Error::Call(CallError::StartOutside)));
    /// # Ok::<(), Error>(())
    /// ```
    pub fn call_from(
        &mut self,
        start: usize,
        request: &Request,
        verdict: Verdict,
    ) -> Result<Reply, Error> {
        let mut frame = request.to_frame()?;
        verdict.put_into(&mut frame);
        let mut reply = [0; REPLY_ROOM];
        let answer = self.call_frame_from(start, &frame, &mut reply)?;
        Ok(Reply::read(answer)?)
    }

    /// Has the card answer a request frame. Writes the reply at the front of
    /// the buffer and gives that part of it; the bytes after it keep what they
    /// held. A setup takes the lowest empty slot.
    ///
    /// # Errors
    ///
    /// Where the buffer has fewer than [`REPLY_ROOM`] bytes, the bytes are not a
    /// well-formed table or not a frame, or the table has another tally than
    /// the one [handed in](Card::with_tally). Neither table, nor tally, nor
    /// buffer is changed then.
    ///
    /// ```
    /// use cavernlull::{Card, REPLY_ROOM};
    ///
    /// let mut card = Card::blank(1);
    /// let mut buffer = [0; REPLY_ROOM];
    /// let reply = card.call_frame(&[0x2A, 0x80, 0, 0], &mut buffer)?;
    /// assert_eq!(reply, [0x2A, 3, 0, 0], "there is no kind 10");
    /// # Ok::<(), cavernlull::CallError>(())
    /// ```
    pub fn call_frame<'reply>(
        &mut self,
        frame: &[u8],
        reply: &'reply mut [u8],
    ) -> Result<&'reply [u8], CallError> {
        self.call_frame_from(0, frame, reply)
    }

    /// Has the card answer a request frame as [`call_frame`](Card::call_frame)
    /// does, with a start for a setup, as [`call_from`](Card::call_from) has.
    ///
    /// # Errors
    ///
    /// Those of [`call_frame`](Card::call_frame), and
    /// [`CallError::StartOutside`] where the card has no such slot, whatever
    /// the frame. Neither table, nor tally, nor buffer is changed then.
    pub fn call_frame_from<'reply>(
        &mut self,
        start: usize,
        frame: &[u8],
        reply: &'reply mut [u8],
    ) -> Result<&'reply [u8], CallError> {
        let (table, tally) = self.parts_mut();
        CallError::of(archive::call(table, tally, start, frame, reply))?;
        Ok(archive::frame_in(reply))
    }

    /// The table and its tally, to be lent to the archive.
    pub(crate) fn parts_mut(&mut self) -> (&mut [u8], &mut Tally) {
        (self.table.as_mut(), &mut self.tally)
    }

    /// Turns an old table, once: a table that a version before 3.0.0 wrote, in
    /// which a count of 0 says that none is kept. Each record whose count is
    /// not 0 gets the bit that says that one is kept; no other byte changes.
    ///
    /// Until it is turned, an old table with a count is
    /// [not well formed](CallError::TableNotWellFormed) to the agent, and has no
    /// tally. Afterwards the card has the tally of its table, whatever it had
    /// before.
    ///
    /// # Errors
    ///
    /// Where the bytes are not 1 to 15 slots, or not a well-formed old table.
    /// A table in which a count is kept is not one: it is not turned again.
    /// Neither a byte nor the tally is changed then.
    ///
    /// ```
    /// use cavernlull::{Card, Handle, Reply, Request, TurnError, Verdict, SLOT_BYTES};
    ///
    /// // An old image: one right, with a count of 3 and a payload of one byte.
    /// let mut image = vec![0; SLOT_BYTES];
    /// image[0] = 0x80;
    /// image[1..11].fill(7);
    /// (image[28], image[30], image[192]) = (3, 1, b'!');
    ///
    /// let mut card = Card::from(image);
    /// let query = Request::RightsInformationQuery { handle: Handle([7; 10]) };
    /// assert!(card.call(&query, Verdict::Held).is_err());
    /// card.turn()?;
    /// assert_eq!((card.tally().enabled, card.tally().payload), (1, 1));
    /// let told = Reply::Information { count: Some(3), payload: b"!".to_vec() };
    /// assert_eq!(card.call(&query, Verdict::Held)?, told);
    /// assert_eq!(card.turn(), Err(TurnError::TableNotWellFormed));
    /// # Ok::<(), cavernlull::Error>(())
    /// ```
    pub fn turn(&mut self) -> Result<(), TurnError> {
        TurnError::of(archive::turn(self.table.as_mut()))?;
        self.tally = Tally::of(self.table()).expect("a turned table is well formed");
        Ok(())
    }

    /// Salvages a damaged card: keeps every slot that is in order, and clears
    /// every other, so that the agent answers requests again. The report says
    /// what was found of each slot.
    ///
    /// A slot that is not well formed by itself is
    /// [damaged](crate::Finding::Damaged), and is cleared. Then, where two or
    /// more slots that are not empty have one handle, the lowest is kept; the
    /// others are [repeated](crate::Finding::Repeated), and are cleared. A
    /// cleared slot is all zeros, and no byte of any other slot changes.
    ///
    /// The table left is well formed, and the card has its tally, whatever it
    /// had before. A second salvage clears nothing, nor does one of a card that
    /// is not damaged.
    ///
    /// An old table with counts is [turned](Card::turn) first: a count without
    /// its bit is damage to a salvage, and its right is lost.
    ///
    /// # Errors
    ///
    /// [`SalvageError::TableLength`] where the bytes are not 1 to 15 slots.
    /// Neither a byte nor the tally is changed then.
    ///
    /// ```
    /// use cavernlull::{Card, Finding, Handle, Request, Verdict, SLOT_BYTES};
    ///
    /// let mut card = Card::blank(3);
    /// for n in [1, 2] {
    ///     let setup = Request::InstallationSetup { handle: Handle([n; 10]), room: 300 };
    ///     card.call(&setup, Verdict::Held)?;
    /// }
    ///
    /// // A worn block sets a bit in slot 0. The agent refuses the whole card.
    /// let mut image = card.into_table();
    /// image[191] ^= 1;
    /// let mut card = Card::from(image);
    /// let give_up = Request::HandleRemoval { handle: Handle([2; 10]) };
    /// assert!(card.call(&give_up, Verdict::Held).is_err());
    ///
    /// let report = card.salvage()?;
    /// assert_eq!(report.cleared(), 1);
    /// assert_eq!(report.findings(), [Finding::Damaged, Finding::Kept, Finding::Kept]);
    /// assert!(card.table()[..SLOT_BYTES].iter().all(|byte| *byte == 0));
    /// assert_eq!((card.tally().empty, card.tally().reserved), (2, 1));
    /// card.call(&give_up, Verdict::Held)?;
    /// # Ok::<(), Box<dyn std::error::Error>>(())
    /// ```
    pub fn salvage(&mut self) -> Result<Report, SalvageError> {
        let mut bytes = [0; MOST_SLOTS];
        self.salvage_into(&mut bytes)?;
        Ok(Report::read(&bytes[..self.table().len() / SLOT_BYTES]))
    }

    /// Salvages a damaged card as [`salvage`](Card::salvage) does, and writes
    /// the report as bytes: byte *i* of the buffer becomes the
    /// [number](crate::Finding::number) of what was found of slot *i*. The
    /// bytes after that of the last slot keep what they held. Gives how many
    /// slots were cleared.
    ///
    /// This is for one who hands the report on as it is. [`MOST_SLOTS`] bytes
    /// are enough for every card.
    ///
    /// # Errors
    ///
    /// Where the bytes are not 1 to 15 slots, or the buffer has fewer bytes than
    /// there are slots. Neither table, nor tally, nor buffer is changed then.
    ///
    /// ```
    /// use cavernlull::{Card, SalvageError, SLOT_BYTES};
    ///
    /// let mut image = vec![0; 2 * SLOT_BYTES];
    /// image[SLOT_BYTES + 191] = 1;
    /// let mut card = Card::from(image);
    /// let mut report = [0xEE; 4];
    /// let short = card.salvage_into(&mut report[..1]);
    /// assert_eq!(short, Err(SalvageError::ReportBufferShort));
    /// assert_eq!(card.salvage_into(&mut report), Ok(1));
    /// assert_eq!(report, [0, 1, 0xEE, 0xEE]);
    /// ```
    pub fn salvage_into(&mut self, report: &mut [u8]) -> Result<usize, SalvageError> {
        let cleared = SalvageError::of(archive::salvage(self.table.as_mut(), report))?;
        self.tally = Tally::of(self.table()).expect("a salvaged table is well formed");
        Ok(cleared)
    }

    /// The table.
    pub fn table(&self) -> &[u8] {
        self.table.as_ref()
    }

    /// What is in the slots, as text.
    pub fn listing(&self) -> Listing {
        Listing::of(self.table())
    }
}

impl<T> Card<T> {
    /// Gives the table back.
    pub fn into_table(self) -> T {
        self.table
    }

    /// Gives the table back with its tally, as
    /// [`with_tally`](Card::with_tally) takes them.
    pub fn into_parts(self) -> (T, Tally) {
        (self.table, self.tally)
    }
}

/// Shows only how long the table is, since it holds keys.
impl<T: AsRef<[u8]>> fmt::Debug for Card<T> {
    fn fmt(&self, f: &mut fmt::Formatter<'_>) -> fmt::Result {
        write!(f, "Card({} bytes)", self.table.as_ref().len())
    }
}
