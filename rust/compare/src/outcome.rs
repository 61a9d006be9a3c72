//! Which outcomes calls had, and which they must have had.

use crate::frames::frame as request_frame;
use crate::tallies::tally_of;
use driver::{Call, Read, Same};
use reference::number::DONE;
use reference::slot::SlotBytes;
use reference::{read_request, slot, table, Count, Kind, Place, ReadRequest};
use reference::{HANDLE_BYTES, HASH_BYTES, MAX_PAYLOAD, REPLY_ROOM};
use std::cmp::Ordering;
use std::collections::BTreeMap;
use std::fmt;

/// What a frame says of a count, in short.
#[derive(Clone, Copy, Debug, PartialEq, Eq, PartialOrd, Ord)]
pub enum Counted {
    /// It has no count.
    Nothing,
    /// No count is kept.
    NotKept,
    /// A count is kept, and it is 0.
    UsedUp,
    /// A count is kept, and it is not 0.
    Left,
}

impl Counted {
    /// All that a count can be.
    pub const COUNTS: [Counted; 3] = [Counted::NotKept, Counted::UsedUp, Counted::Left];

    /// What a frame with this count says.
    pub fn of(count: Count) -> Counted {
        match count {
            Count::NotKept => Counted::NotKept,
            Count::Kept(0) => Counted::UsedUp,
            Count::Kept(_) => Counted::Left,
        }
    }

    /// What this bit and the two bytes at this offset say.
    fn at(kept: bool, bytes: &[u8], offset: usize) -> Counted {
        let number = u16::from_be_bytes([bytes[offset], bytes[offset + 1]]);
        Count::said(kept, number).map_or(Counted::Nothing, Counted::of)
    }
}

impl fmt::Display for Counted {
    fn fmt(&self, f: &mut fmt::Formatter<'_>) -> fmt::Result {
        f.write_str(match self {
            Counted::Nothing => "no count",
            Counted::NotKept => "none kept",
            Counted::UsedUp => "kept, 0",
            Counted::Left => "kept, not 0",
        })
    }
}

/// The outcome of a call, in short.
#[derive(Clone, Copy, Debug, PartialEq, Eq, PartialOrd, Ord)]
pub enum Outcome {
    /// The call gave this number, and no reply.
    Refused(u16),
    /// The call gave a reply of this kind, 0 to 31, with this status.
    Replied {
        /// The kind in the reply.
        kind: u8,
        /// The status in the reply.
        status: u8,
        /// The count that a success was asked to store, by kind 2 or 5, or gave,
        /// by kind 3 or 9.
        counted: Counted,
    },
}

impl Outcome {
    /// The outcome of a call that gave this number for this frame and left this
    /// reply buffer. The count's bit is taken from the status where a reply may
    /// have it, and nowhere else.
    pub fn of(number: u16, frame: &[u8], reply: &[u8]) -> Outcome {
        if number != 0 {
            return Outcome::Refused(number);
        }
        let kind = reply[0] & 31;
        let asked = |offset| Counted::at(frame[1] & 0x40 != 0, frame, offset);
        let given = |offset| Counted::at(reply[1] & 0x80 != 0, reply, offset);
        let (status, counted) = match (kind, reply[1]) {
            (2, 0x00) => (0, asked(4 + 10 + 16)),
            (5, 0x00) => (0, asked(4 + 10)),
            (3, 0x00 | 0x80) => (0, given(4 + 16)),
            (9, 0x00 | 0x80) => (0, given(4)),
            (_, status) => (status, Counted::Nothing),
        };
        Outcome::Replied {
            kind,
            status,
            counted,
        }
    }
}

impl fmt::Display for Outcome {
    fn fmt(&self, f: &mut fmt::Formatter<'_>) -> fmt::Result {
        match self {
            Outcome::Refused(number) => write!(f, "{number}"),
            Outcome::Replied {
                kind,
                status,
                counted,
            } => write!(f, "kind {kind} status {status}, {counted}"),
        }
    }
}

/// Which slot a setup took, as seen from its start.
#[derive(Clone, Copy, Debug, PartialEq, Eq, PartialOrd, Ord)]
pub enum Taken {
    /// The slot that it started from.
    Start,
    /// A slot above that one.
    Above,
    /// A slot below it: the search wrapped round.
    Below,
    /// None, with status 7: no slot is empty.
    Nothing,
}

/// A setup that looked for an empty slot.
#[derive(Clone, Copy, Debug, PartialEq, Eq, PartialOrd, Ord)]
pub struct Search {
    /// Whether it started from slot 0.
    pub from_0: bool,
    /// Which slot it took.
    pub taken: Taken,
}

impl Search {
    /// The search that a call with this start and this frame made; `None` where
    /// it made none.
    pub fn of(start: u64, frame: &[u8], call: &Call) -> Option<Search> {
        let (0, ReadRequest::Request(request)) = (call.number, read_request(frame)) else {
            return None;
        };
        if request.kind != Kind::InstallationSetup {
            return None;
        }
        let taken = match call.reply[1] {
            0 => {
                let mut slots = table::slots(&call.table).iter();
                let at = slots.position(|slot| slot::has_handle(slot, &request.fields.handle))?;
                match (at as u64).cmp(&start) {
                    Ordering::Equal => Taken::Start,
                    Ordering::Greater => Taken::Above,
                    Ordering::Less => Taken::Below,
                }
            }
            7 if usize::from(request.fields.length) <= MAX_PAYLOAD => Taken::Nothing,
            _ => return None,
        };
        let from_0 = start == 0;
        Some(Search { from_0, taken })
    }
}

impl fmt::Display for Search {
    fn fmt(&self, f: &mut fmt::Formatter<'_>) -> fmt::Result {
        let from = if self.from_0 { "0" } else { "another slot" };
        let taken = match self.taken {
            Taken::Start => "that slot taken",
            Taken::Above => "a slot above taken",
            Taken::Below => "a slot below taken",
            Taken::Nothing => "none is empty",
        };
        write!(f, "setup from {from}: {taken}")
    }
}

/// What came of a request about rights without a hash (PROFILE 2.9).
#[derive(Clone, Copy, Debug, PartialEq, Eq, PartialOrd, Ord)]
pub enum Unhashed {
    /// An installation without a hash was answered.
    Installation {
        /// The status that it had.
        status: u8,
        /// The status that the same request has with a hash.
        with_one: u8,
    },
    /// A list from which no handle was left off.
    List {
        /// Whether handles were asked for by hash, and not all of them.
        by_hash: bool,
        /// Whether the handle of an enabled record without a hash was on it.
        listed: bool,
    },
    /// A request about a record without a hash succeeded.
    Success {
        /// The kind.
        kind: u8,
        /// The place of the record before.
        from: Place,
        /// The place of its slot afterwards.
        to: Place,
    },
    /// The reply to kind 3 was read back, and has no hash.
    ReadBack,
}

impl Unhashed {
    /// All that came of a call with this frame on the table `before`.
    pub fn all_of(before: &[u8], frame: &[u8], call: &Call) -> Vec<Unhashed> {
        if call.number != DONE {
            return Vec::new();
        }
        match (call.reply[0] & 31, call.reply[1]) {
            (2, status) => {
                let with_one = status_with_a_hash(before, frame);
                let installation = |with_one| Unhashed::Installation { status, with_one };
                with_one.map(installation).into_iter().collect()
            }
            (8, 0) if call.reply[4] == 0 => listed(before, frame[6] > 0, &call.reply),
            (kind @ (4..=6), 0) | (kind @ (3 | 9), 0 | 0x80) => {
                success(before, kind, &frame[4..4 + HANDLE_BYTES], call)
                    .into_iter()
                    .collect()
            }
            _ => Vec::new(),
        }
    }

    /// What came of reading a reply to kind 3 back; `None` where it has a hash.
    pub fn of_reply(read: &Read) -> Option<Unhashed> {
        let [kind, status, _, hashes, ..] = read.numbers;
        ((read.number, kind, status, hashes) == (DONE, 3, 0, 0)).then_some(Unhashed::ReadBack)
    }

    /// All that can occur. An installation without a hash is status 2 whatever it
    /// is with one, but for 1, whose test comes before (PROFILE 5.2).
    pub fn that_can_occur() -> Vec<Unhashed> {
        use Place::{Disabled, Empty, Enabled};
        let installations = [(2, 0), (1, 1), (2, 2), (2, 4), (2, 6), (2, 7)];
        let lists = [(false, true), (true, false)];
        let successes = [
            (3, Enabled, Disabled),
            (4, Enabled, Disabled),
            (5, Disabled, Enabled),
            (5, Enabled, Enabled),
            (6, Enabled, Empty),
            (6, Disabled, Empty),
            (9, Enabled, Enabled),
        ];
        let mut all = vec![Unhashed::ReadBack];
        all.extend(
            installations.map(|(status, with_one)| Unhashed::Installation { status, with_one }),
        );
        all.extend(lists.map(|(by_hash, listed)| Unhashed::List { by_hash, listed }));
        all.extend(successes.map(|(kind, from, to)| Unhashed::Success { kind, from, to }));
        all
    }
}

/// The status that the request has on this table if a hash is put into it;
/// `None` where it is not of the shape of an installation without a hash, or too
/// long to have one.
fn status_with_a_hash(table: &[u8], frame: &[u8]) -> Option<u8> {
    const HASH_BYTE: usize = 10 + 16 + 2;
    let mut body = frame[4..].to_vec();
    if body.len() <= HASH_BYTE + 1 || body[HASH_BYTE] >> 4 != 0 {
        return None;
    }
    body[HASH_BYTE] |= 0x10;
    body.splice(HASH_BYTE + 1..HASH_BYTE + 1, [1; HASH_BYTES]);
    u16::try_from(body.len()).ok()?;
    let mut hashed = request_frame(2, frame[1], &body);
    hashed[0] = frame[0];
    let (mut table, mut tally) = (table.to_vec(), tally_of(table).into());
    let mut reply = [0; REPLY_ROOM];
    let number = reference::call(&mut table, &mut tally, 0, &hashed, &mut reply);
    (number == DONE).then_some(reply[1])
}

/// For each enabled record without a hash, whether its handle is on a list.
fn listed(table: &[u8], by_hash: bool, reply: &[u8]) -> Vec<Unhashed> {
    let end = 4 + usize::from(u16::from_be_bytes([reply[2], reply[3]]));
    let handles = reply[5..end].as_chunks::<HANDLE_BYTES>().0;
    let slots = table::slots(table).iter();
    slots
        .filter(|slot| is_unhashed(slot) && slot::place(slot) == Place::Enabled)
        .map(|slot| Unhashed::List {
            by_hash,
            listed: handles.contains(&slot::handle(slot)),
        })
        .collect()
}

/// The success of a request about the record under this handle; `None` where the
/// record has a hash.
fn success(before: &[u8], kind: u8, handle: &[u8], call: &Call) -> Option<Unhashed> {
    let mut slots = table::slots(before).iter();
    let at = slots.position(|slot| is_unhashed(slot) && slot::handle(slot) == handle)?;
    let [from, to] = [before, &call.table].map(|table| slot::place(&table::slots(table)[at]));
    Some(Unhashed::Success { kind, from, to })
}

/// Whether the slot holds a right without a hash.
fn is_unhashed(slot: &SlotBytes) -> bool {
    slot::place(slot) >= Place::Enabled && slot::hash_count(slot) == 0
}

/// Whether each right without a hash was on the card before, in the same slot and
/// with the same key and payload (PROFILE 8.6).
///
/// # Errors
///
/// A sentence, where one has come.
pub fn none_comes(before: &[u8], after: &[u8]) -> Same {
    let slots = table::slots(before).iter().zip(table::slots(after));
    for (index, (old, new)) in slots.enumerate() {
        let same = is_unhashed(old)
            && slot::key(old) == slot::key(new)
            && slot::payload(old) == slot::payload(new);
        if is_unhashed(new) && !same {
            return Err(format!("a right without a hash has come to slot {index}"));
        }
    }
    Ok(())
}

impl fmt::Display for Unhashed {
    fn fmt(&self, f: &mut fmt::Formatter<'_>) -> fmt::Result {
        match *self {
            Unhashed::Installation { status, with_one } => {
                write!(f, "no hash, kind 2: status {status}, {with_one} with one")
            }
            Unhashed::List { by_hash, listed } => {
                let asked = if by_hash { "by hash" } else { "with all" };
                let not = if listed { "" } else { "not " };
                write!(f, "no hash, asked for {asked}: {not}listed")
            }
            Unhashed::Success { kind, from, to } => {
                let (from, to) = (from.word(), to.word());
                write!(f, "no hash, kind {kind}: {from}, then {to}")
            }
            Unhashed::ReadBack => f.write_str("no hash, kind 3: the reply read back"),
        }
    }
}

/// How often each outcome occurred.
pub type Counts = BTreeMap<Outcome, u64>;

/// How often each search occurred.
pub type Searches = BTreeMap<Search, u64>;

/// The statuses that a kind can have (PROFILE 4.2, 5).
fn statuses(kind: u8) -> &'static [u8] {
    match kind {
        1 => &[0, 1, 2, 5, 7],
        2 => &[0, 1, 2, 4, 6, 7],
        3 | 4 => &[0, 1, 2, 4, 5, 6],
        5 => &[0, 1, 2, 4, 6, 9],
        6 | 7 => &[0, 1, 2, 4, 6],
        8 => &[0, 2],
        9 => &[0, 2, 4, 6],
        _ => &[2, 3],
    }
}

/// What a request of this kind or its reply can say of a count, with this
/// status.
fn counts(kind: u8, status: u8) -> &'static [Counted] {
    match (kind, status) {
        (2 | 3 | 5 | 9, 0) => &Counted::COUNTS,
        _ => &[Counted::Nothing],
    }
}

/// Every outcome that can occur: each number, and each kind with the statuses
/// and counts that it can have.
pub fn that_can_occur() -> Vec<Outcome> {
    let mut outcomes: Vec<Outcome> = (101..=106).map(Outcome::Refused).collect();
    for kind in 0..32 {
        for &status in statuses(kind) {
            outcomes.extend(
                counts(kind, status)
                    .iter()
                    .map(|&counted| Outcome::Replied {
                        kind,
                        status,
                        counted,
                    }),
            );
        }
    }
    outcomes
}

/// Every search that can occur: below slot 0 there is none to be taken.
pub fn searches_that_can_occur() -> Vec<Search> {
    let taken = [Taken::Start, Taken::Above, Taken::Nothing];
    let from = |from_0| taken.map(|taken| Search { from_0, taken });
    let mut searches = [from(true), from(false)].concat();
    searches.push(Search {
        from_0: false,
        taken: Taken::Below,
    });
    searches
}

/// Asserts that what occurred is what can occur, and prints how often it did.
///
/// # Panics
///
/// Where something that can occur did not, or something that cannot did.
pub fn assert_all_occurred<T: Ord + Copy + fmt::Debug + fmt::Display>(
    counts: &BTreeMap<T, u64>,
    mut wanted: Vec<T>,
) {
    for (outcome, count) in counts {
        println!("{count:>9}  {outcome}");
    }
    let seen: Vec<T> = counts.keys().copied().collect();
    wanted.sort_unstable();
    let missing = wanted.iter().filter(|outcome| !seen.contains(outcome));
    let missing: Vec<String> = missing.map(T::to_string).collect();
    assert!(missing.is_empty(), "did not occur: {}", missing.join(", "));
    assert_eq!(seen, wanted, "only what can occur");
}
