//! Two cards that are sent the same frames from different starts.
//!
//! A start decides which slot a setup takes, and so the order of a list, and
//! which handles are left off one that has no room for all. Nothing else of a
//! reply depends on it, and neither tally nor history does.

use crate::frames::{frame, Asker};
use crate::starts::{inside, outside};
use crate::tables::{blank, reply_buffer};
use driver::Call;
use random::Rng;
use reference::ledger::{agrees, Ledger};
use reference::{read_request, slot, table, Handle, ReadRequest, HANDLE_BYTES};

/// The bytes of a list's reply before its handles: head and list byte.
const BEFORE_HANDLES: usize = 5;

/// In how many calls the two cards differed, where they may.
#[derive(Clone, Copy, Debug, Default, PartialEq, Eq)]
pub struct Differed {
    /// The call left the records in other slots.
    pub in_slots: u64,
    /// It gave the handles of a list in another order.
    pub in_order: u64,
    /// It left other handles off a list.
    pub in_handles: u64,
}

/// Makes this many calls on each of two blank cards of this many slots, both
/// with the same frames, and checks that nothing differs but what a start
/// decides. `call` makes a call on card 0 or 1, with a start, a frame and a
/// reply buffer.
///
/// # Panics
///
/// Where something else differs, or a table and its history.
pub fn compare_cards(
    rng: &mut Rng,
    slots: usize,
    calls: usize,
    mut call: impl FnMut(usize, u64, &[u8], &[u8]) -> Call,
) -> Differed {
    let asker = Asker::new(slots);
    let mut pair = Pair::default();
    let mut table = blank(slots);
    for _ in 0..calls {
        let frame = next_frame(rng, &asker, &table);
        let buffer = reply_buffer(rng);
        let start: fn(&mut Rng, usize) -> u64 = match rng.below(20) {
            0 => outside,
            _ => inside,
        };
        let given = [0, 1].map(|card| call(card, start(rng, slots), &frame, &buffer));
        pair.check(&frame, &given);
        [Call { table, .. }, _] = given;
    }
    pair.differed
}

/// The next frame for cards with these records. One in eight is to remove one of
/// them, so that a setup mostly has several empty slots to choose from; a record
/// under a handle that was spoiled would stay for ever otherwise. One in eight
/// lists all handles, or as many as there is room for.
fn next_frame(rng: &mut Rng, asker: &Asker, table: &[u8]) -> Vec<u8> {
    let slots = table::slots(table);
    match rng.below(8) {
        0 => {
            let handle = slot::handle(&slots[rng.below(slots.len())]);
            frame(rng.pick(&[6, 7]), 0x80, &handle)
        }
        1 => frame(8, 0x80, &[0, rng.pick(&[0, 0, 10, 20, 40]), 0]),
        _ => asker.frame(rng),
    }
}

/// What each of two cards has been told, and how they differed.
#[derive(Default)]
struct Pair {
    ledgers: [Ledger; 2],
    differed: Differed,
}

impl Pair {
    /// Checks the next call on both cards.
    fn check(&mut self, frame: &[u8], given: &[Call; 2]) {
        let [one, other] = given;
        assert_eq!(one.number, other.number, "{frame:02x?}");
        if gives_a_list(one) {
            self.check_lists(&one.reply, &other.reply);
        } else {
            assert!(one.reply == other.reply, "{frame:02x?}");
        }
        assert_eq!(one.tally, other.tally, "{frame:02x?}");
        let [slots, others] = [one, other].map(|call| table::slots(&call.table));
        assert!(sorted(slots) == sorted(others), "{frame:02x?}: the records");
        self.differed.in_slots += u64::from(slots != others);
        for (ledger, call) in self.ledgers.iter_mut().zip(given) {
            tell(ledger, frame, call);
            agrees(ledger, &call.table).expect("the table agrees with its history");
        }
        assert!(
            self.ledgers[0] == self.ledgers[1],
            "{frame:02x?}: the history"
        );
    }

    /// Checks the reply buffers of two lists: they are equally long, say alike
    /// whether a handle was left off, and have the same handles if none was.
    fn check_lists(&mut self, one: &[u8], other: &[u8]) {
        assert_eq!(one[..BEFORE_HANDLES], other[..BEFORE_HANDLES]);
        let end = 4 + usize::from(u16::from_be_bytes([one[2], one[3]]));
        assert!(one[end..] == other[end..], "the rest of the buffer");
        let [listed, others]: [&[Handle]; 2] =
            [one, other].map(|reply| reply[BEFORE_HANDLES..end].as_chunks::<HANDLE_BYTES>().0);
        let same = sorted(listed) == sorted(others);
        let left_off = one[4] != 0;
        assert!(same || left_off, "the handles of a whole list");
        self.differed.in_order += u64::from(same && listed != others);
        self.differed.in_handles += u64::from(!same);
    }
}

/// Whether a call gave the reply of a successful handle list query.
fn gives_a_list(call: &Call) -> bool {
    call.number == 0 && call.reply[..2] == [0x28, 0]
}

/// Slots or handles in an order of their own.
fn sorted<T: Ord + Copy>(items: &[T]) -> Vec<T> {
    let mut items = items.to_vec();
    items.sort_unstable();
    items
}

/// Tells the ledger of a card the request, if the frame is one and had a reply.
fn tell(ledger: &mut Ledger, frame: &[u8], call: &Call) {
    if let (0, ReadRequest::Request(request)) = (call.number, read_request(frame)) {
        ledger.tell(&request, call.reply[1] & 0x7F);
    }
}
