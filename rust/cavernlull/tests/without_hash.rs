//! Rights without an asset hash: none comes onto a card (PROFILE 5.2), and those
//! that a card holds are used like any other (PROFILE 2.9).

use cavernlull::{AssetHash, Card, Error, Handle, Key, Kind, Reply, Request, Right, Tally};
use cavernlull::{Verdict, WriteError, HASH_BYTES, REPLY_ROOM, SLOT_BYTES};

const COURSE: Handle = Handle([1; 10]);
const BORROWER: Handle = Handle([2; 10]);
const LENT: Handle = Handle([3; 10]);
const OTHER: Handle = Handle([4; 10]);

const ASSET: AssetHash = AssetHash([0xA1; HASH_BYTES]);

const RESERVED: u8 = 1;
const ENABLED: u8 = 2;
const DISABLED: u8 = 3;

/// A right without a hash.
fn old_right(count: Option<u16>) -> Right {
    Right {
        key: Key([0xC5; 16]),
        count,
        hashes: vec![],
        payload: b"brazing".to_vec(),
    }
}

/// The bytes of a slot (PROFILE 2.2).
fn slot(place: u8, handle: Handle, right: &Right) -> Vec<u8> {
    let mut slot = vec![0; SLOT_BYTES];
    slot[0] = place << 6 | (right.hashes.len() as u8) << 2 | u8::from(right.count.is_some()) << 1;
    slot[1..11].copy_from_slice(&handle.0);
    slot[11..27].copy_from_slice(&right.key.0);
    slot[27..29].copy_from_slice(&right.count.unwrap_or(0).to_be_bytes());
    slot[29..31].copy_from_slice(&(right.payload.len() as u16).to_be_bytes());
    for (hash, bytes) in right.hashes.iter().zip(slot[31..].chunks_mut(HASH_BYTES)) {
        bytes.copy_from_slice(&hash.0);
    }
    slot[192..192 + right.payload.len()].copy_from_slice(&right.payload);
    slot
}

fn empty() -> Vec<u8> {
    vec![0; SLOT_BYTES]
}

/// A slot that is reserved for 300 bytes under the handle of the course.
fn reserved() -> Vec<u8> {
    let mut slot = empty();
    slot[0] = RESERVED << 6;
    slot[1..11].copy_from_slice(&COURSE.0);
    slot[29..31].copy_from_slice(&300u16.to_be_bytes());
    slot
}

/// Asserts that a card has these slots and, in their order, the numbers of this
/// tally (PROFILE 2.8).
fn assert_holds(card: &Card, slots: &[Vec<u8>], numbers: [u16; 5], after: &str) {
    assert!(card.table() == slots.concat(), "after {after}");
    let [empty, reserved, enabled, disabled, payload] = numbers;
    let tally = Tally {
        empty,
        reserved,
        enabled,
        disabled,
        payload,
    };
    assert_eq!(card.tally(), tally, "after {after}");
    assert_eq!(Tally::of(card.table()), Ok(tally), "after {after}");
}

/// Asserts that an installation of this right is not sent, and that the card
/// stays as it was.
fn assert_not_installed(card: &mut Card, right: Right) {
    let handle = COURSE;
    let installation = Request::RightsInstallation { handle, right };
    assert_eq!(installation.to_frame(), Err(WriteError::NoHash));
    let (table, tally) = card.clone().into_parts();
    for verdict in [Verdict::Held, Verdict::Failed] {
        let refused = card.call(&installation, verdict);
        assert_eq!(refused, Err(Error::Write(WriteError::NoHash)));
    }
    assert!(card.table() == table && card.tally() == tally);
}

#[test]
fn no_right_is_installed_without_a_hash() {
    for mut card in [Card::blank(1), Card::from(reserved())] {
        for count in [None, Some(0), Some(7)] {
            assert_not_installed(&mut card, old_right(count));
        }
    }
}

/// An installation by its bytes: the count's bit, the hash byte, and so many bytes
/// of hashes and payload.
fn installation(kept: u8, hash_byte: u8, rest: usize) -> Vec<u8> {
    let [high, low] = (29 + rest as u16).to_be_bytes();
    let head = [0x22, 0x80 | kept, high, low];
    let fields = [&COURSE.0[..], &[0xC5; 16], &[0, 0, hash_byte]].concat();
    [&head[..], &fields, &vec![0xEE; rest]].concat()
}

/// Asserts that the card answers a frame with this status and no body, and that
/// with any status but 0 it stays as it was.
fn assert_answers(card: &mut Card, frame: &[u8], status: u8) {
    let (table, tally) = card.clone().into_parts();
    let mut buffer = [0; REPLY_ROOM];
    let reply = card.call_frame(frame, &mut buffer);
    assert_eq!(reply, Ok(&[0x22, status, 0, 0][..]), "{frame:02x?}");
    if status != 0 {
        assert!(card.table() == table && card.tally() == tally);
    }
}

/// A card refuses such a frame with status 2, Parameter Failed, whatever its
/// payload: after the verdict, and before it looks for the handle.
#[test]
fn a_card_refuses_an_installation_without_a_hash() {
    for rest in [1, 7, 20, 21, 300, 301, 4096, 4097] {
        for kept in [0, 0x40] {
            let mut frame = installation(kept, 0, rest);
            assert_answers(&mut Card::from(reserved()), &frame, 2);
            assert_answers(&mut Card::blank(1), &frame, 2);
            frame[1] = kept;
            assert_answers(&mut Card::from(reserved()), &frame, 1);
        }
    }
}

/// One hash and one byte of payload make the shortest installation.
#[test]
fn the_shortest_installation_has_a_hash_and_a_byte() {
    for rest in 1..=20 {
        assert_answers(&mut Card::from(reserved()), &installation(0, 0x10, rest), 2);
    }
    let mut card = Card::from(reserved());
    assert_answers(&mut card, &installation(0, 0x10, 21), 0);
    let right = Right {
        hashes: vec![AssetHash([0xEE; HASH_BYTES])],
        payload: vec![0xEE],
        ..old_right(None)
    };
    let installed = [slot(ENABLED, COURSE, &right)];
    assert_holds(&card, &installed, [0, 0, 1, 0, 1], "the installation");
}

/// A card with a right for use and a lent one, both without a hash, and a right
/// for use that has one.
struct Desk {
    card: Card,
    slots: [Vec<u8>; 3],
}

impl Desk {
    /// The card where the first two rights keep this count.
    fn new(count: Option<u16>) -> Desk {
        let hashed = Right {
            hashes: vec![ASSET],
            ..old_right(None)
        };
        let slots = [
            slot(ENABLED, COURSE, &old_right(count)),
            slot(DISABLED, LENT, &old_right(count)),
            slot(ENABLED, OTHER, &hashed),
        ];
        let card = Card::from(slots.concat());
        assert_holds(&card, &slots, [0, 0, 2, 1, 21], "nothing");
        Desk { card, slots }
    }

    /// Makes a request that changes nothing.
    fn ask(&mut self, request: Request) -> Reply {
        let tally = self.card.tally();
        let reply = self.card.call(&request, Verdict::Held).unwrap();
        assert!(self.card.table() == self.slots.concat(), "{request:?}");
        assert_eq!(self.card.tally(), tally, "{request:?}");
        reply
    }

    /// Makes a request, and asserts that the slot of this number is then as given
    /// and that the tally has these numbers.
    fn change(&mut self, request: Request, at: usize, slot: Vec<u8>, tally: [u16; 5]) -> Reply {
        let reply = self.card.call(&request, Verdict::Held).unwrap();
        self.slots[at] = slot;
        assert_holds(&self.card, &self.slots, tally, &format!("{request:?}"));
        reply
    }

    /// Asserts that a list query by these hashes finds just these handles.
    fn finds(&mut self, hashes: &[AssetHash], handles: &[Handle]) {
        let hashes = hashes.to_vec();
        let reply = self.ask(Request::HandleListQuery { limit: 0, hashes });
        let (handles, more) = (handles.to_vec(), false);
        assert_eq!(reply, Reply::Handles { handles, more });
    }

    /// Asserts that a right for use is read with this count.
    fn reads(&mut self, handle: Handle, count: Option<u16>) {
        let Right { count, payload, .. } = old_right(count);
        let reply = self.ask(Request::RightsInformationQuery { handle });
        assert_eq!(reply, Reply::Information { count, payload });
    }
}

/// The counts that such a right may keep.
const COUNTS: [Option<u16>; 3] = [None, Some(0), Some(7)];

fn give_back(handle: Handle, count: Option<u16>) -> Request {
    Request::RightsEnablement { handle, count }
}

/// It is on the list of all handles, and on no list by hash, also not by one of
/// 20 zeros, which stand where its first hash would.
#[test]
fn such_a_right_is_listed_and_read() {
    for count in COUNTS {
        let mut desk = Desk::new(count);
        let number = count.unwrap_or(0);
        assert_eq!(
            desk.card.listing().to_string(),
            format!(
                "slot place hashes count length\n0 enabled 0 {number} 7\n\
                 1 disabled 0 {number} 7\n2 enabled 1 0 7\n"
            )
        );
        desk.finds(&[], &[COURSE, OTHER]);
        desk.finds(&[ASSET], &[OTHER]);
        desk.finds(&[AssetHash([0; HASH_BYTES])], &[]);
        desk.reads(COURSE, count);
    }
}

#[test]
fn such_a_right_is_lent_and_returned() {
    for count in COUNTS {
        let mut desk = Desk::new(count);
        let (handle, new_handle) = (COURSE, BORROWER);
        let lent = slot(DISABLED, BORROWER, &old_right(count));
        let lending = Request::RekQuery { handle, new_handle };
        let reply = desk.change(lending, 0, lent, [0, 0, 1, 2, 21]);
        assert_eq!(reply, Reply::Key(old_right(count).key));
        desk.finds(&[], &[OTHER]);

        let left = count.map(|uses| uses.saturating_sub(1));
        let returned = slot(ENABLED, BORROWER, &old_right(left));
        let reply = desk.change(give_back(BORROWER, left), 0, returned, [0, 0, 2, 1, 21]);
        assert_eq!(reply, Reply::Done(Kind::RightsEnablement));
        desk.finds(&[], &[BORROWER, OTHER]);
        desk.reads(BORROWER, left);
    }
}

/// The reply has no hash, and what it gives is not installed again, here or on
/// another card. It can be returned.
#[test]
fn such_a_right_is_retrieved_and_not_installed_again() {
    for count in COUNTS {
        let mut desk = Desk::new(count);
        let (handle, new_handle) = (COURSE, BORROWER);
        let moved = slot(DISABLED, BORROWER, &old_right(count));
        let retrieval = Request::RightsRetrieval { handle, new_handle };
        let reply = desk.change(retrieval, 0, moved, [0, 0, 1, 2, 21]);
        let right = match reply {
            Reply::Right(right) => right,
            other => panic!("{other:?}"),
        };
        assert_eq!(right, old_right(count));
        assert_not_installed(&mut desk.card, right.clone());
        assert_not_installed(&mut Card::from(reserved()), right);

        let returned = slot(ENABLED, BORROWER, &old_right(count));
        desk.change(give_back(BORROWER, count), 0, returned, [0, 0, 2, 1, 21]);
        desk.reads(BORROWER, count);
    }
}

/// The right that was lent before is returned like any other, and both are
/// removed: one that is for use, and one that is lent.
#[test]
fn such_a_right_is_removed() {
    let remove = |handle| Request::RightsRemoval { handle };
    for count in COUNTS {
        let mut desk = Desk::new(count);
        let returned = slot(ENABLED, LENT, &old_right(count));
        desk.change(give_back(LENT, count), 1, returned, [0, 0, 3, 0, 21]);
        desk.finds(&[], &[COURSE, LENT, OTHER]);
        desk.change(remove(LENT), 1, empty(), [1, 0, 2, 0, 14]);
        desk.finds(&[], &[COURSE, OTHER]);

        let mut desk = Desk::new(count);
        desk.change(remove(LENT), 1, empty(), [1, 0, 2, 0, 14]);
        desk.change(remove(COURSE), 0, empty(), [2, 0, 1, 0, 7]);
        desk.finds(&[], &[OTHER]);
    }
}

/// To have such a course found, it is removed, and installed with its hashes.
#[test]
fn a_course_that_is_installed_anew_with_its_hash_is_found_by_it() {
    let mut desk = Desk::new(None);
    let handle = COURSE;
    desk.change(
        Request::RightsRemoval { handle },
        0,
        empty(),
        [1, 0, 1, 1, 14],
    );
    let setup = Request::InstallationSetup { handle, room: 300 };
    desk.change(setup, 0, reserved(), [0, 1, 1, 1, 14]);
    let right = Right {
        hashes: vec![ASSET],
        ..old_right(None)
    };
    let installed = slot(ENABLED, COURSE, &right);
    let installation = Request::RightsInstallation { handle, right };
    desk.change(installation, 0, installed, [0, 0, 2, 1, 21]);
    desk.finds(&[ASSET], &[COURSE, OTHER]);
}

/// A table from before counts had their bit may hold such rights, and is turned
/// (PROFILE 2.7).
#[test]
fn an_old_table_with_such_a_right_is_turned() {
    let turned = [
        slot(ENABLED, COURSE, &old_right(Some(7))),
        slot(DISABLED, LENT, &old_right(None)),
    ];
    let mut old = turned.concat();
    old[0] &= !2;
    let mut card = Card::from(old);
    assert_eq!(card.turn(), Ok(()));
    assert_holds(&card, &turned, [0, 0, 1, 1, 14], "the turning");
}
