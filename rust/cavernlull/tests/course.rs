//! One course on its way through a card: set up, installed, listed, lent,
//! refused a second time and under a handle in use, refused with a count that is
//! raised, returned, removed. After each step the whole table is compared with
//! bytes written by hand. Then counts, kept and not, and lists.

use cavernlull::{AssetHash, Card, Handle, Key, Kind, Reply, Request, Right, Status, Verdict};
use cavernlull::{HASH_BYTES, SLOT_BYTES};

const COURSE: Handle = Handle([1; 10]);
const OTHER: Handle = Handle([2; 10]);
const BORROWER: Handle = Handle([3; 10]);

const RESERVED: u8 = 1;
const ENABLED: u8 = 2;
const DISABLED: u8 = 3;

fn right() -> Right {
    Right {
        key: Key([0xC5; 16]),
        count: Some(0x0102),
        hashes: vec![AssetHash([0xA1; 20]), AssetHash([0xA2; 20])],
        payload: b"welding, level 2".to_vec(),
    }
}

/// The bytes of a slot (PROFILE 2.2).
fn slot(place: u8, handle: Handle, right: &Right, length: usize) -> Vec<u8> {
    let mut slot = vec![0; SLOT_BYTES];
    slot[0] = place << 6 | (right.hashes.len() as u8) << 2 | u8::from(right.count.is_some()) << 1;
    slot[1..11].copy_from_slice(&handle.0);
    slot[11..27].copy_from_slice(&right.key.0);
    slot[27..29].copy_from_slice(&right.count.unwrap_or(0).to_be_bytes());
    slot[29..31].copy_from_slice(&(length as u16).to_be_bytes());
    for (hash, bytes) in right.hashes.iter().zip(slot[31..].chunks_mut(HASH_BYTES)) {
        bytes.copy_from_slice(&hash.0);
    }
    slot[192..192 + right.payload.len()].copy_from_slice(&right.payload);
    slot
}

fn reserved(handle: Handle, length: usize) -> Vec<u8> {
    slot(RESERVED, handle, &Right::default(), length)
}

fn held(place: u8, handle: Handle, right: &Right) -> Vec<u8> {
    slot(place, handle, right, right.payload.len())
}

fn empty() -> Vec<u8> {
    vec![0; SLOT_BYTES]
}

/// A card whose table is known at each step.
struct Desk<T> {
    card: Card<T>,
}

impl<T: AsRef<[u8]> + AsMut<[u8]>> Desk<T> {
    /// Makes a request, and asserts that the table is then just these slots.
    fn ask(&mut self, request: Request, slots: &[Vec<u8>]) -> Reply {
        let reply = self.card.call(&request, Verdict::Held).unwrap();
        assert!(self.card.table() == slots.concat(), "after {request:?}");
        assert_eq!(reply.kind_number(), request.kind().number());
        reply
    }

    /// Makes a request that is refused, and asserts that nothing changes.
    fn refused(&mut self, request: Request, status: Status) {
        let before = self.card.table().to_vec();
        let kind = request.kind().number();
        let reply = self.ask(request, &[before]);
        assert_eq!(reply, Reply::Refused { kind, status });
    }

    fn list(&mut self, handles: &[Handle]) {
        let before = self.card.table().to_vec();
        let all = Request::HandleListQuery {
            limit: 0,
            hashes: vec![],
        };
        let handles = handles.to_vec();
        let more = false;
        assert_eq!(self.ask(all, &[before]), Reply::Handles { handles, more });
    }
}

fn setup(handle: Handle, room: u16) -> Request {
    Request::InstallationSetup { handle, room }
}

fn lend(handle: Handle, new_handle: Handle) -> Request {
    Request::RekQuery { handle, new_handle }
}

fn give_back(handle: Handle, count: Option<u16>) -> Request {
    Request::RightsEnablement { handle, count }
}

fn walk<T: AsRef<[u8]> + AsMut<[u8]>>(card: Card<T>) -> Card<T> {
    let mut desk = Desk { card };
    desk.installs();
    desk.lends();
    desk.takes_back();
    desk.moves_and_removes();
    desk.card
}

impl<T: AsRef<[u8]> + AsMut<[u8]>> Desk<T> {
    /// The course is set up and installed, and a second slot is reserved.
    fn installs(&mut self) {
        let reply = self.ask(setup(COURSE, 300), &[reserved(COURSE, 300), empty()]);
        assert_eq!(reply, Reply::Done(Kind::InstallationSetup));
        self.refused(setup(COURSE, 300), Status::DuplicateHandle);
        self.list(&[]);

        let (handle, right) = (COURSE, right());
        let installed = held(ENABLED, COURSE, &right);
        let installation = Request::RightsInstallation { handle, right };
        let reply = self.ask(installation.clone(), &[installed.clone(), empty()]);
        assert_eq!(reply, Reply::Done(Kind::RightsInstallation));
        self.refused(installation, Status::UnexpectedRequest);
        self.list(&[COURSE]);

        self.ask(setup(OTHER, 1), &[installed, reserved(OTHER, 1)]);
        assert_eq!(
            self.card.listing().as_str(),
            "slot place hashes count length\n0 enabled 2 258 16\n1 reserved 0 0 1\n"
        );
        self.refused(setup(BORROWER, 1), Status::NotEnoughSpace);
    }

    /// The course is lent once, and not under a handle that is in use, not even
    /// its own.
    fn lends(&mut self) {
        self.refused(lend(COURSE, OTHER), Status::DuplicateHandle);
        self.refused(lend(COURSE, COURSE), Status::DuplicateHandle);
        let lent = [held(DISABLED, BORROWER, &right()), reserved(OTHER, 1)];
        let reply = self.ask(lend(COURSE, BORROWER), &lent);
        assert_eq!(reply, Reply::Key(right().key));
        self.refused(lend(COURSE, BORROWER), Status::HandleNotFound);
        self.refused(lend(BORROWER, COURSE), Status::UnexpectedRequest);
        self.list(&[]);
    }

    /// The course comes back, with no more than was lent; a return that is sent
    /// again changes nothing.
    fn takes_back(&mut self) {
        let handle = BORROWER;
        for count in [Some(0x0103), Some(u16::MAX), None] {
            self.refused(give_back(handle, count), Status::CountRaised);
        }
        let mut right = right();
        right.count = Some(7);
        let returned = [held(ENABLED, BORROWER, &right), reserved(OTHER, 1)];
        for count in [Some(7), Some(8), None] {
            let reply = self.ask(give_back(handle, count), &returned);
            assert_eq!(reply, Reply::Done(Kind::RightsEnablement));
        }
        self.list(&[BORROWER]);
        let information = Request::RightsInformationQuery { handle };
        let Right { count, payload, .. } = right;
        let told = Reply::Information { count, payload };
        assert_eq!(self.ask(information, &returned), told);
    }

    /// The course is moved off the card, and the reserved slot is given up.
    fn moves_and_removes(&mut self) {
        let mut right = right();
        right.count = Some(7);
        let moved = [held(DISABLED, COURSE, &right), reserved(OTHER, 1)];
        let retrieval = Request::RightsRetrieval {
            handle: BORROWER,
            new_handle: COURSE,
        };
        assert_eq!(self.ask(retrieval, &moved), Reply::Right(right));

        let removal = Request::RightsRemoval { handle: COURSE };
        let reply = self.ask(removal.clone(), &[empty(), reserved(OTHER, 1)]);
        assert_eq!(reply, Reply::Done(Kind::RightsRemoval));
        self.refused(removal, Status::HandleNotFound);
        let given_up = Request::HandleRemoval { handle: OTHER };
        let reply = self.ask(given_up, &[empty(), empty()]);
        assert_eq!(reply, Reply::Done(Kind::HandleRemoval));
    }
}

#[test]
fn a_course_goes_through_a_card_that_owns_its_table() {
    let table = walk(Card::blank(2)).into_table();
    assert!(table == vec![0; 2 * SLOT_BYTES]);
}

#[test]
fn a_course_goes_through_a_card_over_a_lent_table() {
    let mut memory = vec![0xEE; 4 * SLOT_BYTES];
    let (_, rest) = memory.split_at_mut(SLOT_BYTES);
    let (table, _) = rest.split_at_mut(2 * SLOT_BYTES);
    table.fill(0);
    walk(Card::over(table));
    let around = [0xEE; SLOT_BYTES];
    assert!(memory == [&around[..], &[0; 2 * SLOT_BYTES], &around].concat());
}

/// A card of one slot, with a right that keeps this count.
fn counted(count: Option<u16>) -> Desk<Vec<u8>> {
    let mut desk = Desk {
        card: Card::blank(1),
    };
    let right = Right { count, ..right() };
    let (handle, installed) = (COURSE, held(ENABLED, COURSE, &right));
    desk.ask(setup(handle, 300), &[reserved(handle, 300)]);
    desk.ask(Request::RightsInstallation { handle, right }, &[installed]);
    desk
}

impl Desk<Vec<u8>> {
    /// Lends the right out whole from `handle` to `lent`, and asserts that it
    /// goes out with this count, and that this count stays on the card.
    fn lends_whole(&mut self, handle: Handle, lent: Handle, count: Option<u16>) {
        let right = Right { count, ..right() };
        let slot = held(DISABLED, lent, &right);
        let retrieval = Request::RightsRetrieval {
            handle,
            new_handle: lent,
        };
        assert_eq!(self.ask(retrieval, &[slot]), Reply::Right(right));
    }

    /// Has the right come back with this count, and asserts that the card has
    /// it and tells it.
    fn returns(&mut self, handle: Handle, count: Option<u16>) {
        let right = Right { count, ..right() };
        let slot = [held(ENABLED, handle, &right)];
        let reply = self.ask(give_back(handle, count), &slot);
        assert_eq!(reply, Reply::Done(Kind::RightsEnablement));
        let Right { count, payload, .. } = right;
        let information = Request::RightsInformationQuery { handle };
        let told = Reply::Information { count, payload };
        assert_eq!(self.ask(information, &slot), told);
    }
}

/// The last use of a course is gone: it comes back with a count of 0, and goes
/// out again with a count of 0. It is no course without a count.
#[test]
fn a_count_that_is_used_up_stays_used_up() {
    let mut desk = counted(Some(1));
    let slot = held(
        DISABLED,
        BORROWER,
        &Right {
            count: Some(1),
            ..right()
        },
    );
    assert_eq!(
        desk.ask(lend(COURSE, BORROWER), &[slot]),
        Reply::Key(right().key)
    );
    desk.returns(BORROWER, Some(0));
    desk.lends_whole(BORROWER, COURSE, Some(0));
    assert_eq!(
        desk.card.listing().as_str(),
        "slot place hashes count length\n0 disabled 2 0 16\n"
    );
    let removal = Request::RightsRemoval { handle: COURSE };
    desk.ask(removal, &[empty()]);
}

/// A right without a count has none when it is lent and returned.
#[test]
fn a_right_without_a_count_keeps_none() {
    let mut desk = counted(None);
    desk.lends_whole(COURSE, BORROWER, None);
    desk.returns(BORROWER, None);
    desk.lends_whole(BORROWER, COURSE, None);
}

/// A return sets a kept count to what it says, down to 0.
#[test]
fn a_return_says_what_is_left_of_a_kept_count() {
    let mut desk = counted(Some(u16::MAX));
    let mut last = Some(u16::MAX);
    for count in [65_534, 256, 255, 255, 1, 0].map(Some) {
        desk.lends_whole(COURSE, BORROWER, last);
        desk.returns(BORROWER, count);
        desk.lends_whole(BORROWER, COURSE, count);
        desk.returns(COURSE, count);
        last = count;
    }
}

/// A limit in bytes cuts the list short, and hashes select from it.
#[test]
fn lists_are_cut_and_chosen() {
    let mut card = Card::blank(3);
    for n in 1..=3 {
        let handle = Handle([n; 10]);
        let mut right = right();
        right.hashes.push(AssetHash([n; 20]));
        for request in [
            setup(handle, 300),
            Request::RightsInstallation { handle, right },
        ] {
            assert_eq!(
                card.call(&request, Verdict::Held).unwrap().status(),
                Status::Success
            );
        }
    }
    let mut list = |limit, hashes: &[u8]| {
        let hashes = hashes.iter().map(|&n| AssetHash([n; 20])).collect();
        let query = Request::HandleListQuery { limit, hashes };
        match card.call(&query, Verdict::Failed).unwrap() {
            Reply::Handles { handles, more } => (handles.iter().map(|h| h.0[0]).collect(), more),
            other => panic!("{other:?}"),
        }
    };
    let mut expect = |limit, hashes: &[u8], handles: &[u8], more| {
        assert_eq!(list(limit, hashes), (handles.to_vec(), more));
    };
    expect(0, &[], &[1, 2, 3], false);
    expect(29, &[], &[1, 2], true);
    expect(30, &[], &[1, 2, 3], false);
    expect(9, &[], &[], true);
    expect(0, &[3, 9, 1], &[1, 3], false);
    expect(10, &[3, 9, 1], &[1], true);
    expect(1, &[9], &[], false);
    expect(0, &[0xA2], &[1, 2, 3], false);
}
