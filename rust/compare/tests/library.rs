//! The crate `cavernlull` at random: its requests, replies, tables, tallies and
//! listings are those of the reference.

use cavernlull::{AssetHash, Card, Handle, Key, Kind, Reply, Request, Right, Status};
use cavernlull::{CallError, Error, SalvageError, Tally, TallyError, Totals, TurnError};
use cavernlull::{Verdict, WriteError};
use compare::damage::{self, Damage};
use compare::frames::Asker;
use compare::returns::{frame_or_loan, next_frame};
use compare::starts::{inside, start};
use compare::tables::{before_turning, blank, damaged, report_buffer, with_unhashed};
use compare::tallies::{tally_of, wrong};
use random::Rng;
use reference::{Count, Fields, ReadRequest, HANDLE_BYTES, HASH_BYTES, MAX_SLOTS, REPLY_ROOM};
use std::collections::BTreeSet;
use std::mem;

/// The requests made on each of the tables, which have 1 to 15 slots.
const REQUESTS: usize = 200;

/// The kinds and statuses that a typed request can have: those of any frame,
/// without the 2 for a field that the types cannot express.
const CAN_OCCUR: usize = 5 + 5 + 5 + 5 + 5 + 4 + 4 + 1 + 3;

fn hashes(bytes: &[u8]) -> Vec<AssetHash> {
    let hashes = bytes.as_chunks::<HASH_BYTES>().0;
    hashes.iter().copied().map(AssetHash).collect()
}

/// A request that the reference has read.
fn request(read: &reference::Request<'_>) -> Request {
    let fields = &read.fields;
    let handle = Handle(fields.handle);
    let new_handle = Handle(fields.new_handle);
    match read.kind {
        reference::Kind::InstallationSetup => Request::InstallationSetup {
            handle,
            room: fields.length,
        },
        reference::Kind::RightsInstallation => Request::RightsInstallation {
            handle,
            right: right(fields.key, fields.count, fields.hashes, fields.payload),
        },
        reference::Kind::RightsRetrieval => Request::RightsRetrieval { handle, new_handle },
        reference::Kind::RekQuery => Request::RekQuery { handle, new_handle },
        reference::Kind::RightsEnablement => Request::RightsEnablement {
            handle,
            count: kept(fields.count),
        },
        reference::Kind::RightsRemoval => Request::RightsRemoval { handle },
        reference::Kind::HandleRemoval => Request::HandleRemoval { handle },
        reference::Kind::HandleListQuery => Request::HandleListQuery {
            limit: fields.limit,
            hashes: hashes(fields.hashes),
        },
        reference::Kind::RightsInformationQuery => Request::RightsInformationQuery { handle },
    }
}

/// A count as the library has it.
fn kept(count: Count) -> Option<u16> {
    match count {
        Count::NotKept => None,
        Count::Kept(number) => Some(number),
    }
}

fn right(key: reference::Key, count: Count, bytes: &[u8], payload: &[u8]) -> Right {
    Right {
        key: Key(key),
        count: kept(count),
        hashes: hashes(bytes),
        payload: payload.to_vec(),
    }
}

/// The frame that the reference writes.
fn frame(kind: reference::Kind, fields: &Fields<'_>) -> Vec<u8> {
    let mut out = vec![0; 4300];
    let number = reference::write_request(kind.number(), &(*fields).into(), &mut out);
    assert_eq!(number, 0);
    out.truncate(4 + usize::from(u16::from_be_bytes([out[2], out[3]])));
    out
}

/// A reply frame as the reference reads it.
fn reply(frame: &[u8]) -> Reply {
    let read = reference::read_reply(frame).expect("the agent's replies are replies");
    let (kind, fields) = (read.kind, &read.fields);
    let status = Status::from_number(read.status.number()).expect("a status");
    match (status, kind) {
        (Status::Success, 3) => Reply::Right(right(
            fields.key,
            fields.count,
            fields.hashes,
            fields.payload,
        )),
        (Status::Success, 4) => Reply::Key(Key(fields.key)),
        (Status::Success, 8) => {
            let handles = fields.handles.as_chunks::<HANDLE_BYTES>().0;
            Reply::Handles {
                handles: handles.iter().copied().map(Handle).collect(),
                more: fields.more,
            }
        }
        (Status::Success, 9) => Reply::Information {
            count: kept(fields.count),
            payload: fields.payload.to_vec(),
        },
        (Status::Success, _) => Reply::Done(Kind::from_number(kind).expect("a kind")),
        _ => Reply::Refused { kind, status },
    }
}

/// The kind of a reply that tells a count, and the count as far as it matters:
/// none, one that is used up, or another.
fn told(reply: &Reply) -> Option<(u8, Option<bool>)> {
    match reply {
        Reply::Right(right) => Some((3, right.count.map(|count| count == 0))),
        Reply::Information { count, .. } => Some((9, count.map(|count| count == 0))),
        _ => None,
    }
}

/// The numbers of a tally of the library.
fn numbers(tally: Tally) -> [u16; 5] {
    [
        tally.empty,
        tally.reserved,
        tally.enabled,
        tally.disabled,
        tally.payload,
    ]
}

/// A tally of the library with these numbers.
fn tally([empty, reserved, enabled, disabled, payload]: [u16; 5]) -> Tally {
    Tally {
        empty,
        reserved,
        enabled,
        disabled,
        payload,
    }
}

/// A card of the library, and the reference's table and tally.
struct Pair {
    card: Card,
    table: Vec<u8>,
    tally: reference::Tally,
    told: BTreeSet<(u8, Option<bool>)>,
}

impl Pair {
    /// Both, with this table and its tally.
    fn on(table: Vec<u8>) -> Pair {
        Pair {
            card: Card::from(table.clone()),
            tally: tally_of(&table).into(),
            table,
            told: BTreeSet::new(),
        }
    }

    /// Has both go on with this table and its tally.
    fn go_on(&mut self, table: Vec<u8>) {
        let told = mem::take(&mut self.told);
        *self = Pair {
            told,
            ..Pair::on(table)
        };
    }

    /// Has both answer the same request from the same start, and gives kind and
    /// status; `None` where the start is not the number of a slot.
    fn ask(
        &mut self,
        start: u64,
        read: &reference::Request<'_>,
        verdict: Verdict,
    ) -> Option<(u8, Status)> {
        let request = request(read);
        let mut sent = frame(read.kind, &read.fields);
        assert_eq!(request.to_frame().as_ref(), Ok(&sent), "{request:?}");
        verdict.put_into(&mut sent);
        let mut buffer = [0; REPLY_ROOM];
        let (table, tally) = (&mut self.table, &mut self.tally);
        let expected = match reference::call(table, tally, start, &sent, &mut buffer) {
            0 => {
                let length = 4 + usize::from(u16::from_be_bytes([buffer[2], buffer[3]]));
                Ok(reply(&buffer[..length]))
            }
            105 => Err(Error::Call(CallError::StartOutside)),
            number => panic!("{number} for {request:?}"),
        };
        let given = self.card.call_from(start as usize, &request, verdict);
        assert_eq!(given, expected, "{request:?}");
        assert!(self.card.table() == self.table, "{request:?}");
        assert_eq!(numbers(self.card.tally()), self.tally.numbers());
        let listing = self.card.listing().to_string();
        assert_eq!(listing.as_bytes(), reference::listing(&self.table));
        let given = given.ok()?;
        self.told.extend(told(&given));
        Some((buffer[0] & 31, given.status()))
    }
}

#[test]
fn typed_requests_have_the_replies_that_the_reference_gives() {
    let mut rng = Rng::announced("typed requests");
    let (mut seen, mut counts) = (BTreeSet::new(), BTreeSet::new());
    for slots in 1..=MAX_SLOTS {
        let asker = Asker::new(slots);
        let mut pair = Pair::on(blank(slots));
        for call in 0..REQUESTS {
            if call == REQUESTS * 2 / 3 {
                pair.go_on(with_unhashed(&mut rng, &asker, slots));
            }
            let frame = frame_or_loan(&mut rng, &asker, &pair.table);
            let verdict = match rng.below(20) {
                0 => Verdict::Failed,
                _ => Verdict::Held,
            };
            let start = start(&mut rng, slots, 12);
            if let ReadRequest::Request(read) = reference::read_request(&frame) {
                seen.insert(pair.ask(start, &read, verdict));
            }
        }
        counts.extend(pair.told);
    }
    assert!(
        seen.remove(&None),
        "a start that is not the number of a slot"
    );
    assert_eq!(seen.len(), CAN_OCCUR, "{seen:?}");
    assert_eq!(counts.len(), 2 * 3, "{counts:?}");
}

/// A right without a hash that a card gives is read as it is, and is written into
/// no installation.
#[test]
fn rights_without_a_hash_are_retrieved_and_not_installed() {
    let mut rng = Rng::announced("typed rights without a hash");
    let asker = Asker::new(MAX_SLOTS);
    let new_handle = Handle([0xEE; HANDLE_BYTES]);
    let mut written = BTreeSet::new();
    for slot in reference::table::slots(&with_unhashed(&mut rng, &asker, MAX_SLOTS)) {
        let handle = Handle(reference::slot::handle(slot));
        let retrieval = Request::RightsRetrieval { handle, new_handle };
        let mut card = Card::from(slot.to_vec());
        if let Ok(Reply::Right(right)) = card.call(&retrieval, Verdict::Held) {
            assert_eq!(right.hashes.len(), reference::slot::hash_count(slot));
            let hashed = !right.hashes.is_empty();
            let frame = Request::RightsInstallation { handle, right }.to_frame();
            let number = frame.err().map_or(0, WriteError::number);
            written.insert((hashed, number));
        }
    }
    assert_eq!(written, BTreeSet::from([(false, 202), (true, 0)]));
}

/// Tables that requests filled, without the bits of their counts, some of them
/// damaged, and each a second time.
#[test]
fn old_tables_are_turned_as_the_reference_turns_them() {
    let mut rng = Rng::announced("typed turnings");
    let mut seen = BTreeSet::new();
    for slots in 1..=MAX_SLOTS {
        let asker = Asker::new(slots);
        let mut table = blank(slots);
        let mut tally = tally_of(&table).into();
        for _ in 0..REQUESTS / 4 {
            for _ in 0..4 {
                let (start, frame) = (inside(&mut rng, slots), asker.frame(&mut rng));
                let reply = &mut [0; REPLY_ROOM];
                reference::call(&mut table, &mut tally, start, &frame, reply);
            }
            let mut old = before_turning(&table);
            if rng.one_in(3) {
                old = damaged(&mut rng, &old);
            }
            let mut card = Card::from(old.clone());
            for _ in 0..2 {
                let number = reference::turn(&mut old);
                let given = card.turn().map_err(TurnError::number);
                assert_eq!(given.err().unwrap_or(0), number);
                assert!(card.table() == old);
                seen.insert(number);
            }
        }
    }
    assert_eq!(seen, BTreeSet::from([0, 102, 103]));
}

/// Cards damaged in every way: number, report, table and tally afterwards are
/// those of the reference.
#[test]
fn damaged_cards_are_salvaged_as_the_reference_salvages_them() {
    let mut rng = Rng::announced("typed salvages");
    let mut seen = BTreeSet::new();
    for slots in 1..=MAX_SLOTS {
        for damage in Damage::all() {
            for _ in 0..4 {
                let mut table = damage::card(&mut rng, slots);
                damage.damage(&mut rng, &mut table);
                seen.insert(salvaged(&mut rng, table, slots));
            }
        }
    }
    assert_eq!(seen, (0..=15).chain([102, 107]).collect());
}

/// Salvages a card into a buffer, and one like it in words; gives the number.
fn salvaged(rng: &mut Rng, mut table: Vec<u8>, slots: usize) -> u16 {
    let mut in_words = Card::from(table.clone());
    let words = match in_words.salvage() {
        Ok(report) => report.to_string(),
        Err(error) => format!("refused {}\n", error.number()),
    };
    assert_eq!(words.as_bytes(), reference::salvage_text(&table));

    let mut card = Card::from(table.clone());
    let mut report = report_buffer(rng, slots);
    let mut expected = report.clone();
    let number = reference::salvage(&mut table, &mut expected);
    let given = card.salvage_into(&mut report);
    assert_eq!(given.map_err(SalvageError::number), cleared(number));
    assert!(card.table() == table && report == expected);
    if number <= 15 {
        assert!(in_words.table() == table);
        assert_eq!(Tally::of(&table), Ok(card.tally()));
    }
    number
}

/// What the library gives for a number of the salvage.
fn cleared(number: u16) -> Result<usize, u16> {
    match number {
        0..=15 => Ok(number.into()),
        _ => Err(number),
    }
}

/// Tables that requests filled, some of them damaged. A card with a tally that is
/// not its own refuses with 106, and keeps table and tally as they are.
#[test]
fn tallies_are_worked_out_and_tested_as_the_reference_does() {
    let mut rng = Rng::announced("typed tallies");
    let mut seen = BTreeSet::new();
    for slots in 1..=MAX_SLOTS {
        let asker = Asker::new(slots);
        let mut table = blank(slots);
        let mut right = tally_of(&table).into();
        for _ in 0..REQUESTS / 4 {
            let (start, frame) = (inside(&mut rng, slots), asker.frame(&mut rng));
            let reply = &mut [0; REPLY_ROOM];
            reference::call(&mut table, &mut right, start, &frame, reply);
            let other = match rng.below(3) {
                0 => damaged(&mut rng, &table),
                _ => table.clone(),
            };
            let given = Tally::of(&other).map(numbers);
            let expected = reference::Tally::of(&other).map(reference::Tally::numbers);
            assert_eq!(given.map_err(TallyError::number), expected);
            seen.insert(expected.err().unwrap_or(0));
            seen.insert(refused(&mut rng, other));
        }
    }
    assert_eq!(seen, BTreeSet::from([0, 102, 103, 106]));
}

/// The number for which a call on a card with a wrong tally is refused; it changes
/// nothing.
fn refused(rng: &mut Rng, table: Vec<u8>) -> u16 {
    let wrong = wrong(rng, &table);
    let mut card = Card::with_tally(table.clone(), tally(wrong));
    let query = Request::HandleListQuery {
        limit: 0,
        hashes: Vec::new(),
    };
    let Err(Error::Call(error)) = card.call(&query, Verdict::Held) else {
        panic!("{wrong:?} is not that of the table");
    };
    assert!(card.table() == table);
    assert_eq!(numbers(card.tally()), wrong);
    error.number()
}

/// Totals that a total can have, that are full, and that cannot be.
const TOTALS: [(i32, u16); 5] = [
    (0, 0),
    (-65_535, 1),
    (7, 29_999),
    (7, reference::MOST_RETURNS),
    (65_536, 1),
];

/// Totals that are carried along, and others in between: the crate's are those of
/// the reference, and each answer has its change and whether it was counted.
#[test]
fn totals_are_kept_as_the_reference_keeps_them() {
    let mut rng = Rng::announced("totals of the crate");
    let mut seen = BTreeSet::new();
    for slots in 1..=MAX_SLOTS {
        let asker = Asker::new(slots);
        let mut pair = Pair::on(blank(slots));
        let (mut totals, mut expected) = (Totals::new(), reference::Totals::default());
        for _ in 0..REQUESTS {
            if rng.one_in(20) {
                (expected.total, expected.returns) = rng.pick(&TOTALS);
                totals = Totals::from_parts(expected.total, expected.returns);
            }
            let frame = next_frame(&mut rng, &asker, &pair.table);
            seen.insert(totalled(&mut pair, &frame, &mut totals, &mut expected));
        }
    }
    let expected = [(0, false, 0), (0, true, -1), (0, true, 0), (108, false, 0)];
    for came in expected {
        assert!(seen.contains(&came), "{came:?}: {seen:?}");
    }
    assert!(seen.iter().all(|(_, _, change)| *change <= 0), "{seen:?}");
}

/// Has both make a totalling call with the same frame; gives the number, whether it
/// was a counted return, and the sign of its change.
fn totalled(
    pair: &mut Pair,
    frame: &[u8],
    totals: &mut Totals,
    expected: &mut reference::Totals,
) -> (u16, bool, i32) {
    let (mut left, mut reply) = ([0; REPLY_ROOM], [0; REPLY_ROOM]);
    let (table, tally) = (&mut pair.table, &mut pair.tally);
    let returns = expected.returns;
    let number = reference::call_totalling(table, tally, 0, frame, &mut left, expected);
    let (given, counted, change) = match totals.call_frame(&mut pair.card, frame, &mut reply) {
        Ok(answer) => (0, answer.counted, answer.change),
        Err(error) => (error.number(), false, 0),
    };
    assert_eq!(given, number, "{frame:02X?}");
    assert_eq!(counted, expected.returns != returns, "{frame:02X?}");
    if number == 0 {
        assert_eq!(change, expected.change, "{frame:02X?}");
    }
    let (total, returns) = (expected.total, expected.returns);
    assert_eq!(*totals, Totals::from_parts(total, returns), "{frame:02X?}");
    assert!(reply == left, "{frame:02X?}");
    assert!(pair.card.table() == pair.table, "{frame:02X?}");
    assert_eq!(numbers(pair.card.tally()), pair.tally.numbers());
    (number, counted, change.signum())
}
