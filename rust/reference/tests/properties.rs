//! Properties of random calls, requests and frames. The seed is printed; set
//! `COMPARE_SEED` to a decimal number for another.

mod common;

use common::{blank, call_from, frame_bytes, Asker, FILLER};
use random::Rng;
use reference::ledger::{agrees, Ledger, Right, Standing};
use reference::ReadRequest::{NoFrame, Refused, Request};
use reference::{read_reply, read_request, salvage, turn, well_formed, write_request};
use reference::{Count, CountsTold, Fields, Kind, Reply, Tally};
use reference::{HASH_BYTES, MAX_SLOTS, REPLY_ROOM, SLOT_BYTES};
use std::collections::BTreeSet;

/// A table with its history, and the counts that it told last.
struct Card {
    table: Vec<u8>,
    ledger: Ledger,
    counts: CountsTold,
}

impl Card {
    fn blank(slots: usize) -> Self {
        Card {
            table: blank(slots),
            ledger: Ledger::new(),
            counts: CountsTold::default(),
        }
    }

    /// A card with this table, whose history starts from it.
    fn on(table: Vec<u8>) -> Self {
        let ledger = Ledger::read_off(&table).expect("a well-formed table");
        Card {
            table,
            counts: CountsTold::of(&ledger),
            ledger,
        }
    }

    /// Makes one call, from a slot of the table, and asserts what must hold of
    /// every call. Gives the kind bits and the status of the reply, if there is
    /// one.
    fn call(&mut self, start: usize, frame: &[u8]) -> Option<(u8, u8)> {
        let before = self.table.clone();
        let given = call_from(start as u64, &mut self.table, frame);
        let read = read_request(frame);
        if given.number != 0 {
            assert_eq!((given.number, read), (104, NoFrame));
            assert!(self.table == before);
            return None;
        }
        let reply = read_reply(&given.reply).expect("the reply reader accepts it");
        let status = reply.status.number();
        assert_eq!(reply.kind, frame[0] & 31);
        if status != 0 {
            assert!(self.table == before, "status {status} changes nothing");
        }
        match read {
            NoFrame => panic!("a reply to no frame"),
            Refused(refusal) => assert_eq!(reply.status, refusal),
            Request(request) => {
                if status == 0 {
                    self.assert_reply_as_told(&reply, request.kind, &request.fields);
                }
                self.ledger.tell(&request, status);
            }
        }
        assert!(well_formed(&self.table));
        agrees(&self.ledger, &self.table).expect("the table agrees with the history");
        self.counts.go_on(&self.ledger).expect("no count rises");
        Some((reply.kind, status))
    }

    /// A success tells what the history, before the request, knows.
    fn assert_reply_as_told(&self, reply: &Reply<'_>, kind: Kind, fields: &Fields<'_>) {
        let told = reply.fields;
        match kind {
            Kind::RightsRetrieval => {
                let right = self.right_for_use(&fields.handle);
                assert_eq!((told.key, told.count), (right.key, right.count));
                assert_eq!(told.hashes, right.hashes);
                assert_eq!(told.payload, right.payload);
            }
            Kind::RekQuery => assert_eq!(told.key, self.right_for_use(&fields.handle).key),
            Kind::RightsInformationQuery => {
                let right = self.right_for_use(&fields.handle);
                assert_eq!(told.count, right.count);
                assert_eq!(told.payload, right.payload);
            }
            Kind::HandleListQuery => self.assert_list_as_told(reply, fields),
            _ => assert_eq!(told, reference::ReplyFields::default()),
        }
    }

    fn assert_list_as_told(&self, reply: &Reply<'_>, fields: &Fields<'_>) {
        let listed = reply.fields.handles.chunks(10);
        let set: BTreeSet<&[u8]> = listed.clone().collect();
        assert_eq!(set.len(), listed.len(), "each once");
        let wanted: BTreeSet<&[u8]> = self
            .rights_for_use()
            .filter(|right| fields.hashes.is_empty() || share_a_hash(right, fields.hashes))
            .map(|right| right.handle.as_slice())
            .collect();
        let fitting = match fields.limit {
            0 => wanted.len(),
            limit => wanted.len().min(usize::from(limit / 10)),
        };
        assert!(set.is_subset(&wanted));
        assert_eq!(set.len(), fitting);
        assert_eq!(reply.fields.more, fitting < wanted.len());
    }

    fn rights_for_use(&self) -> impl Iterator<Item = &Right> {
        let rights = self.ledger.rights().iter();
        rights.filter(|right| right.standing == Standing::ForUse)
    }

    fn right_for_use(&self, handle: &[u8; 10]) -> &Right {
        self.rights_for_use()
            .find(|right| right.handle == *handle)
            .expect("a right for use under the handle")
    }
}

fn share_a_hash(right: &Right, hashes: &[u8]) -> bool {
    let of = |bytes: &[u8]| -> BTreeSet<Vec<u8>> {
        bytes.chunks(HASH_BYTES).map(<[u8]>::to_vec).collect()
    };
    !of(&right.hashes).is_disjoint(&of(hashes))
}

/// Every status that a kind can have (PROFILE 4.2, 5); 0 stands for the kinds
/// outside 1 to 9.
fn statuses_by_kind() -> BTreeSet<(u8, u8)> {
    let rows: [(u8, &[u8]); 10] = [
        (0, &[2, 3]),
        (1, &[0, 1, 2, 5, 7]),
        (2, &[0, 1, 2, 4, 6, 7]),
        (3, &[0, 1, 2, 4, 5, 6]),
        (4, &[0, 1, 2, 4, 5, 6]),
        (5, &[0, 1, 2, 4, 6, 9]),
        (6, &[0, 1, 2, 4, 6]),
        (7, &[0, 1, 2, 4, 6]),
        (8, &[0, 2]),
        (9, &[0, 2, 4, 6]),
    ];
    rows.iter()
        .flat_map(|(kind, statuses)| statuses.iter().map(|status| (*kind, *status)))
        .collect()
}

#[test]
fn call_sequences_keep_tables_well_formed_and_agree_with_the_ledger() {
    let mut rng = Rng::announced("call sequences");
    let mut seen = BTreeSet::new();
    let mut most_rights = 0;
    let mut counts = BTreeSet::new();
    for slots in 1..=MAX_SLOTS {
        for _ in 0..6 {
            let mut card = Card::blank(slots);
            let asker = Asker::new(slots + 2);
            for _ in 0..250 {
                let start = rng.below(slots);
                if let Some((kind, status)) = card.call(start, &asker.frame(&mut rng)) {
                    let kind = if (1..=9).contains(&kind) { kind } else { 0 };
                    seen.insert((kind, status));
                }
                most_rights = most_rights.max(card.rights_for_use().count());
                counts.extend(card.rights_for_use().map(|right| right.count));
            }
        }
    }
    assert_eq!(seen, statuses_by_kind(), "every status where it belongs");
    assert!(most_rights >= 8, "the larger tables fill up: {most_rights}");
    for count in [Count::NotKept, Count::Kept(0), Count::Kept(0xFFFF)] {
        assert!(counts.contains(&count), "{count:?}");
    }
}

/// What a right keeps, whatever is asked (PROFILE 8.3).
fn kept(right: &Right) -> (&[u8], &[u8], &[u8]) {
    (&right.key, &right.hashes, &right.payload)
}

/// Wears some bytes of a table, and takes the bits of its counts from it.
fn worn_and_old(rng: &mut Rng, table: &[u8]) -> [Vec<u8>; 2] {
    let mut worn = table.to_vec();
    for _ in 0..rng.below(4) {
        let at = rng.below(worn.len());
        worn[at] ^= rng.bit(8);
    }
    let mut old = table.to_vec();
    for slot in old.chunks_mut(SLOT_BYTES) {
        slot[0] &= !2;
    }
    [worn, old]
}

/// From a table that a salvage left, and from one that a turning left.
#[test]
fn call_sequences_agree_with_a_ledger_read_off_the_table_that_they_start_from() {
    let mut rng = Rng::announced("call sequences from other tables");
    let (mut cleared, mut at_first) = (0, 0);
    for slots in 1..=MAX_SLOTS {
        let mut card = Card::blank(slots);
        let asker = Asker::new(slots + 2);
        for _ in 0..6 {
            for _ in 0..40 {
                card.call(rng.below(slots), &asker.frame(&mut rng));
            }
            let [mut worn, mut old] = worn_and_old(&mut rng, &card.table);
            cleared += salvage(&mut worn, &mut [0; MAX_SLOTS]);
            assert_eq!(turn(&mut old), 0);
            for table in [worn, old] {
                card = Card::on(table);
                let first = card.ledger.rights().to_vec();
                for _ in 0..40 {
                    card.call(rng.below(slots), &asker.frame(&mut rng));
                }
                let now = card.ledger.rights().iter().map(kept);
                assert!(first.iter().map(kept).eq(now.take(first.len())));
                at_first += first.len();
            }
        }
    }
    assert!(cleared > 20 && at_first > 200, "{cleared}, {at_first}");
}

#[test]
fn written_requests_read_back_to_their_fields() {
    let mut rng = Rng::announced("written requests");
    let asker = Asker::new(256);
    for round in 0..5_000 {
        let kind = 1 + (round % 9) as u8;
        let own = asker.fields(&mut rng, kind);
        let fields = own.lent();
        let frame = frame_bytes(kind, &own);
        let mut buffer = vec![FILLER; frame.len() + rng.below(4)];
        assert_eq!(write_request(kind, &own.handed(), &mut buffer), 0);
        assert_eq!(buffer[..frame.len()], frame);
        assert!(buffer[frame.len()..].iter().all(|&byte| byte == FILLER));
        let Request(request) = read_request(&frame) else {
            panic!("{frame:02x?} is a request");
        };
        assert_eq!(request.kind.number(), kind);
        assert_eq!(request.fields, fields);

        let mut short = vec![FILLER; rng.below(frame.len())];
        assert_eq!(write_request(kind, &own.handed(), &mut short), 201);
        assert!(short.iter().all(|&byte| byte == FILLER));
    }
}

#[test]
fn frames_that_read_as_requests_are_written_to_the_same_bytes() {
    let mut rng = Rng::announced("frames read and written");
    let asker = Asker::new(3);
    let (mut requests, mut ignored_verdicts) = (0, 0);
    for _ in 0..20_000 {
        let mut frame = asker.frame(&mut rng);
        if rng.one_in(4) && frame.len() > 1 {
            frame[1] = 0;
        }
        let Request(request) = read_request(&frame) else {
            continue;
        };
        let mut written = vec![0; frame.len()];
        let number = write_request(request.kind.number(), &request.fields.into(), &mut written);
        assert_eq!(number, 0);
        if frame[1] == 0 {
            assert!(request.kind >= Kind::HandleListQuery);
            ignored_verdicts += 1;
            frame[1] = 0x80;
        }
        assert_eq!(written, frame);
        requests += 1;
    }
    assert!(requests > 5_000, "{requests} requests");
    assert!(ignored_verdicts > 100, "{ignored_verdicts} verdicts of 0");
}

/// The number of a call on a table of up to two slots that is blank, or has one
/// byte of an empty slot set, or has random bytes. `right` says whether the tally
/// is that of a blank table.
fn expected_number(room: usize, table: &[u8], right: bool, start: u64, frame: &[u8]) -> u16 {
    if room < REPLY_ROOM {
        101
    } else if table.len() != 4288 && table.len() != 8576 {
        102
    } else if start >= (table.len() / 4288) as u64 {
        105
    } else if table.iter().any(|&byte| byte != 0) {
        103
    } else if !right {
        106
    } else if read_request(frame) == NoFrame {
        104
    } else {
        0
    }
}

#[test]
fn refused_calls_change_nothing() {
    let mut rng = Rng::announced("refused calls");
    let asker = Asker::new(3);
    let mut seen = BTreeSet::new();
    for _ in 0..2_000 {
        let length = rng.pick(&[0, 1, 4287, 4288, 4289, 8576]);
        let mut table = match rng.below(3) {
            0 => rng.bytes(length),
            _ => vec![0; length],
        };
        if rng.one_in(3) && length > 0 {
            table[rng.below(length)] = 1;
        }
        let room = rng.pick(&[0, REPLY_ROOM - 1, REPLY_ROOM, REPLY_ROOM, REPLY_ROOM]);
        let start = rng.pick(&[0, 0, 0, 1, 2, 3, 1 << 32, u64::MAX]);
        let mut frame = asker.frame(&mut rng);
        if rng.one_in(3) {
            frame.push(0);
        }

        let right = Tally::from([(length / 4288) as u16, 0, 0, 0, 0]);
        let lent = match rng.below(4) {
            0 => Tally::from([0; 5].map(|_| rng.below(3) as u16)),
            _ => right,
        };

        let expected = expected_number(room, &table, lent == right, start, &frame);
        let (before, mut tally) = (table.clone(), lent);
        let mut reply = vec![FILLER; room];
        let number = reference::call(&mut table, &mut tally, start, &frame, &mut reply);
        assert_eq!(number, expected);
        seen.insert(number);
        if number != 0 {
            assert!(table == before && tally == lent);
            assert!(reply.iter().all(|&byte| byte == FILLER));
        }
    }
    assert_eq!(seen, BTreeSet::from([0, 101, 102, 103, 104, 105, 106]));
}

#[test]
fn readers_take_any_bytes() {
    let mut rng = Rng::announced("any bytes");
    let mut accepted = 0;
    for _ in 0..50_000 {
        let length = rng.below(48);
        let mut frame = rng.bytes(length);
        if length >= 4 && !rng.one_in(8) {
            frame[0] = 0x20 | frame[0] & 15;
            frame[1] = rng.pick(&[0, 0, 1, 8, 9, 0x80, 0x80, 0x81]);
            frame[2] = 0;
            frame[3] = (length - 4) as u8;
        }
        let whole = length >= 4 && length - 4 == usize::from(frame[2]) << 8 | usize::from(frame[3]);
        assert_eq!(read_request(&frame) == NoFrame, !whole);
        match read_reply(&frame) {
            Ok(reply) => {
                assert!(whole && reply.kind == frame[0] & 31);
                assert_eq!(reply.status.number(), frame[1] & 0x7F);
                assert!(frame[1] & 0x7F == 0 || length == 4);
                assert_eq!(reply.fields.count.is_kept(), frame[1] & 0x80 != 0);
                accepted += 1;
            }
            Err(number) => assert_eq!(number, 203),
        }
    }
    assert!(accepted > 500, "{accepted} replies");
}
