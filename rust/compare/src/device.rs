//! Requests written and replies read, at random.

use crate::frames::{count, frame, payload_length, room, Asker};
use crate::outcome::Counted;
use crate::pipeline;
use driver::{Numbers, Read, Written};
use random::Rng;
use reference::{read_reply, write_request, Count, Handle, Key, Reply, Status, WriterFields};
use reference::{HANDLE_BYTES, HASH_BYTES};
use std::collections::BTreeMap;
use std::fmt;

/// How often each number occurred, with each kind asked for and what count and
/// `kept` say.
pub type WriterCounts = BTreeMap<(u16, u8, Handed), u64>;

/// How often each of these was read.
pub type ReaderCounts = BTreeMap<Told, u64>;

/// What occurred among requests that were written or refused, and how often.
#[derive(Default)]
pub struct WriterSeen {
    /// The numbers, with each kind asked for and what count and `kept` say.
    pub counts: WriterCounts,
    /// What came of requests without a hash.
    pub without_hash: BTreeMap<WithoutHash, u64>,
}

/// What the writer gave for a request without a hash that it takes with one.
#[derive(Clone, Copy, Debug, PartialEq, Eq, PartialOrd, Ord)]
pub struct WithoutHash {
    /// The kind, 2 or 8.
    pub kind: u8,
    /// Whether the buffer was too short for the frame without a hash.
    pub short: bool,
    /// The number given.
    pub number: u16,
}

impl WithoutHash {
    /// All that can occur: a query needs no hash, and an installation that has
    /// none is refused before the buffer is looked at (PROFILE 6.2).
    pub const ALL: [WithoutHash; 4] = {
        const fn gives(kind: u8, short: bool, number: u16) -> WithoutHash {
            WithoutHash {
                kind,
                short,
                number,
            }
        }
        [
            gives(2, false, 202),
            gives(2, true, 202),
            gives(8, false, 0),
            gives(8, true, 201),
        ]
    };
}

impl fmt::Display for WithoutHash {
    fn fmt(&self, f: &mut fmt::Formatter<'_>) -> fmt::Result {
        let WithoutHash { kind, number, .. } = self;
        let buffer = if self.short { "short" } else { "long enough" };
        write!(f, "no hash, kind {kind}, the buffer {buffer}: {number}")
    }
}

/// What the reader told of a reply, in short; with 203 it tells nothing.
#[derive(Clone, Copy, Debug, PartialEq, Eq, PartialOrd, Ord)]
pub struct Told {
    /// The number given.
    pub number: u16,
    /// The kind.
    pub kind: u8,
    /// The status.
    pub status: u8,
    /// The count.
    pub counted: Counted,
    /// Whether there is a hash, which only kind 3 can tell.
    pub hashed: bool,
}

/// What the writer is handed as a count.
#[derive(Clone, Copy, Debug, PartialEq, Eq, PartialOrd, Ord)]
pub enum Handed {
    /// A count, or that none is kept.
    Count(Counted),
    /// A number other than 0 and a `kept` of 0.
    NumberAlone,
    /// A `kept` that is neither 0 nor 1.
    NoBit,
}

impl Handed {
    /// What this count and this `kept` say.
    fn of(count: u16, kept: u8) -> Handed {
        let said = match kept {
            0 | 1 => Count::said(kept == 1, count),
            _ => return Handed::NoBit,
        };
        said.map_or(Handed::NumberAlone, |count| {
            Handed::Count(Counted::of(count))
        })
    }
}

/// The bit of a reply's second byte that says that a count is kept.
const KEPT: u8 = 0x80;

/// The fields of a request, with hashes and payload of its own.
#[derive(Clone, Debug, Default)]
struct OwnFields {
    handle: Handle,
    new_handle: Handle,
    key: Key,
    length: u16,
    count: u16,
    kept: u8,
    limit: u16,
    hashes: Vec<u8>,
    payload: Vec<u8>,
}

impl OwnFields {
    fn lent(&self) -> WriterFields<'_> {
        WriterFields {
            handle: self.handle,
            new_handle: self.new_handle,
            key: self.key,
            length: self.length,
            count: self.count,
            kept: self.kept,
            limit: self.limit,
            hashes: &self.hashes,
            payload: &self.payload,
        }
    }

    fn sent(&self) -> driver::Fields<'_> {
        driver::Fields {
            handle: &self.handle,
            new_handle: &self.new_handle,
            key: &self.key,
            room: self.length,
            count: self.count,
            kept: self.kept,
            limit: self.limit,
            hashes: &self.hashes,
            payload: &self.payload,
        }
    }

    /// Fields that the writer takes for this kind, and none for a kind outside 1
    /// to 9.
    fn of_kind(rng: &mut Rng, asker: &Asker, kind: u8) -> OwnFields {
        let mut fields = OwnFields::default();
        let names: &[u8] = match kind {
            1 => b"hl",
            2 => b"hkcsp",
            3 | 4 => b"hn",
            5 => b"hc",
            6 | 7 | 9 => b"h",
            8 => b"ia",
            _ => b"",
        };
        for &name in names {
            fields.set(rng, asker, name);
        }
        fields
    }

    /// Gives one field a value, which may be zero or empty.
    fn set(&mut self, rng: &mut Rng, asker: &Asker, name: u8) {
        match name {
            b'h' => self.handle = asker.handle(rng),
            b'n' => self.new_handle = asker.handle(rng),
            b'k' => self.key = [0; 16].map(|_: u8| rng.byte()),
            b'l' => self.length = room(rng),
            b'c' => {
                let count = count(rng);
                (self.count, self.kept) = (count.number, count.kept.into());
            }
            b'i' => self.limit = count(rng).number,
            b'a' => self.hashes = asker.hashes(rng),
            b's' => self.hashes = asker.some_hashes(rng),
            _ => {
                let length = payload_length(rng);
                self.payload = rng.bytes(length);
            }
        }
    }

    /// Changes a field in a way that the writer may refuse.
    fn spoil(&mut self, rng: &mut Rng, asker: &Asker) {
        match rng.below(9) {
            0 => {
                let length = rng.pick(&[0, 1, 4096, 4097]);
                self.payload = rng.bytes(length);
            }
            1 => {
                let length = rng.pick(&[1, 19, 21, 159, 160, 161, 180, 320]);
                self.hashes = rng.bytes(length);
            }
            2 => self.key[rng.below(16)] = rng.bit(8),
            3 => self.new_handle[rng.below(HANDLE_BYTES)] = rng.bit(8),
            4..6 => {
                self.count = rng.pick(&[0, 0, 0, 1, 0x100, 0xFFFF]);
                self.kept = rng.pick(&[0, 0, 1, 1, 2, 255]);
            }
            6 => self.hashes.clear(),
            _ => {
                let name = rng.pick(b"hnklciap");
                self.set(rng, asker, name);
            }
        }
    }
}

/// Has this many requests written, and checks each.
///
/// # Panics
///
/// Where the archive and the reference differ.
pub fn compare_writers(mut rng: Rng, calls: u64) -> WriterSeen {
    let mut seen = WriterSeen::default();
    pipeline::run(
        move |giver| {
            let asker = Asker::new(4);
            for _ in 0..calls {
                let kind = rng.pick(&[0, 1, 2, 2, 2, 3, 4, 5, 6, 7, 8, 8, 9, 10, 31, 33, 255]);
                let mut fields = OwnFields::of_kind(&mut rng, &asker, kind);
                if rng.one_in(3) {
                    fields.spoil(&mut rng, &asker);
                }
                let mut out = out_buffer(&mut rng, kind, &fields.lent());
                giver.commands.write_request(kind, &fields.sent(), &out)?;
                let number = write_request(kind, &fields.lent(), &mut out);
                giver.expect((kind, fields, Written { number, out }))?;
            }
            Ok(())
        },
        |answers, (kind, fields, expected)| {
            let given = answers.written();
            if let Err(difference) = given.same_as(&expected) {
                panic!("kind {kind} and {fields:02x?}: {difference}");
            }
            seen.note(kind, &fields, &given);
        },
    );
    seen
}

impl WriterSeen {
    /// Notes a request that was written or refused as expected.
    fn note(&mut self, kind: u8, fields: &OwnFields, given: &Written) {
        let number = given.number;
        let handed = Handed::of(fields.count, fields.kept);
        *self.counts.entry((number, kind, handed)).or_default() += 1;
        if let Some(length) = length_without_hash(kind, &fields.lent()) {
            let without_hash = WithoutHash {
                kind,
                short: given.out.len() < length,
                number,
            };
            *self.without_hash.entry(without_hash).or_default() += 1;
        }
    }
}

/// The length of the frame that the reference writes; `None` where it writes
/// none.
fn written_length(kind: u8, fields: &WriterFields<'_>) -> Option<usize> {
    let mut long = [0; 4300];
    let number = write_request(kind, fields, &mut long);
    (number == 0).then(|| 4 + usize::from(u16::from_be_bytes([long[2], long[3]])))
}

/// The length of the frame of a request without a hash, whether it is written or
/// not; `None` where it has a hash, or would not be written with one either.
fn length_without_hash(kind: u8, fields: &WriterFields<'_>) -> Option<usize> {
    if !fields.hashes.is_empty() {
        return None;
    }
    let hashes = &[1; HASH_BYTES];
    let hashed = WriterFields { hashes, ..*fields };
    Some(written_length(kind, &hashed)? - HASH_BYTES)
}

/// A buffer about as long as the frame, or as the one that is missing a hash.
fn out_buffer(rng: &mut Rng, kind: u8, fields: &WriterFields<'_>) -> Vec<u8> {
    let length = written_length(kind, fields)
        .or_else(|| length_without_hash(kind, fields))
        .unwrap_or(40);
    let room = match rng.below(6) {
        0 => rng.below(length),
        1 => length - 1,
        2 => length + rng.below(50),
        _ => length,
    };
    rng.bytes(room)
}

/// Has this many random replies read, and checks each.
///
/// # Panics
///
/// Where the archive and the reference differ.
pub fn compare_readers(rng: Rng, calls: u64) -> ReaderCounts {
    let mut counts = ReaderCounts::new();
    let asker = Asker::new(4);
    let replies = move |rng: &mut Rng, _| asker.reply(rng);
    read_each(rng, calls, replies, |_, given| {
        *counts.entry(Told::of(given)).or_default() += 1;
    });
    counts
}

impl Told {
    /// What 203 tells.
    pub const NOTHING: Told = Told {
        number: 203,
        kind: 0,
        status: 0,
        counted: Counted::Nothing,
        hashed: false,
    };

    fn of(given: &Read) -> Told {
        let number = given.number;
        if number != 0 {
            return Told {
                number,
                ..Told::NOTHING
            };
        }
        let [kind, status] = [given.numbers[0] as u8, given.numbers[1] as u8];
        let counted = match (kind, status) {
            (3 | 9, 0) => Count::said(given.numbers[10] != 0, given.numbers[2])
                .map_or(Counted::Nothing, Counted::of),
            _ => Counted::Nothing,
        };
        Told {
            number,
            kind,
            status,
            counted,
            hashed: given.numbers[3] != 0,
        }
    }
}

/// Has these replies read, and checks each. Gives those accepted.
///
/// # Panics
///
/// Where the archive and the reference differ.
pub fn accepted(rng: Rng, replies: &[Vec<u8>]) -> Vec<Vec<u8>> {
    let mut accepted = Vec::new();
    let reply = |_: &mut Rng, call: u64| replies[call as usize].clone();
    read_each(rng, replies.len() as u64, reply, |reply, given| {
        if given.number == 0 {
            accepted.push(reply.to_vec());
        }
    });
    accepted
}

/// Has as many replies read as there are calls, each made by the number of its
/// call; checks each, and hands it on with what was read.
fn read_each(
    mut rng: Rng,
    calls: u64,
    mut reply: impl FnMut(&mut Rng, u64) -> Vec<u8> + Send,
    mut seen: impl FnMut(&[u8], &Read),
) {
    pipeline::run(
        move |giver| {
            for call in 0..calls {
                let frame = reply(&mut rng, call);
                let key = [0; 16].map(|_: u8| rng.byte());
                let numbers = Numbers::default().map(|_| rng.word());
                giver.commands.read_reply(&frame, &key, &numbers)?;
                let expected = expected(&frame, key, numbers);
                giver.expect((frame, expected))?;
            }
            Ok(())
        },
        |answers, (frame, expected)| {
            let given = answers.read();
            if let Err(difference) = given.same_as(&expected) {
                panic!("{frame:02x?}: {difference}");
            }
            seen(&frame, &given);
        },
    );
}

/// What the reference reads in a reply, in the form that the archive gives.
pub(crate) fn expected(frame: &[u8], key: Key, numbers: Numbers) -> Read {
    match read_reply(frame) {
        Err(number) => Read {
            number,
            key,
            numbers,
        },
        Ok(reply) => Read {
            number: 0,
            key: reply.fields.key,
            numbers: numbers_of(&reply, frame),
        },
    }
}

/// The eleven numbers of a reply: kind, status, count, number and offset of the
/// hashes, offset and length of the payload, more, number and offset of the
/// handles, and whether a count is kept.
fn numbers_of(reply: &Reply<'_>, frame: &[u8]) -> Numbers {
    let fields = &reply.fields;
    let (hashes_at, payload_at, handles_at) = match (reply.status, reply.kind) {
        (Status::Success, 3) => (23, 23 + fields.hashes.len(), 0),
        (Status::Success, 8) => (0, 0, 5),
        (Status::Success, 9) => (0, 6, 0),
        _ => (0, 0, 0),
    };
    assert!(frame[hashes_at..].starts_with(fields.hashes));
    assert!(frame[payload_at..].starts_with(fields.payload));
    assert!(frame[handles_at..].starts_with(fields.handles));
    [
        reply.kind.into(),
        reply.status.number().into(),
        fields.count.number().into(),
        fields.hashes.len() / HASH_BYTES,
        hashes_at,
        payload_at,
        fields.payload.len(),
        fields.more.into(),
        fields.handles.len() / HANDLE_BYTES,
        handles_at,
        fields.count.is_kept().into(),
    ]
    .map(|number| u16::try_from(number).expect("no number is so large"))
}

impl Asker {
    /// A reply frame; one in three is spoiled, and one in ten has the other bit of
    /// a count.
    fn reply(&self, rng: &mut Rng) -> Vec<u8> {
        let mut reply = match rng.below(4) {
            0 => frame(rng.below(32) as u8, rng.below(11) as u8, &[]),
            _ => {
                let kind = 1 + rng.below(9) as u8;
                let count = count(rng);
                let second = match kind {
                    3 | 9 if count.kept => KEPT,
                    _ => 0,
                };
                frame(kind, second, &self.given(rng, kind, count.number))
            }
        };
        if rng.one_in(10) {
            reply[1] ^= KEPT;
        }
        if rng.one_in(3) {
            self.spoil(rng, &mut reply);
        }
        reply
    }

    /// The body of a success, with this number if it has a count; now and then a
    /// little too long or too short.
    fn given(&self, rng: &mut Rng, kind: u8, count: u16) -> Vec<u8> {
        let length = match rng.below(8) {
            0 => rng.pick(&[0, 4096, 4097]),
            _ => payload_length(rng),
        };
        let payload = rng.bytes(length);
        let key = rng.bytes(16);
        let count = count.to_be_bytes();
        match kind {
            3 => {
                let hashes = self.hashes(rng);
                let head = [(hashes.len() / HASH_BYTES) as u8 * 16];
                [&key, &count[..], &head, &hashes, &payload].concat()
            }
            4 => key,
            8 => {
                let handles = rng.below(17);
                let more = rng.pick(&[0x00, 0x80]);
                let length = handles * HANDLE_BYTES;
                [&[more][..], &rng.bytes(length)].concat()
            }
            9 => [&count[..], &payload].concat(),
            _ => Vec::new(),
        }
    }
}
