//! What the tests share: frames written by hand, and requests made at random.

#![allow(dead_code)] // no test file uses all of it

use random::Rng;
use reference::{Count, Fields, Handle, Key, Tally, WriterFields};
use reference::{HASH_BYTES, REPLY_ROOM, SLOT_BYTES};

/// What reply buffers hold before a call.
pub const FILLER: u8 = 0xA5;

/// The fields of a request, with hashes and payload of its own.
#[derive(Clone, Debug, Default)]
pub struct OwnFields {
    pub handle: Handle,
    pub new_handle: Handle,
    pub key: Key,
    pub length: u16,
    pub count: Count,
    pub limit: u16,
    pub hashes: Vec<u8>,
    pub payload: Vec<u8>,
}

impl OwnFields {
    pub fn lent(&self) -> Fields<'_> {
        Fields {
            handle: self.handle,
            new_handle: self.new_handle,
            key: self.key,
            length: self.length,
            count: self.count,
            limit: self.limit,
            hashes: &self.hashes,
            payload: &self.payload,
        }
    }

    /// The same, as the writer is handed them.
    pub fn handed(&self) -> WriterFields<'_> {
        self.lent().into()
    }
}

/// Makes requests at random, about few handles and few hashes, so that they
/// meet each other.
pub struct Asker {
    handles: usize,
}

impl Asker {
    /// For requests about `handles` handles, the handle of zeros among them.
    pub fn new(handles: usize) -> Self {
        Asker { handles }
    }

    fn handle(&self, rng: &mut Rng) -> Handle {
        [rng.below(self.handles) as u8; 10]
    }

    /// The hashes of a query, of which there may be none.
    fn asked_hashes(&self, rng: &mut Rng) -> Vec<u8> {
        let count = rng.pick(&[0, 0, 1, 1, 2, 3, 7, 8]);
        self.hashes(rng, count)
    }

    /// The hashes of a right that may be installed.
    fn own_hashes(&self, rng: &mut Rng) -> Vec<u8> {
        let count = rng.pick(&[1, 1, 1, 2, 3, 7, 8]);
        self.hashes(rng, count)
    }

    fn hashes(&self, rng: &mut Rng, count: usize) -> Vec<u8> {
        (0..count)
            .flat_map(|_| [rng.below(6) as u8; HASH_BYTES])
            .collect()
    }

    fn setup_length(&self, rng: &mut Rng) -> u16 {
        match rng.below(16) {
            0 => rng.pick(&[0, 1, 4095, 4096, 4097, 0x8001, 0xFFFF]),
            1..8 => 4096,
            _ => 1 + rng.below(60) as u16,
        }
    }

    fn count(&self, rng: &mut Rng) -> Count {
        match rng.below(6) {
            0..2 => Count::NotKept,
            2..4 => Count::Kept(0),
            4 => Count::Kept(rng.pick(&[1, 0xFF, 0x100, 0xFFFF])),
            _ => Count::Kept(rng.word()),
        }
    }

    fn payload_length(&self, rng: &mut Rng) -> usize {
        match rng.below(12) {
            0 => rng.pick(&[1, 4095, 4096]),
            _ => 1 + rng.below(60),
        }
    }

    /// Fields that the writer takes for this kind.
    pub fn fields(&self, rng: &mut Rng, kind: u8) -> OwnFields {
        let mut fields = OwnFields::default();
        if kind != 8 {
            fields.handle = self.handle(rng);
        }
        match kind {
            1 => fields.length = self.setup_length(rng),
            2 => {
                fields.key = [rng.byte(); 16];
                fields.count = self.count(rng);
                fields.hashes = self.own_hashes(rng);
                let length = self.payload_length(rng);
                fields.payload = rng.bytes(length);
            }
            3 | 4 => fields.new_handle = self.handle(rng),
            5 => fields.count = self.count(rng),
            8 => {
                fields.limit = rng.pick(&[0, 0, 1, 9, 10, 19, 20, 55, 149, 150, 0xFFFF]);
                fields.hashes = self.asked_hashes(rng);
            }
            _ => {}
        }
        fields
    }

    /// A frame: mostly a request, more often of the kinds that a right goes
    /// through, and now and then spoilt. One installation in eight has no hash.
    pub fn frame(&self, rng: &mut Rng) -> Vec<u8> {
        let kind = rng.pick(&[1, 1, 1, 2, 2, 2, 2, 3, 4, 4, 5, 5, 6, 7, 8, 8, 9]);
        let mut fields = self.fields(rng, kind);
        if kind == 2 && rng.one_in(8) {
            fields.hashes.clear();
        }
        let mut frame = frame_bytes(kind, &fields);
        if rng.one_in(6) {
            spoil(rng, &mut frame);
        }
        frame
    }
}

/// Changes a frame of 4 bytes or more in a way that some test should notice.
fn spoil(rng: &mut Rng, frame: &mut Vec<u8>) {
    match rng.below(9) {
        0 => frame[0] = rng.byte(),
        1 => frame[1] = rng.byte(),
        2 => frame[1] = 0,
        3 => frame[3] ^= 1 << rng.below(8),
        4 => frame.truncate(rng.below(frame.len())),
        5 => {
            let index = rng.below(frame.len());
            frame[index] ^= 1 << rng.below(8);
        }
        6 => {
            let body = rng.bytes(frame.len() % 64);
            *frame = request_bytes(frame[0] & 31, 0x80, &body);
        }
        7 => frame[1] ^= 0x40,
        _ => {
            let kind = rng.pick(&[0, 10, 16, 31]);
            *frame = request_bytes(kind, 0x80, &frame[4..]);
        }
    }
}

/// A frame of version 1, put together without the library.
pub fn request_bytes(kind: u8, second: u8, body: &[u8]) -> Vec<u8> {
    let mut frame = vec![0x20 + kind, second];
    frame.extend((body.len() as u16).to_be_bytes());
    frame.extend(body);
    frame
}

/// The frame of a request that the writer takes, put together without the
/// library.
pub fn frame_bytes(kind: u8, fields: &OwnFields) -> Vec<u8> {
    let second = match fields.count {
        Count::NotKept => 0x80,
        Count::Kept(_) => 0xC0,
    };
    request_bytes(kind, second, &body_bytes(kind, fields))
}

/// The body of a request, put together without the library.
pub fn body_bytes(kind: u8, fields: &OwnFields) -> Vec<u8> {
    let hash_count = (fields.hashes.len() / HASH_BYTES) as u8;
    let handle = fields.handle.as_slice();
    match kind {
        1 => [handle, &fields.length.to_be_bytes()].concat(),
        2 => [
            handle,
            &fields.key,
            &fields.count.number().to_be_bytes(),
            &[hash_count * 16],
            &fields.hashes,
            &fields.payload,
        ]
        .concat(),
        3 | 4 => [handle, &fields.new_handle].concat(),
        5 => [handle, &fields.count.number().to_be_bytes()].concat(),
        8 => [
            fields.limit.to_be_bytes().as_slice(),
            &[hash_count],
            &fields.hashes,
        ]
        .concat(),
        _ => handle.to_vec(),
    }
}

/// A table of empty slots.
pub fn blank(slots: usize) -> Vec<u8> {
    vec![0; slots * SLOT_BYTES]
}

/// What a call gave.
#[derive(Debug, PartialEq, Eq)]
pub struct Given {
    pub number: u16,
    /// The reply, empty where the number is not 0.
    pub reply: Vec<u8>,
}

/// The tally of a table's whole slots, counted by their bytes without the
/// library. A table that is refused has one too here, whose sum may have lost
/// its high bits.
pub fn tally_of(table: &[u8]) -> Tally {
    let mut numbers = [0u16; 5];
    for slot in table.chunks_exact(SLOT_BYTES) {
        let place = usize::from(slot[0] >> 6);
        numbers[place] += 1;
        if place >= 2 {
            let length = u16::from_be_bytes([slot[29], slot[30]]);
            numbers[4] = numbers[4].wrapping_add(length);
        }
    }
    numbers.into()
}

/// Calls the agent with the start 0.
pub fn call(table: &mut [u8], frame: &[u8]) -> Given {
    call_from(0, table, frame)
}

/// Calls the agent with the tally of the table, and asserts that it is that of
/// the table afterwards too.
pub fn call_from(start: u64, table: &mut [u8], frame: &[u8]) -> Given {
    let mut tally = tally_of(table);
    let given = call_with(&mut tally, start, table, frame);
    assert_eq!(tally, tally_of(table), "{frame:02x?}");
    given
}

/// Calls the agent with a buffer of `FILLER`, and asserts that nothing but the
/// reply was written to it.
pub fn call_with(tally: &mut Tally, start: u64, table: &mut [u8], frame: &[u8]) -> Given {
    let mut buffer = vec![FILLER; REPLY_ROOM + 3];
    let number = reference::call(table, tally, start, frame, &mut buffer);
    let length = match number {
        0 => 4 + usize::from(u16::from_be_bytes([buffer[2], buffer[3]])),
        _ => 0,
    };
    let rest = buffer.split_off(length);
    assert!(rest.iter().all(|&byte| byte == FILLER));
    Given {
        number,
        reply: buffer,
    }
}

/// Calls the agent with the start 0, and asserts that it gives this status.
pub fn call_for(status: u8, table: &mut [u8], kind: u8, fields: &OwnFields) -> Vec<u8> {
    let given = call(table, &frame_bytes(kind, fields));
    assert_eq!(given.number, 0);
    assert_eq!(given.reply[1] % 128, status, "kind {kind}, {fields:?}");
    given.reply
}

/// A table of five slots: enabled with 2 hashes and a count, reserved, disabled
/// with 8 hashes, the longest payload and a count, empty, and enabled with a hash
/// that no other has and no count.
pub fn mixed_table() -> Vec<u8> {
    let mut table = blank(5);
    for (handle, length) in [(1, 40), (2, 7), (3, 4096), (0, 3), (4, 9)] {
        call_for(0, &mut table, 1, &setup(handle, length));
    }
    call_for(0, &mut table, 2, &right(1, 2, 33));
    call_for(0, &mut table, 2, &right(3, 8, 4096));
    call_for(0, &mut table, 2, &uncounted(fourth()));
    call_for(0, &mut table, 4, &lending(3, 5));
    call_for(0, &mut table, 7, &about(0));
    table
}

/// The right under 4 of the mixed table, but with a count.
pub fn fourth() -> OwnFields {
    OwnFields {
        hashes: vec![9; HASH_BYTES],
        ..right(4, 0, 9)
    }
}

/// Makes the right in this slot one without a hash, as no request can install it
/// but cards may hold it (PROFILE 2.9): hash count 0, and zeros for hashes.
pub fn take_hashes(table: &mut [u8], slot: usize) {
    let slot = &mut table[slot * SLOT_BYTES..][..SLOT_BYTES];
    assert!(slot[0] >= 0x80, "the slot holds a right");
    slot[0] &= !0b0011_1100;
    slot[31..191].fill(0);
}

/// The mixed table, but no right in it has a hash.
pub fn mixed_without_hashes() -> Vec<u8> {
    let mut table = mixed_table();
    for slot in [0, 2, 4] {
        take_hashes(&mut table, slot);
    }
    table
}

/// The handle of new records, which none of the mixed table has.
pub const NEW: u8 = 0xEE;

/// A request of each kind that succeeds on the mixed table.
pub fn successes() -> Vec<Vec<u8>> {
    let rows = [
        (1, setup(NEW, 7)),
        (2, right(2, 1, 7)),
        (3, lending(1, NEW)),
        (4, lending(4, NEW)),
        (5, returning(5, Count::Kept(3))),
        (6, about(5)),
        (7, about(2)),
        (8, OwnFields::default()),
        (9, about(1)),
    ];
    rows.map(|(kind, fields)| frame_bytes(kind, &fields)).into()
}

/// Frames that the agent answers with a refusal, and strings that are no frame.
pub fn failures() -> Vec<Vec<u8>> {
    let setups = [setup(NEW, 0), setup(1, 7), setup(NEW, 4097)];
    let mut frames: Vec<Vec<u8>> = setups.map(|fields| frame_bytes(1, &fields)).into();
    frames.push(request_bytes(1, 0, &[NEW; 12]));
    frames.push(request_bytes(1, 0x81, &[NEW; 12]));
    frames.push(frame_bytes(2, &right(2, 0, 7)));
    frames.push(frame_bytes(6, &about(NEW)));
    frames.push(frame_bytes(5, &returning(5, Count::Kept(0xFFFF))));
    frames.push(frame_bytes(9, &about(5)));
    let unknown = (0..32).filter(|kind| !(1..=9).contains(kind));
    frames.extend(unknown.map(|kind| request_bytes(kind, 0x80, &[])));
    let setup = frame_bytes(1, &setup(NEW, 7));
    frames.extend([0, 1, 3, 4, 15].map(|length| setup[..length].to_vec()));
    frames.push([&setup[..], &[0]].concat());
    frames
}

/// The fields of a request that has only a handle, ten bytes `handle`.
pub fn about(handle: u8) -> OwnFields {
    OwnFields {
        handle: [handle; 10],
        ..OwnFields::default()
    }
}

/// The fields of a setup under ten bytes `handle`.
pub fn setup(handle: u8, length: u16) -> OwnFields {
    OwnFields {
        length,
        ..about(handle)
    }
}

/// The fields of a lending, from ten bytes `from` to ten bytes `to`.
pub fn lending(from: u8, to: u8) -> OwnFields {
    OwnFields {
        new_handle: [to; 10],
        ..about(from)
    }
}

/// The fields of a return of ten bytes `handle`.
pub fn returning(handle: u8, count: Count) -> OwnFields {
    OwnFields {
        count,
        ..about(handle)
    }
}

/// Whether a return with the second count is refused with 9 where the first was lent
/// (PROFILE 5.5), worked out without the library.
pub fn is_raised(lent: Count, sent: Count) -> bool {
    lent.is_kept() != sent.is_kept() || sent.number() > lent.number()
}

/// The fields of an installation, or of a return, that keeps no count.
pub fn uncounted(fields: OwnFields) -> OwnFields {
    OwnFields {
        count: Count::NotKept,
        ..fields
    }
}

/// The fields of an installation under ten bytes `handle`, with a count. Without
/// a hash it is one that is refused.
pub fn right(handle: u8, hashes: u8, payload: usize) -> OwnFields {
    OwnFields {
        handle: [handle; 10],
        key: [0x60 + handle; 16],
        count: Count::Kept(0x100 + u16::from(handle)),
        hashes: (1..=hashes).flat_map(|hash| [hash; HASH_BYTES]).collect(),
        payload: (0..payload).map(|index| index as u8 | 1).collect(),
        ..OwnFields::default()
    }
}
