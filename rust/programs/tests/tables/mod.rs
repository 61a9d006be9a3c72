//! Tables for the programs: made by calls of the agent, by hand, and at random.

use random::Rng;
use reference::{call, write_request, Count, Place, Tally, WriterFields};
use reference::{HASH_BYTES, REPLY_ROOM, SLOT_BYTES};

/// The largest table, of 64,320 bytes.
pub const LARGEST: usize = 15 * SLOT_BYTES;

/// What the listing is to say of one slot.
#[derive(Clone, Copy, Debug)]
pub struct Said {
    pub place: Place,
    pub hashes: u8,
    pub count: Count,
    pub length: u16,
}

/// A slot with these numbers, which is well formed if they are allowed, under a
/// handle of ten bytes `handle`.
pub fn slot(handle: u8, said: Said) -> Vec<u8> {
    let mut slot = vec![0; SLOT_BYTES];
    let kept = u8::from(said.count.is_kept());
    slot[0] = (said.place as u8) << 6 | said.hashes << 2 | kept << 1;
    slot[1..11].fill(handle);
    slot[27..29].copy_from_slice(&said.count.number().to_be_bytes());
    slot[29..31].copy_from_slice(&said.length.to_be_bytes());
    if said.place != Place::Reserved {
        slot[11..27].fill(0xC0 | handle);
        slot[31..31 + HASH_BYTES * usize::from(said.hashes)].fill(0x5A);
        slot[192..192 + usize::from(said.length)].fill(0xA7);
    }
    slot
}

/// A slot of 4,288 zeros.
pub fn empty() -> Vec<u8> {
    vec![0; SLOT_BYTES]
}

/// A slot with a right in it, under a handle of ten bytes `handle`.
pub fn right(place: Place, handle: u8, hashes: u8, count: Count, length: u16) -> Vec<u8> {
    slot(
        handle,
        Said {
            place,
            hashes,
            count,
            length,
        },
    )
}

/// A slot reserved for a length, under a handle of ten bytes `handle`.
pub fn reserved(handle: u8, length: u16) -> Vec<u8> {
    right(Place::Reserved, handle, 0, Count::NotKept, length)
}

/// The status of a request that the reference carries out on a table. A setup
/// takes the lowest empty slot.
pub fn ask(table: &mut [u8], kind: u8, fields: &WriterFields<'_>) -> u8 {
    let mut frame = vec![0; 4400];
    assert_eq!(write_request(kind, fields, &mut frame), 0);
    let body = usize::from(u16::from_be_bytes([frame[2], frame[3]]));
    let mut reply = vec![0; REPLY_ROOM];
    let mut tally = Tally::of(table).expect("a table that the agent takes");
    let number = call(table, &mut tally, 0, &frame[..4 + body], &mut reply);
    assert_eq!(number, 0);
    reply[1] % 128
}

/// Fifteen slots, with records in every place among them, made by requests:
/// setups, installations, lendings, a return, and slots cleared again.
pub fn by_requests() -> Vec<u8> {
    let mut table = vec![0; LARGEST];
    let lengths = [
        1, 9, 10, 99, 100, 999, 1000, 4095, 4096, 5, 17, 256, 2048, 64, 3,
    ];
    for (i, &length) in (0..).zip(&lengths) {
        let setup = WriterFields {
            handle: [i; 10],
            length,
            ..WriterFields::default()
        };
        assert_eq!(ask(&mut table, 1, &setup), 0);
    }
    for (i, &length) in (0..).zip(&lengths).filter(|(i, _)| i % 5 != 1) {
        let hashes = vec![i; HASH_BYTES * usize::from(1 + i % 8)];
        let installation = WriterFields {
            handle: [i; 10],
            key: [i; 16],
            count: u16::from(i).pow(4),
            kept: u8::from(i > 0),
            hashes: &hashes,
            payload: &vec![0xEE; usize::from(length)],
            ..WriterFields::default()
        };
        assert_eq!(ask(&mut table, 2, &installation), 0);
    }
    for (kind, handle) in [(4, 0), (3, 3), (4, 8), (3, 12), (6, 5), (7, 11)] {
        let request = WriterFields {
            handle: [handle; 10],
            new_handle: [if kind < 5 { 100 + handle } else { 0 }; 10],
            ..WriterFields::default()
        };
        assert_eq!(ask(&mut table, kind, &request), 0);
    }
    // one comes back used up
    let used_up = WriterFields {
        handle: [112; 10],
        kept: 1,
        ..WriterFields::default()
    };
    assert_eq!(ask(&mut table, 5, &used_up), 0);
    table
}

/// A number of few or many digits, up to `most`.
fn number(rng: &mut Rng, most: usize) -> u16 {
    let bound = rng.pick(&[10, 100, 1000, 10_000, 65_536]).min(most + 1);
    rng.below(bound) as u16
}

/// Any count: none, one that is used up, or another.
fn any_count(rng: &mut Rng) -> Count {
    match rng.below(5) {
        0 => Count::NotKept,
        1 => Count::Kept(0),
        _ => Count::Kept(number(rng, 65_535)),
    }
}

/// A well-formed slot at random, under a handle of ten bytes `handle`.
fn any_slot(rng: &mut Rng, handle: u8) -> Vec<u8> {
    let place = [Place::Reserved, Place::Enabled, Place::Disabled];
    let length = 1 + number(rng, 4095);
    match rng.below(4) {
        3 => empty(),
        0 => reserved(handle, length),
        i => right(place[i], handle, rng.below(9) as u8, any_count(rng), length),
    }
}

/// A well-formed table of 1 to 15 slots, at random.
pub fn any_table(rng: &mut Rng) -> Vec<u8> {
    let slots = 1 + rng.below(15);
    (0..slots as u8).flat_map(|i| any_slot(rng, i)).collect()
}
