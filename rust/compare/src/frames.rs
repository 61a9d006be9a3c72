//! Request frames at random, right and wrong ones.

use random::Rng;
use reference::{Handle, HASH_BYTES};

/// A hash.
type Hash = [u8; HASH_BYTES];

/// The verdict: the highest bit of the second byte, set where the MAC held.
const VERDICT: u8 = 0x80;

/// The bit of the second byte that says that a count is kept, in kinds 2 and 5.
const KEPT: u8 = 0x40;

/// The kinds outside 1 to 9.
pub const KINDS_OUTSIDE: [u8; 23] = [
    0, 10, 11, 12, 13, 14, 15, 16, 17, 18, 19, 20, 21, 22, 23, 24, 25, 26, 27, 28, 29, 30, 31,
];

/// Makes frames about few handles and few hashes, so that requests meet each
/// other and every status comes up.
pub struct Asker {
    handles: Vec<Handle>,
    hashes: Vec<Hash>,
}

impl Asker {
    /// For a table of this many slots, with two handles more than slots.
    pub fn new(slots: usize) -> Self {
        Asker {
            handles: (0..slots + 2).map(near).collect(),
            hashes: (0..6).map(near).collect(),
        }
    }

    /// All the handles, each once.
    pub fn handles(&self) -> &[Handle] {
        &self.handles
    }

    /// One of the handles.
    pub fn handle(&self, rng: &mut Rng) -> Handle {
        rng.pick(&self.handles)
    }

    /// Up to 8 hashes, one after another; two may be equal.
    pub fn hashes(&self, rng: &mut Rng) -> Vec<u8> {
        match rng.below(10) {
            0..3 => Vec::new(),
            _ => self.some_hashes(rng),
        }
    }

    /// As many hashes as a right may be installed with, 1 to 8.
    pub fn some_hashes(&self, rng: &mut Rng) -> Vec<u8> {
        let count = rng.pick(&[1, 1, 1, 2, 3, 7, 8]);
        (0..count).flat_map(|_| rng.pick(&self.hashes)).collect()
    }

    /// A frame; one in five is spoiled, some of them more than once.
    pub fn frame(&self, rng: &mut Rng) -> Vec<u8> {
        let kind = rng.pick(&[
            1, 1, 1, 1, 2, 2, 2, 2, 3, 3, 3, 4, 4, 4, 5, 5, 5, 5, 6, 7, 8, 8, 9,
        ]);
        let mut frame = self.request(rng, kind);
        let mut again = 5;
        while rng.one_in(again) {
            self.spoil(rng, &mut frame);
            again = 3;
        }
        frame
    }

    /// A frame of the kind's shape. One in twelve of those that have a count has
    /// it without its bit.
    fn request(&self, rng: &mut Rng, kind: u8) -> Vec<u8> {
        let mut count = count(rng);
        count.kept &= !rng.one_in(12);
        let second = match kind {
            2 | 5 if count.kept => VERDICT | KEPT,
            _ => VERDICT,
        };
        frame(kind, second, &self.body(rng, kind, count.number))
    }

    /// A body of the kind's shape, with this number if it has a count.
    fn body(&self, rng: &mut Rng, kind: u8, count: u16) -> Vec<u8> {
        let handle = self.handle(rng);
        match kind {
            1 => [&handle[..], &room(rng).to_be_bytes()].concat(),
            2 => {
                let length = payload_length(rng);
                self.installation(rng, &handle, count, length)
            }
            3 | 4 => [handle, self.handle(rng)].concat(),
            5 => [&handle[..], &count.to_be_bytes()].concat(),
            8 => self.list(rng),
            _ => handle.to_vec(),
        }
    }

    /// The body of an installation. One in six has no hash.
    fn installation(&self, rng: &mut Rng, handle: &Handle, count: u16, payload: usize) -> Vec<u8> {
        let key = match rng.below(8) {
            0 => vec![0; 16],
            _ => rng.bytes(16),
        };
        let hashes = match rng.below(6) {
            0 => Vec::new(),
            _ => self.some_hashes(rng),
        };
        [
            handle,
            &key[..],
            &count.to_be_bytes(),
            &[hash_count(&hashes) << 4],
            &hashes,
            &self.payload(rng, payload),
        ]
        .concat()
    }

    /// A payload. One in four has bytes that other payloads have too: rights
    /// with equal payloads are different rights all the same.
    fn payload(&self, rng: &mut Rng, length: usize) -> Vec<u8> {
        match rng.below(4) {
            0 => vec![0x5A; length],
            _ => rng.bytes(length),
        }
    }

    fn list(&self, rng: &mut Rng) -> Vec<u8> {
        let limit: u16 = match rng.below(3) {
            0 => 0,
            1 => rng.below(170) as u16,
            _ => rng.pick(&[1, 9, 10, 11, 19, 20, 149, 150, 151, 0xFFFF]),
        };
        let hashes = self.hashes(rng);
        [
            &limit.to_be_bytes()[..],
            &[hash_count(&hashes)],
            &hashes[..],
        ]
        .concat()
    }

    /// Changes a frame in a way that some test should notice.
    pub fn spoil(&self, rng: &mut Rng, frame: &mut Vec<u8>) {
        if frame.len() < 4 {
            return frame.push(rng.byte());
        }
        match rng.below(7) {
            0 => spoil_first(rng, frame),
            1 => spoil_second(rng, frame),
            2 => spoil_length(rng, frame),
            3 => spoil_hash_count(rng, frame),
            4 => spoil_kind(rng, frame),
            5 => {
                let index = rng.below(frame.len());
                frame[index] ^= rng.bit(8);
            }
            _ => *frame = self.edge(rng),
        }
    }

    /// A frame at the edge of what its kind allows.
    fn edge(&self, rng: &mut Rng) -> Vec<u8> {
        let handle = self.handle(rng);
        let kind = 1 + rng.below(9) as u8;
        let any = |rng: &mut Rng, length| frame(kind, VERDICT, &rng.bytes(length));
        match rng.below(12) {
            0 => any(rng, 0),
            1 => any(rng, 0xFFFF),
            2..5 => {
                let length = rng.pick(&[9, 11, 12, 13, 19, 20, 21, 29, 30, 31, 49, 50]);
                any(rng, length)
            }
            _ => {
                let length = rng.pick(&[0, 0, 1, 4096, 4097]);
                let number = count(rng).number;
                let body = self.installation(rng, &handle, number, length);
                frame(2, VERDICT | KEPT, &body)
            }
        }
    }
}

/// Changes version or kind.
fn spoil_first(rng: &mut Rng, frame: &mut [u8]) {
    frame[0] = match rng.below(4) {
        0 => rng.byte(),
        1 => frame[0] ^ (1 << (5 + rng.below(3))),
        2 => 0x20 + 1 + rng.below(9) as u8,
        _ => 0x20 + rng.pick(&KINDS_OUTSIDE),
    };
}

/// Gives the frame a kind outside 1 to 9, and mostly a head that is right but for
/// the kind.
fn spoil_kind(rng: &mut Rng, frame: &mut [u8]) {
    frame[0] = 0x20 + rng.pick(&KINDS_OUTSIDE);
    frame[1] = rng.pick(&[VERDICT, VERDICT, 0, VERDICT | KEPT, KEPT]);
}

/// Changes the verdict, the bit of a count or a zero bit.
fn spoil_second(rng: &mut Rng, frame: &mut [u8]) {
    frame[1] = match rng.below(6) {
        0 => frame[1] ^ rng.bit(7),
        1 => rng.byte(),
        2 => frame[1] ^ KEPT,
        3 => frame[1] & !VERDICT,
        _ => 0,
    };
}

/// Changes the length in the frame, or the frame's own length.
fn spoil_length(rng: &mut Rng, frame: &mut Vec<u8>) {
    let more = 1 + rng.below(30);
    match rng.below(5) {
        0 => frame[2 + rng.below(2)] ^= rng.bit(8),
        1 => frame.truncate(rng.below(frame.len())),
        2 => frame.extend(rng.bytes(more)),
        3 => {
            frame.truncate(4 + rng.below(frame.len() - 3));
            say_length(frame);
        }
        _ => {
            frame.extend(rng.bytes(more));
            say_length(frame);
        }
    }
}

/// Changes the hash count of kind 2 or of kind 8, if the frame has its byte.
fn spoil_hash_count(rng: &mut Rng, frame: &mut [u8]) {
    let (at, counts): (usize, &[u8]) = match frame[0] & 31 {
        2 => (32, &[0x00, 0x10, 0x90, 0xF0, 0x81, 0x04]),
        _ => (6, &[1, 8, 9, 16, 255]),
    };
    if let Some(byte) = frame.get_mut(at) {
        *byte = rng.pick(counts);
    }
}

/// Makes the length in the frame fit the frame.
fn say_length(frame: &mut [u8]) {
    let length = (frame.len() - 4) as u16;
    frame[2..4].copy_from_slice(&length.to_be_bytes());
}

/// A frame of version 1.
///
/// # Panics
///
/// Where the kind has more than 5 bits or the body's length more than 16.
pub fn frame(kind: u8, second: u8, body: &[u8]) -> Vec<u8> {
    assert!(kind < 32);
    let length = u16::try_from(body.len()).expect("a body is no longer");
    let head = [&[0x20 + kind, second][..], &length.to_be_bytes()].concat();
    [&head, body].concat()
}

/// Bytes for each number, which differ in one byte or two from those of any
/// other; for 0 they are zeros.
fn near<const N: usize>(index: usize) -> [u8; N] {
    let mut bytes = [0x11; N];
    bytes[index * 7 % N] ^= index as u8;
    match index {
        0 => [0; N],
        _ => bytes,
    }
}

/// The room that a setup asks for.
pub fn room(rng: &mut Rng) -> u16 {
    match rng.below(20) {
        0 => rng.pick(&[0, 0, 4097, 0x8001, 0xFFFF]),
        1..10 => 4096,
        _ => 1 + rng.below(40) as u16,
    }
}

/// The length of a payload that may be installed.
pub fn payload_length(rng: &mut Rng) -> usize {
    match rng.below(10) {
        0 => 1,
        1 => rng.pick(&[4095, 4096, 4096]),
        _ => 1 + rng.below(40),
    }
}

/// A count as bytes have it: a bit and a number.
#[derive(Clone, Copy)]
pub struct CountBytes {
    /// The bit: whether a count is kept.
    pub kept: bool,
    /// The number.
    pub number: u16,
}

/// The count of a right: none, one that is used up, or one that is not.
pub fn count(rng: &mut Rng) -> CountBytes {
    let (kept, number) = match rng.below(6) {
        0..2 => (false, 0),
        2..4 => (true, 0),
        4 => (true, rng.pick(&[1, 2, 0xFF, 0x100, 0x8000, 0xFFFF])),
        _ => (true, rng.word()),
    };
    CountBytes { kept, number }
}

fn hash_count(hashes: &[u8]) -> u8 {
    (hashes.len() / HASH_BYTES) as u8
}
