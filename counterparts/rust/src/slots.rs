//! Slots, and when one is well formed.

/// Sizes in bytes: a slot, a handle, a hash, and the longest payload.
pub const SLOT: usize = 4288;
pub const HANDLE: usize = 10;
pub const HASH: usize = 20;
pub const PAYLOAD: usize = 4096;

/// The most slots of a table, and the most hashes of a slot.
pub const SLOTS: usize = 15;
pub const HASHES: usize = 8;

/// The offsets of a slot's parts.
pub const AT_KEY: usize = 11;
pub const AT_COUNT: usize = 27;
pub const AT_LENGTH: usize = 29;
pub const AT_HASHES: usize = 31;
pub const AT_ZERO: usize = 191;
pub const AT_PAYLOAD: usize = 192;

/// The places of a record.
pub const EMPTY: u8 = 0;
pub const RESERVED: u8 = 1;
pub const ENABLED: u8 = 2;
pub const DISABLED: u8 = 3;

/// The low bits of a slot's first byte: whether a count is kept, and a bit that
/// is always 0.
pub const KEPT: u8 = 0x02;
const SPARE: u8 = 0x01;

/// How many bytes are read between two tests.
const BLOCK: usize = 512;

pub type Slot = [u8; SLOT];
pub type Handle = [u8; HANDLE];

/// The slots of a table, if it is 1 to 15 whole slots.
pub fn whole(table: &mut [u8]) -> Option<&mut [Slot]> {
    let (slots, rest) = table.as_chunks_mut::<SLOT>();
    (rest.is_empty() && (1..=SLOTS).contains(&slots.len())).then_some(slots)
}

pub fn place(s: &Slot) -> u8 {
    s[0] >> 6
}

pub fn hashes(s: &Slot) -> usize {
    usize::from(s[0] >> 2 & 15)
}

/// The count number, whatever the bit says.
pub fn count(s: &Slot) -> u16 {
    u16::from_be_bytes([s[AT_COUNT], s[AT_COUNT + 1]])
}

pub fn length(s: &Slot) -> usize {
    usize::from(u16::from_be_bytes([s[AT_LENGTH], s[AT_LENGTH + 1]]))
}

pub fn handle(s: &Slot) -> &Handle {
    s[1..].first_chunk().expect("a slot is longer")
}

/// Whether no two slots have the same handle.
pub fn distinct(slots: &[Slot]) -> bool {
    (0..slots.len())
        .all(|i| place(&slots[i]) == EMPTY || find(&slots[i + 1..], handle(&slots[i])).is_none())
}

/// The first slot under a handle.
pub fn find(slots: &[Slot], wanted: &Handle) -> Option<usize> {
    slots
        .iter()
        .position(|s| place(s) != EMPTY && handle(s) == wanted)
}

pub fn well_slot(s: &Slot) -> bool {
    let (hashes, length) = (hashes(s), length(s));
    match place(s) {
        EMPTY => all_zero(s),
        _ if hashes > HASHES
            || !(1..=PAYLOAD).contains(&length)
            || s[0] & SPARE != 0
            || s[AT_ZERO] != 0 =>
        {
            false
        }
        RESERVED => {
            s[0] == RESERVED << 6 && all_zero(&s[AT_KEY..AT_LENGTH]) && all_zero(&s[AT_HASHES..])
        }
        _ => {
            (s[0] & KEPT != 0 || s[AT_COUNT..AT_LENGTH] == [0, 0])
                && all_zero(&s[AT_HASHES + HASH * hashes..AT_ZERO])
                && all_zero(&s[AT_PAYLOAD + length..])
        }
    }
}

fn all_zero(s: &[u8]) -> bool {
    let (blocks, rest) = s.as_chunks::<BLOCK>();
    blocks.iter().all(|block| zero_block(block)) && zero_block(rest)
}

fn zero_block(s: &[u8]) -> bool {
    s.iter().fold(0, |any, byte| any | byte) == 0
}
