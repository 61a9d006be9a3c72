//! The functions of the archive, linked or through the driver, with Rust's
//! types.

#[cfg(target_arch = "x86_64")]
mod sys;
#[cfg(target_arch = "x86_64")]
pub(crate) use sys::{call, call_totalling, list, read_reply, salvage, tally, turn, write_request};

#[cfg(not(target_arch = "x86_64"))]
mod driven;
#[cfg(not(target_arch = "x86_64"))]
pub(crate) use driven::{
    call, call_totalling, list, read_reply, salvage, tally, turn, write_request,
};

use crate::{HANDLE_BYTES, KEY_BYTES};

/// The numbers that the reply reader writes.
pub(crate) type Numbers = [u16; 11];

/// The three numbers that the totalling call keeps.
#[derive(Clone, Copy, Debug, PartialEq, Eq)]
pub(crate) struct Sums {
    pub total: i32,
    pub returns: u16,
    pub change: i32,
}

/// The fields of a request of any kind. Those that the kind lacks are zero or
/// empty.
#[derive(Default)]
pub(crate) struct Fields<'a> {
    pub handle: [u8; HANDLE_BYTES],
    pub new_handle: [u8; HANDLE_BYTES],
    pub key: [u8; KEY_BYTES],
    pub room: u16,
    pub count: u16,
    pub kept: u8,
    pub limit: u16,
    pub hashes: Vec<u8>,
    pub payload: &'a [u8],
}

impl Fields<'_> {
    /// Puts in a count as the archive takes it: a number, 0 where none is
    /// kept, and whether one is.
    pub(crate) fn put_count(&mut self, count: Option<u16>) {
        self.count = count.unwrap_or(0);
        self.kept = count.is_some().into();
    }
}

/// The frame that the archive has written at the start of a buffer: 4 bytes, of
/// which the last two give the length of the body that follows.
pub(crate) fn frame_in(buffer: &[u8]) -> &[u8] {
    &buffer[..4 + usize::from(u16::from_be_bytes([buffer[2], buffer[3]]))]
}
