//! The archive as it is linked on x86-64. All unsafe code is here.
//!
//! `include/cavernlull.h` asks this of a caller: lent memory is a pointer and a
//! length, or a pointer where the length is fixed; no pointer is null; and
//! what is lent to be changed shares no byte with anything else that is lent
//! in the same call. Rust's references and slices, empty ones included, are
//! like that. No function keeps a pointer.

#![allow(unsafe_code)]

use super::{Fields, Numbers, Sums};
use crate::{Tally, KEY_BYTES, LISTING_ROOM};

extern "C" {
    fn cavernlull_call(
        table: *mut u8,
        table_length: usize,
        tally: *mut Tally,
        start: usize,
        frame: *const u8,
        frame_length: usize,
        reply: *mut u8,
        reply_length: usize,
    ) -> u16;

    fn cavernlull_call_totalling(
        table: *mut u8,
        table_length: usize,
        tally: *mut Tally,
        start: usize,
        frame: *const u8,
        frame_length: usize,
        reply: *mut u8,
        reply_length: usize,
        total: *mut i32,
        returns: *mut u16,
        change: *mut i32,
    ) -> u16;

    fn cavernlull_write_request(
        kind: u8,
        handle: *const u8,
        new_handle: *const u8,
        key: *const u8,
        room: u16,
        count: u16,
        kept: u8,
        limit: u16,
        hashes: *const u8,
        hashes_length: usize,
        payload: *const u8,
        payload_length: usize,
        out: *mut u8,
        out_length: usize,
    ) -> u16;

    fn cavernlull_read_reply(
        frame: *const u8,
        frame_length: usize,
        key: *mut u8,
        fields: *mut u16,
    ) -> u16;

    fn cavernlull_list(table: *const u8, table_length: usize, out: *mut u8) -> usize;

    fn cavernlull_turn(table: *mut u8, table_length: usize) -> u16;

    fn cavernlull_tally(table: *const u8, table_length: usize, tally: *mut Tally) -> u16;

    fn cavernlull_salvage(
        table: *mut u8,
        table_length: usize,
        report: *mut u8,
        report_length: usize,
    ) -> u16;
}

/// `cavernlull_call`.
pub(crate) fn call(
    table: &mut [u8],
    tally: &mut Tally,
    start: usize,
    frame: &[u8],
    reply: &mut [u8],
) -> u16 {
    // SAFETY: each pointer but `tally` is that of a slice, with its length;
    // `Tally` has the layout of the header's structure, and any numbers in it
    // will do; `table`, `tally` and `reply` are borrowed to be changed, so no
    // two of the four overlap.
    unsafe {
        cavernlull_call(
            table.as_mut_ptr(),
            table.len(),
            tally,
            start,
            frame.as_ptr(),
            frame.len(),
            reply.as_mut_ptr(),
            reply.len(),
        )
    }
}

/// `cavernlull_call_totalling`.
pub(crate) fn call_totalling(
    table: &mut [u8],
    tally: &mut Tally,
    start: usize,
    frame: &[u8],
    reply: &mut [u8],
    sums: &mut Sums,
) -> u16 {
    // SAFETY: as for `cavernlull_call`; the three numbers are fields of one
    // structure that is borrowed to be changed, so they overlap neither one
    // another nor anything else, and any numbers in them will do.
    unsafe {
        cavernlull_call_totalling(
            table.as_mut_ptr(),
            table.len(),
            tally,
            start,
            frame.as_ptr(),
            frame.len(),
            reply.as_mut_ptr(),
            reply.len(),
            &mut sums.total,
            &mut sums.returns,
            &mut sums.change,
        )
    }
}

/// `cavernlull_write_request`.
pub(crate) fn write_request(kind: u8, fields: &Fields<'_>, out: &mut [u8]) -> u16 {
    // SAFETY: handles and key are arrays of the 10 and 16 bytes that the
    // function reads; the other pointers are those of slices, with their
    // lengths; `out` is borrowed to be changed, so it overlaps none of them.
    unsafe {
        cavernlull_write_request(
            kind,
            fields.handle.as_ptr(),
            fields.new_handle.as_ptr(),
            fields.key.as_ptr(),
            fields.room,
            fields.count,
            fields.kept,
            fields.limit,
            fields.hashes.as_ptr(),
            fields.hashes.len(),
            fields.payload.as_ptr(),
            fields.payload.len(),
            out.as_mut_ptr(),
            out.len(),
        )
    }
}

/// `cavernlull_read_reply`.
pub(crate) fn read_reply(frame: &[u8], key: &mut [u8; KEY_BYTES], numbers: &mut Numbers) -> u16 {
    // SAFETY: the frame's pointer is that of a slice, with its length; `key`
    // and `numbers` are arrays of the 16 bytes and eleven numbers that the
    // function writes, and are borrowed to be changed, so nothing overlaps.
    unsafe {
        cavernlull_read_reply(
            frame.as_ptr(),
            frame.len(),
            key.as_mut_ptr(),
            numbers.as_mut_ptr(),
        )
    }
}

/// `cavernlull_list`.
pub(crate) fn list(table: &[u8], out: &mut [u8; LISTING_ROOM]) -> usize {
    // SAFETY: the table's pointer is that of a slice, with its length; `out`
    // is an array of the 406 bytes that the function may write, and is
    // borrowed to be changed, so it does not overlap the table.
    unsafe { cavernlull_list(table.as_ptr(), table.len(), out.as_mut_ptr()) }
}

/// `cavernlull_turn`.
pub(crate) fn turn(table: &mut [u8]) -> u16 {
    // SAFETY: the pointer is that of a slice, with its length, which is
    // borrowed to be changed.
    unsafe { cavernlull_turn(table.as_mut_ptr(), table.len()) }
}

/// `cavernlull_tally`.
pub(crate) fn tally(table: &[u8], tally: &mut Tally) -> u16 {
    // SAFETY: the table's pointer is that of a slice, with its length; `Tally`
    // has the layout of the header's structure, and is borrowed to be changed,
    // so it does not overlap the table.
    unsafe { cavernlull_tally(table.as_ptr(), table.len(), tally) }
}

/// `cavernlull_salvage`.
pub(crate) fn salvage(table: &mut [u8], report: &mut [u8]) -> u16 {
    // SAFETY: the pointers are those of slices, with their lengths; both are
    // borrowed to be changed, so they do not overlap.
    unsafe {
        cavernlull_salvage(
            table.as_mut_ptr(),
            table.len(),
            report.as_mut_ptr(),
            report.len(),
        )
    }
}
