//! The card agent (docs/PROFILE.md) as a practised Rust programmer would write
//! it for speed. It is a yardstick of the bench. Nothing about it is proved.
//!
//! Slots are arrays, so that nothing is checked again at run time; zero checks
//! become vector code; handles and hashes are compared as arrays.

mod requests;
mod rights;
mod slots;
mod tally;

use requests::Status;
pub use tally::Tally;

/// The shortest reply buffer.
const REPLY: usize = 4279;

/// One call: gives the number, writes the reply, changes the table and brings its
/// tally up to date. A setup begins to look for an empty slot at `start`.
pub fn call(
    table: &mut [u8],
    tally: &mut Tally,
    start: usize,
    frame: &[u8],
    reply: &mut [u8],
) -> u16 {
    let Some(reply) = reply.first_chunk_mut::<REPLY>() else {
        return 101;
    };
    let Some(slots) = slots::whole(table) else {
        return 102;
    };
    if start >= slots.len() {
        return 105;
    }
    let Some(fresh) = Tally::of(slots).filter(|_| slots::distinct(slots)) else {
        return 103;
    };
    if *tally != fresh {
        return 106;
    }
    let Some((head, body)) = requests::split(frame) else {
        return 104;
    };
    let kind = head[0] & 31;
    let answer = requests::test(head, body)
        .and_then(|()| rights::serve(slots, tally, start, head, body, reply));
    let (status, length) = match answer {
        Ok(given) => (given.kept, given.length),
        Err(status) => (status as u8, 0),
    };
    let [high, low] = (length as u16).to_be_bytes();
    reply[..4].copy_from_slice(&[1 << 5 | kind, status, high, low]);
    0
}

/// What a success gives: the count's bit, in its place beside the status, and
/// the length of the reply's body.
struct Given {
    kept: u8,
    length: usize,
}

impl Given {
    /// A body that has no count.
    fn body(length: usize) -> Given {
        Given { kept: 0, length }
    }
}

/// The outcome of a request: what its reply gives, or a status.
type Answer = Result<Given, Status>;

/// The same call under C's calling convention.
///
/// # Safety
///
/// Each pointer and its length must describe memory that the call may use:
/// `table` and `reply` to read and write, `frame` to read. `tally` must point to
/// a tally that the call may read and write.
#[no_mangle]
pub unsafe extern "C" fn rust_call(
    table: *mut u8,
    table_length: usize,
    tally: *mut Tally,
    start: usize,
    frame: *const u8,
    frame_length: usize,
    reply: *mut u8,
    reply_length: usize,
) -> u16 {
    // SAFETY: the caller promises it.
    let (table, tally, frame, reply) = unsafe {
        (
            std::slice::from_raw_parts_mut(table, table_length),
            &mut *tally,
            std::slice::from_raw_parts(frame, frame_length),
            std::slice::from_raw_parts_mut(reply, reply_length),
        )
    };
    call(table, tally, start, frame, reply)
}
