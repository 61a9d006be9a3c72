//! The card agent.

use crate::frame::kind_bits;
use crate::number::{DONE, NO_FRAME, REPLY_BUFFER_SHORT, TALLY_DIFFERS};
use crate::reply::{handles_body, information_body, reply_frame, Success};
use crate::request::content_of;
use crate::slot::{self, Place, SlotBytes};
use crate::table;
use crate::{read_request, Count, Fields, Handle, Kind, ReadRequest, Request, Status, Tally};
use crate::{HANDLE_BYTES, MAX_PAYLOAD};

/// The bytes that a reply buffer must have: as many as the longest reply, which
/// retrieves a right of 8 hashes and 4,096 payload bytes.
pub const REPLY_ROOM: usize = 4279;

/// What a success gives, or the status of a refusal.
type Outcome = Result<Success, Status>;

/// One call of the card agent.
///
/// It tests for 101, 102, 105, 103, 106 and 104 in this order (PROFILE 4.1), and
/// a call that gives one of them changes neither table nor tally nor reply
/// buffer. Any other call gives 0 and writes a reply at offset 0 of the buffer,
/// whose remaining bytes keep what they held. A reply with a status other than 0
/// leaves the table as it was, and so its tally (PROFILE 4.2).
///
/// `tally` is the tally of the table, and is made that of the table afterwards
/// (PROFILE 2.8). `start` is the number of the slot from which a setup looks for
/// an empty one; no other kind heeds it.
pub fn call(
    table: &mut [u8],
    tally: &mut Tally,
    start: u64,
    frame: &[u8],
    reply: &mut [u8],
) -> u16 {
    if reply.len() < REPLY_ROOM {
        return REPLY_BUFFER_SHORT;
    }
    let start = match table::check_with_start(table, start) {
        Ok(start) => start,
        Err(number) => return number,
    };
    if *tally != Tally::of_slots(table::slots(table)) {
        return TALLY_DIFFERS;
    }
    let Some(answer) = answer(table::slots_mut(table), start, frame) else {
        return NO_FRAME;
    };
    *tally = Tally::of_slots(table::slots(table));
    reply[..answer.len()].copy_from_slice(&answer);
    DONE
}

/// Carries out a frame and gives its reply; `None` for 104.
///
/// The reply is of version 1 and has the kind bits of the frame, whatever
/// version and kind these are.
fn answer(slots: &mut [SlotBytes], start: usize, frame: &[u8]) -> Option<Vec<u8>> {
    let outcome = match read_request(frame) {
        ReadRequest::NoFrame => return None,
        ReadRequest::Refused(status) => Err(status),
        ReadRequest::Request(request) => carry_out(slots, start, &request),
    };
    Some(reply_frame(kind_bits(frame[0]), &outcome))
}

fn carry_out(slots: &mut [SlotBytes], start: usize, request: &Request<'_>) -> Outcome {
    let fields = &request.fields;
    match request.kind {
        Kind::InstallationSetup => set_up(slots, start, fields),
        Kind::RightsInstallation => install(slots, fields),
        Kind::RightsRetrieval => retrieve(slots, fields),
        Kind::RekQuery => query_rek(slots, fields),
        Kind::RightsEnablement => enable(slots, fields),
        Kind::RightsRemoval => remove_right(slots, fields),
        Kind::HandleRemoval => remove_handle(slots, fields),
        Kind::HandleListQuery => Ok(Success::with_body(list_handles(slots, fields))),
        Kind::RightsInformationQuery => inform(slots, fields),
    }
}

/// Kind 1 (PROFILE 5.1): status 2 for a length of 0, then 5 for a handle in
/// use, then 7 for a length over 4,096 or where no slot is empty. A success
/// reserves the empty slot that a search from `start` comes to first.
fn set_up(slots: &mut [SlotBytes], start: usize, fields: &Fields<'_>) -> Outcome {
    if fields.length == 0 {
        return Err(Status::ParameterFailed);
    }
    refuse_duplicate(slots, &fields.handle)?;
    if usize::from(fields.length) > MAX_PAYLOAD {
        return Err(Status::NotEnoughSpace);
    }
    let index = table::first_empty(slots, start).ok_or(Status::NotEnoughSpace)?;
    slot::reserve(&mut slots[index], &fields.handle, fields.length);
    Ok(Success::default())
}

/// Kind 2 (PROFILE 5.2), after its field tests: status 4 for an unknown
/// handle, then 6 where the record is not reserved, then 7 for a payload longer
/// than the room reserved. A success enables the record with the request's
/// fields, whether a count is kept among them, and with the payload's length as
/// its length.
fn install(slots: &mut [SlotBytes], fields: &Fields<'_>) -> Outcome {
    let slot = record(slots, &fields.handle)?;
    expect(slot::place(slot) == Place::Reserved)?;
    if fields.payload.len() > usize::from(slot::length(slot)) {
        return Err(Status::NotEnoughSpace);
    }
    slot::fill(slot, &content_of(fields));
    Ok(Success::default())
}

/// Kind 3 (PROFILE 5.3): lends the right; the body is its content, and the head
/// says whether a count is kept.
fn retrieve(slots: &mut [SlotBytes], fields: &Fields<'_>) -> Outcome {
    let content = slot::content(lend(slots, fields)?);
    let mut body = Vec::new();
    content.write_to(&mut body);
    let kept = content.count.is_kept();
    Ok(Success { kept, body })
}

/// Kind 4 (PROFILE 5.4): lends the right; the body is its key.
fn query_rek(slots: &mut [SlotBytes], fields: &Fields<'_>) -> Outcome {
    let slot = lend(slots, fields)?;
    Ok(Success::with_body(slot::key(slot).to_vec()))
}

/// Kinds 3 and 4: status 4 for an unknown handle, then 6 where the record is
/// not enabled, then 5 where the new handle is in use, be it by this very
/// record. A success overwrites the handle with the new one, disables the
/// record and changes nothing else. Gives the record's slot after the change.
fn lend<'a>(slots: &'a mut [SlotBytes], fields: &Fields<'_>) -> Result<&'a mut SlotBytes, Status> {
    let index = locate(slots, &fields.handle)?;
    expect(slot::place(&slots[index]) == Place::Enabled)?;
    refuse_duplicate(slots, &fields.new_handle)?;
    slot::lend(&mut slots[index], &fields.new_handle);
    Ok(&mut slots[index])
}

/// Kind 5 (PROFILE 5.5): status 4 for an unknown handle, then 6 where the
/// record is reserved, then 9 where it is disabled and the request's count raises
/// its own. A success enables a disabled record with the request's count, and
/// leaves an enabled one as it is, whatever the count.
fn enable(slots: &mut [SlotBytes], fields: &Fields<'_>) -> Outcome {
    let slot = record(slots, &fields.handle)?;
    expect(slot::place(slot) != Place::Reserved)?;
    if slot::place(slot) == Place::Disabled {
        refuse_raised(slot::count(slot), fields.count)?;
        slot::enable(slot, fields.count);
    }
    Ok(Success::default())
}

/// Kind 6 (PROFILE 5.6): status 4 for an unknown handle, then 6 where the
/// record is reserved. A success clears every byte of the slot.
fn remove_right(slots: &mut [SlotBytes], fields: &Fields<'_>) -> Outcome {
    let slot = record(slots, &fields.handle)?;
    expect(slot::place(slot) != Place::Reserved)?;
    slot::clear(slot);
    Ok(Success::default())
}

/// Kind 7 (PROFILE 5.7): status 4 for an unknown handle, then 6 where the
/// record is not reserved. A success clears every byte of the slot.
fn remove_handle(slots: &mut [SlotBytes], fields: &Fields<'_>) -> Outcome {
    let slot = record(slots, &fields.handle)?;
    expect(slot::place(slot) == Place::Reserved)?;
    slot::clear(slot);
    Ok(Success::default())
}

/// Kind 8 (PROFILE 5.8), after its field tests: lists the first handles that
/// fit, each as a whole, in as many bytes as the limit says, or all of them
/// where the limit is 0. The bit "more" says whether any was left off.
fn list_handles(slots: &[SlotBytes], fields: &Fields<'_>) -> Vec<u8> {
    let wanted = wanted_handles(slots, fields.hashes);
    let fitting = match fields.limit {
        0 => wanted.len(),
        limit => wanted.len().min(usize::from(limit) / HANDLE_BYTES),
    };
    handles_body(fitting < wanted.len(), &wanted[..fitting])
}

/// The handles that kind 8 asks for, in the order of their slots: those of the
/// enabled records that have one of the request's hashes or, where the request
/// has none, of all enabled records. A record without a hash is asked for only
/// with all the others (PROFILE 2.9).
fn wanted_handles(slots: &[SlotBytes], hashes: &[u8]) -> Vec<Handle> {
    slots
        .iter()
        .filter(|slot| slot::place(slot) == Place::Enabled)
        .filter(|slot| hashes.is_empty() || slot::has_hash_of(slot, hashes))
        .map(slot::handle)
        .collect()
}

/// Kind 9 (PROFILE 5.9): status 4 for an unknown handle, then 6 where the
/// record is not enabled. The body is its count and its payload, and the head
/// says whether the count is kept.
fn inform(slots: &mut [SlotBytes], fields: &Fields<'_>) -> Outcome {
    let slot = record(slots, &fields.handle)?;
    expect(slot::place(slot) == Place::Enabled)?;
    let count = slot::count(slot);
    let body = information_body(count, slot::payload(slot));
    let kept = count.is_kept();
    Ok(Success { kept, body })
}

/// The slot of the record under the request's handle.
fn record<'a>(slots: &'a mut [SlotBytes], handle: &Handle) -> Result<&'a mut SlotBytes, Status> {
    let index = locate(slots, handle)?;
    Ok(&mut slots[index])
}

/// The index of the record under the request's handle; status 4 where there is
/// none (PROFILE 4.2).
fn locate(slots: &[SlotBytes], handle: &Handle) -> Result<usize, Status> {
    table::find(slots, handle).ok_or(Status::HandleNotFound)
}

/// Status 6 unless the record is in a place that the request is for.
fn expect(as_expected: bool) -> Result<(), Status> {
    if !as_expected {
        return Err(Status::UnexpectedRequest);
    }
    Ok(())
}

/// Status 9 where the count sent raises the one stored.
fn refuse_raised(stored: Count, sent: Count) -> Result<(), Status> {
    if sent.raises(stored) {
        return Err(Status::CountRaised);
    }
    Ok(())
}

/// Status 5 where some record is under this handle.
fn refuse_duplicate(slots: &[SlotBytes], handle: &Handle) -> Result<(), Status> {
    if table::holds(slots, handle) {
        return Err(Status::DuplicateHandle);
    }
    Ok(())
}
