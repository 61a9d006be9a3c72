//! What each kind of request does.

use crate::requests::{self, Status};
use crate::slots::{count, find, handle, hashes, length, place, Handle, Slot, KEPT};
use crate::slots::{
    AT_COUNT, AT_HASHES, AT_KEY, AT_LENGTH, AT_PAYLOAD, HANDLE, HASH, PAYLOAD, SLOT, SLOTS,
};
use crate::slots::{DISABLED, EMPTY, ENABLED, RESERVED};
use crate::tally::Tally;
use crate::{Answer, Given, REPLY};

/// The part of a reply buffer that a reply can take.
type Reply = [u8; REPLY];

/// Carries out a request that passed its tests, brings the tally up to date and
/// writes the reply's body into the buffer, after the head.
pub fn serve(
    slots: &mut [Slot],
    tally: &mut Tally,
    start: usize,
    head: &[u8; 4],
    body: &[u8],
    reply: &mut Reply,
) -> Answer {
    let kind = head[0] & 31;
    match kind {
        1 => return set_up(slots, tally, start, body),
        8 => return list(slots, body, reply),
        _ => {}
    }
    let at = find(slots, first(body)).ok_or(Status::NotFound)?;
    match kind {
        2 => install(&mut slots[at], tally, kept_asked(head), body),
        3 | 4 => lend(slots, tally, at, second(body), kind == 3, reply),
        5 => enable(&mut slots[at], tally, kept_asked(head), body),
        6 | 7 => clear(&mut slots[at], tally, kind == 7),
        _ => inform(&slots[at], reply),
    }
}

fn first(body: &[u8]) -> &Handle {
    body.first_chunk().expect("every body begins with a handle")
}

fn second(body: &[u8]) -> &Handle {
    body[HANDLE..].first_chunk().expect("a new handle")
}

/// The count's bit of a request, as a slot has it.
fn kept_asked(head: &[u8; 4]) -> u8 {
    (head[1] & requests::KEPT) >> 5
}

/// The count's bit of a slot, as a reply has it.
fn kept_told(s: &Slot) -> u8 {
    (s[0] & KEPT) << 6
}

fn set_up(slots: &mut [Slot], tally: &mut Tally, start: usize, body: &[u8]) -> Answer {
    let room = u16::from_be_bytes([body[10], body[11]]);
    if room == 0 {
        return Err(Status::Parameter);
    }
    if find(slots, first(body)).is_some() {
        return Err(Status::Duplicate);
    }
    let (before, after) = slots.split_at_mut(start);
    let s = after
        .iter_mut()
        .chain(before)
        .find(|s| place(s) == EMPTY)
        .filter(|_| usize::from(room) <= PAYLOAD)
        .ok_or(Status::NoSpace)?;
    s[0] = RESERVED << 6;
    s[1..AT_KEY].copy_from_slice(first(body));
    s[AT_LENGTH..AT_HASHES].copy_from_slice(&body[10..12]);
    tally.moved(EMPTY, RESERVED);
    Ok(Given::body(0))
}

fn install(s: &mut Slot, tally: &mut Tally, kept: u8, body: &[u8]) -> Answer {
    let (fields, content) = body.split_at(29);
    let (hashes, payload) = content.split_at(HASH * usize::from(fields[28] >> 4));
    if place(s) != RESERVED {
        return Err(Status::Unexpected);
    }
    if payload.len() > length(s) {
        return Err(Status::NoSpace);
    }
    s[0] = ENABLED << 6 | fields[28] >> 2 | kept;
    s[AT_KEY..AT_LENGTH].copy_from_slice(&fields[HANDLE..28]);
    s[AT_LENGTH..AT_HASHES].copy_from_slice(&(payload.len() as u16).to_be_bytes());
    s[AT_HASHES..][..hashes.len()].copy_from_slice(hashes);
    s[AT_PAYLOAD..][..payload.len()].copy_from_slice(payload);
    tally.moved(RESERVED, ENABLED);
    tally.payload += payload.len() as u16;
    Ok(Given::body(0))
}

fn lend(
    slots: &mut [Slot],
    tally: &mut Tally,
    at: usize,
    new: &Handle,
    whole: bool,
    reply: &mut Reply,
) -> Answer {
    if place(&slots[at]) != ENABLED {
        return Err(Status::Unexpected);
    }
    if find(slots, new).is_some() {
        return Err(Status::Duplicate);
    }
    let s = &mut slots[at];
    let given = if whole {
        put_right(s, reply)
    } else {
        put_key(s, reply)
    };
    s[0] |= DISABLED << 6;
    s[1..AT_KEY].copy_from_slice(new);
    tally.moved(ENABLED, DISABLED);
    Ok(given)
}

fn put_key(s: &Slot, reply: &mut Reply) -> Given {
    reply[4..20].copy_from_slice(&s[AT_KEY..AT_COUNT]);
    Given::body(16)
}

fn put_right(s: &Slot, reply: &mut Reply) -> Given {
    let (used, payload) = (HASH * hashes(s), length(s));
    reply[4..22].copy_from_slice(&s[AT_KEY..AT_LENGTH]);
    reply[22] = (hashes(s) as u8) << 4;
    reply[23..][..used].copy_from_slice(&s[AT_HASHES..][..used]);
    reply[23 + used..][..payload].copy_from_slice(&s[AT_PAYLOAD..][..payload]);
    Given {
        kept: kept_told(s),
        length: 19 + used + payload,
    }
}

fn enable(s: &mut Slot, tally: &mut Tally, kept: u8, body: &[u8]) -> Answer {
    match place(s) {
        RESERVED => return Err(Status::Unexpected),
        DISABLED => {
            let sent = [body[HANDLE], body[HANDLE + 1]];
            // where neither is kept, both numbers are 0
            if kept != s[0] & KEPT || u16::from_be_bytes(sent) > count(s) {
                return Err(Status::Raised);
            }
            s[0] ^= (ENABLED ^ DISABLED) << 6; // the count's bit is what it was
            s[AT_COUNT..AT_LENGTH].copy_from_slice(&sent);
            tally.moved(DISABLED, ENABLED);
        }
        _ => {}
    }
    Ok(Given::body(0))
}

fn clear(s: &mut Slot, tally: &mut Tally, reserved: bool) -> Answer {
    if (place(s) == RESERVED) != reserved {
        return Err(Status::Unexpected);
    }
    tally.moved(place(s), EMPTY);
    if !reserved {
        tally.payload -= length(s) as u16;
    }
    *s = [0; SLOT];
    Ok(Given::body(0))
}

fn inform(s: &Slot, reply: &mut Reply) -> Answer {
    if place(s) != ENABLED {
        return Err(Status::Unexpected);
    }
    let payload = length(s);
    reply[4..6].copy_from_slice(&s[AT_COUNT..AT_LENGTH]);
    reply[6..][..payload].copy_from_slice(&s[AT_PAYLOAD..][..payload]);
    Ok(Given {
        kept: kept_told(s),
        length: 2 + payload,
    })
}

fn list(slots: &[Slot], body: &[u8], reply: &mut Reply) -> Answer {
    let limit = usize::from(u16::from_be_bytes([body[0], body[1]]));
    let most = if limit == 0 { SLOTS } else { limit / HANDLE };
    let (asked, _) = body[3..].as_chunks::<HASH>();
    let mut found = 0;
    for s in slots.iter().filter(|s| is_listed(s, asked)) {
        if found < most {
            reply[5 + HANDLE * found..][..HANDLE].copy_from_slice(handle(s));
        }
        found += 1;
    }
    reply[4] = if found > most { 128 } else { 0 };
    Ok(Given::body(1 + HANDLE * found.min(most)))
}

fn is_listed(s: &Slot, asked: &[[u8; HASH]]) -> bool {
    let (used, _) = s[AT_HASHES..][..HASH * hashes(s)].as_chunks::<HASH>();
    place(s) == ENABLED && (asked.is_empty() || used.iter().any(|hash| asked.contains(hash)))
}
