//! The archive reached through the driver, on machines that are not x86-64, for
//! tests and demonstrations. One driver serves the whole program, one command
//! at a time, and ends with it.

use super::{Fields, Numbers, Sums};
use crate::{Tally, KEY_BYTES, LISTING_ROOM};
use driver::{Answers, Commands, Driver};
use std::io::Result;
use std::sync::{Mutex, PoisonError};

static DRIVER: Mutex<Option<Driver>> = Mutex::new(None);

/// Gives the driver a command and takes its answer.
fn ask<A>(
    give: impl FnOnce(&mut Commands) -> Result<()>,
    answer: impl FnOnce(&mut Answers) -> A,
) -> A {
    let mut driver = DRIVER.lock().unwrap_or_else(PoisonError::into_inner);
    let Driver { commands, answers } = driver.get_or_insert_with(Driver::start);
    give(commands)
        .and_then(|()| commands.send())
        .expect("the driver takes the command");
    answer(answers)
}

/// The numbers of a tally, in the order in which the driver has them.
fn numbers(tally: &Tally) -> driver::Tally {
    [
        tally.empty,
        tally.reserved,
        tally.enabled,
        tally.disabled,
        tally.payload,
    ]
}

/// The tally that has these numbers.
fn tally_of([empty, reserved, enabled, disabled, payload]: driver::Tally) -> Tally {
    Tally {
        empty,
        reserved,
        enabled,
        disabled,
        payload,
    }
}

/// `cavernlull_call`.
pub(crate) fn call(
    table: &mut [u8],
    tally: &mut Tally,
    start: usize,
    frame: &[u8],
    reply: &mut [u8],
) -> u16 {
    let given = ask(
        |commands| {
            commands.table(table)?;
            commands.call(&numbers(tally), start as u64, frame, reply)
        },
        Answers::call,
    );
    table.copy_from_slice(&given.table);
    *tally = tally_of(given.tally);
    reply.copy_from_slice(&given.reply);
    given.number
}

/// `cavernlull_call_totalling`.
pub(crate) fn call_totalling(
    table: &mut [u8],
    tally: &mut Tally,
    start: usize,
    frame: &[u8],
    reply: &mut [u8],
    sums: &mut Sums,
) -> u16 {
    let totals = driver::Totals {
        total: sums.total,
        returns: sums.returns,
        change: sums.change,
    };
    let driver::Totalled { call, totals } = ask(
        |commands| {
            commands.table(table)?;
            commands.call_totalling(&numbers(tally), start as u64, frame, reply, &totals)
        },
        Answers::totalled,
    );
    table.copy_from_slice(&call.table);
    *tally = tally_of(call.tally);
    reply.copy_from_slice(&call.reply);
    *sums = Sums {
        total: totals.total,
        returns: totals.returns,
        change: totals.change,
    };
    call.number
}

/// `cavernlull_tally`.
pub(crate) fn tally(table: &[u8], tally: &mut Tally) -> u16 {
    let given = ask(
        |commands| {
            commands.table(table)?;
            commands.tally(&numbers(tally))
        },
        Answers::tallied,
    );
    *tally = tally_of(given.tally);
    given.number
}

/// `cavernlull_write_request`.
pub(crate) fn write_request(kind: u8, fields: &Fields<'_>, out: &mut [u8]) -> u16 {
    let fields = driver::Fields {
        handle: &fields.handle,
        new_handle: &fields.new_handle,
        key: &fields.key,
        room: fields.room,
        count: fields.count,
        kept: fields.kept,
        limit: fields.limit,
        hashes: &fields.hashes,
        payload: fields.payload,
    };
    let given = ask(
        |commands| commands.write_request(kind, &fields, out),
        Answers::written,
    );
    out.copy_from_slice(&given.out);
    given.number
}

/// `cavernlull_read_reply`.
pub(crate) fn read_reply(frame: &[u8], key: &mut [u8; KEY_BYTES], numbers: &mut Numbers) -> u16 {
    let given = ask(
        |commands| commands.read_reply(frame, key, numbers),
        Answers::read,
    );
    *key = given.key;
    *numbers = given.numbers;
    given.number
}

/// `cavernlull_list`.
pub(crate) fn list(table: &[u8], out: &mut [u8; LISTING_ROOM]) -> usize {
    let given = ask(
        |commands| {
            commands.table(table)?;
            commands.list(out)
        },
        Answers::listed,
    );
    out.copy_from_slice(&given.out);
    given.length.into()
}

/// `cavernlull_turn`.
pub(crate) fn turn(table: &mut [u8]) -> u16 {
    let given = ask(
        |commands| {
            commands.table(table)?;
            commands.turn()
        },
        Answers::turned,
    );
    table.copy_from_slice(&given.table);
    given.number
}

/// `cavernlull_salvage`.
pub(crate) fn salvage(table: &mut [u8], report: &mut [u8]) -> u16 {
    let given = ask(
        |commands| {
            commands.table(table)?;
            commands.salvage(report)
        },
        Answers::salvaged,
    );
    table.copy_from_slice(&given.table);
    report.copy_from_slice(&given.report);
    given.number
}
