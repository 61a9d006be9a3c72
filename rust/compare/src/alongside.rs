//! Commands about the table that is lent to the driver, each given to the driver and
//! carried out by the reference.

use crate::card::Handed;
use crate::totalled::Lent;
use driver::{Call, Commands, Salvaged, Tallied, Tally, Totalled, Totals, Turned};
use std::io::Result;

/// Has the driver make a call on its table, which is this one, with this reply buffer,
/// and gives what the reference makes of it.
///
/// # Errors
///
/// Where the driver has ended.
pub fn call(commands: &mut Commands, handed: &Handed, table: &[u8], reply: &[u8]) -> Result<Call> {
    let (start, frame) = (handed.start, &handed.frame);
    commands.call(&handed.tally, start, frame, reply)?;
    let (mut table, mut reply) = (table.to_vec(), reply.to_vec());
    let mut tally = handed.tally.into();
    let number = reference::call(&mut table, &mut tally, start, frame, &mut reply);
    let tally = tally.numbers();
    Ok(Call {
        number,
        tally,
        reply,
        table,
    })
}

/// Has the driver make a totalling call on its table, which is the one lent, and gives
/// what the reference makes of it.
///
/// # Errors
///
/// Where the driver has ended.
pub fn call_totalling(commands: &mut Commands, lent: &Lent) -> Result<Totalled> {
    let (handed, start, frame) = (&lent.handed, lent.handed.start, &lent.handed.frame);
    commands.call_totalling(&handed.tally, start, frame, &lent.reply, &lent.totals)?;
    let (mut table, mut reply) = (lent.table.clone(), lent.reply.clone());
    let mut tally = handed.tally.into();
    let mut totals = reference::Totals {
        total: lent.totals.total,
        returns: lent.totals.returns,
        change: lent.totals.change,
    };
    let (lent_table, lent_reply) = (&mut table, &mut reply);
    let number = reference::call_totalling(
        lent_table,
        &mut tally,
        start,
        frame,
        lent_reply,
        &mut totals,
    );
    Ok(Totalled {
        call: Call {
            number,
            tally: tally.numbers(),
            reply,
            table,
        },
        totals: Totals {
            total: totals.total,
            returns: totals.returns,
            change: totals.change,
        },
    })
}

/// Has the driver turn its table, which is this one, and gives what the reference
/// makes of it.
///
/// # Errors
///
/// Where the driver has ended.
pub fn turn(commands: &mut Commands, table: &[u8]) -> Result<Turned> {
    commands.turn()?;
    let mut table = table.to_vec();
    let number = reference::turn(&mut table);
    Ok(Turned { number, table })
}

/// Has the driver salvage its table, which is this one, with this report buffer, and
/// gives what the reference makes of it.
///
/// # Errors
///
/// Where the driver has ended.
pub fn salvage(commands: &mut Commands, table: &[u8], report: &[u8]) -> Result<Salvaged> {
    commands.salvage(report)?;
    let (mut table, mut report) = (table.to_vec(), report.to_vec());
    let number = reference::salvage(&mut table, &mut report);
    Ok(Salvaged {
        number,
        report,
        table,
    })
}

/// Has the driver work out the tally of its table, which is this one, in a tally that
/// holds these numbers, and gives what the reference makes of it.
///
/// # Errors
///
/// Where the driver has ended.
pub fn work_out(commands: &mut Commands, table: &[u8], held: Tally) -> Result<Tallied> {
    commands.tally(&held)?;
    let mut tally = held.into();
    let number = reference::tally(table, &mut tally);
    let tally = tally.numbers();
    Ok(Tallied { number, tally })
}
