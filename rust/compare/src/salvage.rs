//! Damaged tables, salvaged at random.

use crate::alongside;
use crate::damage::{card, full_card, Damage};
use crate::found::{Came, Lent};
use crate::pipeline::{self, Giver};
use crate::salvage_rules::{clears_nothing, holds, is_tallied};
use crate::tables::report_buffer;
use crate::tallies::any;
use driver::{Answers, Salvaged, Same, Tallied};
use random::Rng;
use reference::{table, MAX_SLOTS, SLOT_BYTES};
use std::collections::BTreeMap;
use std::io::Result;

/// What comes of a salvage: what it gives and leaves, the tally of the table that it
/// leaves, and what a second salvage of this table gives and leaves, if there is one.
struct Answer {
    salvaged: Salvaged,
    tallied: Tallied,
    again: Option<Salvaged>,
}

impl Answer {
    /// The driver's next answer, where this one is expected.
    fn next(answers: &mut Answers, expected: &Answer) -> Answer {
        Answer {
            salvaged: answers.salvaged(),
            tallied: answers.tallied(),
            again: expected.again.is_some().then(|| answers.salvaged()),
        }
    }

    /// Whether this is exactly the answer expected.
    fn same_as(&self, expected: &Answer) -> Same {
        self.salvaged.same_as(&expected.salvaged)?;
        self.tallied.same_as(&expected.tallied)?;
        match (&self.again, &expected.again) {
            (Some(again), Some(expected)) => again.same_as(expected),
            _ => Ok(()),
        }
    }

    /// Whether what must hold of a salvage holds of it.
    fn holds(&self, lent: &Lent) -> Same {
        holds(lent, &self.salvaged)?;
        is_tallied(&self.salvaged, &self.tallied)?;
        let again = self.again.iter();
        let mut again = again.map(|again| clears_nothing(&self.salvaged, again));
        again.find(Same::is_err).unwrap_or(Ok(()))
    }
}

/// What a salvage is lent, and what comes of it by the reference.
struct Expected {
    lent: Lent,
    answer: Answer,
}

/// What occurred among some salvages, and how often.
#[derive(Default)]
pub struct Seen {
    /// What came of them, second ones apart.
    pub came: BTreeMap<Came, u64>,
    /// How many tables were salvaged, or refused.
    pub tables: u64,
    /// How many of them had a slot cleared.
    pub damaged: u64,
    /// How many of them were salvaged a second time.
    pub again: u64,
}

impl Seen {
    fn note(&mut self, lent: &Lent, given: &Answer) {
        for came in Came::all_of(lent, &given.salvaged) {
            *self.came.entry(came).or_default() += 1;
        }
        let cleared = 1..=MAX_SLOTS as u16;
        self.tables += 1;
        self.damaged += u64::from(cleared.contains(&given.salvaged.number));
        self.again += u64::from(given.again.is_some());
    }
}

/// Has this many tables of 1 to 15 slots salvaged, damaged in every way, and checks
/// each. Gives what occurred.
///
/// # Panics
///
/// Where the archive and the reference differ, or what must hold of a salvage does
/// not.
pub fn compare_salvages(mut rng: Rng, tables: u64) -> Seen {
    compare(move |giver| {
        for made in 0..tables {
            let slots = 1 + made as usize % MAX_SLOTS;
            let whole = card(&mut rng, slots);
            let damage = match rng.below(16) {
                0 => Damage::Length,
                _ => rng.pick(&Damage::WITHIN),
            };
            let mut table = whole.clone();
            damage.damage(&mut rng, &mut table);
            let report = report_buffer(&mut rng, table.len() / SLOT_BYTES);
            salvage(giver, &mut rng, lent(damage, &whole, table, report))?;
        }
        Ok(())
    })
}

/// Has a full card of 15 slots salvaged with one bit changed: each bit of each slot
/// that is not one of a hash or a payload, and as many more from anywhere.
///
/// # Panics
///
/// Where the archive and the reference differ, or more than one slot is cleared.
pub fn compare_bits(mut rng: Rng) -> Seen {
    compare(move |giver| {
        let whole = full_card(&mut rng, MAX_SLOTS);
        let all = 0..8 * whole.len();
        let of_heads = all.filter(|bit| matches!(bit / 8 % SLOT_BYTES, 0..31 | 191));
        let mut bits: Vec<usize> = of_heads.collect();
        bits.extend(bits.clone().iter().map(|_| rng.below(8 * whole.len())));
        for bit in bits {
            let mut table = whole.clone();
            table[bit / 8] ^= 1 << (bit % 8);
            let report = rng.bytes(MAX_SLOTS);
            salvage(giver, &mut rng, lent(Damage::Bit, &whole, table, report))?;
        }
        Ok(())
    })
}

/// Checks what `give` has salvaged.
fn compare(give: impl FnOnce(&mut Giver<Expected>) -> Result<()> + Send) -> Seen {
    let mut seen = Seen::default();
    pipeline::run(give, |answers, Expected { lent, answer }| {
        let given = Answer::next(answers, &answer);
        let same = given.same_as(&answer).and_then(|()| given.holds(&lent));
        if let Err(difference) = same {
            panic!("salvage {}, {}: {difference}", seen.tables, describe(&lent));
        }
        seen.note(&lent, &given);
    });
    seen
}

/// What is lent where a whole table was damaged.
fn lent(damage: Damage, whole: &[u8], table: Vec<u8>, report: Vec<u8>) -> Lent {
    let slots = table::slots(whole).iter().zip(table::slots(&table));
    let changed = slots.enumerate().filter(|(_, (old, new))| old != new);
    Lent {
        damage,
        changed: changed.map(|(index, _)| index).collect(),
        table,
        report,
    }
}

/// Has a table salvaged, and the tally of what it leaves worked out; one in four is
/// salvaged a second time.
fn salvage(giver: &mut Giver<Expected>, rng: &mut Rng, lent: Lent) -> Result<()> {
    let commands = &mut giver.commands;
    commands.table(&lent.table)?;
    let salvaged = alongside::salvage(commands, &lent.table, &lent.report)?;
    let tallied = alongside::work_out(commands, &salvaged.table, any(rng))?;
    let again = match rng.one_in(4) {
        true => {
            let report = rng.bytes(lent.report.len());
            Some(alongside::salvage(commands, &salvaged.table, &report)?)
        }
        false => None,
    };
    let answer = Answer {
        salvaged,
        tallied,
        again,
    };
    giver.expect(Expected { lent, answer })
}

/// What a salvage was lent, in words.
fn describe(lent: &Lent) -> String {
    format!(
        "of a table of {} bytes, with {} report bytes, after {}",
        lent.table.len(),
        lent.report.len(),
        lent.damage
    )
}
