//! Cards that were salvaged or turned before their first call. A history starts anew
//! from the table left, with the ledger read off it (PROFILE 8.2).

use crate::alongside;
use crate::damage::Damage;
use crate::tables::before_turning;
use driver::{Answers, Commands, Salvaged, Same, Turned};
use random::Rng;
use reference::SLOT_BYTES;
use std::fmt;
use std::io::Result;

/// What the history of a card begins with.
#[derive(Clone, Copy, Debug, Default, PartialEq, Eq, PartialOrd, Ord)]
pub enum Began {
    /// A blank table.
    #[default]
    Blank,
    /// A table with records on it, some of them rights without a hash.
    Filled,
    /// What a salvage left.
    Salvaged,
    /// What a turning left.
    Turned,
}

impl Began {
    /// All that a history can begin with.
    pub const ALL: [Began; 4] = [Began::Blank, Began::Filled, Began::Salvaged, Began::Turned];
}

impl fmt::Display for Began {
    fn fmt(&self, f: &mut fmt::Formatter<'_>) -> fmt::Result {
        f.write_str(match self {
            Began::Blank => "told from a blank table",
            Began::Filled => "told from a filled table",
            Began::Salvaged => "told from a salvaged table",
            Began::Turned => "told from a turned table",
        })
    }
}

/// What was made of a table before the first call on it.
pub enum Mended {
    /// It was salvaged.
    Salvaged(Salvaged),
    /// It was turned.
    Turned(Turned),
}

impl Mended {
    /// Damages a table, lends it to the driver and has it salvaged.
    ///
    /// # Errors
    ///
    /// Where the driver has ended.
    pub fn salvaged(commands: &mut Commands, rng: &mut Rng, mut table: Vec<u8>) -> Result<Mended> {
        rng.pick(&Damage::WITHIN).damage(rng, &mut table);
        let report = rng.bytes(table.len() / SLOT_BYTES);
        commands.table(&table)?;
        let salvaged = alongside::salvage(commands, &table, &report)?;
        Ok(Mended::Salvaged(salvaged))
    }

    /// Takes the bits of its counts from a table, lends it to the driver and has it
    /// turned.
    ///
    /// # Errors
    ///
    /// Where the driver has ended.
    pub fn turned(commands: &mut Commands, table: &[u8]) -> Result<Mended> {
        let old = before_turning(table);
        commands.table(&old)?;
        let turned = alongside::turn(commands, &old)?;
        Ok(Mended::Turned(turned))
    }

    /// The driver's next answer, where this one is expected.
    pub fn next(answers: &mut Answers, expected: &Mended) -> Mended {
        match expected {
            Mended::Salvaged(_) => Mended::Salvaged(answers.salvaged()),
            Mended::Turned(_) => Mended::Turned(answers.turned()),
        }
    }

    /// Whether this is exactly what was expected to be made of the table.
    ///
    /// # Errors
    ///
    /// A sentence that names the first thing that differs.
    pub fn same_as(&self, expected: &Mended) -> Same {
        match (self, expected) {
            (Mended::Salvaged(given), Mended::Salvaged(expected)) => given.same_as(expected),
            (Mended::Turned(given), Mended::Turned(expected)) => given.same_as(expected),
            _ => Err("one was salvaged and the other turned".into()),
        }
    }

    /// What a history begins with from here.
    pub fn began(&self) -> Began {
        match self {
            Mended::Salvaged(_) => Began::Salvaged,
            Mended::Turned(_) => Began::Turned,
        }
    }

    /// The table left.
    pub fn table(&self) -> &[u8] {
        match self {
            Mended::Salvaged(salvaged) => &salvaged.table,
            Mended::Turned(turned) => &turned.table,
        }
    }
}
