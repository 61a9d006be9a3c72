//! One call after another, totalling ones too, turnings, salvages, and tallies worked
//! out, by the archive and by the reference.

use crate::alongside;
use crate::tallies::tally_of;
use crate::totalled::Lent;
use driver::{Call, Driver, Salvaged, Tallied, Tally, Totalled, Turned};
use reference::number::DONE;

/// A table lent to the archive, and an equal one lent to the reference, with its
/// tally.
pub struct Both {
    driver: Driver,
    table: Vec<u8>,
    tally: Tally,
}

impl Both {
    /// Starts with this table and its tally.
    pub fn on(table: Vec<u8>) -> Both {
        let mut both = Both {
            driver: Driver::start(),
            tally: tally_of(&table),
            table,
        };
        both.lend();
        both
    }

    /// Goes on with this table and its tally.
    pub fn go_on(&mut self, table: Vec<u8>) {
        self.tally = tally_of(&table);
        self.table = table;
        self.lend();
    }

    /// Lends the archive a table that is equal to the reference's.
    fn lend(&mut self) {
        let sent = self.driver.commands.table(&self.table);
        sent.expect("the driver takes the table");
    }

    /// Makes a call with this start, this frame and this reply buffer, and with
    /// the tally that the last call left.
    ///
    /// # Panics
    ///
    /// Where the archive and the reference differ.
    pub fn call(&mut self, start: u64, frame: &[u8], buffer: &[u8]) -> Call {
        let given = self.call_with(self.tally, start, frame, buffer);
        self.tally = given.tally;
        given
    }

    /// Makes a call with this tally, which is not kept for the next call.
    ///
    /// # Panics
    ///
    /// Where the archive and the reference differ, or where the tally was that of
    /// the table, so that there is one to be kept.
    pub fn call_with_other(
        &mut self,
        tally: Tally,
        start: u64,
        frame: &[u8],
        buffer: &[u8],
    ) -> Call {
        let given = self.call_with(tally, start, frame, buffer);
        assert_ne!(given.number, DONE, "{tally:?} is that of the table");
        given
    }

    fn call_with(&mut self, tally: Tally, start: u64, frame: &[u8], buffer: &[u8]) -> Call {
        let commands = &mut self.driver.commands;
        let sent = commands.call(&tally, start, frame, buffer);
        sent.and_then(|()| commands.send())
            .expect("the driver takes the call");
        let given = self.driver.answers.call();
        let (mut left, mut reply) = (tally.into(), buffer.to_vec());
        let number = reference::call(&mut self.table, &mut left, start, frame, &mut reply);
        let expected = Call {
            number,
            tally: left.numbers(),
            reply,
            table: self.table.clone(),
        };
        if let Err(difference) = given.same_as(&expected) {
            let length = frame.len();
            panic!("with {tally:?}, from {start}, a frame of {length} bytes: {difference}");
        }
        given
    }

    /// Makes a totalling call. Its table and its tally are those that are lent, and the
    /// next call goes on with what it leaves.
    ///
    /// # Panics
    ///
    /// Where the archive and the reference differ.
    pub fn call_totalling(&mut self, lent: &Lent) -> Totalled {
        self.table.clone_from(&lent.table);
        self.lend();
        let commands = &mut self.driver.commands;
        let expected = alongside::call_totalling(commands, lent)
            .and_then(|expected| commands.send().map(|()| expected))
            .expect("the driver takes the call");
        let given = self.driver.answers.totalled();
        if let Err(difference) = given.same_as(&expected) {
            let (totals, frame) = (lent.totals, &lent.handed.frame);
            panic!("with {totals:?} and {frame:02x?}: {difference}");
        }
        self.tally = expected.call.tally;
        self.table = expected.call.table;
        given
    }

    /// Works out the tally of the table, in one that holds these numbers.
    ///
    /// # Panics
    ///
    /// Where the archive and the reference differ.
    pub fn work_out(&mut self, held: Tally) -> Tallied {
        let commands = &mut self.driver.commands;
        let expected = alongside::work_out(commands, &self.table, held)
            .and_then(|expected| commands.send().map(|()| expected))
            .expect("the driver takes the tally");
        let given = self.driver.answers.tallied();
        if let Err(difference) = given.same_as(&expected) {
            let length = self.table.len();
            panic!("the tally of a table of {length} bytes: {difference}");
        }
        given
    }

    /// The table, as the calls have left it.
    pub fn table(&self) -> &[u8] {
        &self.table
    }

    /// The tally, as the calls have left it.
    pub fn tally(&self) -> Tally {
        self.tally
    }

    /// Turns the table. Its tally stays as it is.
    ///
    /// # Panics
    ///
    /// Where the archive and the reference differ.
    pub fn turn(&mut self) -> Turned {
        let mut table = self.table.clone();
        let number = self.driver.turn(&mut table);
        let given = Turned { number, table };
        let number = reference::turn(&mut self.table);
        let expected = Turned {
            number,
            table: self.table.clone(),
        };
        if let Err(difference) = given.same_as(&expected) {
            panic!("a turning: {difference}");
        }
        given
    }

    /// Salvages the table, with this report buffer, and goes on with what it leaves
    /// and its tally.
    ///
    /// # Panics
    ///
    /// Where the archive and the reference differ.
    pub fn salvage(&mut self, report: &[u8]) -> Salvaged {
        let commands = &mut self.driver.commands;
        let expected = alongside::salvage(commands, &self.table, report)
            .and_then(|expected| commands.send().map(|()| expected))
            .expect("the driver takes the report");
        let given = self.driver.answers.salvaged();
        if let Err(difference) = given.same_as(&expected) {
            let (table, report) = (self.table.len(), report.len());
            panic!("a salvage of {table} bytes with {report} report bytes: {difference}");
        }
        self.table = expected.table;
        self.tally = tally_of(&self.table);
        given
    }
}
