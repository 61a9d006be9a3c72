//! Many commands on their way at once.
//!
//! One thread gives the commands and says what it expects of each; another
//! takes the answers, in the same order, and checks them.

use driver::{Answers, Commands, Driver};
use std::io::{Error, Result};
use std::panic::resume_unwind;
use std::sync::mpsc::{sync_channel, SyncSender};
use std::thread;

/// How many answers may be outstanding.
const ON_THE_WAY: usize = 64;

/// Where commands are given.
pub struct Giver<E> {
    /// The commands themselves.
    pub commands: Commands,
    expected: SyncSender<E>,
}

impl<E> Giver<E> {
    /// Says what is expected of the answer to the last command.
    ///
    /// # Errors
    ///
    /// Where the driver or the check has ended.
    pub fn expect(&mut self, expected: E) -> Result<()> {
        self.commands.send()?;
        let ended = |_| Error::other("nothing is checked any more");
        self.expected.send(expected).map_err(ended)
    }
}

/// Runs a driver: `give` gives it commands, and `check` is called for each
/// answer that `give` expects something of.
///
/// # Panics
///
/// Where `give` or `check` panics, or the driver ends too early.
pub fn run<E: Send>(
    give: impl FnOnce(&mut Giver<E>) -> Result<()> + Send,
    mut check: impl FnMut(&mut Answers, E),
) {
    let Driver { commands, answers } = Driver::start();
    let (sender, receiver) = sync_channel(ON_THE_WAY);
    let mut giver = Giver {
        commands,
        expected: sender,
    };
    thread::scope(|scope| {
        // Both are dropped where a check panics, which ends the driver and
        // lets the giver go.
        let (mut answers, receiver) = (answers, receiver);
        let given = scope.spawn(move || give(&mut giver));
        for expected in &receiver {
            check(&mut answers, expected);
        }
        given
            .join()
            .unwrap_or_else(|panic| resume_unwind(panic))
            .expect("the driver takes every command");
        answers.end();
    });
}
