//! The driver: a program that calls the archive as commands on its standard
//! input tell it, and writes the outcomes to its standard output.
//!
//! The archive is x86-64 code, and so is the driver (`tests/c/driver.c`, built
//! by `scripts/build-driver`). It runs on any machine that has the Rattle
//! toolchain, under an emulator if need be.
//!
//! Answers come out in the order in which commands go in, so many commands may
//! be on their way at once. Both ends must then be served at the same time,
//! since a full pipe stops the driver.

#![forbid(unsafe_code)]
#![warn(missing_docs)]

use std::io::{BufReader, BufWriter, Read as _, Result, Write as _};
use std::path::Path;
use std::process::{Child, ChildStdin, ChildStdout, Command, Stdio};

/// What starts the driver on this machine.
const RUN: &str = concat!(env!("CARGO_MANIFEST_DIR"), "/../../target/driver/run");

/// Room for a few tables on their way.
const PIPE_BYTES: usize = 1 << 18;

/// The fields of a request, as `cavernlull_write_request` is lent them.
#[derive(Clone, Copy)]
pub struct Fields<'a> {
    /// The handle.
    pub handle: &'a [u8; 10],
    /// The new handle.
    pub new_handle: &'a [u8; 10],
    /// The key.
    pub key: &'a [u8; 16],
    /// The room asked for.
    pub room: u16,
    /// The count number.
    pub count: u16,
    /// 1 where a count is kept, and 0 where none is.
    pub kept: u8,
    /// The limit.
    pub limit: u16,
    /// The hashes, one after another.
    pub hashes: &'a [u8],
    /// The payload.
    pub payload: &'a [u8],
}

/// The five numbers of a tally, in the order in which the header and the card
/// profile have them (PROFILE 2.8).
pub type Tally = [u16; 5];

/// What the numbers of a tally count.
pub const TALLY_WORDS: [&str; 5] = ["empty", "reserved", "enabled", "disabled", "payload"];

/// The three numbers that the totalling call keeps (PROFILE 4.5).
#[derive(Clone, Copy, Debug, Default, PartialEq, Eq)]
pub struct Totals {
    /// The sum of the changes.
    pub total: i32,
    /// How many counted returns are in the total.
    pub returns: u16,
    /// The change of the call. What it holds before makes no difference to the
    /// call; one that gives 108 leaves it.
    pub change: i32,
}

/// A running driver.
pub struct Driver {
    /// Where commands go in.
    pub commands: Commands,
    /// Where answers come out.
    pub answers: Answers,
}

impl Driver {
    /// Starts a driver.
    ///
    /// # Panics
    ///
    /// Where it has not been built, or cannot be started.
    pub fn start() -> Driver {
        assert!(
            Path::new(RUN).exists(),
            "there is no driver: `scripts/build-archive` and then `scripts/build-driver` build target/driver"
        );
        let mut child = Command::new(RUN)
            .stdin(Stdio::piped())
            .stdout(Stdio::piped())
            .spawn()
            .unwrap_or_else(|error| panic!("the driver cannot be started: {error}"));
        let stdin = child.stdin.take().expect("stdin is a pipe");
        let stdout = child.stdout.take().expect("stdout is a pipe");
        Driver {
            commands: Commands(BufWriter::with_capacity(PIPE_BYTES, stdin)),
            answers: Answers {
                stdout: BufReader::with_capacity(PIPE_BYTES, stdout),
                child,
            },
        }
    }

    /// Has `cavernlull_turn` called on this table, and gives its number.
    ///
    /// # Panics
    ///
    /// Where the driver ends before it has answered.
    pub fn turn(&mut self, table: &mut [u8]) -> u16 {
        let commands = &mut self.commands;
        commands
            .table(table)
            .and_then(|()| commands.turn())
            .and_then(|()| commands.send())
            .expect("the driver takes the table");
        let turned = self.answers.turned();
        table.copy_from_slice(&turned.table);
        turned.number
    }
}

/// The driver's standard input. Dropping it ends the driver.
pub struct Commands(BufWriter<ChildStdin>);

impl Commands {
    /// Sets the table that is lent from here on. There is no answer.
    ///
    /// # Errors
    ///
    /// Where the driver has ended.
    pub fn table(&mut self, table: &[u8]) -> Result<()> {
        self.0.write_all(b"t")?;
        self.string(table)
    }

    /// Has `cavernlull_call` called with this tally and this start; the answer
    /// is a [`Call`].
    ///
    /// # Errors
    ///
    /// Where the driver has ended.
    pub fn call(&mut self, tally: &Tally, start: u64, frame: &[u8], reply: &[u8]) -> Result<()> {
        self.0.write_all(b"c")?;
        self.0.write_all(&start.to_le_bytes())?;
        self.numbers(tally)?;
        self.string(frame)?;
        self.string(reply)
    }

    /// Has `cavernlull_call_totalling` called with what a call takes and these
    /// three numbers; the answer is a [`Totalled`].
    ///
    /// # Errors
    ///
    /// Where the driver has ended.
    pub fn call_totalling(
        &mut self,
        tally: &Tally,
        start: u64,
        frame: &[u8],
        reply: &[u8],
        totals: &Totals,
    ) -> Result<()> {
        self.0.write_all(b"o")?;
        self.0.write_all(&start.to_le_bytes())?;
        self.numbers(tally)?;
        self.string(frame)?;
        self.string(reply)?;
        self.string(&totals.total.to_le_bytes())?;
        self.string(&totals.returns.to_le_bytes())?;
        self.string(&totals.change.to_le_bytes())
    }

    /// Has `cavernlull_tally` called on the table, with a tally that holds these
    /// numbers; the answer is a [`Tallied`].
    ///
    /// # Errors
    ///
    /// Where the driver has ended.
    pub fn tally(&mut self, tally: &Tally) -> Result<()> {
        self.0.write_all(b"a")?;
        self.numbers(tally)
    }

    /// Has `cavernlull_write_request` called; the answer is a [`Written`].
    ///
    /// # Errors
    ///
    /// Where the driver has ended.
    pub fn write_request(&mut self, kind: u8, fields: &Fields<'_>, out: &[u8]) -> Result<()> {
        self.0.write_all(b"w")?;
        let (kind, kept) = (kind.into(), fields.kept.into());
        for number in [kind, fields.room, fields.count, kept, fields.limit] {
            self.number(number.into())?;
        }
        self.string(fields.handle)?;
        self.string(fields.new_handle)?;
        self.string(fields.key)?;
        self.string(fields.hashes)?;
        self.string(fields.payload)?;
        self.string(out)
    }

    /// Has `cavernlull_read_reply` called; the answer is a [`Read`].
    ///
    /// # Errors
    ///
    /// Where the driver has ended.
    pub fn read_reply(&mut self, frame: &[u8], key: &[u8; 16], numbers: &Numbers) -> Result<()> {
        self.0.write_all(b"r")?;
        self.string(frame)?;
        self.string(key)?;
        self.numbers(numbers)
    }

    /// Has `cavernlull_list` called on the table; the answer is a [`Listed`].
    ///
    /// # Errors
    ///
    /// Where the driver has ended.
    pub fn list(&mut self, out: &[u8]) -> Result<()> {
        self.0.write_all(b"l")?;
        self.string(out)
    }

    /// Has `cavernlull_turn` called on the table; the answer is a [`Turned`].
    ///
    /// # Errors
    ///
    /// Where the driver has ended.
    pub fn turn(&mut self) -> Result<()> {
        self.0.write_all(b"u")
    }

    /// Has `cavernlull_salvage` called on the table, with a report buffer that
    /// holds these bytes; the answer is a [`Salvaged`].
    ///
    /// # Errors
    ///
    /// Where the driver has ended.
    pub fn salvage(&mut self, report: &[u8]) -> Result<()> {
        self.0.write_all(b"s")?;
        self.string(report)
    }

    /// Sends what has not been sent yet.
    ///
    /// # Errors
    ///
    /// Where the driver has ended.
    pub fn send(&mut self) -> Result<()> {
        self.0.flush()
    }

    fn number(&mut self, number: u32) -> Result<()> {
        self.0.write_all(&number.to_le_bytes())
    }

    /// Numbers of 16 bits as the driver lends them, which are a string to it.
    fn numbers<const N: usize>(&mut self, numbers: &[u16; N]) -> Result<()> {
        self.string(&numbers.map(u16::to_le_bytes).concat())
    }

    fn string(&mut self, bytes: &[u8]) -> Result<()> {
        self.number(u32::try_from(bytes.len()).expect("no string is so long"))?;
        self.0.write_all(bytes)
    }
}

/// What a call of `cavernlull_call` gave, and what it left.
#[derive(Debug, PartialEq, Eq)]
pub struct Call {
    /// The number.
    pub number: u16,
    /// The tally.
    pub tally: Tally,
    /// The whole reply buffer.
    pub reply: Vec<u8>,
    /// The whole table.
    pub table: Vec<u8>,
}

impl Call {
    /// Whether this is exactly the call expected.
    ///
    /// # Errors
    ///
    /// A sentence that names the first thing that differs.
    pub fn same_as(&self, expected: &Call) -> Same {
        same_number(self.number, expected.number)?;
        same_bytes("the reply buffer", &self.reply, &expected.reply)?;
        same_bytes("the table", &self.table, &expected.table)?;
        same_tally(&self.tally, &expected.tally)
    }
}

/// What a call of `cavernlull_call_totalling` gave, and what it left.
#[derive(Debug, PartialEq, Eq)]
pub struct Totalled {
    /// The number, and what a call leaves.
    pub call: Call,
    /// The three numbers.
    pub totals: Totals,
}

impl Totalled {
    /// Whether this is exactly the totalling call expected.
    ///
    /// # Errors
    ///
    /// A sentence that names the first thing that differs.
    pub fn same_as(&self, expected: &Totalled) -> Same {
        self.call.same_as(&expected.call)?;
        let (given, wanted) = (self.totals, expected.totals);
        same_total("the total", given.total, wanted.total)?;
        same_total("returns", given.returns.into(), wanted.returns.into())?;
        same_total("the change", given.change, wanted.change)
    }
}

/// What a call of `cavernlull_tally` gave, and what it left.
#[derive(Debug, PartialEq, Eq)]
pub struct Tallied {
    /// The number.
    pub number: u16,
    /// The tally.
    pub tally: Tally,
}

impl Tallied {
    /// Whether this is exactly the tally expected.
    ///
    /// # Errors
    ///
    /// A sentence that names the first thing that differs.
    pub fn same_as(&self, expected: &Tallied) -> Same {
        same_number(self.number, expected.number)?;
        same_tally(&self.tally, &expected.tally)
    }
}

/// What a call of `cavernlull_write_request` gave, and what it left.
#[derive(Debug, PartialEq, Eq)]
pub struct Written {
    /// The number.
    pub number: u16,
    /// The whole buffer.
    pub out: Vec<u8>,
}

impl Written {
    /// Whether this is exactly the request expected.
    ///
    /// # Errors
    ///
    /// A sentence that names the first thing that differs.
    pub fn same_as(&self, expected: &Written) -> Same {
        same_number(self.number, expected.number)?;
        same_bytes("the request's buffer", &self.out, &expected.out)
    }
}

/// The eleven numbers of a reply.
pub type Numbers = [u16; 11];

/// What a call of `cavernlull_read_reply` gave, and what it left.
#[derive(Debug, PartialEq, Eq)]
pub struct Read {
    /// The number.
    pub number: u16,
    /// The key.
    pub key: [u8; 16],
    /// The eleven numbers.
    pub numbers: Numbers,
}

impl Read {
    /// Whether this is exactly the reply expected.
    ///
    /// # Errors
    ///
    /// A sentence that names the first thing that differs.
    pub fn same_as(&self, expected: &Read) -> Same {
        same_number(self.number, expected.number)?;
        same_bytes("the key", &self.key, &expected.key)?;
        if self.numbers != expected.numbers {
            let (given, wanted) = (self.numbers, expected.numbers);
            return Err(format!("it read {given:?} where {wanted:?} was expected"));
        }
        Ok(())
    }
}

/// What a call of `cavernlull_list` gave, and what it left.
#[derive(Debug, PartialEq, Eq)]
pub struct Listed {
    /// The listing's length.
    pub length: u16,
    /// The whole buffer.
    pub out: Vec<u8>,
}

impl Listed {
    /// Whether this is exactly the listing expected.
    ///
    /// # Errors
    ///
    /// A sentence that names the first thing that differs.
    pub fn same_as(&self, expected: &Listed) -> Same {
        if self.length != expected.length {
            let (given, wanted) = (self.length, expected.length);
            return Err(format!("its listing has {given} bytes and not {wanted}"));
        }
        same_bytes("the listing's buffer", &self.out, &expected.out)
    }
}

/// What a call of `cavernlull_turn` gave, and what it left.
#[derive(Debug, PartialEq, Eq)]
pub struct Turned {
    /// The number.
    pub number: u16,
    /// The whole table.
    pub table: Vec<u8>,
}

impl Turned {
    /// Whether this is exactly the turning expected.
    ///
    /// # Errors
    ///
    /// A sentence that names the first thing that differs.
    pub fn same_as(&self, expected: &Turned) -> Same {
        same_number(self.number, expected.number)?;
        same_bytes("the table", &self.table, &expected.table)
    }
}

/// What a call of `cavernlull_salvage` gave, and what it left.
#[derive(Debug, PartialEq, Eq)]
pub struct Salvaged {
    /// The number.
    pub number: u16,
    /// The whole report buffer.
    pub report: Vec<u8>,
    /// The whole table.
    pub table: Vec<u8>,
}

impl Salvaged {
    /// Whether this is exactly the salvage expected.
    ///
    /// # Errors
    ///
    /// A sentence that names the first thing that differs.
    pub fn same_as(&self, expected: &Salvaged) -> Same {
        same_number(self.number, expected.number)?;
        same_bytes("the report buffer", &self.report, &expected.report)?;
        same_bytes("the table", &self.table, &expected.table)
    }
}

/// Nothing, or a sentence that names the first thing that differs.
pub type Same = std::result::Result<(), String>;

fn same_number(given: u16, wanted: u16) -> Same {
    if given != wanted {
        return Err(format!("it gave {given} where {wanted} was expected"));
    }
    Ok(())
}

/// Whether one of the three numbers of a totalling call is as expected.
fn same_total(what: &str, given: i32, wanted: i32) -> Same {
    if given != wanted {
        return Err(format!("{what} is {given} where {wanted} was expected"));
    }
    Ok(())
}

/// Whether each number of a tally is as expected, and if not, which is the first
/// that is another.
fn same_tally(given: &Tally, expected: &Tally) -> Same {
    for (word, (given, wanted)) in TALLY_WORDS.iter().zip(given.iter().zip(expected)) {
        if given != wanted {
            return Err(format!(
                "the tally's {word} is {given} where {wanted} was expected"
            ));
        }
    }
    Ok(())
}

/// Whether lent memory is as expected, and if not, where.
fn same_bytes(what: &str, given: &[u8], expected: &[u8]) -> Same {
    if given == expected {
        return Ok(());
    }
    let differ = |(a, b): (&u8, &u8)| a != b;
    match given.iter().zip(expected).position(differ) {
        Some(at) => Err(format!(
            "byte {at} of {what} is {:#04x} where {:#04x} was expected",
            given[at], expected[at]
        )),
        None => Err(format!("{what} has {} bytes", given.len())),
    }
}

/// The driver's standard output.
pub struct Answers {
    stdout: BufReader<ChildStdout>,
    child: Child,
}

impl Answers {
    /// The next answer to a call.
    ///
    /// # Panics
    ///
    /// Where the driver ends before it has answered, by a fault for example.
    pub fn call(&mut self) -> Call {
        Call {
            number: self.number(),
            tally: self.numbers(),
            reply: self.string(),
            table: self.string(),
        }
    }

    /// The next answer to a totalling call.
    ///
    /// # Panics
    ///
    /// Where the driver ends before it has answered, by a fault for example.
    pub fn totalled(&mut self) -> Totalled {
        Totalled {
            call: self.call(),
            totals: Totals {
                total: i32::from_le_bytes(self.array()),
                returns: u16::from_le_bytes(self.array()),
                change: i32::from_le_bytes(self.array()),
            },
        }
    }

    /// The next answer to a tally worked out.
    ///
    /// # Panics
    ///
    /// Where the driver ends before it has answered.
    pub fn tallied(&mut self) -> Tallied {
        Tallied {
            number: self.number(),
            tally: self.numbers(),
        }
    }

    /// The next answer to a request written.
    ///
    /// # Panics
    ///
    /// Where the driver ends before it has answered.
    pub fn written(&mut self) -> Written {
        Written {
            number: self.number(),
            out: self.string(),
        }
    }

    /// The next answer to a reply read.
    ///
    /// # Panics
    ///
    /// Where the driver ends before it has answered.
    pub fn read(&mut self) -> Read {
        Read {
            number: self.number(),
            key: self.array(),
            numbers: self.numbers(),
        }
    }

    /// The next answer to a listing.
    ///
    /// # Panics
    ///
    /// Where the driver ends before it has answered.
    pub fn listed(&mut self) -> Listed {
        Listed {
            length: self.number(),
            out: self.string(),
        }
    }

    /// The next answer to a turning.
    ///
    /// # Panics
    ///
    /// Where the driver ends before it has answered.
    pub fn turned(&mut self) -> Turned {
        Turned {
            number: self.number(),
            table: self.string(),
        }
    }

    /// The next answer to a salvage.
    ///
    /// # Panics
    ///
    /// Where the driver ends before it has answered.
    pub fn salvaged(&mut self) -> Salvaged {
        Salvaged {
            number: self.number(),
            report: self.string(),
            table: self.string(),
        }
    }

    fn number(&mut self) -> u16 {
        let number = self.word();
        u16::try_from(number).unwrap_or_else(|_| panic!("the driver answered {number}"))
    }

    /// As many numbers of 16 bits as are asked for, which are a string to the
    /// driver.
    fn numbers<const N: usize>(&mut self) -> [u16; N] {
        let bytes = self.string();
        assert_eq!(bytes.len(), 2 * N, "{N} numbers");
        let mut numbers = [0; N];
        for (number, pair) in numbers.iter_mut().zip(bytes.chunks_exact(2)) {
            *number = u16::from_le_bytes([pair[0], pair[1]]);
        }
        numbers
    }

    /// A string of as many bytes as are asked for.
    fn array<const N: usize>(&mut self) -> [u8; N] {
        let bytes = self.string();
        bytes
            .try_into()
            .unwrap_or_else(|bytes: Vec<u8>| panic!("{} bytes, and not {N}", bytes.len()))
    }

    fn string(&mut self) -> Vec<u8> {
        let mut bytes = vec![0; self.word() as usize];
        self.fill(&mut bytes);
        bytes
    }

    fn word(&mut self) -> u32 {
        let mut bytes = [0; 4];
        self.fill(&mut bytes);
        u32::from_le_bytes(bytes)
    }

    fn fill(&mut self, bytes: &mut [u8]) {
        if let Err(error) = self.stdout.read_exact(bytes) {
            panic!(
                "the driver gave no answer ({error}): {:?}",
                self.child.wait()
            );
        }
    }

    /// Waits for the driver, whose input has been dropped, to end.
    ///
    /// # Panics
    ///
    /// Where it writes more, or ends with a status other than 0.
    pub fn end(mut self) {
        let mut rest = Vec::new();
        let read = self.stdout.read_to_end(&mut rest);
        assert!(read.is_ok() && rest.is_empty(), "the driver says too much");
        let status = self.child.wait().expect("the driver can be waited for");
        assert!(status.success(), "the driver ended with {status}");
    }
}
