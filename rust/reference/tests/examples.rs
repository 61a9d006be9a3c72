//! The worked examples of the card profile, cases 1 to 17, 22, 23 and 27 (PROFILE
//! 9), as one table. All are run with the start 0 and the tally of their table.

mod common;

use common::{blank, call, Given};
use reference::SLOT_BYTES;
use std::collections::HashMap;

/// What a row starts from.
#[derive(Clone, Copy)]
enum Start {
    /// One slot, all zero.
    Blank,
    /// The state that the row of this name left.
    After(&'static str),
    /// This many bytes, all zero.
    Zeros(usize),
    /// One slot with these runs of bytes, each at its offset, and 0 elsewhere.
    Holding(Runs),
}

/// Runs of bytes of a slot, each at its offset.
type Runs = &'static [(usize, &'static str)];

/// What a row must leave.
#[derive(Clone, Copy)]
enum End {
    /// The table as it was.
    Same,
    /// A slot with these runs of bytes, each at its offset, and 0 elsewhere.
    Slot(Runs),
}

use End::{Same, Slot};
use Start::{After, Blank, Holding, Zeros};

/// The slots of case 23: a right without a hash, for use and lent.
const OLD: Runs = &[(0, "80"), (1, "H1"), (11, "K"), (29, "00 05"), (192, "P5")];
const OLD_LENT: Runs = &[(0, "C0"), (1, "H2"), (11, "K"), (29, "00 05"), (192, "P5")];

/// Name, start, frame, number, reply, table afterwards.
type Row = (&'static str, Start, &'static str, u16, &'static str, End);

/// Bytes are in hex; H1, H2 are handles, K is a key, A is an asset hash, P5 and P6
/// are payloads.
const ROWS: &[Row] = &[
    (
        "1",
        Blank,
        "21 80 00 0C H1 00 05",
        0,
        "21 00 00 00",
        Slot(&[(0, "40"), (1, "H1"), (29, "00 05")]),
    ),
    ("2", Blank, "21 00 00 0C H1 00 05", 0, "21 01 00 00", Same),
    (
        "3",
        After("1"),
        "21 80 00 0C H1 00 05",
        0,
        "21 05 00 00",
        Same,
    ),
    (
        "4",
        After("1"),
        "21 80 00 0C H2 00 05",
        0,
        "21 07 00 00",
        Same,
    ),
    ("5", Blank, "21 80 00 0C H1 00 00", 0, "21 02 00 00", Same),
    (
        "6 over",
        Blank,
        "21 80 00 0C H1 10 01",
        0,
        "21 07 00 00",
        Same,
    ),
    (
        "6",
        Blank,
        "21 80 00 0C H1 10 00",
        0,
        "21 00 00 00",
        Slot(&[(0, "40"), (1, "H1"), (29, "10 00")]),
    ),
    (
        "7 over",
        After("1"),
        "22 80 00 37 H1 K 00 00 10 A P6",
        0,
        "22 07 00 00",
        Same,
    ),
    (
        "7",
        After("1"),
        "22 80 00 36 H1 K 00 00 10 A P5",
        0,
        "22 00 00 00",
        Slot(&[
            (0, "84"),
            (1, "H1"),
            (11, "K"),
            (29, "00 05"),
            (31, "A"),
            (192, "P5"),
        ]),
    ),
    ("8", After("7"), "24 80 00 14 H1 H1", 0, "24 05 00 00", Same),
    (
        "9",
        After("7"),
        "24 80 00 14 H1 H2",
        0,
        "24 00 00 10 K",
        Slot(&[
            (0, "C4"),
            (1, "H2"),
            (11, "K"),
            (29, "00 05"),
            (31, "A"),
            (192, "P5"),
        ]),
    ),
    (
        "9 again",
        After("9"),
        "24 80 00 14 H1 H2",
        0,
        "24 04 00 00",
        Same,
    ),
    (
        "10",
        After("9"),
        "24 80 00 14 H2 H1",
        0,
        "24 06 00 00",
        Same,
    ),
    (
        "11 installed",
        After("1"),
        "22 C0 00 36 H1 K 00 07 10 A P5",
        0,
        "22 00 00 00",
        Slot(&[
            (0, "86"),
            (1, "H1"),
            (11, "K"),
            (27, "00 07"),
            (29, "00 05"),
            (31, "A"),
            (192, "P5"),
        ]),
    ),
    (
        "11 lent",
        After("11 installed"),
        "24 80 00 14 H1 H2",
        0,
        "24 00 00 10 K",
        Slot(&[
            (0, "C6"),
            (1, "H2"),
            (11, "K"),
            (27, "00 07"),
            (29, "00 05"),
            (31, "A"),
            (192, "P5"),
        ]),
    ),
    (
        "11",
        After("11 lent"),
        "25 C0 00 0C H2 00 03",
        0,
        "25 00 00 00",
        Slot(&[
            (0, "86"),
            (1, "H2"),
            (11, "K"),
            (27, "00 03"),
            (29, "00 05"),
            (31, "A"),
            (192, "P5"),
        ]),
    ),
    (
        "11 again",
        After("11"),
        "25 C0 00 0C H2 00 04",
        0,
        "25 00 00 00",
        Same,
    ),
    (
        "12 limit 9",
        After("7"),
        "28 80 00 03 00 09 00",
        0,
        "28 00 00 01 80",
        Same,
    ),
    (
        "12 limit 10",
        After("7"),
        "28 80 00 03 00 0A 00",
        0,
        "28 00 00 0B 00 H1",
        Same,
    ),
    ("13", Blank, "2A 80 00 00", 0, "2A 03 00 00", Same),
    (
        "13 verdict 0",
        Blank,
        "2A 00 00 02 AB CD",
        0,
        "2A 03 00 00",
        Same,
    ),
    (
        "13 with a table",
        After("7"),
        "2A 80 00 0A H1",
        0,
        "2A 03 00 00",
        Same,
    ),
    ("14 empty", Blank, "", 104, "", Same),
    ("14 short", Blank, "21 80 00", 104, "", Same),
    ("15 none", Zeros(0), "21 80 00 0C H1 00 05", 102, "", Same),
    (
        "15 part",
        Zeros(4_287),
        "21 80 00 0C H1 00 05",
        102,
        "",
        Same,
    ),
    (
        "15 many",
        Zeros(68_608),
        "21 80 00 0C H1 00 05",
        102,
        "",
        Same,
    ),
    (
        "16 installed",
        After("1"),
        "22 C0 00 36 H1 K 00 01 10 A P5",
        0,
        "22 00 00 00",
        Slot(&[
            (0, "86"),
            (1, "H1"),
            (11, "K"),
            (27, "00 01"),
            (29, "00 05"),
            (31, "A"),
            (192, "P5"),
        ]),
    ),
    (
        "16 lent",
        After("16 installed"),
        "24 80 00 14 H1 H2",
        0,
        "24 00 00 10 K",
        Slot(&[
            (0, "C6"),
            (1, "H2"),
            (11, "K"),
            (27, "00 01"),
            (29, "00 05"),
            (31, "A"),
            (192, "P5"),
        ]),
    ),
    (
        "16 returned",
        After("16 lent"),
        "25 C0 00 0C H2 00 00",
        0,
        "25 00 00 00",
        Slot(&[
            (0, "86"),
            (1, "H2"),
            (11, "K"),
            (29, "00 05"),
            (31, "A"),
            (192, "P5"),
        ]),
    ),
    (
        "16 told",
        After("16 returned"),
        "29 80 00 0A H2",
        0,
        "29 80 00 07 00 00 P5",
        Same,
    ),
    (
        "16",
        After("16 returned"),
        "23 80 00 14 H2 H1",
        0,
        "23 80 00 2C K 00 00 10 A P5",
        Slot(&[
            (0, "C6"),
            (1, "H1"),
            (11, "K"),
            (29, "00 05"),
            (31, "A"),
            (192, "P5"),
        ]),
    ),
    (
        "17",
        After("1"),
        "22 80 00 36 H1 K 00 01 10 A P5",
        0,
        "22 02 00 00",
        Same,
    ),
    (
        "17 returned",
        After("9"),
        "25 80 00 0C H2 00 03",
        0,
        "25 02 00 00",
        Same,
    ),
    (
        "22",
        After("1"),
        "22 80 00 22 H1 K 00 00 00 P5",
        0,
        "22 02 00 00",
        Same,
    ),
    (
        "22 no handle",
        Blank,
        "22 80 00 22 H1 K 00 00 00 P5",
        0,
        "22 02 00 00",
        Same,
    ),
    (
        "22 verdict 0",
        After("1"),
        "22 00 00 22 H1 K 00 00 00 P5",
        0,
        "22 01 00 00",
        Same,
    ),
    (
        "23 listed",
        Holding(OLD),
        "28 80 00 03 00 00 00",
        0,
        "28 00 00 0B 00 H1",
        Same,
    ),
    (
        "23 by a hash",
        Holding(OLD),
        "28 80 00 17 00 00 01 A",
        0,
        "28 00 00 01 00",
        Same,
    ),
    (
        "23 read",
        Holding(OLD),
        "29 80 00 0A H1",
        0,
        "29 00 00 07 00 00 P5",
        Same,
    ),
    (
        "23 lent",
        Holding(OLD),
        "24 80 00 14 H1 H2",
        0,
        "24 00 00 10 K",
        Slot(OLD_LENT),
    ),
    (
        "23 retrieved",
        Holding(OLD),
        "23 80 00 14 H1 H2",
        0,
        "23 00 00 18 K 00 00 00 P5",
        Slot(OLD_LENT),
    ),
    (
        "23 returned",
        Holding(OLD_LENT),
        "25 80 00 0C H2 00 00",
        0,
        "25 00 00 00",
        Slot(&[(0, "80"), (1, "H2"), (11, "K"), (29, "00 05"), (192, "P5")]),
    ),
    (
        "23 removed",
        Holding(OLD),
        "26 80 00 0A H1",
        0,
        "26 00 00 00",
        Slot(&[]),
    ),
    (
        "23 lent, removed",
        Holding(OLD_LENT),
        "26 80 00 0A H2",
        0,
        "26 00 00 00",
        Slot(&[]),
    ),
    (
        "27 one more",
        After("11 lent"),
        "25 C0 00 0C H2 00 08",
        0,
        "25 09 00 00",
        Same,
    ),
    (
        "27 kept, then none",
        After("11 lent"),
        "25 80 00 0C H2 00 00",
        0,
        "25 09 00 00",
        Same,
    ),
    (
        "27 none, then 0",
        After("9"),
        "25 C0 00 0C H2 00 00",
        0,
        "25 09 00 00",
        Same,
    ),
    (
        "27",
        After("11 lent"),
        "25 C0 00 0C H2 00 07",
        0,
        "25 00 00 00",
        Slot(&[
            (0, "86"),
            (1, "H2"),
            (11, "K"),
            (27, "00 07"),
            (29, "00 05"),
            (31, "A"),
            (192, "P5"),
        ]),
    ),
    (
        "27 again, more",
        After("27"),
        "25 C0 00 0C H2 FF FF",
        0,
        "25 00 00 00",
        Same,
    ),
    (
        "27 again, none",
        After("27 again, more"),
        "25 80 00 0C H2 00 00",
        0,
        "25 00 00 00",
        Same,
    ),
    (
        "27 none for none",
        After("9"),
        "25 80 00 0C H2 00 00",
        0,
        "25 00 00 00",
        Slot(&[
            (0, "84"),
            (1, "H2"),
            (11, "K"),
            (29, "00 05"),
            (31, "A"),
            (192, "P5"),
        ]),
    ),
    (
        "27 no bit",
        After("11 lent"),
        "25 80 00 0C H2 00 08",
        0,
        "25 02 00 00",
        Same,
    ),
    (
        "27 verdict 0",
        After("11 lent"),
        "25 40 00 0C H2 00 08",
        0,
        "25 01 00 00",
        Same,
    ),
    (
        "27 reserved",
        After("1"),
        "25 C0 00 0C H1 00 08",
        0,
        "25 06 00 00",
        Same,
    ),
];

/// The bytes of a text of hex pairs and names.
fn bytes(text: &str) -> Vec<u8> {
    text.split_whitespace()
        .flat_map(|word| match word {
            "H1" => vec![1; 10],
            "H2" => vec![2; 10],
            "K" => (0x01..=0x10).collect(),
            "A" => (0xA0..=0xB3).collect(),
            "P5" => (0xA1..=0xA5).collect(),
            "P6" => (0xA1..=0xA6).collect(),
            pair => vec![u8::from_str_radix(pair, 16).expect("a hex pair")],
        })
        .collect()
}

/// A table of one slot with these runs of bytes and 0 elsewhere.
fn slot(runs: &[(usize, &str)]) -> Vec<u8> {
    let mut table = vec![0; SLOT_BYTES];
    for (offset, text) in runs {
        let run = bytes(text);
        table[*offset..offset + run.len()].copy_from_slice(&run);
    }
    table
}

#[test]
fn worked_examples() {
    let mut states: HashMap<&str, Vec<u8>> = HashMap::new();
    for &(name, from, frame, number, reply, then) in ROWS {
        let before = match from {
            Blank => blank(1),
            After(row) => states[row].clone(),
            Zeros(length) => vec![0; length],
            Holding(runs) => slot(runs),
        };
        let expected = match then {
            Same => before.clone(),
            Slot(runs) => slot(runs),
        };
        let mut table = before;
        let given = call(&mut table, &bytes(frame));
        let reply = bytes(reply);
        assert_eq!(given, Given { number, reply }, "case {name}");
        assert!(table == expected, "case {name}: the table");
        states.insert(name, table);
    }
}
