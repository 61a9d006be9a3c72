//! The numbers of this crate are those of `include/cavernlull.h`.

use cavernlull::*;
use std::collections::BTreeMap;

const HEADER: &str = include_str!("../../../include/cavernlull.h");

/// The constants of the header: `CAVERNLULL_NAME = NUMBER`, the number in
/// decimal or, after `0x`, in hex.
fn constants() -> BTreeMap<&'static str, usize> {
    HEADER
        .lines()
        .filter_map(|line| line.trim().strip_prefix("CAVERNLULL_")?.split_once(" = "))
        .map(|(name, rest)| {
            let (base, digits) = rest.strip_prefix("0x").map_or((10, rest), |hex| (16, hex));
            let digits = digits.split(|c: char| !c.is_digit(base)).next();
            let number = usize::from_str_radix(digits.unwrap(), base);
            (name, number.expect("a number"))
        })
        .collect()
}

/// A name such as `Handle List Query` as C has it.
fn in_c(name: impl ToString) -> String {
    name.to_string().to_uppercase().replace(' ', "_")
}

#[test]
fn sizes_are_those_of_the_header() {
    let constants = constants();
    for (name, size) in [
        ("SLOT_BYTES", SLOT_BYTES),
        ("MOST_SLOTS", MOST_SLOTS),
        ("REPLY_ROOM", REPLY_ROOM),
        ("MOST_PAYLOAD", MOST_PAYLOAD),
        ("HANDLE_BYTES", HANDLE_BYTES),
        ("KEY_BYTES", KEY_BYTES),
        ("HASH_BYTES", HASH_BYTES),
        ("MOST_HASHES", MOST_HASHES),
        ("LISTING_ROOM", LISTING_ROOM),
        ("MOST_CHANGE", MOST_CHANGE as usize),
        ("MOST_RETURNS", MOST_RETURNS.into()),
    ] {
        assert_eq!(constants.get(name), Some(&size), "{name}");
    }
}

#[test]
fn kinds_and_statuses_are_those_of_the_header() {
    let constants = constants();
    for kind in Kind::ALL {
        let number = constants.get(in_c(kind).as_str());
        assert_eq!(number, Some(&kind.number().into()), "{kind}");
        assert_eq!(Kind::from_number(kind.number()), Some(kind));
    }
    for status in Status::ALL {
        let number = constants.get(in_c(status).as_str());
        assert_eq!(number, Some(&status.number().into()), "{status}");
        assert_eq!(Status::from_number(status.number()), Some(status));
    }
    assert_eq!(Kind::from_number(0).or(Kind::from_number(10)), None);
    assert_eq!(Status::from_number(8).or(Status::from_number(10)), None);
    assert!(!constants.contains_key("TWO_RECORDS"));
}

#[test]
fn errors_are_those_of_the_header() {
    let constants = constants();
    for (name, number) in [
        ("DONE", 0),
        ("REPLY_BUFFER_SHORT", CallError::ReplyBufferShort.number()),
        ("TABLE_LENGTH", CallError::TableLength.number()),
        (
            "TABLE_NOT_WELL_FORMED",
            CallError::TableNotWellFormed.number(),
        ),
        ("NO_FRAME", CallError::NoFrame.number()),
        ("START_OUTSIDE", CallError::StartOutside.number()),
        ("TALLY_DIFFERS", CallError::TallyDiffers.number()),
        ("WRITER_BUFFER_SHORT", WriteError::BufferShort.number()),
        ("WRITER_FIELDS", WriteError::NoHash.number()),
        ("WRITER_FIELDS", WriteError::TooManyHashes.number()),
        ("WRITER_FIELDS", WriteError::PayloadLength.number()),
        ("NO_REPLY", ReadError.number()),
        ("TABLE_LENGTH", TurnError::TableLength.number()),
        (
            "TABLE_NOT_WELL_FORMED",
            TurnError::TableNotWellFormed.number(),
        ),
        ("TABLE_LENGTH", TallyError::TableLength.number()),
        (
            "TABLE_NOT_WELL_FORMED",
            TallyError::TableNotWellFormed.number(),
        ),
        ("TABLE_LENGTH", SalvageError::TableLength.number()),
        (
            "REPORT_BUFFER_SHORT",
            SalvageError::ReportBufferShort.number(),
        ),
        ("TOTAL_OUTSIDE", TotallingError::TotalOutside.number()),
    ] {
        assert_eq!(constants.get(name), Some(&number.into()), "{name}");
    }
}

/// What a salvage finds of a slot has the same word in a report and in the
/// header.
#[test]
fn findings_are_those_of_the_header() {
    let constants = constants();
    for finding in Finding::ALL {
        let name = format!("SLOT_{}", in_c(finding));
        let number = constants.get(name.as_str());
        assert_eq!(number, Some(&finding.number().into()), "{name}");
        assert_eq!(Finding::from_number(finding.number()), Some(finding));
    }
    assert_eq!(Finding::from_number(3), None);
}

/// The numbers of a tally have the names and the order that the header gives
/// them, and lie one after the other, as in C.
#[test]
fn a_tally_is_that_of_the_header() {
    let structure = HEADER.split("struct cavernlull_tally {\n").nth(1);
    let names = structure.and_then(|text| text.trim_start().strip_prefix("uint16_t "));
    let names: Vec<&str> = names
        .unwrap()
        .split(';')
        .next()
        .unwrap()
        .split(", ")
        .collect();
    let tally = Tally::default();
    let fields: Vec<String> = names.iter().map(|name| format!("{name}: 0")).collect();
    assert_eq!(
        format!("{tally:?}"),
        format!("Tally {{ {} }}", fields.join(", "))
    );
    let base = &tally as *const Tally as usize;
    let offsets = [
        &tally.empty,
        &tally.reserved,
        &tally.enabled,
        &tally.disabled,
        &tally.payload,
    ]
    .map(|number| number as *const u16 as usize - base);
    assert_eq!(offsets, [0, 2, 4, 6, 8]);
    assert_eq!(std::mem::size_of::<Tally>(), 10);
}

/// A right with this count, installed in a slot.
fn installed(count: Option<u16>) -> (Vec<u8>, Card) {
    let handle = Handle([1; 10]);
    let right = Right {
        count,
        hashes: vec![AssetHash([9; 20])],
        payload: vec![7],
        ..Right::default()
    };
    let installation = Request::RightsInstallation { handle, right };
    let mut card = Card::blank(1);
    for request in [
        Request::InstallationSetup { handle, room: 1 },
        installation.clone(),
    ] {
        let reply = card.call(&request, Verdict::Held).unwrap();
        assert_eq!(reply.status(), Status::Success);
    }
    (installation.to_frame().unwrap(), card)
}

/// A kept count of 0 and no count differ in one bit of a slot, of a request and
/// of a reply: those that the header names.
#[test]
fn the_bits_of_a_kept_count_are_those_of_the_header() {
    let constants = constants();
    let ((kept, mut kept_card), (none, mut none_card)) = (installed(Some(0)), installed(None));
    let mut query = [1; 14];
    query[..4].copy_from_slice(&[0x29, 0x80, 0, 10]);
    let mut replies = [[0; REPLY_ROOM]; 2];
    for (name, at, with, without) in [
        ("KEPT_IN_REQUEST", 1, &kept[..], &none[..]),
        ("KEPT_IN_SLOT", 0, kept_card.table(), none_card.table()),
    ] {
        let mut expected = without.to_vec();
        expected[at] |= constants[name] as u8;
        assert!(with == expected && with != without, "{name}");
    }
    let [with, without] = &mut replies;
    kept_card.call_frame(&query, with).unwrap();
    none_card.call_frame(&query, without).unwrap();
    without[1] |= constants["KEPT_IN_REPLY"] as u8;
    assert!(with == without && with[1] != 0);
}
