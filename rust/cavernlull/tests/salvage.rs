//! The salvage of damaged cards (PROFILE 2.10): slots that are in order are kept,
//! every other is cleared, and the card is used again.

use cavernlull::{AssetHash, CallError, Card, Error, Finding, Handle, Key, Listing, Reply};
use cavernlull::{Request, Right, Rotation, SalvageError, Status, Tally, Verdict};
use cavernlull::{HASH_BYTES, MOST_SLOTS, SLOT_BYTES};
use Finding::{Damaged, Kept, Repeated};

const EMPTY: u8 = 0;
const RESERVED: u8 = 1;
const ENABLED: u8 = 2;
const DISABLED: u8 = 3;

/// The byte of each key, which is in no other field.
const KEY: u8 = 0xC5;

/// A well-formed slot. A right has a kept count, so many hashes and a payload of
/// five bytes.
fn slot_with(place: u8, handle: u8, hashes: usize) -> Vec<u8> {
    let mut slot = vec![0; SLOT_BYTES];
    if place == EMPTY {
        return slot;
    }
    slot[0] = place << 6;
    slot[1..11].fill(handle);
    slot[30] = 5;
    if place != RESERVED {
        slot[0] |= (hashes as u8) << 2 | 2;
        slot[11..27].fill(KEY);
        slot[28] = 9;
        slot[31..31 + HASH_BYTES * hashes].fill(0xA1);
        slot[192..197].fill(0xEE);
    }
    slot
}

fn slot(place: u8, handle: u8) -> Vec<u8> {
    slot_with(place, handle, 1)
}

fn empty() -> Vec<u8> {
    slot(EMPTY, 0)
}

/// The slot with a bit set in byte 191, which no place allows.
fn worn(mut slot: Vec<u8>) -> Vec<u8> {
    slot[191] = 1;
    slot
}

/// What is expected of a salvage: the slots are kept where this says so, and are
/// empty elsewhere.
fn left(slots: &[Vec<u8>], findings: &[Finding]) -> Vec<u8> {
    let left = slots.iter().zip(findings).map(|(slot, finding)| {
        let kept = *finding == Kept;
        if kept {
            slot.clone()
        } else {
            empty()
        }
    });
    left.collect::<Vec<_>>().concat()
}

/// Asserts that a card of these slots is salvaged with these findings, that it
/// has the tally of the table left, and that a second salvage clears nothing.
fn assert_salvaged(slots: &[Vec<u8>], findings: &[Finding]) -> Card {
    let mut card = Card::from(slots.concat());
    let left = left(slots, findings);
    let cleared = findings.iter().filter(|found| **found != Kept).count();
    for (findings, cleared) in [(findings, cleared), (&vec![Kept; slots.len()], 0)] {
        let report = card.salvage().unwrap();
        assert_eq!(report.findings(), findings);
        assert_eq!(report.cleared(), cleared, "{findings:?}");
        assert!(card.table() == left, "{findings:?}");
        assert_eq!(Tally::of(card.table()), Ok(card.tally()), "{findings:?}");
    }
    card
}

#[test]
fn a_worn_slot_is_cleared_and_no_other() {
    let slots = [
        slot(ENABLED, 1),
        slot(RESERVED, 2),
        empty(),
        slot(DISABLED, 3),
    ];
    for at in 0..slots.len() {
        let (mut damaged, mut findings) = (slots.clone(), [Kept; 4]);
        damaged[at] = worn(damaged[at].clone());
        findings[at] = Damaged;
        assert_salvaged(&damaged, &findings);
    }
}

/// The lowest of the slots under one handle is kept, whatever their places.
#[test]
fn of_slots_under_one_handle_the_lowest_is_kept() {
    let places = [RESERVED, ENABLED, DISABLED];
    for (a, b) in places.iter().flat_map(|a| places.map(|b| (*a, b))) {
        assert_salvaged(&[slot(a, 7), slot(b, 7)], &[Kept, Repeated]);
        let slots = [
            slot(ENABLED, 1),
            slot(a, 7),
            empty(),
            slot(b, 7),
            slot(a, 1),
        ];
        assert_salvaged(&slots, &[Kept, Kept, Kept, Repeated, Repeated]);
    }
    let all = vec![slot(DISABLED, 7); MOST_SLOTS];
    let findings = [&[Kept][..], &[Repeated; MOST_SLOTS - 1]].concat();
    let card = assert_salvaged(&all, &findings);
    assert_eq!((card.tally().empty, card.tally().disabled), (14, 1));
}

/// Ten zeros are a handle like any other, and an empty slot is not under them.
#[test]
fn empty_slots_are_under_no_handle() {
    let slots = [empty(), slot(RESERVED, 0), empty(), slot(ENABLED, 0)];
    assert_salvaged(&slots, &[Kept, Kept, Kept, Repeated]);
}

/// A damaged slot makes no other a repeated one, whatever stands in its handle
/// field; and where it repeats a handle itself, it is damaged.
#[test]
fn a_damaged_slot_repeats_no_handle() {
    let (whole, damaged) = (slot(ENABLED, 7), worn(slot(ENABLED, 7)));
    assert_salvaged(&[damaged.clone(), whole.clone()], &[Damaged, Kept]);
    assert_salvaged(&[whole.clone(), damaged.clone()], &[Kept, Damaged]);
    let slots = [damaged.clone(), whole.clone(), damaged, whole];
    assert_salvaged(&slots, &[Damaged, Kept, Damaged, Repeated]);
}

#[test]
fn where_every_slot_is_damaged_a_blank_card_is_left() {
    for slots in 1..=MOST_SLOTS {
        let damaged: Vec<Vec<u8>> = (1..=slots).map(|n| worn(slot(ENABLED, n as u8))).collect();
        let card = assert_salvaged(&damaged, &vec![Damaged; slots]);
        assert_eq!(card.tally(), Tally::blank(slots));
        assert_salvaged(&vec![vec![0xFF; SLOT_BYTES]; slots], &vec![Damaged; slots]);
    }
}

#[test]
fn a_card_that_is_not_damaged_stays_as_it_is() {
    let slots = [
        slot(DISABLED, 3),
        empty(),
        slot(ENABLED, 0xFF),
        slot(RESERVED, 1),
    ];
    assert_salvaged(&slots, &[Kept; 4]);
    for slots in 1..=MOST_SLOTS {
        assert_salvaged(&vec![empty(); slots], &vec![Kept; slots]);
    }
}

/// A right without a hash is well formed (PROFILE 2.9).
#[test]
fn rights_without_a_hash_are_kept() {
    let slots = [
        slot_with(ENABLED, 1, 0),
        worn(slot(ENABLED, 2)),
        slot_with(DISABLED, 3, 0),
    ];
    let card = assert_salvaged(&slots, &[Kept, Damaged, Kept]);
    assert_eq!(
        card.listing().as_str(),
        "slot place hashes count length\n0 enabled 0 9 5\n1 empty 0 0 0\n2 disabled 0 9 5\n"
    );
}

/// Each of these bytes makes the slot one that is not well formed. Nothing of its
/// key is left, also where the byte is the key's or the slot's first.
#[test]
fn no_key_is_left_in_a_cleared_slot() {
    let right = slot(ENABLED, 2);
    for (at, byte) in [
        (0, 0x04),
        (0, 0x46),
        (0, 0x87),
        (0, 0x84),
        (0, 0xA6),
        (29, 0x10),
        (30, 0),
        (51, 1),
        (190, 1),
        (191, 1),
        (197, 1),
        (SLOT_BYTES - 1, 1),
    ] {
        let mut damaged = right.clone();
        damaged[at] = byte;
        let card = assert_salvaged(&[slot(RESERVED, 1), damaged], &[Kept, Damaged]);
        assert!(!card.table().contains(&KEY), "byte {at}");
    }
    let card = assert_salvaged(&[slot(RESERVED, 2), right], &[Kept, Repeated]);
    assert!(!card.table().contains(&KEY));
}

/// An old table is turned before it is salvaged: to a salvage, a count without
/// its bit is damage.
#[test]
fn an_old_table_is_turned_first() {
    let mut old = [slot(ENABLED, 1), slot(RESERVED, 2)];
    old[0][0] &= !2;
    assert_salvaged(&old, &[Damaged, Kept]);
    let mut card = Card::from(old.concat());
    card.turn().unwrap();
    assert_eq!(card.salvage().unwrap().cleared(), 0);
    assert_eq!(card.tally().enabled, 1);
}

/// Asserts that a card answers a request with this status.
fn assert_answers(card: &mut Card, request: Request, status: Status) {
    let reply = card.call(&request, Verdict::Held);
    assert_eq!(reply.unwrap().status(), status, "{request:?}");
    assert_eq!(Tally::of(card.table()), Ok(card.tally()), "{request:?}");
}

/// A card with a worn slot between two rights. Until it is salvaged, no call is
/// answered.
fn worn_card() -> Card {
    let slots = [slot(ENABLED, 1), worn(slot(ENABLED, 2)), slot(DISABLED, 3)];
    let mut card = Card::from(slots.concat());
    assert_eq!(card.tally(), Tally::default());
    let (limit, hashes) = (0, vec![]);
    let list = Request::HandleListQuery { limit, hashes };
    let refused = card.call(&list, Verdict::Held);
    let not_well_formed = CallError::TableNotWellFormed;
    assert_eq!(refused, Err(Error::Call(not_well_formed)));
    assert_eq!(card.listing().as_str(), "refused 103\n");
    card
}

/// What is left is lent, returned and removed, and a right is installed in the
/// slot that was cleared.
#[test]
fn calls_go_on_after_a_salvage() {
    let [one, two, three, lent] = [1, 2, 3, 4].map(|n| Handle([n; 10]));
    let mut card = worn_card();
    assert_eq!(card.salvage().unwrap().findings(), [Kept, Damaged, Kept]);
    assert_eq!(
        card.tally().to_string(),
        "1 empty, 0 reserved, 1 enabled, 1 disabled, 10 payload bytes"
    );
    let (handle, new_handle) = (one, lent);
    let lending = Request::RekQuery { handle, new_handle };
    let key = Reply::Key(Key([KEY; 16]));
    assert_eq!(card.call(&lending, Verdict::Held), Ok(key));
    let (handle, count) = (three, Some(8));
    let give_back = Request::RightsEnablement { handle, count };
    assert_answers(&mut card, give_back, Status::Success);
    let read = |handle| Request::RightsInformationQuery { handle };
    assert_answers(&mut card, read(three), Status::Success);
    assert_answers(&mut card, read(two), Status::HandleNotFound);

    let (handle, room) = (two, 300);
    let setup = Request::InstallationSetup { handle, room };
    assert_answers(&mut card, setup, Status::Success);
    let right = Right {
        hashes: vec![AssetHash([0xA1; HASH_BYTES])],
        payload: b"anew".to_vec(),
        ..Right::default()
    };
    let installation = Request::RightsInstallation { handle, right };
    assert_answers(&mut card, installation, Status::Success);
    let handle = lent;
    assert_answers(
        &mut card,
        Request::RightsRemoval { handle },
        Status::Success,
    );
    assert_eq!(
        card.listing().as_str(),
        "slot place hashes count length\n0 empty 0 0 0\n1 enabled 1 0 4\n2 enabled 1 8 5\n"
    );
}

/// A rotation goes on where it was: a salvage does not move it.
#[test]
fn setups_go_on_in_rotation() {
    let mut card = worn_card();
    card.salvage().unwrap();
    let mut rotation = Rotation::from_slot(2);
    let (handle, room) = (Handle([9; 10]), 5);
    let setup = Request::InstallationSetup { handle, room };
    let reply = rotation.call(&mut card, &setup, Verdict::Held).unwrap();
    assert_eq!((reply.status(), rotation.start()), (Status::Success, 2));
    assert!(card.table()[SLOT_BYTES..][..SLOT_BYTES] == slot(RESERVED, 9));
}

/// The card has the tally of the table left also where another was handed in,
/// and where nothing was cleared.
#[test]
fn the_tally_is_worked_out_afresh() {
    let whole = [slot(ENABLED, 1), slot(RESERVED, 2)];
    let damaged = [slot(ENABLED, 1), worn(slot(RESERVED, 2))];
    let before = Tally::of(&whole.concat()).unwrap();
    let after = Tally {
        empty: 1,
        reserved: 0,
        ..before
    };
    for (slots, tally) in [(whole, before), (damaged, after)] {
        for handed_in in [before, after, Tally::default(), Tally::blank(15)] {
            let mut card = Card::with_tally(slots.concat(), handed_in);
            card.salvage().unwrap();
            assert_eq!(card.tally(), tally);
        }
    }
}

#[test]
fn a_lent_table_is_salvaged_in_place() {
    let slots = [worn(slot(ENABLED, 1)), slot(RESERVED, 2)].concat();
    let mut memory = [&[0xEE][..], &slots, &[0xEE]].concat();
    let end = memory.len() - 1;
    let report = Card::over(&mut memory[1..end]).salvage().unwrap();
    assert_eq!(report.findings(), [Damaged, Kept]);
    assert_eq!((memory[0], memory[end]), (0xEE, 0xEE));
    assert!(memory[1..end] == [empty(), slot(RESERVED, 2)].concat());
}

/// Asserts that the bytes are not salvaged, for this reason, and stay as they
/// were, with a report buffer of so many bytes.
fn assert_not_salvaged(table: &[u8], room: usize, error: SalvageError) {
    let tally = Tally::blank(3);
    let mut card = Card::with_tally(table.to_vec(), tally);
    let mut report = vec![0xEE; room];
    assert_eq!(card.salvage_into(&mut report), Err(error));
    if error == SalvageError::TableLength {
        assert_eq!(card.salvage(), Err(error));
    }
    assert!(card.table() == table && report == vec![0xEE; room]);
    assert_eq!(card.tally(), tally);
}

/// A table's length is refused before a short report buffer.
#[test]
fn what_is_no_table_is_not_salvaged() {
    let most = MOST_SLOTS * SLOT_BYTES;
    for length in [
        0,
        1,
        SLOT_BYTES - 1,
        SLOT_BYTES + 1,
        most + 1,
        16 * SLOT_BYTES,
    ] {
        for room in [0, 1, MOST_SLOTS, 20] {
            assert_not_salvaged(&vec![0; length], room, SalvageError::TableLength);
            assert_not_salvaged(&vec![0xFF; length], room, SalvageError::TableLength);
        }
    }
}

/// The report has a byte for each slot, and the bytes after them stay.
#[test]
fn a_report_buffer_has_a_byte_for_each_slot() {
    for slots in 1..=MOST_SLOTS {
        let damaged = vec![slot(ENABLED, 7); slots - 1];
        let table = [damaged, vec![worn(slot(ENABLED, 7))]].concat().concat();
        for room in 0..slots {
            assert_not_salvaged(&table, room, SalvageError::ReportBufferShort);
        }
        for room in slots..=slots + 2 {
            let mut report = vec![0xEE; room];
            let cleared = Card::from(table.clone()).salvage_into(&mut report);
            assert_eq!(cleared, Ok(if slots == 1 { 1 } else { slots - 1 }));
            let mut expected = vec![2; slots];
            expected[0] = 0;
            expected[slots - 1] = 1;
            expected.resize(room, 0xEE);
            assert_eq!(report, expected);
        }
    }
}

#[test]
fn a_report_is_read_by_slot_and_in_words() {
    let slots = [worn(empty()), slot(ENABLED, 1), slot(RESERVED, 1)];
    let report = Card::from(slots.concat()).salvage().unwrap();
    let expected = [(0, Damaged), (1, Kept), (2, Repeated)];
    assert!(report.iter().eq(expected));
    assert_eq!(
        report.to_string(),
        "0 damaged\n1 kept\n2 repeated\ncleared 2\n"
    );
    assert_eq!(format!("{Damaged:>9}"), "  damaged");
}

#[test]
fn refusals_are_errors_with_their_numbers() {
    let errors = [SalvageError::TableLength, SalvageError::ReportBufferShort];
    assert_eq!(errors.map(SalvageError::number), [102, 107]);
    for error in errors {
        let error: Box<dyn std::error::Error + Send + Sync> = error.into();
        assert!(error.to_string().starts_with("the "), "{error}");
    }
}

/// A full card of 15 slots: rights of every hash count, for use and lent, and
/// reservations.
fn full_card() -> Vec<Vec<u8>> {
    let places = [ENABLED, DISABLED, RESERVED];
    (0..MOST_SLOTS)
        .map(|n| slot_with(places[n % 3], n as u8, n % 9))
        .collect()
}

/// The bits in which a slot is tried: all of its head, of its first hash and of
/// the bytes around the ends of hashes and payload, and every 301st.
fn tried_bits() -> impl Iterator<Item = usize> {
    let dense = |byte: usize| byte <= 52 || (188..=200).contains(&byte) || byte >= SLOT_BYTES - 2;
    (0..8 * SLOT_BYTES).filter(move |bit| dense(bit / 8) || bit % 301 == 0)
}

/// What one changed bit costs (PROFILE 2.10): nothing, the slot that it is in, or
/// the higher of two that have come to one handle.
fn assert_one_bit_costs_one_slot(slots: &[Vec<u8>], at: usize, bit: usize) -> Option<Finding> {
    let mut table = slots.concat();
    table[at * SLOT_BYTES + bit / 8] ^= 1 << (bit % 8);
    let refused = Listing::of(&table).as_str() == "refused 103\n";
    let mut card = Card::with_tally(table.clone(), Tally::default());
    let report = card.salvage().unwrap();
    let what = format!("bit {bit} of slot {at}");
    assert_eq!(report.cleared(), usize::from(refused), "{what}");
    let lost = report.iter().find(|(_, found)| *found != Kept);
    if let Some((slot, finding)) = lost {
        assert!(slot == at || finding == Repeated, "{what}");
        table[slot * SLOT_BYTES..][..SLOT_BYTES].fill(0);
    }
    assert!(card.table() == table, "{what}");
    assert_eq!(card.tally().slots(), MOST_SLOTS, "{what}");
    lost.map(|(_, finding)| finding)
}

#[test]
fn one_changed_bit_costs_one_record_at_most() {
    let slots = full_card();
    let mut damaged = 0;
    for at in 0..MOST_SLOTS {
        for bit in tried_bits() {
            let finding = assert_one_bit_costs_one_slot(&slots, at, bit);
            assert_ne!(finding, Some(Repeated), "no two handles are a bit apart");
            damaged += usize::from(finding == Some(Damaged));
        }
    }
    assert!(damaged > 5_000, "{damaged} damaged");
}

/// Two handles that are a bit apart become one where that bit changes: the higher
/// slot is lost, whichever has changed.
#[test]
fn a_handle_that_comes_to_be_another_costs_one_record() {
    let mut slots = full_card();
    for handle in slots.iter_mut().map(|slot| &mut slot[1..11]) {
        let number = handle[0];
        handle.fill(7);
        handle[9] = number;
    }
    let mut repeated = 0;
    for (at, bit) in (0..MOST_SLOTS).flat_map(|at| (8..88).map(move |bit| (at, bit))) {
        let finding = assert_one_bit_costs_one_slot(&slots, at, bit);
        assert_ne!(finding, Some(Damaged), "any handle is well formed");
        repeated += usize::from(finding == Some(Repeated));
    }
    // Of the numbers 0 to 14, each has its four neighbours but 15.
    assert_eq!(repeated, 15 * 4 - 4);
}
