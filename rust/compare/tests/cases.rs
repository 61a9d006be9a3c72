//! Cases 11, 13 to 17, 22 to 24 and 27 of the card profile (PROFILE 9.1 to 9.3, 9.6, 9.7,
//! 9.9), what else is refused for a count, for its bit or for a missing hash, and the
//! fullest card that there can be. All calls have the start 0 and the tally of their
//! table.

use compare::both::Both;
use compare::frames::{frame, KINDS_OUTSIDE};
use compare::tables::blank;
use random::Rng;
use reference::{REPLY_ROOM, SLOT_BYTES};

/// What reply buffers hold before a call.
const FILLER: u8 = 0xA5;

const BUFFER: [u8; REPLY_ROOM + 1] = [FILLER; REPLY_ROOM + 1];

/// Makes a call that gives a reply, and gives the reply.
fn reply(both: &mut Both, frame: &[u8]) -> Vec<u8> {
    let mut given = both.call(0, frame, &BUFFER);
    assert_eq!(given.number, 0);
    let length = 4 + usize::from(u16::from_be_bytes([given.reply[2], given.reply[3]]));
    let rest = given.reply.split_off(length);
    assert!(rest.iter().all(|&byte| byte == FILLER));
    given.reply
}

/// Makes a call, and asserts that it is refused with nothing changed.
fn assert_refused(table: &[u8], frame: &[u8], number: u16) {
    let given = Both::on(table.to_vec()).call(0, frame, &BUFFER);
    assert_eq!(given.number, number);
    assert!(given.reply == BUFFER && given.table == table);
}

/// The frame of case 1: a setup of 5 bytes, under a handle of ten bytes 01.
fn setup() -> Vec<u8> {
    frame(1, 0x80, &[&[1; 10][..], &[0, 5]].concat())
}

/// Case 13: kind 10 with any body gets the reply `2A 03 00 00`. So does every
/// other kind outside 1 to 9, with its own kind bits.
#[test]
fn case_13_kinds_outside_1_to_9_are_not_supported() {
    let mut rng = Rng::announced("case 13");
    let mut both = Both::on(blank(1));
    reply(&mut both, &setup());
    for length in (0..64).chain([4128, 65_535]) {
        let body = rng.bytes(length);
        for second in [0x80, 0x00] {
            assert_eq!(reply(&mut both, &frame(10, second, &body)), [0x2A, 3, 0, 0]);
        }
    }
    for kind in KINDS_OUTSIDE {
        let given = reply(&mut both, &frame(kind, 0x80, &[1; 10]));
        assert_eq!(given, [0x20 + kind, 3, 0, 0]);
    }
}

/// Case 14: a frame of 0 to 3 bytes is refused with 104. So is one that is cut
/// short.
#[test]
fn case_14_what_is_no_frame_is_104() {
    for length in 0..4 {
        assert_refused(&blank(2), &setup()[..length], 104);
    }
    assert_refused(&blank(2), &setup()[..15], 104);
    assert_refused(&blank(2), &[&setup()[..], &[0]].concat(), 104);
}

/// Case 15: tables of 0, 4,287 and 68,608 bytes are refused with 102.
#[test]
fn case_15_tables_of_other_lengths_are_102() {
    for length in [0, 4287, 68_608] {
        assert_refused(&vec![0; length], &setup(), 102);
        assert_refused(&vec![0xFF; length], &[], 102);
    }
}

/// The handles, the key, the hash and the payload of the cases.
const H1: [u8; 10] = [1; 10];
const H2: [u8; 10] = [2; 10];
const K: [u8; 16] = [1, 2, 3, 4, 5, 6, 7, 8, 9, 10, 11, 12, 13, 14, 15, 16];
const A: [u8; 20] = [
    0xA0, 0xA1, 0xA2, 0xA3, 0xA4, 0xA5, 0xA6, 0xA7, 0xA8, 0xA9, 0xAA, 0xAB, 0xAC, 0xAD, 0xAE, 0xAF,
    0xB0, 0xB1, 0xB2, 0xB3,
];
const P5: [u8; 5] = [0xA1, 0xA2, 0xA3, 0xA4, 0xA5];

/// The body of an installation under H1, with one hash.
fn installation(count: u16) -> Vec<u8> {
    [&H1[..], &K, &count.to_be_bytes(), &[0x10], &A, &P5].concat()
}

/// The body of an installation under H1 that has no hash.
fn unhashed(payload: &[u8]) -> Vec<u8> {
    [&H1[..], &K, &[0, 0, 0], payload].concat()
}

/// The body of a return of H2.
fn returning(count: u16) -> Vec<u8> {
    [&H2[..], &count.to_be_bytes()].concat()
}

/// A table of one slot after case 1, and after the success of this frame.
fn after_setup(installed: &[u8]) -> Both {
    let mut both = Both::on(blank(1));
    assert_eq!(reply(&mut both, &setup()), [0x21, 0, 0, 0]);
    assert_eq!(reply(&mut both, installed), [0x22, 0, 0, 0]);
    both
}

/// Makes a call on a table of one slot, and asserts the reply, and byte 0 and the
/// count number that it leaves.
fn step(both: &mut Both, frame: &[u8], expected: &[u8], byte_0: u8, number: u16) {
    assert_eq!(reply(both, frame), expected, "{frame:02x?}");
    let table = both.table();
    assert_eq!(table[0], byte_0, "{frame:02x?}");
    assert_eq!(table[27..29], number.to_be_bytes(), "{frame:02x?}");
}

/// Case 16: a right that was used for the last time is returned with a kept count
/// of 0. It still keeps one, and every reply about it says so.
#[test]
fn case_16_a_count_that_is_used_up_stays_used_up() {
    let both = &mut after_setup(&frame(2, 0xC0, &installation(1)));
    let lent = [&[0x24, 0, 0, 16][..], &K].concat();
    step(both, &frame(4, 0x80, &[H1, H2].concat()), &lent, 0xC6, 1);
    let returned = [0x25, 0, 0, 0];
    step(both, &frame(5, 0xC0, &returning(0)), &returned, 0x86, 0);
    // sent again, with and without a count: a success that changes nothing
    for (second, number) in [(0xC0, 9), (0x80, 0), (0xC0, 0)] {
        let again = frame(5, second, &returning(number));
        step(both, &again, &returned, 0x86, 0);
    }
    let told = [&[0x29, 0x80, 0, 7, 0, 0][..], &P5].concat();
    step(both, &frame(9, 0x80, &H2), &told, 0x86, 0);
    let right = [&[0x23, 0x80, 0, 0x2C][..], &K, &[0, 0, 0x10], &A, &P5].concat();
    step(both, &frame(3, 0x80, &[H2, H1].concat()), &right, 0xC6, 0);
    step(both, &frame(6, 0x80, &H1), &[0x26, 0, 0, 0], 0, 0);
    assert!(both.table() == blank(1));
}

/// Each return stores its number, from the greatest on down; lending leaves it as it is.
#[test]
fn a_return_stores_the_number() {
    let both = &mut after_setup(&frame(2, 0xC0, &installation(0xFFFF)));
    let lent = [&[0x24, 0, 0, 16][..], &K].concat();
    let (mut number, mut from, mut to) = (0xFFFF, H1, H2);
    for sent in [0xFFFF, 0xFFFE, 0x8000, 0x7FFF, 0x100, 0xFF, 0xFF, 1, 0, 0] {
        let lending = frame(4, 0x80, &[from, to].concat());
        step(both, &lending, &lent, 0xC6, number);
        number = sent;
        let back = frame(5, 0xC0, &[&to[..], &sent.to_be_bytes()].concat());
        step(both, &back, &[0x25, 0, 0, 0], 0x86, number);
        (from, to) = (to, from);
    }
}

/// Lends the right under H1 to H2.
fn lend(both: &mut Both) {
    reply(both, &frame(4, 0x80, &[H1, H2].concat()));
}

/// A card with a right that was installed with this second byte and this count, and is
/// lent under H2: the states 9 and 11, lent.
fn lent_with(second: u8, count: u16) -> Both {
    let mut both = after_setup(&frame(2, second, &installation(count)));
    lend(&mut both);
    both
}

/// Case 11: a right with a count is lent and returned with a smaller one, and the
/// second return changes nothing.
#[test]
fn case_11_a_return_sets_the_count_once() {
    let both = &mut after_setup(&frame(2, 0xC0, &installation(7)));
    let lent = [&[0x24, 0, 0, 16][..], &K].concat();
    step(both, &frame(4, 0x80, &[H1, H2].concat()), &lent, 0xC6, 7);
    for number in [3, 4] {
        let back = frame(5, 0xC0, &returning(number));
        step(both, &back, &[0x25, 0, 0, 0], 0x86, 3);
    }
}

/// Case 27: a return that would raise the count is status 9, after 2, 1 and 6.
#[test]
fn case_27_a_count_that_would_rise_is_9() {
    let [refused, returned] = [[0x25, 9, 0, 0], [0x25, 0, 0, 0]];
    let both = &mut lent_with(0xC0, 7);
    step(both, &frame(5, 0xC0, &returning(8)), &refused, 0xC6, 7);
    step(both, &frame(5, 0x80, &returning(0)), &refused, 0xC6, 7);
    for (second, status) in [(0x80, 2), (0x40, 1)] {
        let sent = frame(5, second, &returning(8));
        step(both, &sent, &[0x25, status, 0, 0], 0xC6, 7);
    }
    step(both, &frame(5, 0xC0, &returning(7)), &returned, 0x86, 7);
    step(
        both,
        &frame(5, 0xC0, &returning(0xFFFF)),
        &returned,
        0x86,
        7,
    );
    step(both, &frame(5, 0x80, &returning(0)), &returned, 0x86, 7);

    let both = &mut lent_with(0x80, 0);
    step(both, &frame(5, 0xC0, &returning(0)), &refused, 0xC4, 0);
    step(both, &frame(5, 0x80, &returning(0)), &returned, 0x84, 0);

    let both = &mut Both::on(blank(1));
    reply(both, &setup());
    let reserved = frame(5, 0xC0, &[&H1[..], &[0, 8]].concat());
    step(both, &reserved, &[0x25, 6, 0, 0], 0x40, 0);
}

/// Every pair of counts, both ends among them: what is refused changes nothing, and a
/// right for use takes no notice.
#[test]
fn a_return_is_refused_where_it_would_raise_the_count() {
    let numbers = [0, 1, 2, 0xFF, 0x100, 0x101, 0x7FFF, 0x8000, 0xFFFE, 0xFFFF];
    let kept = numbers.map(|number| (0xC0, number));
    let counts = [&kept[..], &[(0x80, 0)]].concat();
    for &(second, stored) in &counts {
        let lent = lent_with(second, stored).table().to_vec();
        let both = &mut Both::on(lent.clone());
        for &(other, sent) in &counts {
            both.go_on(lent.clone());
            let back = frame(5, other, &returning(sent));
            let raised = second != other || sent > stored;
            let status = if raised { 9 } else { 0 };
            assert_eq!(reply(both, &back), [0x25, status, 0, 0], "{stored}, {sent}");
            let mut expected = lent.clone();
            if !raised {
                expected[0] -= 0x40;
                expected[27..29].copy_from_slice(&sent.to_be_bytes());
            }
            assert!(both.table() == expected, "{stored}, {sent}");
            let mut for_use = lent.clone();
            for_use[0] -= 0x40;
            both.go_on(for_use.clone());
            assert_eq!(reply(both, &back), [0x25, 0, 0, 0], "{stored}, {sent}");
            assert!(both.table() == for_use, "{stored}, {sent}: for use");
        }
    }
}

/// Case 17: a count without its bit is status 2.
#[test]
fn case_17_a_count_without_its_bit_is_2() {
    let mut both = Both::on(blank(1));
    reply(&mut both, &setup());
    for number in [1, 0xFF, 0x100, 0xFFFF] {
        let refused = [0x22, 2, 0, 0];
        step(
            &mut both,
            &frame(2, 0x80, &installation(number)),
            &refused,
            0x40,
            0,
        );
    }
    let both = &mut after_setup(&frame(2, 0x80, &installation(0)));
    reply(both, &frame(4, 0x80, &[H1, H2].concat()));
    for number in [3, 1, 0xFF, 0x100, 0xFFFF] {
        let refused = [0x25, 2, 0, 0];
        step(both, &frame(5, 0x80, &returning(number)), &refused, 0xC4, 0);
    }
}

/// The tests that a count without its bit comes after, and those before which it
/// comes: each frame has all later faults as well.
#[test]
fn a_count_without_its_bit_is_tested_in_its_order() {
    let both = &mut after_setup(&frame(2, 0x80, &installation(0)));
    let long = [&installation(1)[..], &[0; 4092]].concat();
    let rows: &[(Vec<u8>, u8)] = &[
        (frame(5, 0x20, &returning(1)[1..]), 2),
        (frame(5, 0x00, &returning(1)[1..]), 2),
        (frame(2, 0x00, &installation(1)[..29]), 2),
        (frame(5, 0x00, &returning(1)), 1),
        (frame(5, 0x40, &returning(1)), 1),
        (frame(2, 0x00, &long), 1),
        // a handle that is absent, and a place that the request is not for
        (frame(5, 0x80, &returning(1)), 2),
        (frame(5, 0xC0, &returning(1)), 4),
        (frame(2, 0x80, &installation(1)), 2),
        (frame(2, 0xC0, &installation(1)), 6),
        (frame(2, 0xC0, &long), 2),
    ];
    for (sent, status) in rows {
        let refused = [sent[0], *status, 0, 0];
        step(both, sent, &refused, 0x84, 0);
    }
}

/// For every kind but 2 and 5, known or not, the bit of a count is one of the
/// zero bits: status 2, whatever the body and the verdict, and before 3.
#[test]
fn the_bit_of_a_count_in_other_kinds_is_2() {
    let mut both = after_setup(&frame(2, 0xC0, &installation(1)));
    let mut others = KINDS_OUTSIDE.to_vec();
    others.extend([1, 3, 4, 6, 7, 8, 9]);
    for kind in others {
        let bodies: [&[u8]; 5] = [&[], &H1, &[0, 0, 0], &[1; 12], &[H1, H2].concat()];
        for body in bodies {
            for second in [0x40, 0xC0] {
                let refused = [0x20 + kind, 2, 0, 0];
                step(&mut both, &frame(kind, second, body), &refused, 0x86, 1);
            }
        }
    }
}

/// Case 22: an installation without a hash is status 2, whether anything has its
/// handle or not; without the verdict it is 1.
#[test]
fn case_22_an_installation_without_a_hash_is_2() {
    let both = &mut Both::on(blank(1));
    let body = unhashed(&P5);
    assert_eq!(reply(both, &frame(2, 0x80, &body)), [0x22, 2, 0, 0]);
    assert!(both.table() == blank(1));
    reply(both, &setup());
    step(both, &frame(2, 0x80, &body), &[0x22, 2, 0, 0], 0x40, 0);
    step(both, &frame(2, 0x00, &body), &[0x22, 1, 0, 0], 0x40, 0);
    // with a hash the same reservation takes the right
    let hashed = frame(2, 0x80, &installation(0));
    step(both, &hashed, &[0x22, 0, 0, 0], 0x84, 0);
}

/// On a reservation that has room, bodies from one byte short of the shortest to
/// a few bytes over the first that passes, with every number of hashes: 2 before
/// the verdict for fewer than 30 bytes, else 1 without the verdict, and with it 2
/// unless there is a hash and a payload after the hashes.
#[test]
fn short_installations_are_refused_in_their_order() {
    let mut both = Both::on(reserved());
    for length in 29..=54 {
        for hashes in 0..16 {
            let mut body = [&H1[..], &[7; 44]].concat();
            body[28] = hashes << 4;
            let body = &body[..length];
            let room = length.saturating_sub(29 + 20 * usize::from(hashes));
            let right = (1..=8).contains(&hashes) && room > 0;
            for (second, status) in [(0xC0, if right { 0 } else { 2 }), (0x40, 1)] {
                let status = if length < 30 { 2 } else { status };
                both.go_on(reserved());
                let given = reply(&mut both, &frame(2, second, body));
                assert_eq!(given, [0x22, status, 0, 0], "{length}, {hashes}");
            }
        }
    }
}

/// A table of one slot after a setup of 4,096 bytes under H1.
fn reserved() -> Vec<u8> {
    let mut table = blank(1);
    table[0] = 0x40;
    table[1..11].copy_from_slice(&H1);
    table[29] = 0x10;
    table
}

/// A missing hash comes after the verdict and before anything is looked up: each
/// request without one has a fault of the table as well, and gets it with one.
#[test]
fn a_missing_hash_is_tested_in_its_order() {
    let long = [0; 4096];
    let mut taken = Both::on(old());
    let mut small = Both::on(blank(1));
    reply(&mut small, &setup());
    let mut absent = Both::on(blank(1));
    let rows = [(&mut taken, 6), (&mut small, 7), (&mut absent, 4)];
    for (both, status) in rows {
        let hashed = [&H1[..], &K, &[0, 0, 0x10], &A, &long].concat();
        let given = reply(both, &frame(2, 0x80, &hashed));
        assert_eq!(given, [0x22, status, 0, 0]);
        for payload in [&P5[..], &long, &[0; 4097]] {
            let body = unhashed(payload);
            let given = reply(both, &frame(2, 0x80, &body));
            assert_eq!(given, [0x22, 2, 0, 0], "not {status}");
            assert_eq!(reply(both, &frame(2, 0x00, &body)), [0x22, 1, 0, 0]);
        }
    }
}

/// The slot *old* of case 23: a right for use, without a hash.
fn old() -> Vec<u8> {
    let mut table = blank(1);
    table[0] = 0x80;
    table[1..11].copy_from_slice(&H1);
    table[11..27].copy_from_slice(&K);
    table[30] = 5;
    table[192..197].copy_from_slice(&P5);
    table
}

/// The slot *old, lent* of case 23.
fn old_lent() -> Vec<u8> {
    let mut table = old();
    table[0] = 0xC0;
    table[1..11].copy_from_slice(&H2);
    table
}

/// Case 23: a right without a hash is listed with all others and by no hash, and
/// is read, lent, retrieved, returned and removed like any other.
#[test]
fn case_23_rights_without_a_hash_stay_what_they_were() {
    let key = [&[0x24, 0, 0, 16][..], &K].concat();
    let right = [&[0x23, 0, 0, 0x18][..], &K, &[0, 0, 0], &P5].concat();
    let mut returned = old();
    returned[1..11].copy_from_slice(&H2);
    let lending = [H1, H2].concat();
    let by_hash = [&[0, 0, 1][..], &A].concat();
    let listed = [&[0x28, 0, 0, 11, 0][..], &H1].concat();
    let told = [&[0x29, 0, 0, 7, 0, 0][..], &P5].concat();
    let removed = vec![0x26, 0, 0, 0];
    let rows = [
        (old(), frame(8, 0x80, &[0, 0, 0]), listed, old()),
        (
            old(),
            frame(8, 0x80, &by_hash),
            vec![0x28, 0, 0, 1, 0],
            old(),
        ),
        (old(), frame(9, 0x80, &H1), told, old()),
        (old(), frame(4, 0x80, &lending), key, old_lent()),
        (old(), frame(3, 0x80, &lending), right, old_lent()),
        (
            old_lent(),
            frame(5, 0x80, &returning(0)),
            vec![0x25, 0, 0, 0],
            returned,
        ),
        (old(), frame(6, 0x80, &H1), removed.clone(), blank(1)),
        (old_lent(), frame(6, 0x80, &H2), removed, blank(1)),
    ];
    for (before, sent, expected, after) in rows {
        let mut both = Both::on(before);
        assert_eq!(reply(&mut both, &sent), expected, "{sent:02x?}");
        assert!(both.table() == after, "{sent:02x?}");
    }
}

/// Each of 8 hashes finds the right, and the zeros of a right without one are no
/// hash.
#[test]
fn a_right_is_found_by_each_of_its_hashes() {
    let hashes: Vec<[u8; 20]> = (0..8).map(|n| [n * 3; 20]).collect();
    let body = [&H2[..], &K, &[0, 0, 0x80], hashes.as_flattened(), &P5].concat();
    let mut both = Both::on([old(), blank(1)].concat());
    reply(&mut both, &frame(1, 0x80, &[&H2[..], &[0, 5]].concat()));
    assert_eq!(reply(&mut both, &frame(2, 0x80, &body)), [0x22, 0, 0, 0]);
    for hash in hashes {
        let query = frame(8, 0x80, &[&[0, 0, 1][..], &hash].concat());
        let found = [&[0x28, 0, 0, 11, 0][..], &H2].concat();
        assert_eq!(reply(&mut both, &query), found, "{hash:02x?}");
    }
    let all = [&[0x28, 0, 0, 21, 0][..], &H1, &H2].concat();
    assert_eq!(reply(&mut both, &frame(8, 0x80, &[0, 0, 0])), all);
}

/// The slots of case 24, by their names: those after the success of cases 1, 7, 9 and
/// 11, and worn ones with `01` in byte 191.
fn case_24_slots(names: &[&str]) -> Vec<u8> {
    let installed = &frame(2, 0x80, &installation(0));
    let counted = &frame(2, 0xC0, &installation(7));
    let lent = &frame(4, 0x80, &[H1, H2].concat());
    let returned = &frame(5, 0xC0, &returning(3));
    let mut table = Vec::new();
    for name in names {
        let frames: &[&Vec<u8>] = match name.trim_start_matches("worn ") {
            "blank" => &[],
            "1" => &[&setup()],
            "7" => &[&setup(), installed],
            "9" => &[&setup(), installed, lent],
            "11" => &[&setup(), counted, lent, returned],
            _ => panic!("there is no slot {name}"),
        };
        let mut both = Both::on(blank(1));
        for frame in frames {
            assert_eq!(reply(&mut both, frame)[1], 0, "{name}");
        }
        let mut slot = both.table().to_vec();
        slot[191] = u8::from(name.starts_with("worn "));
        table.extend(slot);
    }
    table
}

/// Asserts what a salvage of these bytes gives and leaves, with a report buffer of
/// `AA AA AA`.
fn assert_salvaged(before: &[u8], number: u16, report: [u8; 3], after: &[u8]) {
    let given = Both::on(before.to_vec()).salvage(&[0xAA; 3]);
    assert_eq!((given.number, &given.report[..]), (number, &report[..]));
    assert!(given.table == after);
}

/// Case 24: what is kept, damaged and repeated, and both refusals.
#[test]
fn case_24_damaged_tables_are_salvaged() {
    type Row<'a> = (&'a [&'a str], u16, [u8; 3], &'a [&'a str]);
    let alone = ["7", "blank", "blank", "blank"];
    let rows: [Row<'_>; 8] = [
        (&["7"], 0, [0, 0xAA, 0xAA], &["7"]),
        (&["worn 7"], 1, [1, 0xAA, 0xAA], &["blank"]),
        (&["worn 7", "7"], 1, [1, 0, 0xAA], &["blank", "7"]),
        (&["7", "1"], 1, [0, 2, 0xAA], &["7", "blank"]),
        (&["1", "7"], 1, [0, 2, 0xAA], &["1", "blank"]),
        (
            &["9", "worn 7", "11"],
            2,
            [0, 1, 2],
            &["9", "blank", "blank"],
        ),
        (
            &["9", "worn 9", "blank"],
            1,
            [0, 1, 0],
            &["9", "blank", "blank"],
        ),
        (&alone, 107, [0xAA; 3], &alone),
    ];
    for (before, number, report, after) in rows {
        let [before, after] = [before, after].map(case_24_slots);
        assert_salvaged(&before, number, report, &after);
    }
    let short = &case_24_slots(&["7"])[..SLOT_BYTES - 1];
    assert_salvaged(short, 102, [0xAA; 3], short);
}

/// What a slot may say of a count, by its place: byte 0 and the count number.
#[test]
fn a_count_that_a_slot_cannot_have_is_103() {
    let query = frame(8, 0x80, &[0, 0, 0]);
    for place in [0x40, 0x80, 0xC0] {
        for low in 0..4 {
            for number in [0, 1, 0x100, 0xFFFF] {
                let mut table = blank(2);
                table[SLOT_BYTES] = place | low;
                table[SLOT_BYTES + 27..SLOT_BYTES + 29].copy_from_slice(&u16::to_be_bytes(number));
                table[SLOT_BYTES + 30] = 1;
                let right = match low {
                    0 => number == 0,
                    2 => place != 0x40,
                    _ => false,
                };
                match right {
                    true => drop(reply(&mut Both::on(table), &query)),
                    false => assert_refused(&table, &query, 103),
                }
            }
        }
    }
    for (offset, byte) in [(0, 1), (0, 2), (0, 3), (27, 1), (28, 1)] {
        let mut table = blank(2);
        table[SLOT_BYTES + offset] = byte;
        assert_refused(&table, &query, 103);
    }
}

/// Fifteen rights of 8 hashes and 4,096 payload bytes: every list and every
/// reply is at its longest.
#[test]
fn the_fullest_card() {
    let mut rng = Rng::announced("the fullest card");
    let mut both = Both::on(blank(15));
    for n in 1..=15 {
        let given = reply(
            &mut both,
            &frame(1, 0x80, &[&[n; 10][..], &[16, 0]].concat()),
        );
        assert_eq!(given, [0x21, 0, 0, 0]);
        let right = rng.bytes(16 + 2 + 1 + 160 + 4096);
        let mut body = [&[n; 10][..], &right].concat();
        body[28] = 0x80;
        assert_eq!(reply(&mut both, &frame(2, 0xC0, &body)), [0x22, 0, 0, 0]);
    }
    let full = reply(
        &mut both,
        &frame(1, 0x80, &[&[16; 10][..], &[0, 1]].concat()),
    );
    assert_eq!(full, [0x21, 7, 0, 0]);
    for limit in 0..170u16 {
        let [high, low] = limit.to_be_bytes();
        let given = reply(&mut both, &frame(8, 0x80, &[high, low, 0]));
        let listed = if limit == 0 { 15 } else { (limit / 10).min(15) };
        assert_eq!(given.len(), 5 + 10 * usize::from(listed));
        assert_eq!(given[4], if listed < 15 { 0x80 } else { 0 });
    }
    for n in 1..=15 {
        let told = reply(&mut both, &frame(9, 0x80, &[n; 10]));
        assert_eq!(told.len(), 4 + 2 + 4096);
        let lent = reply(
            &mut both,
            &frame(3, 0x80, &[[n; 10], [n + 100; 10]].concat()),
        );
        assert_eq!(lent.len(), REPLY_ROOM);
        assert_eq!(lent[lent.len() - 4096..], told[6..]);
        let gone = reply(&mut both, &frame(6, 0x80, &[n + 100; 10]));
        assert_eq!(gone, [0x26, 0, 0, 0]);
    }
    let last = both.call(0, &frame(8, 0x80, &[0, 0, 0]), &BUFFER[..REPLY_ROOM]);
    assert_eq!(last.reply[..5], [0x28, 0, 0, 1, 0]);
    assert!(last.table == blank(15) && last.table.len() == 15 * SLOT_BYTES);
}
