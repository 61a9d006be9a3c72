//! The tally of a call, by the archive and by the reference: cases 20 and 21 of
//! the card profile (PROFILE 9.5), 106 where it is not that of the table, and
//! tallies worked out.

use compare::both::Both;
use compare::frames::{frame, Asker};
use compare::starts::start;
use compare::tables::{blank, damaged, reply_buffer};
use compare::tallies::{any, tally_of};
use driver::Tally;
use random::{setting, Rng};
use reference::{MAX_SLOTS, REPLY_ROOM, SLOT_BYTES};

/// What reply buffers hold before a call.
const BUFFER: [u8; REPLY_ROOM + 1] = [0xA5; REPLY_ROOM + 1];

const H1: [u8; 10] = [1; 10];
const H2: [u8; 10] = [2; 10];

/// The request of case 1: a setup for 5 bytes.
fn setup() -> Vec<u8> {
    frame(1, 0x80, &[&H1[..], &[0, 5]].concat())
}

/// The request of case 7: a right of one hash and 5 payload bytes, without a
/// count.
fn installation() -> Vec<u8> {
    let body = [&H1[..], &[7; 16], &[0, 0, 0x10], &[0xA0; 20], &[0xA1; 5]].concat();
    frame(2, 0x80, &body)
}

/// The request of case 11: the same right with a kept count of 7.
fn counted_installation() -> Vec<u8> {
    let body = [&H1[..], &[7; 16], &[0, 7, 0x10], &[0xA0; 20], &[0xA1; 5]].concat();
    frame(2, 0xC0, &body)
}

/// The requests of case 11: a return with this kept count.
fn returning(count: u8) -> Vec<u8> {
    frame(5, 0xC0, &[&H2[..], &[0, count]].concat())
}

/// Makes a call that is carried out, and asserts the tally before it and after
/// it.
fn step(both: &mut Both, before: Tally, frame: &[u8], after: Tally) {
    assert_eq!(both.tally(), before);
    let given = both.call(0, frame, &BUFFER);
    assert_eq!((given.number, given.reply[1]), (0, 0), "{frame:02x?}");
    assert_eq!(given.tally, after, "{frame:02x?}");
}

/// Case 20. Room that is only reserved is not in the sum.
#[test]
fn case_20_a_right_comes_is_lent_comes_back_and_goes() {
    let both = &mut Both::on(blank(1));
    let lending = frame(4, 0x80, &[H1, H2].concat());
    step(both, [1, 0, 0, 0, 0], &setup(), [0, 1, 0, 0, 0]);
    step(both, [0, 1, 0, 0, 0], &installation(), [0, 0, 1, 0, 5]);
    step(both, [0, 0, 1, 0, 5], &lending, [0, 0, 0, 1, 5]);
    let removal = frame(6, 0x80, &H2);
    step(both, [0, 0, 0, 1, 5], &removal, [1, 0, 0, 0, 0]);
    let counted = counted_installation();
    step(both, [1, 0, 0, 0, 0], &setup(), [0, 1, 0, 0, 0]);
    step(both, [0, 1, 0, 0, 0], &counted, [0, 0, 1, 0, 5]);
    step(both, [0, 0, 1, 0, 5], &lending, [0, 0, 0, 1, 5]);
    step(both, [0, 0, 0, 1, 5], &returning(3), [0, 0, 1, 0, 5]);
    step(both, [0, 0, 1, 0, 5], &returning(4), [0, 0, 1, 0, 5]);
}

/// Case 21: a tally of zeros is that of no table, and one with the room of a
/// reservation in its sum is not that of case 1.
#[test]
fn case_21_a_tally_that_is_not_that_of_the_table_is_106() {
    let mut both = Both::on(blank(1));
    assert_differs(&mut both, [0; 5], &setup());
    step(&mut both, [1, 0, 0, 0, 0], &setup(), [0, 1, 0, 0, 0]);
    assert_differs(&mut both, [0, 1, 0, 0, 5], &[]);
}

/// Asserts that a call with this tally gives 106, and that nothing changes.
fn assert_differs(both: &mut Both, wrong: Tally, frame: &[u8]) {
    let before = both.table().to_vec();
    let given = both.call_with_other(wrong, 0, frame, &BUFFER);
    assert_eq!(given.number, 106, "{wrong:?}, {frame:02x?}");
    assert_eq!(given.tally, wrong, "{frame:02x?}");
    assert!(given.reply == BUFFER && given.table == before);
}

/// A slot with a record of this length under a handle of ten equal bytes.
fn slot(place: u8, handle: u8, length: u16) -> Vec<u8> {
    let mut slot = vec![0; SLOT_BYTES];
    slot[0] = place << 6;
    slot[1..11].fill(handle);
    slot[29..31].copy_from_slice(&length.to_be_bytes());
    slot
}

/// Two slots in each place, with lengths that differ in both bytes.
fn mixed() -> Vec<u8> {
    let slots = [
        slot(1, 1, 7),
        slot(2, 2, 0x0101),
        blank(1),
        slot(3, 3, 4096),
        slot(2, 4, 40),
        slot(1, 5, 4096),
        blank(1),
        slot(3, 6, 1),
    ];
    slots.concat()
}

/// Fifteen rights of the greatest length, all but one of them lent.
fn fullest() -> Vec<u8> {
    let places = (0..15).map(|index| if index == 0 { 2 } else { 3 });
    let slots = places.zip(0..).flat_map(|(place, i)| slot(place, i, 4096));
    slots.collect()
}

/// Tables with their tallies.
fn tables() -> Vec<(Vec<u8>, Tally)> {
    vec![
        (blank(1), [1, 0, 0, 0, 0]),
        (blank(15), [15, 0, 0, 0, 0]),
        (mixed(), [2, 2, 2, 2, 0x0101 + 4096 + 40 + 1]),
        (fullest(), [0, 0, 1, 14, 61_440]),
    ]
}

/// A request of each kind, frames that are refused whatever the table, and what
/// is no frame.
fn frames() -> Vec<Vec<u8>> {
    let lengths = [12, 20, 20, 12, 10, 10, 3, 10];
    let kinds = [1, 3, 4, 5, 6, 7, 8, 9].into_iter().zip(lengths);
    let mut frames: Vec<Vec<u8>> = kinds
        .map(|(kind, length)| frame(kind, 0x80, &vec![0; length]))
        .collect();
    frames.push(installation());
    frames.extend([frame(10, 0x80, &[]), frame(1, 0, &[1; 12])]);
    frames.extend([0, 3, 15].map(|length| setup()[..length].to_vec()));
    frames
}

/// Each number one more and one less, round the ends if need be, at both ends,
/// and with one bit of either half another.
#[test]
fn one_number_that_is_another_is_106_for_every_frame() {
    let mut both = Both::on(blank(1));
    for (table, right) in tables() {
        both.go_on(table);
        for at in 0..5 {
            let number = right[at];
            let near = [number.wrapping_add(1), number.wrapping_sub(1)];
            let far = [0, u16::MAX, number ^ 0x0100, number ^ 0x8000];
            for other in near.into_iter().chain(far).filter(|&n| n != number) {
                let mut wrong = right;
                wrong[at] = other;
                for frame in frames() {
                    assert_differs(&mut both, wrong, &frame);
                }
            }
        }
    }
}

/// Mistakes that leave some sum right, and the tallies of other tables.
#[test]
fn several_numbers_that_are_others_are_106() {
    let mut both = Both::on(mixed());
    let [empty, reserved, enabled, disabled, payload] = both.tally();
    let rows = [
        [0; 5],
        [u16::MAX; 5],
        [8, 0, 0, 0, 0],
        [empty, reserved, enabled + 1, disabled - 1, payload],
        [empty + 1, reserved - 1, enabled, disabled, payload],
        [empty + 1, reserved, enabled, disabled, payload - 1],
        [empty, reserved, enabled, disabled, payload + 7 + 4096],
        both.tally().map(u16::swap_bytes),
    ];
    for wrong in rows {
        for frame in frames() {
            assert_differs(&mut both, wrong, &frame);
        }
    }
    both.go_on(fullest());
    assert_differs(&mut both, [0, 0, 14, 1, 61_440], &setup());
}

/// Each call has the faults of all later numbers too; the first has not that of
/// 102, which would leave no slots to be counted.
#[test]
fn the_tally_is_tested_after_103_and_before_104() {
    let damaged = vec![0xFF; 2 * SLOT_BYTES];
    let rows: [(u16, &[u8], u64, &[u8]); 5] = [
        (101, &damaged, 2, &BUFFER[..REPLY_ROOM - 1]),
        (102, &damaged[1..], 2, &BUFFER),
        (105, &damaged, 2, &BUFFER),
        (103, &damaged, 1, &BUFFER),
        (106, &blank(2), 1, &BUFFER),
    ];
    for (number, table, start, buffer) in rows {
        let mut both = Both::on(table.to_vec());
        let given = both.call_with_other([9; 5], start, &setup()[..3], buffer);
        assert_eq!((given.number, given.tally), (number, [9; 5]));
        assert!(given.reply == buffer && given.table == table);
    }
    let given = Both::on(blank(2)).call(1, &setup()[..3], &BUFFER);
    assert_eq!((given.number, given.tally), (104, [2, 0, 0, 0, 0]));
}

/// What the tally held makes no difference.
#[test]
fn tallies_are_worked_out_from_the_table_alone() {
    let mut both = Both::on(blank(1));
    for (table, right) in tables() {
        both.go_on(table);
        for held in [[0; 5], [u16::MAX; 5], [1, 2, 3, 4, 5], right] {
            let given = both.work_out(held);
            assert_eq!((given.number, given.tally), (0, right));
        }
    }
}

/// A wrong length, whatever the bytes; damage in any slot, also where places and
/// lengths are right; one handle in two slots.
#[test]
fn a_table_that_is_refused_has_no_tally_and_none_is_written() {
    let mut rows = Vec::new();
    for length in [0, 1, 4287, 4289, 64_319, 64_321, 68_608] {
        rows.extend([0, 0xFF].map(|byte| (vec![byte; length], 102)));
    }
    for at in 0..8 {
        let mut table = mixed();
        table[at * SLOT_BYTES + 191] = 1;
        rows.push((table, 103));
    }
    rows.push(([slot(1, 9, 1), slot(3, 9, 5)].concat(), 103));
    rows.push((vec![0xFF; 15 * SLOT_BYTES], 103));
    let mut both = Both::on(blank(1));
    for (table, number) in rows {
        both.go_on(table);
        for held in [[0; 5], [u16::MAX; 5], both.tally()] {
            let given = both.work_out(held);
            assert_eq!((given.number, given.tally), (number, held));
        }
    }
}

/// The next frame for a table. One in two is to change the place of some record
/// of it, whatever its handle.
fn next_frame(rng: &mut Rng, table: &[u8]) -> Vec<u8> {
    let slots = table.len() / SLOT_BYTES;
    let asker = Asker::new(slots);
    let at = rng.below(slots) * SLOT_BYTES;
    let handle = &table[at + 1..at + 11];
    match rng.below(8) {
        0 => frame(4, 0x80, &[handle, &asker.handle(rng)].concat()),
        1 => frame(5, 0x80, &[handle, &[0, 0]].concat()),
        2 => frame(6, 0x80, handle),
        3 => frame(7, 0x80, handle),
        _ => asker.frame(rng),
    }
}

/// The calls made unless a tenth of what `COMPARE_CALLS` says is more.
const CALLS: u64 = 3_000;

/// From blank tables and from others: a call that is refused for something else
/// leaves the tally to be lent again.
#[test]
fn a_tally_that_is_carried_on_is_never_106() {
    let calls = setting("COMPARE_CALLS").map_or(CALLS, |calls| CALLS.max(calls / 10));
    let mut rng = Rng::announced("tallies carried on");
    let mut both = Both::on(blank(1));
    let mut answered = 0;
    for made in 0..calls {
        let slots = 1 + made as usize / 40 % MAX_SLOTS;
        if made % 40 == 0 {
            both.go_on(match slots {
                8 => mixed(),
                15 => fullest(),
                _ => blank(slots),
            });
        }
        let start = start(&mut rng, slots, 20);
        let frame = next_frame(&mut rng, both.table());
        let given = both.call(start, &frame, &reply_buffer(&mut rng));
        assert_ne!(given.number, 106, "{frame:02x?}");
        assert_eq!(given.tally, tally_of(&given.table), "{frame:02x?}");
        answered += u64::from(given.number == 0);
    }
    assert!(answered > calls / 2, "{answered} of {calls}");
}

/// Damaged tables: what is worked out is what a call then takes.
#[test]
fn a_tally_that_is_worked_out_is_that_of_the_table() {
    let mut rng = Rng::announced("tallies of damaged tables");
    let mut both = Both::on(blank(1));
    let mut numbers = [0; 3];
    for _ in 0..500 {
        let table = damaged(&mut rng, &mixed());
        both.go_on(table);
        let held = any(&mut rng);
        let worked_out = both.work_out(held);
        let called = both.call(0, &[], &BUFFER);
        match worked_out.number {
            0 => {
                assert_eq!(called.number, 104);
                assert_eq!(worked_out.tally, called.tally);
                numbers[0] += 1;
            }
            number => {
                assert_eq!((called.number, worked_out.tally), (number, held));
                numbers[usize::from(number) - 101] += 1;
            }
        }
    }
    assert!(numbers.iter().all(|&count| count > 10), "{numbers:?}");
}
