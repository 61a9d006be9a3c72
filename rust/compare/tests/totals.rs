//! Totalling calls, by the archive and by the reference: cases 25 and 26 of the card
//! profile (PROFILE 9.8), what each return does to the count, 108 at both ends of each
//! bound and before every other number, and totals that are carried along histories.

use compare::both::Both;
use compare::card::Handed;
use compare::frames::frame;
use compare::outcome::assert_all_occurred;
use compare::tables::blank;
use compare::tallies::tally_of;
use compare::to_the_end::{compare_many_cards, compare_one_card};
use compare::told::Along;
use compare::totalled::{Came, Lent};
use compare::totalling::{compare_totals, Seen};
use driver::{Totalled, Totals};
use random::{setting, Rng};
use reference::Count::{self, Kept, NotKept};
use reference::{REPLY_ROOM, SLOT_BYTES};

/// The calls made unless `COMPARE_CALLS` says how many.
const CALLS: u64 = 100_000;

/// What reply buffers hold before a call, and what the change is.
const BUFFER: [u8; REPLY_ROOM + 1] = [0xA5; REPLY_ROOM + 1];
const HELD: i32 = 77;

#[test]
fn random_totalling_calls_agree_with_the_reference_the_call_and_what_is_told() {
    let calls = setting("COMPARE_CALLS").unwrap_or(CALLS);
    let seen = compare_totals(Rng::announced("random totalling calls"), calls);
    println!(
        "{} totalling calls, {} plain ones beside them",
        seen.calls, seen.beside
    );
    assert!(seen.calls >= calls && seen.beside == seen.calls);
    assert_all_occurred(&seen.came, Came::that_can_occur());
    assert_all_occurred(&seen.along, Along::that_can_occur());
}

/// Asserts that a total was carried from 0 and 0 to the last return that has room, and
/// that each call after it gave 108.
fn assert_carried_to_the_end(seen: &Seen) {
    let counted = |along: &Along| matches!(along, Along::Counted(..));
    let told = seen.along.iter().filter(|(along, _)| counted(along));
    assert_eq!(told.map(|(_, times)| times).sum::<u64>(), 30_000);
    assert_eq!(seen.along[&Along::Last], 1);
    assert_eq!(seen.along[&Along::Full], 20);
    assert_eq!(seen.left.returns, 30_000);
}

#[test]
fn a_total_is_carried_to_its_end_on_one_card() {
    let seen = compare_one_card(Rng::announced("returns of one card"));
    assert_carried_to_the_end(&seen);
    assert!(seen.left.total < 0, "{:?}", seen.left);
}

/// The least total that there can be.
#[test]
fn a_total_is_carried_to_its_end_over_many_cards() {
    let seen = compare_many_cards();
    assert_carried_to_the_end(&seen);
    assert_eq!(seen.left.total, -1_966_050_000);
}

/// A card of one slot: a right with this count under ten bytes 2, which is lent if the
/// place is 3.
fn card(place: u8, count: Count) -> Vec<u8> {
    let mut slot = blank(1);
    slot[0] = place << 6 | 4 | u8::from(count.is_kept()) << 1;
    slot[1..11].fill(2);
    slot[27..29].copy_from_slice(&count.number().to_be_bytes());
    slot[30] = 5;
    slot[31..51].fill(0xA0);
    slot
}

/// A card whose right is lent.
fn lent(count: Count) -> Vec<u8> {
    card(3, count)
}

/// The frame of a return of ten bytes 2.
fn back(count: Count) -> Vec<u8> {
    let second = if count.is_kept() { 0xC0 } else { 0x80 };
    let body = [&[2; 10][..], &count.number().to_be_bytes()].concat();
    frame(5, second, &body)
}

/// What a call is lent that finds nothing wrong but, perhaps, its total.
fn lending(table: &[u8], frame: &[u8], total: i32, returns: u16) -> Lent {
    Lent {
        handed: Handed {
            tally: tally_of(table),
            start: 0,
            frame: frame.to_vec(),
        },
        table: table.to_vec(),
        reply: BUFFER.to_vec(),
        totals: Totals {
            total,
            returns,
            change: HELD,
        },
    }
}

/// Makes a return that succeeds, and asserts total, returns and change after it.
fn assert_adds(both: &mut Both, lent: &Lent, total: i32, returns: u16, change: i32) {
    let given = both.call_totalling(lent);
    assert_eq!(given.call.number, 0);
    assert_eq!(given.call.reply[..4], [0x25, 0, 0, 0]);
    let expected = Totals {
        total,
        returns,
        change,
    };
    assert_eq!(given.totals, expected, "{:02x?}", lent.handed.frame);
}

/// Makes a return that is refused with 9, and asserts that nothing changes but the
/// change, which is 0.
fn assert_adds_nothing(both: &mut Both, lent: &Lent) {
    let Totalled { call, totals } = both.call_totalling(lent);
    assert_eq!((call.number, &call.reply[..4]), (0, &[0x25, 9, 0, 0][..]));
    let expected = Totals {
        change: 0,
        ..lent.totals
    };
    assert_eq!(totals, expected, "{:02x?}", lent.handed.frame);
    assert!(call.table == lent.table && call.tally == lent.handed.tally);
}

/// Makes a call that gives 108, and asserts that nothing changes.
fn assert_108(both: &mut Both, lent: &Lent) {
    let Totalled { call, totals } = both.call_totalling(lent);
    assert_eq!((call.number, totals), (108, lent.totals));
    assert_eq!(call.tally, lent.handed.tally);
    assert!(call.table == lent.table && call.reply == lent.reply);
}

#[test]
fn case_25_what_returns_add() {
    let rows = [
        (lent(Kept(1)), Kept(0), (0, 0), (-1, 1), -1),
        (lent(Kept(1)), Kept(1), (-1, 1), (-1, 2), 0),
        (lent(NotKept), NotKept, (-1, 2), (-1, 2), 0),
        (card(2, Kept(3)), Kept(4), (-1, 2), (-1, 2), 0),
        (
            lent(Kept(1)),
            Kept(0),
            (-1_965_984_465, 29_999),
            (-1_965_984_466, 30_000),
            -1,
        ),
    ];
    let mut both = Both::on(blank(1));
    for (table, sent, before, (total, returns), change) in rows {
        let lent = lending(&table, &back(sent), before.0, before.1);
        assert_adds(&mut both, &lent, total, returns, change);
    }
    let refused = [
        (lent(Kept(1)), Kept(4), (-1, 1)),
        (lent(Kept(1)), NotKept, (-1, 2)),
        (lent(NotKept), Kept(3), (-1, 2)),
    ];
    for (table, sent, (total, returns)) in refused {
        let lent = lending(&table, &back(sent), total, returns);
        assert_adds_nothing(&mut both, &lent);
    }
}

#[test]
fn case_26_numbers_that_cannot_be_are_108() {
    let mut both = Both::on(blank(1));
    let table = lent(Kept(1));
    for (total, returns) in [(0, 30_000), (1, 0), (65_536, 1), (-65_536, 1)] {
        let lent = lending(&table, &back(Kept(0)), total, returns);
        assert_108(&mut both, &lent);
    }
    assert_108(&mut both, &lending(&table[1..], &[], 0, 30_000));
}

/// Every pair of counts, both ends among them, of a right that is lent and of one that
/// is for use. What would raise a count is refused, and adds nothing.
#[test]
fn a_return_is_counted_where_both_keep_a_count() {
    let counts = [
        NotKept,
        Kept(0),
        Kept(1),
        Kept(0xFF),
        Kept(0x100),
        Kept(0x7FFF),
        Kept(0x8000),
        Kept(0xFFFF),
    ];
    let mut both = Both::on(blank(1));
    for stored in counts {
        for sent in counts {
            let returned = lending(&lent(stored), &back(sent), -5, 3);
            match (stored, sent) {
                (NotKept, NotKept) => assert_adds(&mut both, &returned, -5, 3, 0),
                (Kept(stored), Kept(sent)) if sent <= stored => {
                    let change = i32::from(sent) - i32::from(stored);
                    assert_adds(&mut both, &returned, change - 5, 4, change);
                }
                _ => assert_adds_nothing(&mut both, &returned),
            }
            let again = lending(&card(2, stored), &back(sent), -5, 3);
            assert_adds(&mut both, &again, -5, 3, 0);
        }
    }
}

/// At each bound, one inside and one outside, with a return that is counted, with one
/// that is not and with one that is refused. A total above 0 is carried on too.
#[test]
fn a_total_is_at_most_65_535_for_each_return() {
    let mut both = Both::on(blank(1));
    let (table, uncounted) = (lent(Kept(1)), lent(NotKept));
    for returns in [0, 1, 2, 15_000, 29_998, 29_999] {
        let most = 65_535 * i32::from(returns);
        for end in [most, -most] {
            let lent = lending(&table, &back(Kept(0)), end, returns);
            assert_adds(&mut both, &lent, end - 1, returns + 1, -1);
            let lent = lending(&table, &back(Kept(1)), end, returns);
            assert_adds(&mut both, &lent, end, returns + 1, 0);
            let lent = lending(&uncounted, &back(NotKept), end, returns);
            assert_adds(&mut both, &lent, end, returns, 0);
            let lent = lending(&table, &back(Kept(2)), end, returns);
            assert_adds_nothing(&mut both, &lent);
        }
        if returns > 0 {
            for inside in [most - 1, 1 - most] {
                let lent = lending(&table, &back(Kept(0)), inside, returns);
                assert_adds(&mut both, &lent, inside - 1, returns + 1, -1);
            }
        }
        for total in [most + 1, -most - 1, i32::MIN, i32::MAX] {
            for sent in [Kept(0), Kept(1), NotKept] {
                let lent = lending(&table, &back(sent), total, returns);
                assert_108(&mut both, &lent);
            }
        }
    }
}

/// The least total has room, and so has the greatest that 29,999 returns are handed over
/// with; then no return has.
#[test]
fn no_more_than_30_000_returns_are_counted() {
    let mut both = Both::on(blank(1));
    let most = 65_535 * 29_999;
    for (before, sent) in [(-most, 0), (most, 0xFFFF), (most, 0)] {
        let lent = lending(&lent(Kept(0xFFFF)), &back(Kept(sent)), before, 29_999);
        let change = i32::from(sent) - 65_535;
        assert_adds(&mut both, &lent, before + change, 30_000, change);
    }
    for returns in [30_000, 30_001, 32_767, 32_768, u16::MAX] {
        for total in [0, 1, -1, 1_966_050_000, -1_966_050_000, i32::MIN, i32::MAX] {
            for frame in [back(Kept(0)), back(NotKept), frame(8, 0x80, &[0; 3])] {
                let lent = lending(&lent(Kept(1)), &frame, total, returns);
                assert_108(&mut both, &lent);
            }
        }
    }
}

/// Calls that give each number of the call, and would be counted returns otherwise.
fn refused() -> Vec<(u16, Lent)> {
    let right = || lending(&lent(Kept(1)), &back(Kept(0)), 3, 2);
    let numbers = [101, 102, 105, 103, 106, 104];
    let mut calls: Vec<(u16, Lent)> = numbers.map(|number| (number, right())).into();
    calls[0].1.reply.truncate(REPLY_ROOM - 1);
    calls[1].1.table.truncate(SLOT_BYTES - 1);
    calls[2].1.handed.start = 1;
    calls[3].1.table[191] = 1;
    calls[4].1.handed.tally[4] += 1;
    calls[5].1.handed.frame.pop();
    calls
}

#[test]
fn a_call_without_a_reply_has_the_change_0() {
    let mut both = Both::on(blank(1));
    for (number, mut lent) in refused() {
        for held in [HELD, 0, -1, i32::MIN, i32::MAX] {
            lent.totals.change = held;
            let given = both.call_totalling(&lent);
            let expected = Totals {
                total: 3,
                returns: 2,
                change: 0,
            };
            assert_eq!((given.call.number, given.totals), (number, expected));
        }
    }
}

/// For its returns, for a total above and for one below.
#[test]
fn number_108_comes_before_every_other() {
    let mut both = Both::on(blank(1));
    for (_, mut lent) in refused() {
        for (total, returns) in [(0, 30_000), (131_071, 2), (-131_071, 2), (1, 0), (-1, 0)] {
            (lent.totals.total, lent.totals.returns) = (total, returns);
            assert_108(&mut both, &lent);
        }
    }
}

/// Returns that are refused with 1, 2, 4, 6 and 9, on a card with a lent right that keeps
/// a count of 9 and a reservation under ten bytes 1.
#[test]
fn a_return_that_is_refused_adds_nothing() {
    let mut reserved = blank(1);
    reserved[0] = 0x40;
    reserved[1..11].fill(1);
    reserved[30] = 5;
    let table = [lent(Kept(9)), reserved].concat();
    let body = |handle: u8| [&[handle; 10][..], &[0, 4]].concat();
    let rows = [
        (1, frame(5, 0x40, &body(2))),
        (2, frame(5, 0x80, &body(2))),
        (2, frame(5, 0xC1, &body(2))),
        (2, frame(5, 0xC0, &body(2)[..11])),
        (4, frame(5, 0xC0, &body(3))),
        (6, frame(5, 0xC0, &body(1))),
        (9, back(Kept(10))),
        (9, back(NotKept)),
    ];
    let mut both = Both::on(blank(1));
    for (status, frame) in rows {
        let given = both.call_totalling(&lending(&table, &frame, 3, 2));
        assert_eq!(given.call.reply[..2], [0x25, status]);
        let expected = Totals {
            total: 3,
            returns: 2,
            change: 0,
        };
        assert_eq!(given.totals, expected, "status {status}");
    }
}
