//! The totalling call: what returns did to counts, its sum, and 108 (PROFILE 4.4,
//! 4.5, 8.7, 9.8).

mod common;

use common::{
    about, blank, call_for, failures, frame_bytes, lending, mixed_table, mixed_without_hashes,
    request_bytes, returning, right, setup, successes, tally_of, Asker, OwnFields, FILLER, NEW,
};
use random::Rng;
use reference::ledger::Ledger;
use reference::Count::{Kept, NotKept};
use reference::{call_totalling, read_request, salvage, turn, Count, ReadRequest, Tally, Totals};
use reference::{MAX_SLOTS, MOST_CHANGE, MOST_RETURNS, REPLY_ROOM, SLOT_BYTES};
use std::collections::BTreeSet;

/// What the change is before a call.
const HELD: i32 = 77;

/// Total and returns, beside a change of [`HELD`].
fn totals(total: i32, returns: u16) -> Totals {
    Totals {
        total,
        returns,
        change: HELD,
    }
}

/// All that is lent to be changed with a totalling call.
#[derive(Clone, Debug, PartialEq, Eq)]
struct Lent {
    table: Vec<u8>,
    tally: Tally,
    reply: Vec<u8>,
    totals: Totals,
}

impl Lent {
    /// A table with its tally, and a reply buffer that is long enough.
    fn with(table: &[u8], totals: Totals) -> Lent {
        Lent {
            table: table.to_vec(),
            tally: tally_of(table),
            reply: vec![FILLER; REPLY_ROOM + 3],
            totals,
        }
    }

    /// Makes a totalling call, and asserts what holds of each: with 108 nothing
    /// changes, and else all but the three numbers is what the call leaves.
    fn call(&mut self, start: u64, frame: &[u8]) -> u16 {
        let mut plain = self.clone();
        let number = call_totalling(
            &mut self.table,
            &mut self.tally,
            start,
            frame,
            &mut self.reply,
            &mut self.totals,
        );
        if number != 108 {
            let (table, tally) = (&mut plain.table, &mut plain.tally);
            let alone = reference::call(table, tally, start, frame, &mut plain.reply);
            assert_eq!(number, alone, "{frame:02x?}");
            plain.totals = self.totals;
        }
        assert!(*self == plain, "{number}, {frame:02x?}");
        number
    }
}

/// A card of one slot that holds a right with this count, under ten bytes 1.
fn holding(count: Count) -> Vec<u8> {
    let mut table = blank(1);
    call_for(0, &mut table, 1, &setup(1, 5));
    let fields = right(1, 1, 5);
    call_for(0, &mut table, 2, &OwnFields { count, ..fields });
    table
}

/// The same card when the right is lent, under ten bytes 2.
fn lent(count: Count) -> Vec<u8> {
    let mut table = holding(count);
    call_for(0, &mut table, 4, &lending(1, 2));
    table
}

/// The same card when the right was returned with the count that it was lent with.
fn returned(count: Count) -> Vec<u8> {
    let mut table = lent(count);
    call_for(0, &mut table, 5, &returning(2, count));
    table
}

/// The frame of a return of ten bytes 2.
fn back(count: Count) -> Vec<u8> {
    frame_bytes(5, &returning(2, count))
}

/// Asserts that a return succeeds, and what it makes of total and returns.
fn assert_adds(table: &[u8], sent: Count, before: (i32, u16), after: (i32, u16), change: i32) {
    let mut lent = Lent::with(table, totals(before.0, before.1));
    assert_eq!(lent.call(0, &back(sent)), 0);
    assert_eq!(lent.reply[..4], [0x25, 0, 0, 0]);
    let (total, returns) = after;
    let expected = Totals {
        total,
        returns,
        change,
    };
    assert_eq!(lent.totals, expected, "{sent:?} sent");
}

/// Asserts that a return is refused with 9, and adds nothing.
fn assert_adds_nothing(table: &[u8], sent: Count, before: (i32, u16)) {
    let mut lent = Lent::with(table, totals(before.0, before.1));
    assert_eq!(lent.call(0, &back(sent)), 0);
    assert_eq!(lent.reply[..4], [0x25, 9, 0, 0]);
    let expected = Totals {
        change: 0,
        ..totals(before.0, before.1)
    };
    assert_eq!(lent.totals, expected, "{sent:?} sent");
}

/// Asserts that a totalling call gives 108; nothing changes then.
fn assert_108(table: &[u8], frame: &[u8], total: i32, returns: u16) {
    let number = Lent::with(table, totals(total, returns)).call(0, frame);
    assert_eq!(number, 108, "{total}, {returns}");
}

/// Case 25 of the card profile.
#[test]
fn case_25_what_returns_add() {
    let (lent_1, case_9, case_11) = (lent(Kept(1)), lent(NotKept), returned(Kept(3)));
    assert_adds_nothing(&lent_1, Kept(4), (-1, 1));
    assert_adds_nothing(&lent_1, NotKept, (-1, 2));
    assert_adds_nothing(&case_9, Kept(3), (-1, 2));
    let rows = [
        (&lent_1, Kept(0), (0, 0), (-1, 1), -1),
        (&lent_1, Kept(1), (-1, 1), (-1, 2), 0),
        (&case_9, NotKept, (-1, 2), (-1, 2), 0),
        (&case_11, Kept(4), (-1, 2), (-1, 2), 0),
        (
            &lent_1,
            Kept(0),
            (-1_965_984_465, 29_999),
            (-1_965_984_466, 30_000),
            -1,
        ),
    ];
    for (table, sent, before, after, change) in rows {
        assert_adds(table, sent, before, after, change);
    }
}

/// Case 26 of the card profile.
#[test]
fn case_26_numbers_that_cannot_be_are_108() {
    let table = lent(Kept(1));
    for (total, returns) in [(0, 30_000), (1, 0), (65_536, 1), (-65_536, 1)] {
        assert_108(&table, &back(Kept(0)), total, returns);
    }
    assert_108(&table[1..], &[], 0, 30_000);
}

/// Both ends of what a return can do, and what is next to them. What would be above 0
/// is refused.
#[test]
fn a_change_is_what_was_sent_minus_what_was_stored_and_never_above_0() {
    let counts = [0, 1, 2, 0xFF, 0x100, 0x7FFF, 0x8000, 0xFFFE, 0xFFFF];
    let mut changes = BTreeSet::new();
    for stored in counts {
        for sent in counts {
            let table = lent(Kept(stored));
            if sent > stored {
                assert_adds_nothing(&table, Kept(sent), (0, 0));
                continue;
            }
            let change = i32::from(sent) - i32::from(stored);
            assert_adds(&table, Kept(sent), (0, 0), (change, 1), change);
            changes.insert(change);
        }
    }
    assert_eq!(changes.first(), Some(&-MOST_CHANGE));
    assert_eq!(changes.last(), Some(&0));
}

/// Every row of the table in PROFILE 4.4 that is not counted: a right without a count
/// that is returned without one, and a right for use; and what is refused because one
/// of them keeps a count and the other none.
#[test]
fn returns_that_are_not_counted_change_nothing() {
    let counts = [NotKept, Kept(0), Kept(7), Kept(0xFFFF)];
    for stored in counts {
        for sent in counts {
            for table in [returned(stored), holding_under_2(stored)] {
                assert_adds(&table, sent, (-5, 3), (-5, 3), 0);
            }
        }
    }
    assert_adds(&lent(NotKept), NotKept, (-5, 3), (-5, 3), 0);
    for count in [Kept(0), Kept(7), Kept(0xFFFF)] {
        assert_adds_nothing(&lent(NotKept), count, (-5, 3));
        assert_adds_nothing(&lent(count), NotKept, (-5, 3));
    }
}

/// A right that was never lent, under ten bytes 2.
fn holding_under_2(count: Count) -> Vec<u8> {
    let mut table = holding(count);
    table[1..11].fill(2);
    table
}

/// A return that is sent again finds the right for use.
#[test]
fn the_second_of_two_returns_is_not_counted() {
    let mut lent = Lent::with(&lent(Kept(9)), totals(0, 0));
    for (sent, change) in [(4, -5), (4, 0), (9, 0), (0, 0)] {
        assert_eq!(lent.call(0, &back(Kept(sent))), 0);
        let (total, returns) = (-5, 1);
        let expected = Totals {
            total,
            returns,
            change,
        };
        assert_eq!(lent.totals, expected);
    }
}

/// Returns that are refused with 1, 2, 4, 6 and 9: by their verdict, by a count without
/// its bit or a zero bit, under no handle of the card, of a reservation, and for a count
/// that is more or none.
fn refused_returns() -> Vec<(u8, Vec<u8>)> {
    let body = |handle: u8| [&[handle; 10][..], &[0, 4]].concat();
    vec![
        (1, request_bytes(5, 0x40, &body(5))),
        (2, request_bytes(5, 0x80, &body(5))),
        (2, request_bytes(5, 0xC1, &body(5))),
        (2, request_bytes(5, 0xC0, &body(5)[1..])),
        (4, request_bytes(5, 0xC0, &body(NEW))),
        (4, request_bytes(5, 0xC0, &body(3))),
        (6, request_bytes(5, 0xC0, &body(2))),
        (9, frame_bytes(5, &returning(5, Kept(0x104)))),
        (9, frame_bytes(5, &returning(5, NotKept))),
    ]
}

/// On the mixed table the right under 5 is lent, with a count; so is that under 3,
/// before it was lent. Under 2 there is a reservation.
#[test]
fn what_is_no_return_adds_nothing() {
    let mut statuses = BTreeSet::new();
    let mut frames: Vec<Vec<u8>> = successes();
    frames.retain(|frame| frame[0] != 0x25);
    frames.extend(failures());
    for (status, frame) in refused_returns() {
        let mut lent = Lent::with(&mixed_table(), totals(0, 0));
        assert_eq!((lent.call(0, &frame), lent.reply[1]), (0, status));
        frames.push(frame);
    }
    for frame in frames {
        let mut lent = Lent::with(&mixed_table(), totals(-65_535, 1));
        if lent.call(0, &frame) == 0 {
            statuses.insert((lent.reply[0] & 31, lent.reply[1] & 0x7F));
        }
        let expected = Totals {
            change: 0,
            ..totals(-65_535, 1)
        };
        assert_eq!(lent.totals, expected, "{frame:02x?}");
    }
    let succeeded = statuses.iter().filter(|(_, status)| *status == 0);
    let kinds: Vec<u8> = succeeded.map(|(kind, _)| *kind).collect();
    assert_eq!(kinds, [1, 2, 3, 4, 6, 7, 8, 9]);
}

/// The total of 0, 1 and 29,999 returns at both ends of what it can be, one inside
/// and one outside them.
#[test]
fn a_total_is_at_most_65_535_for_each_return() {
    let (table, uncounted) = (lent(Kept(1)), lent(NotKept));
    for returns in [0, 1, 2, 29_998, 29_999] {
        let most = 65_535 * i32::from(returns);
        for sign in [-1, 1] {
            let end = sign * most;
            assert_adds(&table, Kept(0), (end, returns), (end - 1, returns + 1), -1);
            assert_adds(&table, Kept(1), (end, returns), (end, returns + 1), 0);
            assert_adds(&uncounted, NotKept, (end, returns), (end, returns), 0);
            assert_adds_nothing(&table, Kept(2), (end, returns));
            assert_108(&table, &back(Kept(0)), end + sign, returns);
            assert_108(&table, &back(Kept(0)), sign * 65_536 * 30_000, returns);
        }
        for total in [i32::MIN, i32::MIN + 1, i32::MAX] {
            assert_108(&table, &back(Kept(0)), total, returns);
        }
        if returns > 0 {
            for inside in [most - 1, 1 - most] {
                let after = (inside - 1, returns + 1);
                assert_adds(&table, Kept(0), (inside, returns), after, -1);
            }
        }
    }
}

/// The least total that there can be is a sum of 30,000 changes, and has room.
#[test]
fn the_least_total_has_room() {
    let (before, after) = ((-65_535 * 29_999, 29_999), (-1_966_050_000, 30_000));
    assert_adds(&lent(Kept(0xFFFF)), Kept(0), before, after, -MOST_CHANGE);
}

/// A total above 0 that the caller hands over, within the bounds: it falls, also below
/// 0, or stays.
#[test]
fn a_total_above_0_is_carried_on() {
    let table = lent(Kept(0xFFFF));
    for (total, returns) in [(1, 1), (65_535, 1), (7, 29_999), (1_965_984_465, 29_999)] {
        let before = (total, returns);
        for sent in [0xFFFF, 0xFFFE, 0] {
            let change = i32::from(sent) - 0xFFFF;
            let after = (total + change, returns + 1);
            assert_adds(&table, Kept(sent), before, after, change);
        }
        assert_adds_nothing(&table, NotKept, before);
    }
}

#[test]
fn no_more_than_30_000_returns_are_counted() {
    let table = lent(Kept(1));
    for returns in [29_998, 29_999] {
        assert_adds(&table, Kept(0), (7, returns), (6, returns + 1), -1);
    }
    for returns in [30_000, 30_001, 32_767, 32_768, 65_534, 65_535] {
        let most = 65_535 * i32::from(returns.min(30_000));
        for total in [0, 1, -1, most, -most, i32::MIN, i32::MAX] {
            for sent in [Kept(0), Kept(1), NotKept] {
                assert_108(&table, &back(sent), total, returns);
            }
        }
    }
}

/// Calls that give each number of the call.
fn refused_calls() -> Vec<(u16, Lent, u64, Vec<u8>)> {
    let right = Lent::with(&lent(Kept(1)), totals(3, 2));
    let frame = back(Kept(0));
    let [mut short, mut part, mut damaged, mut differs] = [0; 4].map(|_| right.clone());
    short.reply.truncate(REPLY_ROOM - 1);
    part.table.pop();
    damaged.table[191] = 1;
    differs.tally.payload += 1;
    vec![
        (101, short, 0, frame.clone()),
        (102, part, 0, frame.clone()),
        (105, right.clone(), 1, frame.clone()),
        (103, damaged, 0, frame.clone()),
        (106, differs, 0, frame.clone()),
        (104, right.clone(), 0, frame[..15].to_vec()),
        (104, right, 0, Vec::new()),
    ]
}

/// With a number other than 0 the change is 0, whatever it was, and total and
/// returns stay.
#[test]
fn a_call_without_a_reply_has_the_change_0() {
    for (number, mut lent, start, frame) in refused_calls() {
        for held in [HELD, 0, -1, i32::MIN, i32::MAX] {
            lent.totals.change = held;
            assert_eq!(lent.call(start, &frame), number);
            let expected = Totals {
                change: 0,
                ..totals(3, 2)
            };
            assert_eq!(lent.totals, expected, "{number}");
        }
    }
}

/// For each of its reasons: the returns, the total above and the total below.
#[test]
fn number_108_comes_before_all_others() {
    for (number, lent, start, frame) in refused_calls() {
        for (total, returns) in [(0, 30_000), (131_071, 2), (-131_071, 2), (1, 0), (-1, 0)] {
            let mut lent = lent.clone();
            lent.totals = totals(total, returns);
            assert_eq!(lent.call(start, &frame), 108, "and not {number}");
        }
    }
}

/// What the change is before a call makes no difference.
#[test]
fn the_change_is_only_written_to() {
    for held in [0, 1, -1, -65_536, i32::MIN, i32::MAX] {
        for (sent, change) in [(Kept(0), -1), (Kept(1), 0), (NotKept, 0)] {
            let mut lent = Lent::with(&lent(Kept(1)), totals(0, 0));
            lent.totals.change = held;
            assert_eq!(lent.call(0, &back(sent)), 0);
            assert_eq!((lent.totals.change, lent.totals.total), (change, change));
        }
    }
}

/// Over many cards: the sum of 30,000 returns that each take the most.
#[test]
fn after_30_000_returns_every_call_is_108() {
    let (card, frame) = (lent(Kept(0xFFFF)), back(Kept(0)));
    let mut carried = totals(0, 0);
    for returns in 1..=MOST_RETURNS {
        let mut lent = Lent::with(&card, carried);
        assert_eq!(lent.call(0, &frame), 0);
        carried = lent.totals;
        assert_eq!(carried.returns, returns);
        assert_eq!(carried.total, -65_535 * i32::from(returns));
    }
    for frame in [frame, Vec::new(), frame_bytes(9, &about(1))] {
        let mut lent = Lent::with(&card, carried);
        assert_eq!(lent.call(0, &frame), 108);
        assert_eq!(lent.totals, carried);
    }
}

/// On one card, by turns lent and returned: the sum is what the count has lost.
#[test]
fn the_sum_over_one_card_is_what_its_count_has_changed_by() {
    let mut lent = Lent::with(&holding(Kept(40_000)), totals(0, 0));
    let mut rng = Rng::announced("a count over many returns");
    let mut handle = 1;
    let mut count = 40_000;
    for returns in 1..=300 {
        let next = 3 - handle;
        let lending = frame_bytes(4, &lending(handle, next));
        assert_eq!((lent.call(0, &lending), lent.totals.change), (0, 0));
        handle = next;
        count -= rng.pick(&[0, 1, 2, 255, 256, 300]).min(count);
        let back = frame_bytes(5, &returning(handle, Kept(count)));
        assert_eq!(lent.call(0, &back), 0);
        assert_eq!(lent.totals.total, i32::from(count) - 40_000);
        assert_eq!(lent.totals.returns, returns);
    }
}

/// What a ledger tells of a history: the sum of the changes, and how many returns
/// were counted.
struct Told {
    ledger: Ledger,
    total: i64,
    returns: u32,
}

impl Told {
    /// Nothing yet, of a history that begins with this table.
    fn from(table: &[u8]) -> Told {
        Told {
            ledger: Ledger::read_off(table).expect("a well-formed table"),
            total: 0,
            returns: 0,
        }
    }

    /// Tells a call that was answered, and gives the change of a counted return.
    fn tell(&mut self, frame: &[u8], reply: &[u8]) -> Option<i32> {
        let ReadRequest::Request(request) = read_request(frame) else {
            return None;
        };
        let status = reply[1] & 0x7F;
        let told = self.ledger.change_told(&request, status);
        self.ledger.tell(&request, status);
        self.total += i64::from(told.unwrap_or(0));
        self.returns += u32::from(told.is_some());
        told
    }
}

/// Makes totalling calls on a table, from 0 and 0 and carried on, and asserts that
/// the ledger tells the same. Gives the signs of the counted changes.
fn follow(rng: &mut Rng, table: &[u8], calls: usize) -> BTreeSet<i32> {
    let slots = table.len() / SLOT_BYTES;
    let asker = Asker::new(slots + 2);
    let mut told = Told::from(table);
    let mut lent = Lent::with(table, totals(0, 0));
    let mut signs = BTreeSet::new();
    for _ in 0..calls {
        let start = match rng.below(20) {
            0 => slots,
            _ => rng.below(slots),
        };
        let frame = next_frame(rng, &asker, &lent.table);
        let before = lent.table.clone();
        let change = match lent.call(start as u64, &frame) {
            0 => told.tell(&frame, &lent.reply),
            _ => None,
        };
        let Totals { total, returns, .. } = lent.totals;
        assert_eq!(lent.totals.change, change.unwrap_or(0), "{frame:02x?}");
        assert_eq!((total.into(), returns.into()), (told.total, told.returns));
        assert!(total <= 0, "a total from 0 is never above 0");
        assert!(before != lent.table || lent.totals.change == 0);
        signs.extend(change.map(i32::signum));
    }
    signs
}

/// A frame. Half of them are about some record of the table, if there is any: a right is
/// installed with a count, lent, returned with its count or a smaller one, or removed.
fn next_frame(rng: &mut Rng, asker: &Asker, table: &[u8]) -> Vec<u8> {
    let slots = table.chunks(SLOT_BYTES);
    let records: Vec<&[u8]> = slots.filter(|slot| slot[0] != 0).collect();
    if records.is_empty() || rng.one_in(2) {
        return asker.frame(rng);
    }
    let record = rng.pick(&records);
    let (place, handle, count) = (record[0] >> 6, &record[1..11], &record[27..29]);
    let about = |kind, second, rest: &[u8]| request_bytes(kind, second, &[handle, rest].concat());
    match (place, rng.below(6)) {
        (1, _) => about(
            2,
            0xC0,
            &[&[7; 16][..], &rng.bytes(2), &[0x10], &[9; 21]].concat(),
        ),
        (_, 0) => about(6, 0x80, &[]),
        (2, _) => about(4, 0x80, &[rng.byte(); 10]),
        (_, 1..3) => about(5, 0xC0, count),
        _ => about(5, 0xC0, &[rng.below(1 + usize::from(count[0])) as u8, 0]),
    }
}

/// The mixed table as it is after a salvage that clears its first slot, and after a
/// turning.
fn mended_tables() -> [Vec<u8>; 2] {
    let [mut worn, mut old] = [mixed_table(), mixed_table()];
    worn[191] = 1;
    assert_eq!(salvage(&mut worn, &mut [0; 5]), 1);
    for slot in old.chunks_mut(SLOT_BYTES) {
        slot[0] &= !2;
    }
    assert_eq!(turn(&mut old), 0);
    [worn, old]
}

/// From blank tables, from others that are well formed, and after a salvage and a
/// turning.
#[test]
fn the_ledger_tells_total_and_returns() {
    let mut rng = Rng::announced("totals told");
    let mut tables: Vec<Vec<u8>> = (1..=MAX_SLOTS).map(blank).collect();
    tables.extend([mixed_table(), mixed_without_hashes()]);
    tables.extend(mended_tables());
    for table in tables {
        let signs = follow(&mut rng, &table, 1_500);
        assert_eq!(signs, BTreeSet::from([-1, 0]));
    }
}

/// The change that a ledger read off this table tells of a frame with this status.
fn change_told(table: &[u8], frame: &[u8], status: u8) -> Option<i32> {
    let ledger = Ledger::read_off(table).expect("a well-formed table");
    match read_request(frame) {
        ReadRequest::Request(request) => ledger.change_told(&request, status),
        _ => panic!("{frame:02x?} is a request"),
    }
}

/// Apart from the table: of a counted return with status 0 alone.
#[test]
fn a_ledger_tells_the_change_of_a_counted_return() {
    let counts = [NotKept, Kept(0), Kept(7), Kept(0xFFFF)];
    for stored in counts {
        for sent in counts {
            let expected = match (stored, sent) {
                (Kept(stored), Kept(sent)) => Some(i32::from(sent) - i32::from(stored)),
                _ => None,
            };
            assert_eq!(change_told(&lent(stored), &back(sent), 0), expected);
            assert_eq!(change_told(&returned(stored), &back(sent), 0), None);
            for status in 1..=255 {
                assert_eq!(change_told(&lent(stored), &back(sent), status), None);
            }
        }
    }
}

/// Of requests of other kinds about the lent right it tells none; nor of a return
/// under another handle, or of one under the handle of a reservation.
#[test]
fn a_ledger_tells_no_change_of_anything_else() {
    let table = lent(Kept(9));
    for kind in [1, 3, 4, 6, 7, 9] {
        let frame = frame_bytes(kind, &lending(2, NEW));
        assert_eq!(change_told(&table, &frame, 0), None, "kind {kind}");
    }
    let sent = right(2, 1, 5);
    assert_eq!(change_told(&table, &frame_bytes(2, &sent), 0), None);
    assert_eq!(
        change_told(&table, &frame_bytes(8, &OwnFields::default()), 0),
        None
    );
    let other = frame_bytes(5, &returning(1, Kept(3)));
    assert_eq!(change_told(&table, &other, 0), None);
    assert_eq!(change_told(&mixed_table(), &back(Kept(3)), 0), None);
}

/// The count is the one that the last return set, and the right the one that is lent
/// under the handle now, not one that is gone.
#[test]
fn a_ledger_tells_by_the_count_that_the_lent_right_has() {
    let mut ledger = Ledger::new();
    let mut told = Vec::new();
    let counted = |count| OwnFields {
        count: Kept(count),
        ..right(1, 1, 5)
    };
    let steps = [
        (1, setup(1, 5)),
        (2, counted(50)),
        (4, lending(1, 2)),
        (5, returning(2, Kept(20))),
        (3, lending(2, 1)),
        (5, returning(1, Kept(19))),
        (4, lending(1, 2)),
        (6, about(2)),
        (1, setup(1, 5)),
        (2, counted(5)),
        (4, lending(1, 2)),
        (5, returning(2, Kept(2))),
        (5, returning(2, Kept(1))),
    ];
    for (kind, fields) in steps {
        let frame = frame_bytes(kind, &fields);
        let ReadRequest::Request(request) = read_request(&frame) else {
            panic!("{frame:02x?} is a request");
        };
        told.extend(ledger.change_told(&request, 0));
        ledger.tell(&request, 0);
    }
    assert_eq!(told, [-30, -1, -3]);
}
