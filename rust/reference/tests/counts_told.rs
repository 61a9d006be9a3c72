//! What the ledger tells of counts, none of which rises (PROFILE 8.3).

mod common;

use common::OwnFields;
use common::{about, frame_bytes, is_raised, lending, mixed_table, returning, right, setup};
use reference::ledger::Ledger;
use reference::Count::{self, Kept, NotKept};
use reference::{read_request, CountsTold, ReadRequest};

/// None, both ends of what a count can be, and numbers of one byte and of two.
const COUNTS: [Count; 6] = [
    NotKept,
    Kept(0),
    Kept(1),
    Kept(0xFF),
    Kept(0x100),
    Kept(0xFFFF),
];

/// Tells a ledger these requests with their statuses, and holds its counts against
/// those before, each time.
fn follow(ledger: &mut Ledger, steps: &[(u8, OwnFields, u8)]) -> Result<(), String> {
    let mut counts = CountsTold::of(ledger);
    for (kind, fields, status) in steps {
        let frame = frame_bytes(*kind, fields);
        let ReadRequest::Request(request) = read_request(&frame) else {
            panic!("{frame:02x?} is a request");
        };
        ledger.tell(&request, *status);
        counts.go_on(ledger)?;
    }
    Ok(())
}

/// Setup, installation with this count, and lending from 1 to 2.
fn loan(count: Count) -> Vec<(u8, OwnFields, u8)> {
    let fields = right(1, 1, 5);
    vec![
        (1, setup(1, 5), 0),
        (2, OwnFields { count, ..fields }, 0),
        (4, lending(1, 2), 0),
    ]
}

/// Under one handle after another, until the right is gone; an installation after it
/// makes another right, whose count may be any.
#[test]
fn counts_that_stay_or_fall_are_told_as_such() {
    let mut steps = loan(Kept(9));
    steps.extend([
        (5, returning(2, Kept(9)), 0),
        (3, lending(2, 3), 0),
        (5, returning(3, Kept(10)), 9),
        (5, returning(3, NotKept), 9),
        (5, returning(3, Kept(4)), 0),
        (5, returning(3, Kept(5)), 0),
        (4, lending(3, 1), 0),
        (5, returning(1, Kept(0)), 0),
        (6, about(1), 0),
    ]);
    steps.extend(loan(NotKept));
    steps.extend([(5, returning(2, Kept(0)), 9), (5, returning(2, NotKept), 0)]);
    let mut ledger = Ledger::new();
    assert_eq!(follow(&mut ledger, &steps), Ok(()));
    let counts: Vec<Count> = ledger.rights().iter().map(|right| right.count).collect();
    assert_eq!(counts, [Kept(0), NotKept]);
}

/// As no card answers: a count that is more, begun or ended.
#[test]
fn a_count_that_rises_is_named_with_its_right() {
    for stored in COUNTS {
        for sent in COUNTS {
            let mut steps = loan(Kept(3));
            steps.push((6, about(2), 0));
            steps.extend(loan(stored));
            steps.push((5, returning(2, sent), 0));
            let followed = follow(&mut Ledger::new(), &steps);
            let expected = match is_raised(stored, sent) {
                true => Err(format!(
                    "the count of right 1 rose from {stored:?} to {sent:?}"
                )),
                false => Ok(()),
            };
            assert_eq!(followed, expected);
        }
    }
}

/// The right that the mixed table has lent under 5 is number 1, with 0x103 at first.
#[test]
fn a_count_from_the_table_at_first_is_held_too() {
    for (sent, risen) in [(0x103, false), (0, false), (0x104, true), (0xFFFF, true)] {
        let mut ledger = Ledger::read_off(&mixed_table()).expect("a well-formed table");
        let followed = follow(&mut ledger, &[(5, returning(5, Kept(sent)), 0)]);
        assert_eq!(followed.is_err(), risen, "{sent:04x}");
    }
}
