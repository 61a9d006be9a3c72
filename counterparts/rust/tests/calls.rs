//! The counterpart does the work that it is measured for: it gives the number,
//! the reply buffer, the table and the tally that the reference gives.

use compare::frames::Asker;
use compare::outcome::assert_all_occurred;
use compare::returned::Returned;
use compare::returns::frame_or_loan;
use compare::starts::start;
use compare::tables::{blank, damaged, reply_buffer};
use compare::tallies::{tally_of, wrong};
use random::Rng;
use reference::SLOT_BYTES;
use std::collections::BTreeMap;

/// How many calls there are in one sequence, which starts from a blank table,
/// and in all sequences.
const SEQUENCE: usize = 160;
const CALLS: usize = 100_000;

/// One call in how many has a start that is no slot's number.
const OUTSIDE_IN: usize = 12;

/// One call in how many has a tally that is not that of its table.
const WRONG_IN: usize = 12;

/// The numbers that calls gave, and the returns among them.
#[derive(Default)]
struct Seen {
    numbers: BTreeMap<u16, u64>,
    returns: BTreeMap<Returned, u64>,
}

#[test]
fn random_calls_agree_with_the_reference() {
    let mut rng = Rng::announced("the counterpart's calls");
    let mut seen = Seen::default();
    for sequence in 0..CALLS / SEQUENCE {
        let slots = 1 + sequence % 15;
        let asker = Asker::new(slots);
        let mut table = blank(slots);
        let mut tally = [slots as u16, 0, 0, 0, 0];
        for _ in 0..SEQUENCE {
            if rng.one_in(10) {
                let mut other = damaged(&mut rng, &table);
                let mut its_own = tally_of(&other);
                seen.call(&mut rng, &asker, &mut other, &mut its_own);
            }
            if rng.one_in(WRONG_IN) {
                let mut wrong = wrong(&mut rng, &table);
                seen.call(&mut rng, &asker, &mut table, &mut wrong);
            }
            seen.call(&mut rng, &asker, &mut table, &mut tally);
        }
    }
    assert_all_occurred(&seen.numbers, vec![0, 101, 102, 103, 104, 105, 106]);
    assert_all_occurred(&seen.returns, Returned::that_can_occur());
}

impl Seen {
    /// Has both make a call, and notes what the counterpart gave.
    fn call(&mut self, rng: &mut Rng, asker: &Asker, table: &mut [u8], tally: &mut [u16; 5]) {
        let start = start(rng, table.len() / SLOT_BYTES, OUTSIDE_IN);
        let frame = frame_or_loan(rng, asker, table);
        let (before, mut reply) = (table.to_vec(), reply_buffer(rng));
        let number = call(start, &frame, table, tally, &mut reply);
        *self.numbers.entry(number).or_default() += 1;
        if let Some(returned) = Returned::of(&before, number, &frame, &reply) {
            *self.returns.entry(returned).or_default() += 1;
        }
    }
}

/// Has both make a call, and gives the number.
fn call(start: u64, frame: &[u8], table: &mut [u8], tally: &mut [u16; 5], reply: &mut [u8]) -> u16 {
    let (mut other_table, mut other_reply) = (table.to_vec(), reply.to_vec());
    let mut own = counterpart_tally(*tally);
    let mut other = reference::Tally::from(*tally);
    let number = counterpart::call(table, &mut own, start as usize, frame, reply);
    let expected = reference::call(&mut other_table, &mut other, start, frame, &mut other_reply);
    let asked = format!("{frame:02x?} from {start}, with the tally {tally:?}");
    assert_eq!(number, expected, "{asked}");
    assert!(reply == other_reply, "another reply to {asked}");
    assert!(table == other_table, "another table after {asked}");
    *tally = other.numbers();
    assert_eq!(
        own,
        counterpart_tally(*tally),
        "another tally after {asked}"
    );
    number
}

fn counterpart_tally(
    [empty, reserved, enabled, disabled, payload]: [u16; 5],
) -> counterpart::Tally {
    counterpart::Tally {
        empty,
        reserved,
        enabled,
        disabled,
        payload,
    }
}
