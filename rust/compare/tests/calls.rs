//! Calls at random: the archive gives the number, the reply buffer, the table and
//! the tally that the reference gives, every table agrees with its history, in which
//! no count rises, and every tally with its table. So they do after a salvage and after a turning, with a
//! history that starts from the table left. On cards that hold rights without a hash,
//! all that can come of them does, and no other one comes.

use compare::calls::compare;
use compare::mended::Began;
use compare::outcome::assert_all_occurred;
use compare::outcome::{searches_that_can_occur, that_can_occur, Unhashed};
use compare::refusals::{Precedence, Regardless};
use compare::returned::Returned;
use compare::steps::{Difference, Step};
use random::{setting, Rng};

/// The calls made unless `COMPARE_CALLS` says how many.
const CALLS: u64 = 100_000;

#[test]
fn random_calls_agree_with_the_reference_and_with_their_history() {
    let calls = setting("COMPARE_CALLS").unwrap_or(CALLS);
    let seen = compare(Rng::announced("random calls"), calls);
    let made: u64 = seen.calls.values().sum();
    println!("{made} calls");
    assert!(made >= calls);
    assert_all_occurred(&seen.calls, that_can_occur());
    assert_all_occurred(&seen.returns, Returned::that_can_occur());
    assert_all_occurred(&seen.searches, searches_that_can_occur());
    assert_all_occurred(&seen.unhashed, Unhashed::that_can_occur());
    assert_all_occurred(&seen.precedences, Precedence::that_can_occur());
    assert_all_occurred(&seen.regardless, Regardless::that_can_occur());
    assert_all_occurred(&seen.differences, Difference::that_can_occur());
    assert_all_occurred(&seen.steps, Step::that_can_occur());
    assert_all_occurred(&seen.told, Began::ALL.to_vec());
    let worked_out: Vec<u16> = seen.worked_out.keys().copied().collect();
    println!("tallies worked out: {:?}", seen.worked_out);
    assert_eq!(worked_out, [0, 102, 103]);
    for (line, count) in &seen.listings {
        println!("{count:>9}  listing: {line}");
    }
    let lines: Vec<&str> = seen.listings.keys().map(String::as_str).collect();
    let header = "slot place hashes count length";
    assert_eq!(lines, ["refused 102", "refused 103", header]);
}
