//! 108: a total that is full, or that cannot be the sum of so many returns, is
//! refused before everything that the call tests, and nothing is changed (PROFILE
//! 4.5).

mod returns;

use cavernlull::{CallError, Card, Handle, ReadError, Request, Tally, Verdict, WriteError};
use cavernlull::{Right, TotallingError, Totals, MOST_CHANGE, MOST_RETURNS, REPLY_ROOM};
use returns::{assert_counted, assert_not_counted, give_back, lent, made, record};
use returns::{Made, DISABLED, ENABLED};

/// Returns at both ends and on both sides of borders, below 30,000.
const RETURNS: [u16; 9] = [0, 1, 2, 255, 256, 16_384, 29_998, 29_999, 12_345];

/// Returns for which there is no room, up to the most that 16 bits have.
const FULL: [u16; 7] = [30_000, 30_001, 32_767, 32_768, 32_769, 65_534, 65_535];

/// The largest total of so many returns.
fn most(returns: u16) -> i32 {
    MOST_CHANGE * i32::from(returns)
}

/// Asserts that a totalling call is refused with 108 and changes nothing, whatever
/// the card and the frame, and that the totals do not hold.
fn assert_outside(totals: Totals) {
    assert!(!totals.holds(), "{totals}");
    let give_back = give_back(Some(4));
    let whole = made(&give_back);
    let mut worn = lent(Some(9)).into_table();
    worn[191] = 1;
    let other_tally = Card::with_tally(record(DISABLED, 2, Some(9)), Tally::blank(1));
    for (mut card, made) in [
        (lent(Some(9)), whole),
        (lent(None), whole),
        (Card::from(record(ENABLED, 2, Some(9))), whole),
        (lent(Some(9)), made(&[0x2A, 0x80, 0, 0])),
        (lent(Some(9)), Made { room: 0, ..whole }),
        (lent(Some(9)), room(whole, REPLY_ROOM - 1)),
        (Card::from(vec![]), whole),
        (Card::blank(16), whole),
        (lent(Some(9)), Made { start: 1, ..whole }),
        (Card::from(worn), whole),
        (other_tally, whole),
        (lent(Some(9)), made(&[])),
        (lent(Some(9)), made(&give_back[..15])),
        (Card::from(vec![0; 4287]), room(made(&[]), 0)),
    ] {
        assert_not_counted(&mut card, made, totals, 108);
    }
}

/// The same call with a reply buffer of so many bytes.
fn room(made: Made<'_>, room: usize) -> Made<'_> {
    Made { room, ..made }
}

/// Asserts that a counted return with this change, which is not above 0, is added.
fn assert_within(totals: Totals, change: i32) -> Totals {
    assert!(totals.holds(), "{totals}");
    let mut card = lent(Some(-change as u16));
    assert_counted(&mut card, made(&give_back(Some(0))), totals, change)
}

#[test]
fn after_30000_returns_there_is_no_room() {
    for returns in FULL {
        for total in [0, 1, -1, most(29_999), -most(30_000), i32::MIN, i32::MAX] {
            let totals = Totals::from_parts(total, returns);
            assert!(totals.is_full());
            assert_outside(totals);
        }
    }
}

#[test]
fn below_30000_returns_a_total_holds_up_to_65535_for_each() {
    for returns in RETURNS {
        let most = most(returns);
        for total in [-most, most, 0, most / 2] {
            let totals = Totals::from_parts(total, returns);
            assert!(!totals.is_full());
            for change in [0, -1, -MOST_CHANGE] {
                assert_within(totals, change);
            }
        }
        for total in [-most - 1, most + 1, i32::MIN, i32::MAX, i32::MIN + 1] {
            assert_outside(Totals::from_parts(total, returns));
        }
    }
}

/// Case 26 of the card profile (PROFILE 9.8), but for the change, which the
/// archive alone sees.
#[test]
fn case_26_of_the_card_profile() {
    let give_back = give_back(Some(0));
    for (total, returns) in [(0, 30_000), (1, 0), (65_536, 1), (-65_536, 1)] {
        let totals = Totals::from_parts(total, returns);
        assert_not_counted(&mut lent(Some(1)), made(&give_back), totals, 108);
    }
    let (mut cut, totals) = (Card::from(vec![0; 4287]), Totals::from_parts(0, 30_000));
    assert_not_counted(&mut cut, made(&[]), totals, 108);
}

/// What fits stays so: the last return is counted, and after it the totals are
/// full, also where the total that was taken up is above 0.
#[test]
fn the_last_return_has_room_and_fills_the_total() {
    for (total, change, last) in [
        (-most(29_999), -MOST_CHANGE, -1_966_050_000),
        (most(29_999), -MOST_CHANGE, 1_965_918_930),
        (most(29_999), 0, 1_965_984_465),
        (0, 0, 0),
    ] {
        let totals = assert_within(Totals::from_parts(total, 29_999), change);
        assert_eq!(totals, Totals::from_parts(last, MOST_RETURNS));
        assert!(totals.is_full());
        assert_outside(totals);
    }
}

/// From 0 and 0 on, with the largest changes, 108 comes after 30,000 returns and
/// not before.
#[test]
fn totals_from_the_beginning_fill_after_30000_returns() {
    let (mut totals, frame) = (Totals::new(), give_back(Some(0)));
    let (lent, mut buffer) = (lent(Some(65_535)), [0; REPLY_ROOM]);
    for returned in 0..MOST_RETURNS {
        assert_eq!((totals.returns(), totals.is_full()), (returned, false));
        let totalled = totals.call_frame(&mut lent.clone(), &frame, &mut buffer);
        assert_eq!(totalled.unwrap().change, -MOST_CHANGE);
    }
    assert_eq!(totals, Totals::from_parts(-1_966_050_000, MOST_RETURNS));
    assert_outside(totals);
}

/// A call that is not counted leaves room, however often it is made: a return
/// without a count, one whose count is raised, and one that is no frame.
#[test]
fn calls_that_are_not_counted_take_no_room() {
    let totals = Totals::from_parts(-most(29_999), 29_999);
    for stored in [None, Some(9)] {
        assert_not_counted(&mut lent(stored), made(&give_back(None)), totals, 0);
    }
    assert_not_counted(&mut lent(Some(9)), made(&[]), totals, 104);
    assert_within(totals, -1);
}

/// A request that cannot be written is refused before any call.
#[test]
fn a_request_that_cannot_be_written_is_no_call() {
    let (handle, right) = (Handle([1; 10]), Right::default());
    let no_hash = Request::RightsInstallation { handle, right };
    for mut totals in [Totals::new(), Totals::from_parts(1, 0)] {
        let before = totals;
        let given = totals.call(&mut Card::blank(1), &no_hash, Verdict::Held);
        assert_eq!(given, Err(TotallingError::Write(WriteError::NoHash)));
        assert_eq!(totals, before);
    }
    let mut totals = Totals::from_parts(1, 0);
    let list = Request::RightsInformationQuery { handle };
    let given = totals.call(&mut Card::blank(16), &list, Verdict::Held);
    assert_eq!(given, Err(TotallingError::TotalOutside));
    let given = Totals::new().call_from(&mut Card::blank(2), 2, &list, Verdict::Held);
    assert_eq!(given, Err(TotallingError::Call(CallError::StartOutside)));
}

#[test]
fn refusals_are_errors_with_their_numbers() {
    let errors = [
        TotallingError::TotalOutside,
        WriteError::PayloadLength.into(),
        CallError::TallyDiffers.into(),
        ReadError.into(),
    ];
    assert_eq!(errors.map(TotallingError::number), [108, 202, 106, 203]);
    for error in errors {
        let error: Box<dyn std::error::Error + Send + Sync> = error.into();
        assert!(error.to_string().starts_with("the "), "{error}");
    }
}
