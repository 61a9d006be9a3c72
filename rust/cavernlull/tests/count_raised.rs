//! Status 9, Count Raised: a return may not add starts (PROFILE 5.5). A refused
//! one changes nothing, and the right can be returned with another count.

mod returns;

use cavernlull::{Card, Handle, Kind, Reply, Request, Status, Totals, Verdict, REPLY_ROOM};
use returns::{assert_counted, assert_not_counted, give_back, lent, made, record};
use returns::{totalling, ENABLED, RESERVED};

const LENT: Handle = Handle([2; 10]);

/// Counts at both ends, and on both sides of a byte's border and of the sign of a
/// 16-bit number.
const COUNTS: [u16; 10] = [0, 1, 2, 255, 256, 32_767, 32_768, 32_769, 65_534, 65_535];

/// Every two counts of these.
fn pairs() -> impl Iterator<Item = (u16, u16)> {
    COUNTS.iter().flat_map(|a| COUNTS.map(|b| (*a, b)))
}

/// The reply to a return with this count.
fn reply_to(card: &mut Card, count: Option<u16>) -> Reply {
    let handle = LENT;
    let request = Request::RightsEnablement { handle, count };
    card.call(&request, Verdict::Held).unwrap()
}

/// Asserts that a right that is lent with a count is not returned with another:
/// the reply is status 9, and table, tally and totals are as they were.
fn assert_raised(stored: Option<u16>, sent: Option<u16>) {
    let (kind, status) = (5, Status::CountRaised);
    let (mut card, before) = (lent(stored), lent(stored));
    let reply = reply_to(&mut card, sent);
    assert_eq!(
        reply,
        Reply::Refused { kind, status },
        "{stored:?} {sent:?}"
    );
    for totals in [Totals::new(), Totals::from_parts(-7, 3)] {
        assert_not_counted(&mut card, made(&give_back(sent)), totals, 0);
    }
    assert!(card.table() == before.table() && card.tally() == before.tally());
}

/// Asserts that a right that is lent with a count is returned with another, which
/// it has from then on.
fn assert_returned(stored: Option<u16>, sent: Option<u16>) {
    let mut card = lent(stored);
    let reply = reply_to(&mut card, sent);
    let done = Reply::Done(Kind::RightsEnablement);
    assert_eq!(reply, done, "{stored:?} {sent:?}");
    assert!(card.table() == record(ENABLED, 2, sent));
    assert_eq!((card.tally().enabled, card.tally().disabled), (1, 0));
}

#[test]
fn a_greater_count_is_refused() {
    for count in COUNTS.into_iter().filter(|count| *count < u16::MAX) {
        assert_raised(Some(count), Some(count + 1));
    }
    for (stored, sent) in pairs().filter(|(stored, sent)| sent > stored) {
        assert_raised(Some(stored), Some(sent));
    }
}

/// A kept count of 0 is not the same as none.
#[test]
fn a_count_does_not_begin_or_end_with_a_return() {
    for count in COUNTS {
        assert_raised(Some(count), None);
        assert_raised(None, Some(count));
    }
}

#[test]
fn an_equal_count_a_lower_one_and_none_for_none_are_returned() {
    for (stored, sent) in pairs().filter(|(stored, sent)| sent <= stored) {
        assert_returned(Some(stored), Some(sent));
    }
    assert_returned(None, None);
}

/// A right that is for use already takes no count, whatever is sent.
#[test]
fn a_return_that_is_sent_again_is_a_success_with_any_count() {
    let counts = || COUNTS.map(Some).into_iter().chain([None]);
    for stored in counts() {
        let mut card = Card::from(record(ENABLED, 2, stored));
        for sent in counts() {
            let reply = reply_to(&mut card, sent);
            assert_eq!(reply, Reply::Done(Kind::RightsEnablement));
            assert!(card.table() == record(ENABLED, 2, stored), "{sent:?}");
        }
    }
}

/// After 9 the right is lent as before, and is returned under the same handle. The
/// refused returns are not in the total.
#[test]
fn a_refused_return_is_tried_again_with_another_count() {
    let (mut card, totals) = (lent(Some(5)), Totals::new());
    for sent in [Some(6), None, Some(u16::MAX)] {
        assert_not_counted(&mut card, made(&give_back(sent)), totals, 0);
    }
    let (handle, new_handle) = (LENT, Handle([9; 10]));
    let lending = Request::RekQuery { handle, new_handle };
    let still_lent = card.call(&lending, Verdict::Held).unwrap();
    assert_eq!(still_lent.status(), Status::UnexpectedRequest);
    let totals = assert_counted(&mut card, made(&give_back(Some(4))), totals, -1);
    assert_eq!(totals, Totals::from_parts(-1, 1));
    assert!(card.table() == record(ENABLED, 2, Some(4)));
}

/// Whoever has the handle gets the right back, also without knowing its count: one
/// of these two is never refused.
#[test]
fn a_right_is_returned_without_knowing_its_count() {
    for stored in COUNTS.map(Some).into_iter().chain([None]) {
        let mut card = lent(stored);
        let statuses = [None, Some(0)].map(|sent| reply_to(&mut card, sent).status());
        let first = match stored {
            None => Status::Success,
            Some(_) => Status::CountRaised,
        };
        assert_eq!(statuses, [first, Status::Success], "{stored:?}");
        assert!(card.table() == record(ENABLED, 2, stored.and(Some(0))));
    }
}

/// A total above 0 that is taken up does not make a count that is raised a return,
/// and falls with the next return.
#[test]
fn a_total_above_0_is_carried_on() {
    let (mut card, totals) = (lent(Some(5)), Totals::from_parts(40, 3));
    let did = totalling(&mut card, made(&give_back(Some(6))), totals);
    assert_eq!((did.change, did.totals), (0, totals));
    let totals = assert_counted(&mut card, made(&give_back(Some(2))), totals, -3);
    assert_eq!(totals, Totals::from_parts(37, 4));
}

/// Case 27 of the card profile (PROFILE 9.9): the second byte of a return, its
/// count and the status. The two rows on a right that is for use go on from the row
/// above them. All records are under one handle here.
#[test]
fn case_27_of_the_card_profile() {
    let (lent_11, after_9) = (lent(Some(7)), lent(None));
    let back = Card::from(record(ENABLED, 2, Some(7)));
    let after_1 = Card::from(record(RESERVED, 2, None));
    for (card, second, count, status) in [
        (&lent_11, 0xC0, [0, 8], 9),
        (&lent_11, 0x80, [0, 0], 9),
        (&after_9, 0xC0, [0, 0], 9),
        (&lent_11, 0xC0, [0, 7], 0),
        (&back, 0xC0, [0xFF, 0xFF], 0),
        (&back, 0x80, [0, 0], 0),
        (&after_9, 0x80, [0, 0], 0),
        (&lent_11, 0x80, [0, 8], 2),
        (&lent_11, 0x40, [0, 8], 1),
        (&after_1, 0xC0, [0, 8], 6),
    ] {
        let frame = [&[0x25, second, 0, 0x0C][..], &LENT.0, &count].concat();
        let (mut asked, mut buffer) = (card.clone(), [0; REPLY_ROOM]);
        let reply = asked.call_frame(&frame, &mut buffer).unwrap();
        assert_eq!(reply, [0x25, status, 0, 0], "{frame:02x?}");
        let was_back = card.tally() == back.tally();
        let stays = status != 0 || was_back;
        assert_eq!(asked.table() == card.table(), stays, "{frame:02x?}");
    }
}
