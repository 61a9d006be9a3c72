//! The rows of a report: what is said of each call, and of each period.

mod calls;

use calls::{give_back, handle, lent, line, parted, rows, WEEK};
use cavernlull::{AssetHash, CallError, Card, Handle, Key, Request, Right, Status, Totals};
use cavernlull::{MOST_RETURNS, REPLY_ROOM, SLOT_BYTES};
use planners::recording;
use planners::row::{Entry, Outcome, Returned};
use planners::summary::{Part, Summary};
use planners::walk;

/// Returned, change, total and returns of an entry.
fn did(entry: &Entry) -> (Option<Returned>, i32, i32, u16) {
    let totals = entry.totals;
    (
        entry.returned,
        entry.change,
        totals.total(),
        totals.returns(),
    )
}

#[test]
fn each_return_has_its_change_and_the_running_total() {
    let counts = [Some(9), Some(3), Some(5), Some(65_535), Some(0)];
    let sent = [Some(4), Some(0), Some(5), Some(0), Some(0)];
    let lines = (0x41..)
        .zip(sent)
        .map(|(under, count)| give_back(under, count));
    let text: String = lines.collect();
    let (entries, _) = parted(rows(&text, lent(&counts), Totals::new()));
    let counted = Some(Returned::Counted);
    let expected = [
        (counted, -5, -5, 1),
        (counted, -3, -8, 2),
        (counted, 0, -8, 3),
        (counted, -65_535, -65_543, 4),
        (counted, 0, -65_543, 5),
    ];
    assert_eq!(entries.iter().map(did).collect::<Vec<_>>(), expected);
    let lines: Vec<usize> = entries.iter().map(|entry| entry.line).collect();
    assert_eq!(lines, [1, 2, 3, 4, 5]);
}

#[test]
fn a_return_that_is_not_counted_says_why() {
    let text = give_back(0x41, None) + &give_back(0x41, Some(1)) + &give_back(0x42, Some(1));
    let (entries, _) = parted(rows(&text, lent(&[None]), Totals::from_parts(-7, 3)));
    let why = [Returned::NoCount, Returned::Again, Returned::Refused];
    let expected = why.map(|returned| (Some(returned), 0, -7, 3));
    assert_eq!(entries.iter().map(did).collect::<Vec<_>>(), expected);
    let refused = Outcome::Reply(Status::HandleNotFound);
    assert_eq!(entries[2].outcome, refused);
}

/// A return that would raise a count is refused and not counted. The course stays
/// lent, and the next return is counted as if there had been no other.
#[test]
fn a_return_that_would_raise_a_count_is_refused() {
    let (from, counted) = (Totals::from_parts(-7, 3), Returned::Counted);
    for (stored, sent, then, back) in [
        (Some(9), Some(10), Some(4), (counted, -5, -12, 4)),
        (Some(9), None, Some(9), (counted, 0, -7, 4)),
        (None, Some(0), None, (Returned::NoCount, 0, -7, 3)),
    ] {
        let text = give_back(0x41, sent) + &give_back(0x41, then);
        let (entries, periods) = parted(rows(&text, lent(&[stored]), from));
        let raised = Outcome::Reply(Status::CountRaised);
        assert_eq!(entries[0].outcome, raised);
        assert_eq!(did(&entries[0]), (Some(Returned::Raised), 0, -7, 3));
        let (returned, change, total, returns) = back;
        assert_eq!(did(&entries[1]), (Some(returned), change, total, returns));
        assert_eq!((periods[0].raised, periods[0].refused), (1, 0));
    }
}

/// A request of each other kind, about a right that is for use under `41`.
fn other_requests() -> [Request; 8] {
    let (handle, new_handle, room) = (handle(0x41), handle(0x61), 5);
    let right = Right {
        key: Key([0xC5; 16]),
        hashes: vec![AssetHash([0xA1; 20])],
        payload: b"12345".to_vec(),
        ..Right::default()
    };
    [
        Request::InstallationSetup { handle, room },
        Request::RightsInstallation { handle, right },
        Request::RightsRetrieval { handle, new_handle },
        Request::RekQuery { handle, new_handle },
        Request::RightsRemoval { handle },
        Request::HandleRemoval { handle },
        Request::HandleListQuery {
            limit: 0,
            hashes: vec![],
        },
        Request::RightsInformationQuery { handle },
    ]
}

#[test]
fn other_kinds_are_no_returns_and_have_their_handles() {
    let text: String = other_requests().iter().map(line).collect();
    let (entries, periods) = parted(rows(&text, Card::blank(1), Totals::new()));
    for (entry, request) in entries.iter().zip(other_requests()) {
        assert_eq!(entry.kind, request.kind().number());
        assert_eq!(did(entry), (None, 0, 0, 0), "{request:?}");
        let lends = matches!(entry.kind, 3 | 4);
        assert_eq!(entry.new_handle, lends.then(|| handle(0x61)));
        let lists = entry.kind == 8;
        assert_eq!(entry.handle, (!lists).then(|| handle(0x41)));
    }
    assert_eq!((entries.len(), periods[0].calls), (8, 8));
}

/// Only bytes that stand where a request of that kind has a handle are shown as
/// one.
#[test]
fn bytes_of_another_length_show_no_handle() {
    for kind in 0..32u8 {
        for body in 0..40u8 {
            let frame = [vec![0x20 | kind, 0x80, 0, body], vec![0x5A; body.into()]].concat();
            let hex: Vec<String> = frame.iter().map(|byte| format!("{byte:02x}")).collect();
            let (entries, _) = parted(rows(&hex.concat(), Card::blank(1), Totals::new()));
            let has = match kind {
                1 | 5 => body == 12,
                2 => body >= 30,
                3 | 4 => body == 20,
                6 | 7 | 9 => body == 10,
                _ => false,
            };
            assert_eq!(entries[0].handle.is_some(), has, "kind {kind}, {body}");
            let lends = has && matches!(kind, 3 | 4);
            assert_eq!(
                entries[0].new_handle.is_some(),
                lends,
                "kind {kind}, {body}"
            );
        }
    }
}

#[test]
fn a_call_without_a_reply_has_its_number() {
    let as_long_as_a_return = "25 c0 00 00".to_owned() + &"41".repeat(12);
    for text in [
        "25",
        "25 c0 00 0c 41 41",
        "25 c0 00 00 00",
        &as_long_as_a_return,
    ] {
        let (entries, periods) = parted(rows(text, lent(&[Some(9)]), Totals::new()));
        let no_frame = Outcome::NoReply(CallError::NoFrame);
        assert_eq!((entries[0].outcome, entries[0].handle), (no_frame, None));
        assert_eq!(did(&entries[0]), (None, 0, 0, 0));
        assert_eq!((periods[0].calls, periods[0].no_reply), (1, 1));
    }
}

/// The summary says how the total came about.
fn assert_adds_up(period: &Summary) {
    let (from, to) = (period.from, period.totals);
    let used = i64::from(period.used.starts);
    assert_eq!(i64::from(from.total()) - used, i64::from(to.total()));
    let counted = period.used.returns + period.unchanged;
    let returns = usize::from(from.returns()) + counted;
    assert_eq!(returns, usize::from(to.returns()));
}

#[test]
fn the_summary_adds_up() {
    let (entries, periods) = parted(rows(WEEK, Card::blank(3), Totals::from_parts(-7, 3)));
    assert_eq!(periods.len(), 1);
    let period = &periods[0];
    assert_adds_up(period);
    assert_eq!(period.totals, entries[entries.len() - 1].totals);
    let (starts, returns) = (8, 3);
    assert_eq!(period.used, Part { starts, returns });
    let others = [period.unchanged, period.again, period.no_count];
    assert_eq!(others, [1, 1, 1]);
    let others = [period.raised, period.refused, period.no_reply];
    assert_eq!((others, period.calls), ([3, 1, 1], 23));
}

/// The report says of each call what the call does.
#[test]
fn the_rows_are_those_of_the_calls() {
    let (entries, _) = parted(rows(WEEK, Card::blank(15), Totals::new()));
    let (mut card, mut totals) = (Card::blank(15), Totals::new());
    let recorded = recording::read(WEEK).unwrap();
    for (entry, recorded) in entries.iter().zip(&recorded) {
        let mut buffer = [0; REPLY_ROOM];
        let given = totals.call_frame(&mut card, &recorded.frame, &mut buffer);
        match given {
            Ok(totalled) => {
                let status = entry.outcome.status().map(Status::number);
                assert_eq!(status, Some(totalled.reply[1] & 0x7F));
                assert_eq!(entry.change, totalled.change);
                let counted = entry.returned == Some(Returned::Counted);
                assert_eq!(counted, totalled.counted);
            }
            Err(error) => assert_eq!(entry.outcome.number(), error.number()),
        }
        assert_eq!((entry.totals, entry.line), (totals, recorded.line));
    }
    assert_eq!(entries.len(), recorded.len());
}

/// The 30,000th return ends a period at the next call, whatever that is, and that
/// call is made in the next period.
#[test]
fn a_full_total_begins_a_new_period() {
    let from = Totals::from_parts(-40, MOST_RETURNS - 1);
    let last = give_back(0x41, Some(7));
    let next = give_back(0x42, Some(1));
    let card = || lent(&[Some(9), Some(9)]);
    let (entries, periods) = parted(rows(&(last.clone() + &next), card(), from));
    let numbers: Vec<usize> = entries.iter().map(|entry| entry.period).collect();
    assert_eq!(numbers, [1, 2]);
    assert_eq!(did(&entries[1]), (Some(Returned::Counted), -8, -8, 1));
    let ends: Vec<Totals> = periods.iter().map(|period| period.totals).collect();
    let full = Totals::from_parts(-42, MOST_RETURNS);
    assert_eq!(ends, [full, Totals::from_parts(-8, 1)]);
    periods.iter().for_each(assert_adds_up);

    let (entries, periods) = parted(rows(&last, card(), from));
    assert_eq!((entries.len(), periods.len()), (1, 1));
    assert!(periods[0].totals.is_full());

    let (entries, periods) = parted(rows(&next, card(), full));
    assert_eq!((entries[0].period, entries[0].call), (2, 1));
    assert_eq!((periods[0].calls, periods[0].totals), (0, full));
    assert_eq!(periods[1].from, Totals::new());
}

/// Three periods, each from 0 and 0 on: one return more than two of them hold. One
/// start is used in every other return.
#[test]
fn long_recordings_have_many_periods() {
    let (course, borrower) = (Handle([0x41; 10]), Handle([0x42; 10]));
    let lend = |handle, new_handle| line(&Request::RekQuery { handle, new_handle });
    let [there, back] = [lend(course, borrower), lend(borrower, course)];
    let twice = |left| {
        let [first, second] = [0x41, 0x42].map(|under| give_back(under, Some(left)));
        first + &there + &second + &back
    };
    let text: String = (7..7 + MOST_RETURNS).rev().map(twice).collect();
    let text = text + &give_back(0x41, Some(2));
    let all = lent(&[Some(7 + MOST_RETURNS)]);
    let (_, periods) = parted(rows(&text, all, Totals::new()));
    let returns: Vec<u16> = periods.iter().map(|one| one.totals.returns()).collect();
    assert_eq!(returns, [MOST_RETURNS, MOST_RETURNS, 1]);
    let totals: Vec<i32> = periods.iter().map(|one| one.totals.total()).collect();
    assert_eq!(totals, [-15_000, -15_000, -5]);
    periods.iter().for_each(assert_adds_up);
    assert_eq!(periods[0].used.returns, usize::from(MOST_RETURNS) / 2);
}

#[test]
fn what_cannot_be_is_refused_before_any_call() {
    for (total, returns) in [
        (1, 0),
        (65_536, 1),
        (-65_536, 1),
        (0, MOST_RETURNS + 1),
        (0, u16::MAX),
        (1_966_050_001, MOST_RETURNS),
        (i32::MIN, MOST_RETURNS),
        (i32::MAX, 29_999),
    ] {
        let mistake = walk::rows(&[], Card::blank(1), Totals::from_parts(total, returns));
        let mistake = mistake.expect_err("there is no such total");
        assert!(mistake.contains("cannot be"), "{mistake}");
    }
    for (total, returns) in [(65_535, 1), (-1_966_050_000, MOST_RETURNS), (0, 0)] {
        let rows = walk::rows(&[], Card::blank(1), Totals::from_parts(total, returns));
        assert_eq!(rows.map(|rows| rows.len()), Ok(1));
    }
    let mut worn = vec![0; SLOT_BYTES];
    worn[191] = 1;
    for (table, number) in [(vec![], "102"), (vec![0; 100], "102"), (worn, "103")] {
        let mistake = walk::rows(&[], Card::from(table), Totals::new());
        let mistake = mistake.expect_err("that is no card");
        assert!(mistake.starts_with("the card is refused: "), "{mistake}");
        assert!(mistake.contains(number), "{mistake}");
    }
}
