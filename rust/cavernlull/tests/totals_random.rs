//! Totalling calls at random on one card after the other. The requests and the
//! statuses alone tell the change of each, and so the total (PROFILE 8.7).

use cavernlull::MOST_SLOTS;
use cavernlull::{AssetHash, Card, Handle, Request, Right, Status, Totals, Verdict};
use random::Rng;
use std::collections::{BTreeMap, BTreeSet};

/// How many calls each card of 1 to 15 slots is sent.
const CALLS: usize = 2000;

/// What is told of a right: whether it is lent, and its count.
type Told = (bool, Option<u16>);

/// The rights of a card as requests and statuses tell them, by their handles.
#[derive(Default)]
struct Ledger(BTreeMap<Handle, Told>);

impl Ledger {
    /// Whether a request returns a right that is lent, with a count that raises
    /// the one it has (PROFILE 5.5).
    fn raises(&self, request: &Request) -> bool {
        let (handle, sent) = match request {
            Request::RightsEnablement { handle, count } => (handle, *count),
            _ => return false,
        };
        match self.0.get(handle) {
            Some((true, stored)) => sent.is_some() != stored.is_some() || sent > *stored,
            _ => false,
        }
    }

    /// Takes down a request that was a success. Gives its change, if it is a
    /// counted return.
    fn take_down(&mut self, request: &Request) -> Option<i32> {
        let rights = &mut self.0;
        match request {
            Request::RightsInstallation { handle, right } => {
                rights.insert(*handle, (false, right.count));
            }
            Request::RightsRetrieval { handle, new_handle }
            | Request::RekQuery { handle, new_handle } => {
                let (_, count) = rights.remove(handle).expect("a right that was lent");
                rights.insert(*new_handle, (true, count));
            }
            Request::RightsEnablement { handle, count } => {
                let (lent, stored) = rights.get_mut(handle).expect("a right");
                let before = stored.filter(|_| *lent);
                if std::mem::take(lent) {
                    *stored = *count;
                }
                let (sent, before) = (i32::from((*count)?), i32::from(before?));
                return Some(sent - before);
            }
            Request::RightsRemoval { handle } => {
                rights.remove(handle);
            }
            _ => {}
        }
        None
    }
}

/// A request of any kind but the queries, under one of a few handles.
fn any_request(rng: &mut Rng, slots: usize) -> Request {
    let handle = Handle([rng.below(slots + 2) as u8; 10]);
    let new_handle = Handle([rng.below(slots + 2) as u8; 10]);
    let number = rng.word();
    let count = Some(rng.pick(&[0, 1, 2, number, 65_535])).filter(|_| !rng.one_in(4));
    let right = Right {
        count,
        hashes: vec![AssetHash([0xA1; 20])],
        payload: vec![7; 5],
        ..Right::default()
    };
    match rng.below(8) {
        0 => Request::InstallationSetup { handle, room: 5 },
        1 => Request::RightsInstallation { handle, right },
        2 => Request::RightsRetrieval { handle, new_handle },
        3 => Request::RekQuery { handle, new_handle },
        4 | 5 => Request::RightsEnablement { handle, count },
        6 if rng.one_in(4) => Request::RightsRemoval { handle },
        6 => Request::HandleRemoval { handle },
        _ => Request::RightsInformationQuery { handle },
    }
}

/// Makes one totalling call and the same call on a copy, and asserts that they
/// agree, that status 9 comes where the ledger tells a count that rises, and that
/// change and totals are those that it tells. Gives the change, if the call is a
/// counted return.
fn one_call(
    card: &mut Card,
    ledger: &mut Ledger,
    totals: &mut Totals,
    request: &Request,
) -> Option<i32> {
    let (mut plain, before) = (card.clone(), *totals);
    let reply = plain.call(request, Verdict::Held).unwrap();
    let totalled = totals.call(card, request, Verdict::Held).unwrap();
    assert!(totalled.reply == reply && card.table() == plain.table());
    assert_eq!(card.tally(), plain.tally());
    let raised = reply.status() == Status::CountRaised;
    assert_eq!(raised, ledger.raises(request), "{request:?}");
    let told = match reply.status() {
        Status::Success => ledger.take_down(request),
        _ => None,
    };
    let change = told.unwrap_or(0);
    assert_eq!(totalled.change, change, "{request:?}");
    assert_eq!(totalled.counted, told.is_some(), "{request:?}");
    let returns = before.returns() + u16::from(told.is_some());
    let expected = Totals::from_parts(before.total() + change, returns);
    assert_eq!(*totals, expected, "{request:?}");
    told
}

#[test]
fn requests_and_statuses_tell_every_change() {
    let mut rng = Rng::announced("totals_random");
    let (mut totals, mut met, mut raised) = (Totals::new(), BTreeSet::new(), 0);
    for slots in 1..=MOST_SLOTS {
        let (mut card, mut ledger) = (Card::blank(slots), Ledger::default());
        for _ in 0..CALLS {
            let request = any_request(&mut rng, slots);
            raised += usize::from(ledger.raises(&request));
            let told = one_call(&mut card, &mut ledger, &mut totals, &request);
            met.insert(told.map(i32::signum));
            assert!(totals.total() <= 0, "{request:?}");
        }
    }
    let all = [None, Some(-1), Some(0)];
    assert!(met.iter().copied().eq(all), "{met:?}");
    assert!(raised > 0, "no return raises a count");
}
