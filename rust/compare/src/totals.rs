//! Totals at random: such as can be carried on, and such as 108 is given for.
//!
//! What can be is worked out here from PROFILE 4.5 once more, without the reference.

use driver::Totals;
use random::Rng;
use std::cmp::Ordering;

/// The most that one return can add to a total or take from it.
pub const MOST_CHANGE: i32 = 65_535;

/// The most returns that a total can have in it.
pub const MOST_RETURNS: u16 = 30_000;

/// A reason for 108.
#[derive(Clone, Copy, Debug, PartialEq, Eq, PartialOrd, Ord)]
pub enum Reason {
    /// There is no room for another return.
    Returns,
    /// The total is greater than so many returns can make it.
    Above,
    /// The total is less than so many returns can make it.
    Below,
}

impl Reason {
    /// All reasons.
    pub const ALL: [Reason; 3] = [Reason::Returns, Reason::Above, Reason::Below];

    /// Every reason that these numbers are.
    pub fn all_of(totals: &Totals) -> Vec<Reason> {
        let reasons = [
            (Reason::Returns, totals.returns >= MOST_RETURNS),
            (Reason::Above, beyond(totals, Reason::Above) > 0),
            (Reason::Below, beyond(totals, Reason::Below) > 0),
        ];
        let reasons = reasons.iter().filter(|(_, given)| *given);
        reasons.map(|(reason, _)| *reason).collect()
    }

    /// The reason in words.
    pub fn words(self) -> &'static str {
        match self {
            Reason::Returns => "the returns",
            Reason::Above => "a total above",
            Reason::Below => "a total below",
        }
    }
}

/// What a change is, compared with 0, in words.
pub fn sign(change: Ordering) -> &'static str {
    match change {
        Ordering::Less => "below 0",
        Ordering::Equal => "0",
        Ordering::Greater => "above 0",
    }
}

/// The greatest total of so many returns. The least is as far below 0.
pub fn most(returns: u16) -> i64 {
    i64::from(MOST_CHANGE) * i64::from(returns)
}

/// How far a total is beyond the bound on this side; it is below 0 for one that is
/// inside.
pub fn beyond(totals: &Totals, side: Reason) -> i64 {
    let total = i64::from(totals.total);
    let outward = match side {
        Reason::Below => -total,
        _ => total,
    };
    outward - most(totals.returns)
}

/// The numbers that a history begins with: 0 and 0, those that another history left,
/// or such as have room for a few returns more.
pub fn at_first(rng: &mut Rng, left: Totals) -> Totals {
    let (total, returns) = match rng.below(3) {
        0 => (0, 0),
        1 if Reason::all_of(&left).is_empty() => (left.total, left.returns),
        1 => (0, 0),
        _ => {
            let returns = MOST_RETURNS - 1 - rng.below(6) as u16;
            (within(rng, returns), returns)
        }
    };
    let change = held(rng);
    Totals {
        total,
        returns,
        change,
    }
}

/// The numbers of a call that belongs to no history: any, and more often such as are
/// at a bound, one inside or one outside.
pub fn any(rng: &mut Rng) -> Totals {
    let returns = returns(rng);
    let total = match rng.below(8) {
        0 => number(rng),
        1 => rng.pick(&[0, 1, -1, i32::MIN, i32::MAX]),
        2..5 => at_a_bound(rng, returns),
        _ => within(rng, returns),
    };
    let change = held(rng);
    Totals {
        total,
        returns,
        change,
    }
}

/// What the change holds before a call.
pub fn held(rng: &mut Rng) -> i32 {
    match rng.below(4) {
        0 => number(rng),
        _ => rng.pick(&[77, 0, -1, MOST_CHANGE, i32::MIN, i32::MAX]),
    }
}

fn returns(rng: &mut Rng) -> u16 {
    match rng.below(6) {
        0 => rng.word(),
        1 => rng.below(MOST_RETURNS.into()) as u16,
        2..4 => rng.pick(&[0, 1, 2, u16::MAX]),
        _ => rng.pick(&[29_998, 29_999, 29_999, 30_000, 30_000, 30_001]),
    }
}

/// A total at one of the bounds, one inside or one outside; any where that has more
/// than 32 bits.
fn at_a_bound(rng: &mut Rng, returns: u16) -> i32 {
    let near = most(returns) + rng.pick(&[-1, 0, 1]);
    let total = near * rng.pick(&[-1, 1]);
    i32::try_from(total).unwrap_or_else(|_| number(rng))
}

/// A total that so many returns can have.
fn within(rng: &mut Rng, returns: u16) -> i32 {
    let most = most(returns).min(i32::MAX.into());
    let total = rng.below(2 * most as usize + 1) as i64 - most;
    i32::try_from(total).expect("a number of 32 bits")
}

/// Any number of 32 bits.
fn number(rng: &mut Rng) -> i32 {
    rng.below(1 << 32) as u32 as i32
}
