//! The device's end at random: the archive writes the requests and reads the
//! replies that the reference writes and reads, and refuses what it refuses.

use compare::device::{accepted, compare_readers, compare_writers, Handed, Told, WithoutHash};
use compare::frames::frame;
use compare::outcome::{assert_all_occurred, Counted};
use random::{setting, Rng};
use std::collections::BTreeSet;

/// The calls made unless `COMPARE_CALLS` says how many.
const CALLS: u64 = 100_000;

fn calls() -> u64 {
    setting("COMPARE_CALLS").unwrap_or(CALLS)
}

#[test]
fn requests_are_written_as_the_reference_writes_them() {
    let seen = compare_writers(Rng::announced("requests written"), calls());
    assert_all_occurred(&seen.without_hash, WithoutHash::ALL.to_vec());
    let counts = seen.counts;
    for ((number, kind, handed), count) in &counts {
        println!("{count:>9}  {number} kind {kind}, {handed:?}");
    }
    let outside = [0, 10, 31, 33, 255];
    let expected = (1..=9).chain(outside).flat_map(numbers);
    let seen: BTreeSet<_> = counts.keys().copied().collect();
    assert_eq!(seen, expected.collect(), "all that can occur, and no more");
}

/// The numbers that the writer can give for a kind, each with what it can be
/// handed as a count. 202 comes with every count, since another field may be the
/// one that is refused.
fn numbers(kind: u8) -> Vec<(u16, u8, Handed)> {
    let taken: &[Counted] = match kind {
        2 | 5 => &Counted::COUNTS,
        1..=9 => &[Counted::NotKept],
        _ => &[],
    };
    let taken = taken.iter().map(|&counted| Handed::Count(counted));
    let refused = Counted::COUNTS.map(Handed::Count);
    let refused = refused
        .into_iter()
        .chain([Handed::NumberAlone, Handed::NoBit]);
    taken
        .flat_map(|handed| [(0, kind, handed), (201, kind, handed)])
        .chain(refused.map(|handed| (202, kind, handed)))
        .collect()
}

#[test]
fn replies_are_read_as_the_reference_reads_them() {
    let counts = compare_readers(Rng::announced("replies read"), calls());
    for (told, count) in &counts {
        println!("{count:>9}  {told:?}");
    }
    let mut expected = BTreeSet::from([Told::NOTHING]);
    for kind in 0..32 {
        let refusals = [1, 2, 3, 4, 5, 6, 7, 9];
        expected.extend(refusals.map(|status| told(kind, status, Counted::Nothing, false)));
        expected.extend(successes(kind));
    }
    let seen: BTreeSet<_> = counts.keys().copied().collect();
    assert_eq!(seen, expected, "all that can occur, and no more");
}

fn told(kind: u8, status: u8, counted: Counted, hashed: bool) -> Told {
    Told {
        number: 0,
        kind,
        status,
        counted,
        hashed,
    }
}

/// What a success of this kind can tell: kind 3 any count, with hashes and
/// without, kind 9 any count.
fn successes(kind: u8) -> Vec<Told> {
    let success = |counted, hashed| told(kind, 0, counted, hashed);
    let with_counts = |hashed| Counted::COUNTS.map(|counted| success(counted, hashed));
    match kind {
        3 => [false, true].map(with_counts).concat(),
        9 => with_counts(false).to_vec(),
        1..=9 => vec![success(Counted::Nothing, false)],
        _ => Vec::new(),
    }
}

/// Asserts that of these bodies, with every kind that they are for and every
/// second byte, those are accepted that may be.
fn assert_accepted(
    rng: Rng,
    bodies: impl Fn(u8) -> Vec<Vec<u8>>,
    may_be: impl Fn(u8, u8, &[u8]) -> bool,
) {
    let mut every = Vec::new();
    let mut expected = Vec::new();
    for kind in 0..32 {
        for body in bodies(kind) {
            for second in 0..=255 {
                let reply = frame(kind, second, &body);
                if may_be(kind, second, &body) {
                    expected.push(reply.clone());
                }
                every.push(reply);
            }
        }
    }
    assert!(accepted(rng, &every) == expected);
}

/// The statuses 1 to 7 and 9 have no body and come with any kind, and so does 0
/// with the kinds that give nothing. 8, and every number over 9, is refused with
/// 203 whatever the kind; with the bit of a count these are the second bytes from
/// 128 on.
#[test]
fn replies_without_a_body_are_accepted_by_kind_and_status() {
    assert_accepted(
        Rng::announced("replies without a body"),
        |_| vec![Vec::new()],
        |kind, second, _| match second {
            0 => [1, 2, 5, 6, 7].contains(&kind),
            _ => second <= 7 || second == 9,
        },
    );
}

/// A count of these numbers, as the reply to kind 3 or 9 has it, and the key or
/// the list of kinds 4 and 8. The bit of a count is for kinds 3 and 9 alone, and
/// a number other than 0 must have it; no other second byte is accepted.
#[test]
fn replies_with_a_body_are_accepted_by_kind_and_bit() {
    let numbers = [0u16, 1, 0xFF, 0x100, 0x8000, 0xFFFF].map(u16::to_be_bytes);
    let bodies = |kind| match kind {
        3 => numbers
            .map(|n| [&[7; 16][..], &n, &[0, 5]].concat())
            .to_vec(),
        9 => numbers.map(|n| [&n[..], &[5]].concat()).to_vec(),
        8 => vec![vec![0]],
        _ => vec![vec![7; 16], vec![0]],
    };
    assert_accepted(
        Rng::announced("replies with a body"),
        bodies,
        |kind, second, body| match (kind, second) {
            (3 | 9, 0x80) | (8, 0) => true,
            (4, 0) => body.len() == 16,
            (3, 0) => body[16..18] == [0, 0],
            (9, 0) => body[..2] == [0, 0],
            _ => false,
        },
    );
}
