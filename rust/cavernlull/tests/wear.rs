//! How often each slot of a card is taken, in a rotation and with setups that
//! all begin at slot 0. Where its setup lands, a course is installed and removed
//! too, so the setups tell how the slots wear.
//!
//! `cargo test --test wear -- --nocapture` shows the figures.

use cavernlull::{AssetHash, Card, Handle, Request, Right, Rotation, Status, Verdict};
use cavernlull::{MOST_SLOTS, SLOT_BYTES};
use random::Rng;

/// How many loads of courses come and go.
const LOADS: usize = 1000;

/// How many courses stay while loads come and go. With every fourth load, the
/// one that has stayed longest goes, and one of the load stays.
const STAYING: usize = 5;
const LOADS_TO_A_CHANGE: usize = 4;

/// How often each slot was taken.
type Taken = [usize; MOST_SLOTS];

/// A card that courses come to, and how often each slot of it was taken.
struct Desk {
    card: Card,
    /// `None` where each setup begins at slot 0.
    rotation: Option<Rotation>,
    courses: u64,
    taken: Taken,
}

impl Desk {
    fn new(rotation: Option<Rotation>) -> Desk {
        Desk {
            card: Card::blank(MOST_SLOTS),
            rotation,
            courses: 0,
            taken: [0; MOST_SLOTS],
        }
    }

    fn ask(&mut self, request: &Request) {
        let reply = match &mut self.rotation {
            Some(rotation) => rotation.call(&mut self.card, request, Verdict::Held),
            None => self.card.call(request, Verdict::Held),
        };
        assert_eq!(reply.unwrap().status(), Status::Success);
    }

    /// Has a course come, and counts the one slot that its setup changes.
    fn load(&mut self) -> Handle {
        self.courses += 1;
        let mut handle = Handle::default();
        handle.0[2..].copy_from_slice(&self.courses.to_be_bytes());
        let before = self.card.table().to_vec();
        self.ask(&Request::InstallationSetup { handle, room: 9 });
        let after = self.card.table().chunks(SLOT_BYTES);
        let both = before.chunks(SLOT_BYTES).zip(after).enumerate();
        let changed: Vec<usize> = both
            .filter(|(_, (before, after))| before != after)
            .map(|(slot, _)| slot)
            .collect();
        assert_eq!(changed.len(), 1);
        self.taken[changed[0]] += 1;
        let right = Right {
            hashes: vec![AssetHash(*b"SHA-1 of the course!")],
            payload: b"a course!".to_vec(),
            ..Right::default()
        };
        self.ask(&Request::RightsInstallation { handle, right });
        handle
    }

    fn remove(&mut self, handle: Handle) {
        self.ask(&Request::RightsRemoval { handle });
    }

    /// Removes these courses, in any order.
    fn remove_all(&mut self, rng: &mut Rng, mut courses: Vec<Handle>) {
        while !courses.is_empty() {
            self.remove(courses.swap_remove(rng.below(courses.len())));
        }
    }

    /// Has courses come: at least one, and at most so many.
    fn load_up_to(&mut self, rng: &mut Rng, most: usize) -> Vec<Handle> {
        (0..=rng.below(most)).map(|_| self.load()).collect()
    }
}

/// One course at a time comes and goes.
fn one_at_a_time(mut desk: Desk) -> Taken {
    for _ in 0..LOADS {
        let course = desk.load();
        desk.remove(course);
    }
    desk.taken
}

/// Loads of 1 to 14 courses come, and each goes before the next one comes.
fn load_after_load(mut desk: Desk) -> Taken {
    let mut rng = Rng::announced("load after load");
    for _ in 0..LOADS {
        let load = desk.load_up_to(&mut rng, MOST_SLOTS - 1);
        desk.remove_all(&mut rng, load);
    }
    desk.taken
}

/// Loads of 1 to 10 courses come and go beside five that stay, each for 20
/// loads.
fn loads_beside_others(mut desk: Desk) -> Taken {
    let mut rng = Rng::announced("loads beside others");
    let mut staying: Vec<Handle> = (0..STAYING).map(|_| desk.load()).collect();
    for number in 0..LOADS {
        let mut load = desk.load_up_to(&mut rng, MOST_SLOTS - STAYING);
        if number % LOADS_TO_A_CHANGE == 0 {
            desk.remove(staying.remove(0));
            staying.push(load.swap_remove(rng.below(load.len())));
        }
        desk.remove_all(&mut rng, load);
    }
    desk.taken
}

/// Runs the same in rotation and from slot 0, and shows how often each slot was
/// taken.
fn both(what: &str, run: fn(Desk) -> Taken) -> (Taken, Taken) {
    let rotated = run(Desk::new(Some(Rotation::new())));
    let lowest = run(Desk::new(None));
    for (how, taken) in [("in rotation", rotated), ("from slot 0", lowest)] {
        let total: usize = taken.iter().sum();
        println!("{what}, {how}: {taken:?}, {total} in all");
    }
    (rotated, lowest)
}

/// How often each slot is taken where one follows the other, from slot 0 round
/// the card, so many times: no two of these numbers differ by more than 1.
fn one_after_another(times: usize) -> Taken {
    let more = times % MOST_SLOTS;
    std::array::from_fn(|slot| times / MOST_SLOTS + usize::from(slot < more))
}

/// The numbers of the slots that were taken least and most often.
fn ends(taken: &Taken) -> (usize, usize) {
    let least = taken.iter().min().expect("there are slots");
    let most = taken.iter().max().expect("there are slots");
    (*least, *most)
}

#[test]
fn one_course_at_a_time_takes_every_slot_equally_often() {
    let (rotated, lowest) = both("one at a time", one_at_a_time);
    assert_eq!(rotated, one_after_another(LOADS));
    assert_eq!(ends(&rotated), (66, 67));
    assert_eq!(lowest[0], LOADS);
    assert_eq!(lowest[1..], [0; MOST_SLOTS - 1]);
}

/// A card that is emptied before the next load is taken slot by slot.
#[test]
fn load_after_load_takes_every_slot_equally_often() {
    let (rotated, lowest) = both("load after load", load_after_load);
    assert_eq!(rotated, one_after_another(lowest.iter().sum()));
    assert_eq!((lowest[0], lowest[MOST_SLOTS - 1]), (LOADS, 0));
    assert!(lowest.windows(2).all(|pair| pair[0] >= pair[1]));
}

/// A slot is not taken while a course stays in it, and the others are taken more
/// often meanwhile. In a thousand loads, that is evened out to a factor of 2.
#[test]
fn loads_beside_others_take_the_slots_about_equally_often() {
    let (rotated, lowest) = both("beside others that stay", loads_beside_others);
    assert_eq!(rotated.iter().sum::<usize>(), lowest.iter().sum::<usize>());
    let ((least, most), (lowest_least, lowest_most)) = (ends(&rotated), ends(&lowest));
    assert!(most <= 2 * least, "{least} to {most}");
    assert!(lowest_most > 3 * lowest_least);
}
