//! What salvages found.

use crate::damage::Damage;
use driver::Salvaged;
use reference::number::{REPORT_BUFFER_SHORT, TABLE_LENGTH};
use reference::slot::SlotBytes;
use reference::{slot, table, Finding, Handle, Place, HANDLE_BYTES, MAX_SLOTS, SLOT_BYTES};
use std::cmp::Ordering;
use std::fmt;

/// What a salvage is lent.
pub struct Lent {
    /// What was done to the table before.
    pub damage: Damage,
    /// The slots in which that changed a byte, where the table was well formed before
    /// and has its length still.
    pub changed: Vec<usize>,
    /// The table.
    pub table: Vec<u8>,
    /// The report buffer.
    pub report: Vec<u8>,
}

/// What came of a salvage.
#[derive(Clone, Copy, Debug, PartialEq, Eq, PartialOrd, Ord)]
pub enum Came {
    /// It gave this number.
    Number(u16),
    /// It gave 102, and had a reason for 107 too.
    LengthBeforeReport,
    /// It was carried out with a report buffer of just a byte for each slot, or of
    /// more.
    Room(Ordering),
    /// It was carried out after this was done to the table.
    After(Damage),
    /// One slot had been changed, and this was found of it or of another. All slots
    /// are kept where it is well formed still and has no other's handle.
    OneChanged(Finding),
    /// The bytes of a slot said this place, and this was found of it.
    In(Place, Finding),
    /// So many slots that were not damaged had one handle.
    Times(usize),
    /// A record in the first place was kept, and a higher one with its handle, in the
    /// second place, was repeated.
    Repeated(Place, Place),
    /// A damaged slot that was not empty had the handle of a kept record.
    DamagedAlike {
        /// Whether it was the lower of the two.
        below: bool,
    },
    /// A right without a hash was kept, and some other slot was cleared.
    UnhashedKept,
    /// A record under ten zeros was kept, and an empty slot.
    ZerosAndEmpty,
}

impl Came {
    /// All that came of a salvage, each once.
    pub fn all_of(lent: &Lent, given: &Salvaged) -> Vec<Came> {
        let room = lent.report.len().cmp(&(lent.table.len() / SLOT_BYTES));
        let mut came = vec![Came::Number(given.number)];
        match given.number {
            TABLE_LENGTH if room == Ordering::Less => came.push(Came::LengthBeforeReport),
            TABLE_LENGTH | REPORT_BUFFER_SHORT => {}
            _ => {
                came.extend([Came::Room(room), Came::After(lent.damage)]);
                let found = Found::of(&lent.table, &given.report);
                came.extend(found.one_by_one());
                came.extend(found.by_handle());
                came.extend(found.beside_others());
                if lent.changed.len() == 1 {
                    came.push(Came::OneChanged(found.greatest()));
                }
            }
        }
        came.sort_unstable();
        came.dedup();
        came
    }

    /// All that can occur.
    pub fn that_can_occur() -> Vec<Came> {
        let numbers = (0..=MAX_SLOTS as u16).chain([TABLE_LENGTH, REPORT_BUFFER_SHORT]);
        let mut all: Vec<Came> = numbers.map(Came::Number).collect();
        all.extend([Ordering::Equal, Ordering::Greater].map(Came::Room));
        all.extend(Damage::all().into_iter().map(Came::After));
        all.extend(Finding::ALL.map(Came::OneChanged));
        all.extend((2..=MAX_SLOTS).map(Came::Times));
        all.extend([false, true].map(|below| Came::DamagedAlike { below }));
        all.extend([Came::LengthBeforeReport, Came::UnhashedKept]);
        all.push(Came::ZerosAndEmpty);
        let empty = [Finding::Kept, Finding::Damaged];
        all.extend(empty.map(|finding| Came::In(Place::Empty, finding)));
        let records = [Place::Reserved, Place::Enabled, Place::Disabled];
        for place in records {
            all.extend(Finding::ALL.map(|finding| Came::In(place, finding)));
            all.extend(records.map(|higher| Came::Repeated(place, higher)));
        }
        all
    }
}

/// The slots before a salvage that was carried out, and what was found of each.
struct Found<'a>(Vec<(&'a SlotBytes, Finding)>);

impl<'a> Found<'a> {
    /// What this report says of the slots of this table.
    fn of(table: &'a [u8], report: &[u8]) -> Found<'a> {
        let slots = table::slots(table);
        let finding = |&byte| Finding::from_number(byte).expect("a report has findings");
        let findings = report[..slots.len()].iter().map(finding);
        Found(slots.iter().zip(findings).collect())
    }

    /// The records that were not damaged and have this handle, from the lowest up.
    fn alike(&self, handle: Handle) -> Vec<&SlotBytes> {
        let whole = self.0.iter().filter(|(_, f)| *f != Finding::Damaged);
        let slots = whole.map(|(slot, _)| *slot);
        slots
            .filter(|slot| slot::has_handle(slot, &handle))
            .collect()
    }

    fn greatest(&self) -> Finding {
        let findings = self.0.iter().map(|(_, finding)| *finding);
        findings.max().expect("a table has a slot")
    }

    fn one_by_one(&self) -> impl Iterator<Item = Came> + '_ {
        let slots = self.0.iter();
        slots.map(|(slot, finding)| Came::In(slot::place(slot), *finding))
    }

    /// How often kept handles occur, and in which places.
    fn by_handle(&self) -> Vec<Came> {
        let mut came = Vec::new();
        for (index, (slot, finding)) in self.0.iter().enumerate() {
            let (place, handle) = (slot::place(slot), slot::handle(slot));
            if *finding != Finding::Kept || place == Place::Empty {
                continue;
            }
            let alike = self.alike(handle);
            if alike.len() > 1 {
                came.push(Came::Times(alike.len()));
            }
            let higher = alike.iter().skip(1);
            came.extend(higher.map(|other| Came::Repeated(place, slot::place(other))));
            came.extend(self.damaged_alike(index, handle));
        }
        came
    }

    /// Which damaged slots have the handle of this kept one.
    fn damaged_alike(&self, index: usize, handle: Handle) -> impl Iterator<Item = Came> + '_ {
        let damaged = self.0.iter().enumerate();
        damaged
            .filter(move |(_, (slot, finding))| {
                *finding == Finding::Damaged && slot::has_handle(slot, &handle)
            })
            .map(move |(other, _)| Came::DamagedAlike {
                below: other < index,
            })
    }

    /// What was kept beside something else.
    fn beside_others(&self) -> Vec<Came> {
        let kept = self.0.iter().filter(|(_, f)| *f == Finding::Kept);
        let kept: Vec<&SlotBytes> = kept.map(|(slot, _)| *slot).collect();
        let has = |what: fn(&SlotBytes) -> bool| kept.iter().any(|slot| what(slot));
        let mut came = Vec::new();
        let unhashed =
            has(|slot| slot::place(slot) >= Place::Enabled && slot::hash_count(slot) == 0);
        if unhashed && kept.len() < self.0.len() {
            came.push(Came::UnhashedKept);
        }
        let zeros = has(|slot| slot::has_handle(slot, &[0; HANDLE_BYTES]));
        if zeros && has(|slot| slot::place(slot) == Place::Empty) {
            came.push(Came::ZerosAndEmpty);
        }
        came
    }
}

impl fmt::Display for Came {
    fn fmt(&self, f: &mut fmt::Formatter<'_>) -> fmt::Result {
        write!(f, "salvage: ")?;
        match self {
            Came::Number(number) => write!(f, "{number}"),
            Came::LengthBeforeReport => write!(f, "102 and not 107"),
            Came::Room(Ordering::Greater) => write!(f, "a longer report buffer"),
            Came::Room(_) => write!(f, "a byte for each slot"),
            Came::After(damage) => write!(f, "after {damage}"),
            Came::OneChanged(finding) => write!(f, "one slot changed, {}", finding.word()),
            Came::In(place, finding) => write!(f, "{}, {}", place.word(), finding.word()),
            Came::Times(times) => write!(f, "a handle {times} times"),
            Came::Repeated(place, higher) => {
                write!(f, "{} kept, {} repeated", place.word(), higher.word())
            }
            Came::DamagedAlike { below } => {
                let side = if *below { "below" } else { "above" };
                write!(f, "a damaged slot {side} has the handle of a kept one")
            }
            Came::UnhashedKept => write!(f, "a right without a hash kept"),
            Came::ZerosAndEmpty => write!(f, "a handle of zeros and an empty slot"),
        }
    }
}
