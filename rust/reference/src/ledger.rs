//! The history of rights, told by requests and statuses (PROFILE 8).
//!
//! A [`Ledger`] is a fold over pairs of a request and the status of its
//! reply. It is empty for a blank card, or read off the table once, at the
//! start. From then on it looks at no slot and repeats none of the agent's
//! tests: what it knows of the card it knows from what was asked and granted.
//! [`agrees`] compares a table with it.

use crate::slot::{self, Place, SlotBytes};
use crate::{table, Count, Fields, Handle, Key, Kind, Request, Status};

/// Whether a right is for use, lent or gone.
#[derive(Clone, Copy, Debug, PartialEq, Eq)]
pub enum Standing {
    /// The right is for use under its handle.
    ForUse,
    /// The right is lent under its handle.
    Lent,
    /// The right was removed; its handle and content are the last it had.
    Gone,
}

/// A right, with the fields of its installation, or those that it had on the
/// table at first; handle and count as later requests changed them.
#[derive(Clone, Debug, PartialEq, Eq)]
pub struct Right {
    /// Whether the right is for use, lent or gone.
    pub standing: Standing,
    /// The handle that the right is for use or lent under.
    pub handle: Handle,
    /// The key (REK).
    pub key: Key,
    /// The count: whether one is kept, and which.
    pub count: Count,
    /// The asset hashes, one after another.
    pub hashes: Vec<u8>,
    /// The payload.
    pub payload: Vec<u8>,
}

/// An open setup.
#[derive(Clone, Debug, PartialEq, Eq)]
pub struct Setup {
    /// The handle that the setup is under.
    pub handle: Handle,
    /// The length that the setup asked for.
    pub length: u16,
}

/// What a history of requests and statuses comes to.
#[derive(Clone, Debug, Default, PartialEq, Eq)]
pub struct Ledger {
    rights: Vec<Right>,
    setups: Vec<Setup>,
}

impl Ledger {
    /// The ledger of no history, to which a blank table belongs.
    pub fn new() -> Self {
        Ledger::default()
    }

    /// The ledger read off a table, with which a history starts from there
    /// (PROFILE 8.2): each enabled record is a right for use, each disabled one a
    /// right lent, and each reserved one an open setup.
    ///
    /// # Errors
    ///
    /// 102 or 103, where the table is refused.
    pub fn read_off(table: &[u8]) -> Result<Self, u16> {
        table::check(table)?;
        let mut ledger = Ledger::new();
        for slot in table::slots(table) {
            ledger.read_slot(slot);
        }
        Ok(ledger)
    }

    fn read_slot(&mut self, slot: &SlotBytes) {
        match slot::place(slot) {
            Place::Empty => {}
            Place::Reserved => self.setups.push(Setup {
                handle: slot::handle(slot),
                length: slot::length(slot),
            }),
            Place::Enabled => self.rights.push(right_in(slot, Standing::ForUse)),
            Place::Disabled => self.rights.push(right_in(slot, Standing::Lent)),
        }
    }

    /// The ledger of a whole history of a blank card: the fold over its pairs.
    pub fn of<'a>(history: impl IntoIterator<Item = (Request<'a>, u8)>) -> Self {
        let mut ledger = Ledger::new();
        for (request, status) in history {
            ledger.tell(&request, status);
        }
        ledger
    }

    /// All rights that there were: those on the table at first, in the order of
    /// their slots, and then those installed since. The index of a right is its
    /// number. Every installation makes a right of its own, so two installations
    /// with equal bytes make two rights.
    pub fn rights(&self) -> &[Right] {
        &self.rights
    }

    /// The open setups: those on the table at first, in the order of their slots,
    /// and then the others, in the order in which they were opened.
    pub fn setups(&self) -> &[Setup] {
        &self.setups
    }

    /// Tells one more request with the status number of its reply. Any status
    /// but 0 does nothing, and so do kinds 8 and 9.
    ///
    /// Where no setup or right is under the handle, nothing changes. Where
    /// there are several, which cannot happen with a correct agent, the request
    /// is about the oldest of them.
    pub fn tell(&mut self, request: &Request<'_>, status: u8) {
        if status != Status::Success.number() {
            return;
        }
        let fields = &request.fields;
        match request.kind {
            Kind::InstallationSetup => self.open_setup(fields),
            Kind::RightsInstallation => self.install(fields),
            Kind::RightsRetrieval | Kind::RekQuery => self.lend(fields),
            Kind::RightsEnablement => self.take_back(fields),
            Kind::RightsRemoval => self.remove(fields),
            Kind::HandleRemoval => self.close_setup(&fields.handle),
            Kind::HandleListQuery | Kind::RightsInformationQuery => {}
        }
    }

    /// What an exchange that is still to be told does to a count (PROFILE 8.7): of a
    /// return, where both keep a count, the one sent minus the one that the lent
    /// right has by this ledger. `None` for what is no counted return.
    ///
    /// It looks at no table, and at nothing that the totalling call looks at but
    /// request and status.
    pub fn change_told(&self, request: &Request<'_>, status: u8) -> Option<i32> {
        if (request.kind, status) != (Kind::RightsEnablement, 0) {
            return None;
        }
        let handle = request.fields.handle;
        let mut lent = self.rights.iter().filter(|r| r.standing == Standing::Lent);
        let right = lent.find(|right| right.handle == handle)?;
        let (Count::Kept(had), Count::Kept(has)) = (right.count, request.fields.count) else {
            return None;
        };
        Some(match has.checked_sub(had) {
            Some(more) => i32::from(more),
            None => -i32::from(had - has),
        })
    }

    /// Kind 1 opens a setup of the length asked for.
    fn open_setup(&mut self, fields: &Fields<'_>) {
        self.setups.push(Setup {
            handle: fields.handle,
            length: fields.length,
        });
    }

    /// Kind 2 closes the setup under its handle and makes a new right, for use
    /// under that handle, with the request's fields.
    fn install(&mut self, fields: &Fields<'_>) {
        self.close_setup(&fields.handle);
        self.rights.push(Right {
            standing: Standing::ForUse,
            handle: fields.handle,
            key: fields.key,
            count: fields.count,
            hashes: fields.hashes.to_vec(),
            payload: fields.payload.to_vec(),
        });
    }

    /// Kinds 3 and 4 lend the right under the handle; from then on it is under
    /// the new handle.
    fn lend(&mut self, fields: &Fields<'_>) {
        if let Some(right) = self.right_under(&fields.handle) {
            right.standing = Standing::Lent;
            right.handle = fields.new_handle;
        }
    }

    /// Kind 5 makes a lent right for use, with the request's count, and leaves
    /// a right for use as it is.
    fn take_back(&mut self, fields: &Fields<'_>) {
        if let Some(right) = self.right_under(&fields.handle) {
            if right.standing == Standing::Lent {
                right.standing = Standing::ForUse;
                right.count = fields.count;
            }
        }
    }

    /// After kind 6 the right is gone.
    fn remove(&mut self, fields: &Fields<'_>) {
        if let Some(right) = self.right_under(&fields.handle) {
            right.standing = Standing::Gone;
        }
    }

    /// Kind 7 closes the setup under its handle; kind 2 does that too.
    fn close_setup(&mut self, handle: &Handle) {
        if let Some(index) = self.setups.iter().position(|s| s.handle == *handle) {
            self.setups.remove(index);
        }
    }

    /// The right that is for use or lent under this handle.
    fn right_under(&mut self, handle: &Handle) -> Option<&mut Right> {
        self.rights
            .iter_mut()
            .find(|right| right.standing != Standing::Gone && right.handle == *handle)
    }
}

/// The right that a slot holds.
fn right_in(slot: &SlotBytes, standing: Standing) -> Right {
    Right {
        standing,
        handle: slot::handle(slot),
        key: slot::key(slot),
        count: slot::count(slot),
        hashes: slot::hashes(slot).to_vec(),
        payload: slot::payload(slot).to_vec(),
    }
}

/// Compares a table with a ledger: the table must be well formed, and have one
/// reserved slot for each open setup, one enabled slot for each right for use
/// and one disabled slot for each right lent, with every field as the ledger
/// has it; all other slots must be empty. The order of the slots does not
/// matter (PROFILE 8.3).
///
/// # Errors
///
/// A sentence that names the first thing that differs.
pub fn agrees(ledger: &Ledger, table: &[u8]) -> Result<(), String> {
    table::check(table).map_err(|number| format!("the table is refused with {number}"))?;
    let mut held = held_records(table);
    for told in told_records(ledger) {
        match held.iter().position(|record| *record == told) {
            Some(index) => drop(held.swap_remove(index)),
            None => return Err(missing(&told, &held)),
        }
    }
    match held.first() {
        None => Ok(()),
        Some(record) => Err(format!(
            "the ledger tells of no record under {:02x?}",
            record.handle
        )),
    }
}

/// What to say of a record of the ledger that no slot holds.
fn missing(told: &Record, held: &[Record]) -> String {
    match held.iter().find(|record| record.handle == told.handle) {
        Some(other) => format!(
            "the record under {:02x?} differs in its {}",
            told.handle,
            first_difference(told, other)
        ),
        None => format!("no slot is left for the record under {:02x?}", told.handle),
    }
}

/// The name of the first field in which two unequal records differ.
fn first_difference(told: &Record, held: &Record) -> &'static str {
    let equal = [
        ("place", told.place == held.place),
        ("key", told.key == held.key),
        ("count", told.count == held.count),
        ("length", told.length == held.length),
        ("hashes", told.hashes == held.hashes),
    ];
    let first = equal.iter().find(|(_, equal)| !equal);
    first.map_or("payload", |(name, _)| name)
}

/// A non-empty record, as a ledger has it or as a slot holds it.
#[derive(PartialEq, Eq)]
struct Record {
    place: Place,
    handle: Handle,
    key: Key,
    count: Count,
    length: usize,
    hashes: Vec<u8>,
    payload: Vec<u8>,
}

/// The records that a table must have for a ledger.
fn told_records(ledger: &Ledger) -> Vec<Record> {
    let setups = ledger.setups.iter().map(record_of_setup);
    let rights = ledger.rights.iter().filter_map(record_of_right);
    setups.chain(rights).collect()
}

fn record_of_setup(setup: &Setup) -> Record {
    Record {
        place: Place::Reserved,
        handle: setup.handle,
        key: Key::default(),
        count: Count::NotKept,
        length: setup.length.into(),
        hashes: Vec::new(),
        payload: Vec::new(),
    }
}

fn record_of_right(right: &Right) -> Option<Record> {
    let place = match right.standing {
        Standing::ForUse => Place::Enabled,
        Standing::Lent => Place::Disabled,
        Standing::Gone => return None,
    };
    Some(Record {
        place,
        handle: right.handle,
        key: right.key,
        count: right.count,
        length: right.payload.len(),
        hashes: right.hashes.clone(),
        payload: right.payload.clone(),
    })
}

/// The records that a table has.
fn held_records(table: &[u8]) -> Vec<Record> {
    let slots = table::slots(table).iter();
    slots
        .filter(|slot| slot::place(slot) != Place::Empty)
        .map(record_of_slot)
        .collect()
}

fn record_of_slot(slot: &SlotBytes) -> Record {
    Record {
        place: slot::place(slot),
        handle: slot::handle(slot),
        key: slot::key(slot),
        count: slot::count(slot),
        length: slot::length(slot).into(),
        hashes: slot::hashes(slot).to_vec(),
        payload: slot::payload(slot).to_vec(),
    }
}
