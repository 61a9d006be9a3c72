//! The tally of a table (PROFILE 2.8).

use crate::slots::{length, place, well_slot, Slot};
use crate::slots::{DISABLED, EMPTY, ENABLED, RESERVED};

/// The five numbers, laid out as the C header has them.
#[repr(C)]
#[derive(Clone, Copy, Debug, Default, PartialEq, Eq)]
pub struct Tally {
    pub empty: u16,
    pub reserved: u16,
    pub enabled: u16,
    pub disabled: u16,
    pub payload: u16,
}

impl Tally {
    /// The tally of these slots, if each is well formed. It is counted in the
    /// loop that has read place and length anyway, with a byte of `places` for
    /// each place.
    pub(crate) fn of(slots: &[Slot]) -> Option<Tally> {
        let (mut places, mut payload) = (0u32, 0);
        for s in slots {
            if !well_slot(s) {
                return None;
            }
            places += 1 << (8 * place(s));
            payload += if place(s) >= ENABLED { length(s) } else { 0 };
        }
        let [empty, reserved, enabled, disabled] = places.to_le_bytes().map(u16::from);
        Some(Tally {
            empty,
            reserved,
            enabled,
            disabled,
            payload: payload as u16,
        })
    }

    /// Brings it up to date for a record that goes from one place to another.
    pub(crate) fn moved(&mut self, from: u8, to: u8) {
        *self.at(from) -= 1;
        *self.at(to) += 1;
    }

    fn at(&mut self, place: u8) -> &mut u16 {
        match place {
            EMPTY => &mut self.empty,
            RESERVED => &mut self.reserved,
            ENABLED => &mut self.enabled,
            DISABLED.. => &mut self.disabled,
        }
    }
}
