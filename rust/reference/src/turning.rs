//! The turning of tables that were written before a count had its bit
//! (PROFILE 2.7).

use crate::number::DONE;
use crate::{slot, table};

/// Turns a table in place and gives 0; or refuses, tested in this order, with
/// 102 where it is not 1 to 15 whole slots and with 103 where it is not well
/// formed by the rules before the bit, and changes no byte then.
///
/// Before the bit, 0 was the count of a right that keeps none, so the bit is set
/// in every record with another count. A turned table that keeps a count is not
/// well formed by those rules, and is refused with 103.
pub fn turn(table: &mut [u8]) -> u16 {
    if let Err(number) = table::check_before_turning(table) {
        return number;
    }
    for slot in table::slots_mut(table) {
        slot::turn(slot);
    }
    DONE
}
