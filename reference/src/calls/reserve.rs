//! The reservations of slots, document 02's claims (job 7): their setting, and what they keep from
//! the other slots.

use super::readiness::idle_slot;
use crate::error::{require, Error};
use crate::memory::Memory;

/// Sets the reservation of an idle slot, in the place of what it was. All of them together are at
/// most the available blocks.
pub fn reserve(memory: &mut Memory, slot: u32, reservation: u32) -> Result<(), Error> {
    let index = idle_slot(memory, slot)?;
    let reserved = memory.reserved_by_others(index) + u64::from(reservation);
    let available = u64::from(memory.available_where_bitmaps_fit());
    require(reserved <= available, Error::OverReserved)?;
    memory.slots[index].reservation = reservation;
    Ok(())
}

/// Cause 24: the blocks that a grant to this slot would leave available are at least what the other
/// slots' reservations add up to.
pub(super) fn leave_to_others(memory: &Memory, index: usize, left: u32) -> Result<(), Error> {
    require(memory.reserved_by_others(index) <= u64::from(left), Error::ReservedForOthers)
}
