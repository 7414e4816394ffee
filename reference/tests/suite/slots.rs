//! What every call of a transaction tests first, read as the documents say it.

use reference::{Error, Memory, Pending, Slot};

/// Causes 1, 8 and 10, in this order; then the slot.
pub fn ready_slot(memory: &Memory, slot: u32) -> Result<&Slot, Error> {
    if !memory.is_valid() {
        return Err(Error::InvalidMemory);
    }
    if memory.pending != Pending::Nothing {
        return Err(Error::WorkPending);
    }
    memory.slots.get(slot as usize).ok_or(Error::SlotNumber)
}
