//! The causes that the transaction calls share, commit cost, allocate extent and reserve with them.
//! Each check gives the slot's index.

use crate::error::{require, Error};
use crate::memory::{Memory, Pending, SlotState};

/// Causes 1, 8 and 10, which all of them test first.
fn any_slot(memory: &Memory, slot: u32) -> Result<usize, Error> {
    require(memory.is_valid(), Error::InvalidMemory)?;
    require(memory.pending == Pending::Nothing, Error::WorkPending)?;
    let index = slot as usize;
    require(index < Memory::SLOTS, Error::SlotNumber)?;
    Ok(index)
}

/// Cause 11 too, for start and reserve.
pub fn idle_slot(memory: &Memory, slot: u32) -> Result<usize, Error> {
    let index = any_slot(memory, slot)?;
    require(memory.slots[index].state == SlotState::Idle, Error::SlotNotIdle)?;
    Ok(index)
}

/// Cause 12 too, which all others test next.
fn active_slot(memory: &Memory, slot: u32) -> Result<usize, Error> {
    let index = any_slot(memory, slot)?;
    require(memory.slots[index].state != SlotState::Idle, Error::SlotIdle)?;
    Ok(index)
}

/// Cause 13 too, for the calls of an open transaction.
pub fn open_slot(memory: &Memory, slot: u32) -> Result<usize, Error> {
    let index = active_slot(memory, slot)?;
    require(memory.slots[index].state != SlotState::Precommitted, Error::SlotPrecommitted)?;
    Ok(index)
}

/// Cause 14 too, for the calls of a precommitted transaction.
pub fn precommitted_slot(memory: &Memory, slot: u32) -> Result<usize, Error> {
    let index = active_slot(memory, slot)?;
    require(memory.slots[index].state == SlotState::Precommitted, Error::SlotNotPrecommitted)?;
    Ok(index)
}
