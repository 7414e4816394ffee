//! The commit cost as document 02 says it, one block at a time.

use crate::counts::counts_by_blocks;
use crate::reserves::leaves_others_theirs;
use crate::slots::ready_slot;
use reference::{Error, Memory, Slot, SlotState};

/// What commit cost is to answer: its causes in number order, then its number.
pub fn cost_by_blocks(memory: &Memory, number: u32, count: u32) -> Result<u32, Error> {
    let slot = ready_slot(memory, number)?;
    match slot.state {
        SlotState::Idle => Err(Error::SlotIdle),
        SlotState::Precommitted => Err(Error::SlotPrecommitted),
        SlotState::Open if count > 64 => Err(Error::Count),
        SlotState::Open if counts_by_blocks(memory).available < count => {
            Err(Error::TooFewAvailable)
        }
        SlotState::Open => leaves_others_theirs(memory, number, count)
            .map(|()| stores(touched_by_blocks(memory, slot) + count, memory.blocks)),
    }
}

/// t, the blocks that the slot has touched.
pub fn touched_by_blocks(memory: &Memory, slot: &Slot) -> u32 {
    let is_touched = |block: &u32| slot.tam.has(*block) != memory.sam.has(*block);
    (0..memory.blocks).filter(is_touched).count() as u32
}

/// "0 if t + n is 0, else 3·(the smaller of t + n and W) + 2".
fn stores(touched: u32, blocks: u32) -> u32 {
    let words = (blocks - 1) / 32 + 1;
    match touched {
        0 => 0,
        touched if touched < words => 3 * touched + 2,
        _ => 3 * words + 2,
    }
}
