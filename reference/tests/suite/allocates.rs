//! Allocate as documents 01 and 02 say it (job 6), one block at a time, and where the search carries
//! on after any call.

use crate::extents::put;
use crate::reserves::leaves_others_theirs;
use crate::slots::ready_slot;
use reference::line::Operation;
use reference::{Call, Error, Memory, SlotState};

/// What an allocate is to answer with a list of so many places: its causes in number order, then the
/// numbers that it lists.
pub fn allocate_by_blocks(
    memory: &Memory,
    places: usize,
    slot: u32,
    count: u32,
) -> Result<Vec<u32>, Error> {
    match ready_slot(memory, slot)?.state {
        SlotState::Idle => Err(Error::SlotIdle),
        SlotState::Precommitted => Err(Error::SlotPrecommitted),
        SlotState::Open if count == 0 || count > 64 => Err(Error::Count),
        SlotState::Open if places < count as usize => Err(Error::ListLength),
        SlotState::Open => {
            let listed = first_met(memory, count as usize).ok_or(Error::TooFewAvailable)?;
            leaves_others_theirs(memory, slot, count).map(|()| listed)
        }
    }
}

/// The first available blocks met from the cursor on, with each block of the volume looked at once.
fn first_met(memory: &Memory, count: usize) -> Option<Vec<u32>> {
    let mut met = Vec::new();
    let mut block = memory.cursor;
    for _ in 0..memory.blocks {
        if met.len() < count && is_available(memory, block) {
            met.push(block);
        }
        block = block_after(memory, block);
    }
    (met.len() == count).then_some(met)
}

pub fn is_available(memory: &Memory, block: u32) -> bool {
    !memory.sam.has(block) && !memory.com.has(block)
}

/// The next block, and block 0 after the last.
pub fn block_after(memory: &Memory, block: u32) -> u32 {
    (block + 1) % memory.blocks
}

/// Where the search is to begin after a call: behind the last block granted, an extent's too, from
/// block 0 on after a crash or an open, and after any other call where it was to begin before.
pub fn cursor_after(before: &Memory, call: &Call) -> u32 {
    match (call.operation, call.listed) {
        _ if !call.accepted => before.cursor,
        (Operation::Crash | Operation::Open, _) => 0,
        (Operation::Allocate, [.., last]) => block_after(before, *last),
        _ => before.cursor,
    }
}

/// The memory with these blocks granted to the slot, in this order. Each is drawn from the slot's
/// reservation as long as there is something left of it.
pub fn granted(before: &Memory, slot: u32, listed: &[u32]) -> Memory {
    let mut after = before.clone();
    for block in listed {
        put(&mut after.com, *block);
        let slot = &mut after.slots[slot as usize];
        put(&mut slot.tam, *block);
        if slot.reservation > 0 {
            slot.reservation -= 1;
            slot.drawn += 1;
        }
        after.cursor = block_after(before, *block);
    }
    after
}
