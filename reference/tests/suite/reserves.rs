//! Reservations as document 02 says them (job 7), one block at a time.

use crate::allocates::is_available;
use crate::slots::ready_slot;
use reference::line::{self, Line, Operation};
use reference::test_line::{self, TestLine};
use reference::{Error, Memory, Pending, SlotState};

/// What a reserve is to answer: its causes in number order.
pub fn reserve_by_blocks(memory: &Memory, slot: u32, blocks: u32) -> Result<(), Error> {
    if ready_slot(memory, slot)?.state != SlotState::Idle {
        return Err(Error::SlotNotIdle);
    }
    let reserved = reserved_by_others(memory, slot) + u128::from(blocks);
    if reserved > u128::from(available_by_blocks(memory)) {
        return Err(Error::OverReserved);
    }
    Ok(())
}

/// The memory after it: the slot has this reservation, and all else is as it was.
pub fn reserved(memory: &Memory, slot: u32, blocks: u32) -> Memory {
    let mut after = memory.clone();
    after.slots[slot as usize].reservation = blocks;
    after
}

/// Cause 24: whether a grant of so many of the available blocks, which are as many, leaves the other
/// slots theirs.
pub fn leaves_others_theirs(memory: &Memory, slot: u32, count: u32) -> Result<(), Error> {
    let left = available_by_blocks(memory) - count;
    if u128::from(left) < reserved_by_others(memory, slot) {
        return Err(Error::ReservedForOthers);
    }
    Ok(())
}

/// What the reservations of all other slots add up to, whatever they are.
pub fn reserved_by_others(memory: &Memory, slot: u32) -> u128 {
    let others = (0..8).filter(|other| *other != slot);
    others.map(|other| u128::from(memory.slots[other as usize].reservation)).sum()
}

/// The blocks below m with SAM 0 and COM 0. The block count is in range.
pub fn available_by_blocks(memory: &Memory) -> u32 {
    (0..memory.blocks).filter(|block| is_available(memory, *block)).count() as u32
}

/// The blocks below m that the slot's bitmap has and SAM hasn't.
pub fn taken_by_blocks(memory: &Memory, slot: u32) -> u32 {
    let tam = &memory.slots[slot as usize].tam;
    let is_taken = |block: &u32| tam.has(*block) && !memory.sam.has(*block);
    (0..memory.blocks).filter(is_taken).count() as u32
}

/// Each slot's reservation, and what is drawn from it.
pub fn reservations(memory: &Memory) -> [(u32, u32); 8] {
    memory.slots.map(|slot| (slot.reservation, slot.drawn))
}

/// The same after a line, which was accepted with this value, as the documents say it.
pub fn reservations_after(before: &Memory, line: &[u8], value: u32) -> [(u32, u32); 8] {
    if let Some(line) = line::parse(line) {
        return after_bench_line(before, &line, value);
    }
    let mut after = reservations(before);
    match test_line::parse(line) {
        Some(TestLine::Extent { slot, count, .. }) => grant(&mut after[slot as usize], count),
        Some(TestLine::Reserve { slot, blocks } | TestLine::Reservation { slot, blocks }) => {
            after[slot as usize].0 = blocks;
        }
        Some(TestLine::Drawn { slot, blocks }) => after[slot as usize].1 = blocks,
        _ => {}
    }
    after
}

fn after_bench_line(before: &Memory, line: &Line, value: u32) -> [(u32, u32); 8] {
    let mut after = reservations(before);
    match (line.operation, before.pending) {
        (Operation::Crash | Operation::Open, _) => return [(0, 0); 8],
        (Operation::Allocate, _) => grant(&mut after[line.slot as usize], line.number),
        (Operation::Drop | Operation::Revoke, _) => {
            let (reservation, drawn) = after[line.slot as usize];
            after[line.slot as usize] = (reservation + drawn, 0);
        }
        (Operation::Commit, _) if value == 0 => after[line.slot as usize].1 = 0,
        (Operation::Store, Pending::Commit { slot, .. }) if value == 0 => {
            after[slot as usize].1 = 0
        }
        _ => {}
    }
    after
}

/// Each block granted is drawn from the reservation as long as there is something left of it.
fn grant((reservation, drawn): &mut (u32, u32), count: u32) {
    for _ in 0..count {
        if *reservation > 0 {
            *reservation -= 1;
            *drawn += 1;
        }
    }
}
