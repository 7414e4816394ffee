//! Random memories that are valid, made by the documents' rules and not by calls.

use crate::reserves::{available_by_blocks, taken_by_blocks};
use reference::{Bitmap, Memory, Pending, Random, Slot, SlotState};

/// A valid memory of this many blocks, often with many touched ones.
pub fn valid_memory(random: &mut Random, blocks: u32) -> Memory {
    let mut memory = Memory::opened(blocks, Bitmap::EMPTY, Pending::Nothing);
    let allocated_percent = random.choose(&[0, 5, 50, 95, 100]);
    for block in some_blocks(random, blocks, allocated_percent) {
        flip(&mut memory.sam, block);
    }
    memory.com = memory.sam;
    let active = random.below(9) as usize;
    for slot in &mut memory.slots[..active] {
        let state = random.choose(&[SlotState::Open, SlotState::Precommitted]);
        *slot = Slot::unreserved(state, memory.sam);
    }
    memory.slots.rotate_left(random.below(8) as usize);
    touch(random, &mut memory);
    let any = random.below(blocks);
    memory.cursor = random.choose(&[0, blocks - 1, any, any]);
    memory.pending = pending(random, &memory);
    if random.one_in(2) {
        reserve(random, &mut memory);
    }
    assert!(memory.is_valid(), "{memory:?}");
    memory
}

/// Reservations for which there are blocks, now and then just so, and what is drawn in any slots.
fn reserve(random: &mut Random, memory: &mut Memory) {
    let available = available_by_blocks(memory);
    let any = random.below(available + 1);
    let mut left = random.choose(&[available, any, any, any / 4]);
    let first = random.below(8);
    for slot in (0..8).map(|slot| (slot + first) % 8) {
        let (any, taken) = (random.below(left + 1), taken_by_blocks(memory, slot));
        let reservation = random.choose(&[0, 0, 1.min(left), any.min(64), any, left]);
        let any_drawn = random.below(taken + 1);
        let drawn = random.choose(&[0, any_drawn, taken]);
        left -= reservation;
        let slot = &mut memory.slots[slot as usize];
        (slot.reservation, slot.drawn) = (reservation, drawn);
    }
}

/// Each of the touched blocks is touched by one of the active slots.
fn touch(random: &mut Random, memory: &mut Memory) {
    let is_active = |slot: &usize| memory.slots[*slot].state != SlotState::Idle;
    let active: Vec<usize> = (0..8).filter(is_active).collect();
    let touched_percent = if active.is_empty() { 0 } else { random.choose(&[0, 5, 50, 95, 100]) };
    for block in some_blocks(random, memory.blocks, touched_percent) {
        flip(&mut memory.com, block);
        flip(&mut memory.slots[random.choose(&active)].tam, block);
    }
}

/// About this part of the blocks.
fn some_blocks(random: &mut Random, blocks: u32, percent: u32) -> Vec<u32> {
    (0..blocks).filter(|_| random.below(100) < percent).collect()
}

/// Work that this memory may have pending, if there is any.
fn pending(random: &mut Random, memory: &Memory) -> Pending {
    let slot = random.below(8);
    let Slot { state, tam, .. } = &memory.slots[slot as usize];
    let changed =
        (0..128).filter(|word| tam.words[*word] != memory.sam.words[*word]).count() as u32;
    if memory.active_slots().next().is_none() && random.one_in(2) {
        let due = 2 + random.below(memory.blocks.div_ceil(32));
        Pending::Recovery { done: random.below(due), due }
    } else if *state == SlotState::Precommitted && changed > 0 && random.one_in(2) {
        let due = 3 * changed + 2;
        Pending::Commit { slot, done: random.below(due), due }
    } else {
        Pending::Nothing
    }
}

fn flip(bitmap: &mut Bitmap, block: u32) {
    bitmap.words[block as usize / 32] ^= 1 << (block % 32);
}
