//! The extent lines of a history, chosen by the state that the allocator is in.

use super::History;
use crate::calls::{allocate_extent, MAX_COUNT};
use crate::memory::{Memory, Pending, SlotState};
use crate::ranges::{available_ranges, between_starts, longest};
use std::ops::Range;

/// One in this many lines at rest is an extent line, and where no block is available.
const AT_REST_IN: u32 = 4;
const FULL_IN: u32 = 12;
/// The same while work is pending, and while the memory is lost.
const IN_WORK_IN: u32 = 30;
const LOST_IN: u32 = 5;
const WRONG_SLOTS: [u32; 6] = [8, 9, 100, 256, 65_536, u32::MAX];
const WRONG_COUNTS: [u32; 6] = [0, 0, 65, 65, 4096, u32::MAX];
/// Blocks from m on are m and this much more.
const BEYOND: [u32; 5] = [0, 0, 1, 32, 65_536];

impl History {
    /// The next line, if an extent line is wanted and one is to stand here.
    pub(super) fn next_extent(&mut self) -> Option<Vec<u8>> {
        if !self.shape.extents || !self.formatted {
            return None;
        }
        let ranges = available_ranges(&self.bench.memory);
        let times = match self.bench.memory.pending {
            _ if self.bench.memory == Memory::ZEROS => LOST_IN,
            Pending::Nothing if ranges.is_empty() || self.is_scarce() => FULL_IN,
            Pending::Nothing => AT_REST_IN,
            Pending::Commit { .. } | Pending::Recovery { .. } => IN_WORK_IN,
        };
        if !self.random.one_in(times) {
            return None;
        }
        let slot = self.slot_for_extent();
        let at_a_limit = self.count_at_a_limit(slot);
        let most = longest(&ranges).min(self.most_of_extent());
        let count = at_a_limit.unwrap_or_else(|| self.count_of_extent(most));
        let near = self.near_of_extent(&ranges, count);
        let _ = allocate_extent(&mut self.bench.memory, slot, count, near, &mut self.bench.list);
        Some(format!("extent {slot} {count} {near}").into_bytes())
    }

    /// Mostly an open slot, if there is one, and now and then none at all.
    fn slot_for_extent(&mut self) -> u32 {
        let slots = &self.bench.memory.slots;
        let is_open = |slot: &u32| slots[*slot as usize].state == SlotState::Open;
        let open: Vec<u32> = (0..Memory::SLOTS as u32).filter(is_open).collect();
        match self.random.below(20) {
            0 => self.random.choose(&WRONG_SLOTS),
            1..=16 if !open.is_empty() => self.random.choose(&open),
            _ => self.random.below(Memory::SLOTS as u32),
        }
    }

    /// Mostly a small count, and often not more than can be had.
    fn count_of_extent(&mut self, most: u32) -> u32 {
        match self.random.below(20) {
            0 => self.random.choose(&WRONG_COUNTS),
            1..=4 => 1 + self.random.below(4),
            5..=8 => 1 + self.random.below(most.min(4)),
            9..=11 => 1 + self.random.below(most.min(16)),
            12 | 13 => most.clamp(1, MAX_COUNT),
            14 => (most + 1).min(MAX_COUNT),
            15 => 1 + self.random.below(16),
            16 => MAX_COUNT,
            _ => 1 + self.random.below(MAX_COUNT),
        }
    }

    /// A block anywhere, at an end of the volume, in and around what was granted, or between two
    /// starts.
    fn near_of_extent(&mut self, ranges: &[Range<u32>], count: u32) -> u32 {
        let blocks = self.bench.memory.blocks;
        let last = blocks.saturating_sub(1);
        match self.random.below(20) {
            0 => blocks + self.random.choose(&BEYOND),
            1 | 2 => 0,
            3 | 4 => last,
            5..=8 => self.random.below(blocks),
            9..=12 => self.block_around_listed().min(last),
            13..=16 => self.block_around_taken().min(last),
            _ => match between_starts(ranges, count.clamp(1, MAX_COUNT)).as_slice() {
                [] => self.random.below(blocks),
                between => self.random.choose(between),
            },
        }
    }

    /// A block that the list has, or one next to it.
    fn block_around_listed(&mut self) -> u32 {
        let block = self.random.choose(&self.bench.list);
        self.next_to(block)
    }

    /// A block that transactions took and haven't committed, if there is one, or one next to it.
    fn block_around_taken(&mut self) -> u32 {
        let Memory { blocks, sam, com, .. } = &self.bench.memory;
        let is_taken = |block: &u32| !sam.has(*block) && com.has(*block);
        let first = self.random.below(*blocks);
        let block = (first..*blocks).chain(0..first).find(is_taken).unwrap_or(first);
        self.next_to(block)
    }

    fn next_to(&mut self, block: u32) -> u32 {
        self.random.choose(&[block.saturating_sub(1), block, block + 1])
    }
}
