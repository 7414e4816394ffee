//! Arguments of calls: in range, at the edges, out of range.

use super::Damage;
use crate::bitmap::Bitmap;
use crate::line::Operation;
use crate::memory::Memory;

const WRONG_SLOTS: [u32; 6] = [8, 9, 16, 256, 65_536, 99_999];
/// The same for test lines, whose numbers may be larger.
const LARGE_WRONG_SLOTS: [u32; 6] = [8, 9, 15, 256, 65_536, u32::MAX];
const WRONG_COUNTS: [u32; 7] = [0, 65, 66, 128, 4096, 65_537, 99_999];
const EDGE_COUNTS: [u32; 6] = [1, 2, 31, 32, 63, 64];
const WRONG_BLOCK_COUNTS: [u32; 5] = [0, 4097, 4128, 65_537, 99_999];
const EDGE_BLOCK_COUNTS: [u32; 6] = [1, 31, 32, 33, 4095, 4096];
/// Block numbers are m and this much more.
const BEYOND: [u32; 5] = [0, 0, 1, 32, 65_536];
const LARGEST_NUMBER: u32 = 99_999;
const WRONG_IN: u32 = 4;
const FORMAT_IN: u32 = 6;

impl Damage {
    /// Any operation, but seldom a format, after which most is lost.
    pub(super) fn any_operation(&mut self) -> Operation {
        let operation = self.random.choose(&Operation::ALL);
        let kept = operation != Operation::Format || self.random.one_in(FORMAT_IN);
        if kept {
            operation
        } else {
            Operation::Store
        }
    }

    /// A slot and a number for a call that may be refused for any reason.
    pub(super) fn any_arguments(&mut self, operation: Operation) -> (u32, u32) {
        let wrong = self.random.one_in(WRONG_IN);
        let number = match operation {
            Operation::Format if wrong => self.wrong_block_count(),
            Operation::Format => self.random.choose(&EDGE_BLOCK_COUNTS),
            Operation::Allocate if wrong => self.wrong_count(),
            Operation::Allocate => self.random.choose(&EDGE_COUNTS),
            Operation::Deallocate if wrong => self.wrong_block(),
            Operation::Deallocate => self.volume_block(),
            _ => 0,
        };
        (self.any_slot(), number)
    }

    pub(super) fn any_slot(&mut self) -> u32 {
        if self.random.one_in(WRONG_IN) {
            self.wrong_slot()
        } else {
            self.random.below(Memory::SLOTS as u32)
        }
    }

    pub(super) fn wrong_slot(&mut self) -> u32 {
        self.random.choose(&WRONG_SLOTS)
    }

    pub(super) fn large_wrong_slot(&mut self) -> u32 {
        self.random.choose(&LARGE_WRONG_SLOTS)
    }

    pub(super) fn wrong_count(&mut self) -> u32 {
        self.random.choose(&WRONG_COUNTS)
    }

    pub(super) fn wrong_block_count(&mut self) -> u32 {
        self.random.choose(&WRONG_BLOCK_COUNTS)
    }

    /// A block number from m on.
    pub(super) fn wrong_block(&mut self) -> u32 {
        self.state.memory.blocks.saturating_add(self.random.choose(&BEYOND)).min(LARGEST_NUMBER)
    }

    /// A block below m, often the first or the last.
    pub(super) fn volume_block(&mut self) -> u32 {
        let blocks = self.state.memory.blocks.clamp(1, Bitmap::MAX_BLOCKS);
        match self.random.below(5) {
            0 => 0,
            1 => blocks - 1,
            _ => self.random.below(blocks),
        }
    }

    /// A block from the memory's m on.
    pub(super) fn outer_block(&mut self) -> Option<u32> {
        self.block_from(self.state.memory.blocks)
    }

    /// A block from this one on that a bitmap has a bit for, often the first or the last.
    pub(super) fn block_from(&mut self, blocks: u32) -> Option<u32> {
        let outer = Bitmap::MAX_BLOCKS.checked_sub(blocks).filter(|outer| *outer > 0)?;
        match self.random.below(5) {
            0 | 1 => Some(blocks),
            2 => Some(Bitmap::MAX_BLOCKS - 1),
            _ => Some(blocks + self.random.below(outer)),
        }
    }

    /// One of the blocks with these bits in SAM and COM, if there is one.
    pub(super) fn block_with(&mut self, sam: bool, com: bool) -> Option<u32> {
        let memory = &self.state.memory;
        let has_both = |block: &u32| memory.sam.has(*block) == sam && memory.com.has(*block) == com;
        let blocks: Vec<u32> =
            (0..memory.blocks.min(Bitmap::MAX_BLOCKS)).filter(has_both).collect();
        match self.random.below(4) {
            0 => blocks.first().copied(),
            1 => blocks.last().copied(),
            _ => (!blocks.is_empty()).then(|| self.random.choose(&blocks)),
        }
    }

    /// A number of any size.
    pub(super) fn any_word(&mut self) -> u32 {
        match self.random.below(6) {
            0 => 0,
            1 => u32::MAX,
            _ => self.random.number() as u32 >> self.random.below(32),
        }
    }
}
