//! Other memories that are valid, mostly with several transactions that have touched blocks.

use super::Damage;
use crate::bitmap::Bitmap;
use crate::memory::SlotState;
use crate::test_line::TestLine;

const MOST_SLOTS: u32 = 3;
const MOST_TOUCHES: u32 = 2;
const MOST_CHANGES: u32 = 2;
/// A volume with fewer blocks can't have one of each of the four kinds that status counts.
const LEAST_BLOCKS: u32 = 4;
const STATUS_IN: u32 = 2;
const COST_IN: u32 = 3;
const EXTENT_IN: u32 = 4;

impl Damage {
    /// Some transactions touch blocks. Then the memory is changed so that it stays valid, though
    /// its disk is another's.
    pub(super) fn make_other_memory(&mut self) -> Option<()> {
        self.come_to_rest()?;
        self.touch_in_some_slots();
        self.status_one_in(STATUS_IN);
        for _ in 0..=self.random.below(MOST_CHANGES) {
            self.change_validly();
            self.status_one_in(STATUS_IN);
            self.cost_one_in(COST_IN);
            self.extent_one_in(EXTENT_IN);
        }
        Some(())
    }

    /// Changes the memory so that it stays valid.
    pub(super) fn change_validly(&mut self) {
        match self.random.below(6) {
            _ if self.state.memory.blocks < LEAST_BLOCKS => self.move_the_end(),
            5 => self.change_reservations_validly(),
            0 => {
                let block = self.volume_block();
                self.flip_everywhere(block);
            }
            1 => self.move_the_end(),
            2 => self.move_the_cursor(),
            _ => self.replace_a_word_everywhere(),
        }
        self.fit_reservations();
    }

    /// Another cursor, often the last block: from there an allocate soon goes round to block 0.
    pub(super) fn move_the_cursor(&mut self) {
        let last = self.state.memory.blocks.saturating_sub(1);
        let block = if self.random.one_in(2) { last } else { self.volume_block() };
        self.alter(TestLine::Cursor { block });
    }

    fn touch_in_some_slots(&mut self) {
        self.lengthen_list();
        let slots = 1 + self.random.below(MOST_SLOTS) as usize;
        for slot in self.slots_to_touch(slots) {
            let open = self.state.memory.slots[slot as usize].state == SlotState::Open;
            let touches = if open { 1 + self.random.below(MOST_TOUCHES) } else { 0 };
            (0..touches).for_each(|_| self.touch(slot));
        }
    }

    /// Another block count with which no bitmap has a bit too many.
    fn move_the_end(&mut self) {
        let least = self.least_blocks();
        let any = least + self.random.below(Bitmap::MAX_BLOCKS + 1 - least);
        let edge = least.next_multiple_of(Bitmap::WORD_BITS);
        let blocks = self.random.choose(&[least, edge, any, Bitmap::MAX_BLOCKS]);
        self.put_blocks(blocks);
    }

    /// As few blocks as there can be, for fewer available ones.
    pub(super) fn cut_off_the_end(&mut self) {
        let blocks = self.least_blocks();
        self.put_blocks(blocks);
        self.fit_reservations();
    }

    /// Sets the block count, not 0, and before it a cursor that it would leave outside.
    fn put_blocks(&mut self, blocks: u32) {
        if self.state.memory.cursor >= blocks {
            let block = self.random.choose(&[0, blocks - 1]);
            self.alter(TestLine::Cursor { block });
        }
        self.alter(TestLine::Blocks { blocks });
    }

    fn least_blocks(&self) -> u32 {
        let memory = &self.state.memory;
        (0..memory.blocks).rev().find(|b| !memory.is_available(*b)).map_or(1, |last| last + 1)
    }

    /// Another word in SAM, of which each active slot has touched some blocks and none another's.
    fn replace_a_word_everywhere(&mut self) {
        let words = Bitmap::words_for(self.state.memory.blocks);
        let index = self.random.below(words);
        let bits = Bitmap::volume_bits(self.state.memory.blocks, index as usize);
        let sam = self.some_of(bits);
        let mut untouched = bits;
        self.alter(TestLine::Sam { index, word: sam });
        for slot in self.active_slots() {
            let touched = self.some_of(untouched);
            untouched ^= touched;
            self.alter(TestLine::Tam { slot, index, word: sam ^ touched });
        }
        self.alter(TestLine::Com { index, word: sam ^ bits ^ untouched });
    }

    /// Some of these bits, mostly about half of them.
    fn some_of(&mut self, bits: u32) -> u32 {
        let word = match self.random.below(3) {
            0 => self.any_word(),
            _ => self.random.number() as u32,
        };
        word & bits
    }
}
