//! Small changes to the memory's bitmaps, slots, block count and cursor, most of which make it
//! invalid. Those to reservations stand in their own file.

use super::Damage;
use crate::bitmap::Bitmap;
use crate::codes::slot_state_code;
use crate::memory::{Memory, Pending, SlotState};
use crate::test_line::TestLine;

const SPOILED_IN_WORK_IN: u32 = 2;
/// Cursors that no volume has a block for.
const CURSORS_ABOVE: [u32; 6] = [4096, 4097, 65_536, 1 << 31, u32::MAX - 1, u32::MAX];

/// A bitmap of the memory.
#[derive(Clone, Copy)]
enum Map {
    Sam,
    Com,
    Tam(u32),
}

impl Damage {
    pub(super) fn damage_memory(&mut self) {
        match self.random.below(25) {
            0 | 1 => self.flip_a_bit(),
            2 => self.flip_an_outer_bit(),
            3 | 4 => {
                let block = self.outer_block().unwrap_or(0);
                self.flip_everywhere(block);
            }
            5..=8 => self.touch_by_several(),
            9 | 10 => self.change_state(),
            11 => self.change_blocks(),
            12..=14 => self.change_pending(),
            15..=17 => self.spoil_cursor(),
            18..=20 => self.spoil_reservations(),
            21..=23 => self.spoil_drawn(),
            _ => self.replace_a_word(),
        }
    }

    /// Flips the block's bit in SAM, in COM and in the bitmap of each active slot: below m the
    /// memory stays valid, but its disk is another's.
    pub(super) fn flip_everywhere(&mut self, block: u32) {
        self.flip(Map::Sam, block);
        self.flip(Map::Com, block);
        self.active_slots().into_iter().for_each(|slot| self.flip(Map::Tam(slot), block));
    }

    fn flip_a_bit(&mut self) {
        let (map, block) = (self.any_map(), self.volume_block());
        self.flip(map, block);
    }

    fn flip_an_outer_bit(&mut self) {
        let map = self.any_map();
        let block = self.outer_block().unwrap_or(0);
        self.flip(map, block);
    }

    /// Up to three active slots touch one block, and COM follows or not. Rightly just one does, and
    /// COM follows; with two and COM as it was, or three and COM changed, the parity is right.
    fn touch_by_several(&mut self) {
        let block = self.volume_block();
        let slots = self.random.choose(&[1, 2, 2, 3]);
        let slots = self.slots_to_touch(slots);
        let odd = slots.len() % 2 == 1;
        slots.into_iter().for_each(|slot| self.flip(Map::Tam(slot), block));
        if odd != self.random.one_in(4) {
            self.flip(Map::Com, block);
        }
    }

    /// This many active slots, some of them started for it, or fewer if work is pending.
    pub(super) fn slots_to_touch(&mut self, wanted: usize) -> Vec<u32> {
        let mut slots = self.active_slots();
        let first = self.random.below(slots.len() as u32) as usize;
        slots.rotate_left(first);
        slots.truncate(wanted);
        let at_rest = self.state.memory.pending == Pending::Nothing;
        let missing = if at_rest { wanted - slots.len() } else { 0 };
        for _ in 0..missing {
            if let Some(slot) = self.choose_slot(SlotState::Idle) {
                self.start_reserving(slot);
                slots.push(slot);
            }
        }
        slots
    }

    fn change_state(&mut self) {
        let slot = self.random.below(Memory::SLOTS as u32);
        let code = slot_state_code(self.state.memory.slots[slot as usize].state);
        let code = (code + 1 + self.random.below(2)) % 3;
        self.alter(TestLine::State { slot, code });
    }

    fn change_blocks(&mut self) {
        let blocks = self.state.memory.blocks;
        let (less, more) = (blocks.wrapping_sub(1), blocks.wrapping_add(1));
        let blocks = self.random.choose(&[0, less, less, more, 1, 4096, 4097, u32::MAX]);
        self.alter(TestLine::Blocks { blocks });
    }

    /// A cursor of m or above, often m itself, now and then while work is pending.
    fn spoil_cursor(&mut self) {
        if self.random.one_in(SPOILED_IN_WORK_IN) {
            self.come_to_work();
        }
        let above = self.random.choose(&CURSORS_ABOVE);
        let blocks = self.state.memory.blocks;
        let block = self.random.choose(&[blocks, blocks, blocks.saturating_add(1), above, above]);
        self.alter(TestLine::Cursor { block });
    }

    fn replace_a_word(&mut self) {
        let index = self.random.below(Bitmap::WORDS as u32);
        let word = self.any_word();
        let line = match self.any_map() {
            Map::Sam => TestLine::Sam { index, word },
            Map::Com => TestLine::Com { index, word },
            Map::Tam(slot) => TestLine::Tam { slot, index, word },
        };
        self.alter(line);
    }

    fn any_map(&mut self) -> Map {
        let slot = self.random.below(Memory::SLOTS as u32);
        self.random.choose(&[Map::Sam, Map::Com, Map::Tam(slot), Map::Tam(slot)])
    }

    fn flip(&mut self, map: Map, block: u32) {
        let (index, bit) = (block / Bitmap::WORD_BITS, 1 << (block % Bitmap::WORD_BITS));
        let memory = &self.state.memory;
        let flipped = |bitmap: &Bitmap| bitmap.words[index as usize] ^ bit;
        let line = match map {
            Map::Sam => TestLine::Sam { index, word: flipped(&memory.sam) },
            Map::Com => TestLine::Com { index, word: flipped(&memory.com) },
            Map::Tam(slot) => {
                let word = flipped(&memory.slots[slot as usize].tam);
                TestLine::Tam { slot, index, word }
            }
        };
        self.alter(line);
    }
}
