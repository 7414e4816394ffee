//! New volumes: valid memories that test lines make, often at the edges of words.

use super::reserves::reserve_some;
use super::textures::{sparse_texture, texture};
use super::Extents;
use crate::bitmap::Bitmap;
use crate::calls::MAX_COUNT;
use crate::line::Operation;
use crate::memory::{Memory, Pending, Slot, SlotState};
use crate::random::Random;
use crate::repair::memory_lines;
use crate::test_line::TestLine;

const SMALL_VOLUMES: [u32; 14] = [1, 2, 31, 32, 33, 63, 64, 65, 95, 96, 97, 127, 128, 129];
const LARGE_VOLUMES: [u32; 2] = [4095, 4096];
const MIDDLE_VOLUMES: (u32, u32) = (200, 1000);
const MIDDLE_VOLUMES_OF_ROUND: u32 = 3;
/// Volumes of more words than these are made in few lines, still more so those of many.
const FEW_WORDS: u32 = 5;
const MANY_WORDS: u32 = 32;
/// On a volume of fewer blocks than these there isn't much to choose.
const FEW_BLOCKS: u32 = 3;
const FEW_EXTENTS: u32 = 20;
const MANY_EXTENTS: (u32, u32) = (65, 115);
const SHOW_IN: u32 = 4;

/// How the blocks that aren't available come to be so. A slot that isn't at work has touched them,
/// or none has.
#[derive(Clone, Copy)]
enum Kind {
    Held,
    Allocating,
    Freeing,
    Mixed,
}

impl Extents {
    /// Makes the memory of a new volume, and in it one or two open slots to work with.
    pub(super) fn make_volume(&mut self) {
        let blocks = self.any_blocks();
        let few_words = Bitmap::words_for(blocks) <= FEW_WORDS;
        self.usual_count = self.any_usual_count(blocks);
        let taken = self.any_texture(blocks);
        let kind = self.any_kind(few_words);
        let mut memory = memory_of(&mut self.random, blocks, &taken, kind);
        let workers = 1 + self.random.below(2);
        let by_test_lines = few_words && self.random.one_in(2);
        if by_test_lines {
            open_slots(&mut self.random, &mut memory, workers);
        }
        memory.cursor = self.any_cursor(blocks);
        reserve_some(&mut self.random, &mut memory);
        self.call(Operation::Crash, 0, 0);
        self.alter(TestLine::List { places: MAX_COUNT });
        memory_lines(&Memory::ZEROS, &memory).into_iter().for_each(|line| self.alter(line));
        if !by_test_lines {
            (0..workers).for_each(|_| self.start_a_slot());
        }
        if self.random.one_in(SHOW_IN) {
            self.alter(TestLine::Show);
        }
        self.extents_left = self.any_number_of_extents(blocks);
    }

    /// One of a round of block counts, mostly small ones, for which few lines are needed.
    fn any_blocks(&mut self) -> u32 {
        if self.sizes.is_empty() {
            self.sizes.extend(SMALL_VOLUMES);
            for _ in 0..MIDDLE_VOLUMES_OF_ROUND {
                let middle = self.within(MIDDLE_VOLUMES);
                self.sizes.push(middle);
            }
            self.sizes.push(self.random.choose(&LARGE_VOLUMES));
        }
        let index = self.random.below(self.sizes.len() as u32);
        self.sizes.swap_remove(index as usize)
    }

    /// On a volume of many words often one for which few lines are needed.
    fn any_texture(&mut self, blocks: u32) -> Bitmap {
        let words = Bitmap::words_for(blocks);
        let is_sparse = match words {
            _ if words > MANY_WORDS => !self.random.one_in(4),
            _ if words > FEW_WORDS => self.random.one_in(2),
            _ => false,
        };
        if is_sparse {
            sparse_texture(&mut self.random, blocks)
        } else {
            texture(&mut self.random, blocks, self.usual_count)
        }
    }

    fn any_number_of_extents(&mut self, blocks: u32) -> u32 {
        if blocks < FEW_BLOCKS {
            FEW_EXTENTS
        } else {
            self.within(MANY_EXTENTS)
        }
    }

    fn within(&mut self, (least, most): (u32, u32)) -> u32 {
        least + self.random.below(most + 1 - least)
    }

    /// Often the last block, from which an allocate soon goes round to block 0.
    pub(super) fn any_cursor(&mut self, blocks: u32) -> u32 {
        match self.random.below(6) {
            0 => 0,
            1 | 2 => blocks - 1,
            _ => self.random.below(blocks),
        }
    }

    fn any_usual_count(&mut self, blocks: u32) -> u32 {
        let most = self.random.choose(&[4, 8, 8, 40, MAX_COUNT]);
        1 + self.random.below(most.min(blocks))
    }

    fn any_kind(&mut self, few_words: bool) -> Kind {
        if few_words {
            self.random.choose(&[Kind::Held, Kind::Allocating, Kind::Freeing, Kind::Mixed])
        } else {
            self.random.choose(&[Kind::Freeing, Kind::Freeing, Kind::Freeing, Kind::Held])
        }
    }

    pub(super) fn start_a_slot(&mut self) {
        let idle = slots_in(&self.state.memory, SlotState::Idle);
        if !idle.is_empty() {
            let slot = self.random.choose(&idle);
            self.call(Operation::Start, slot, 0);
        }
    }
}

pub fn slots_in(memory: &Memory, state: SlotState) -> Vec<u32> {
    let slots = 0..Memory::SLOTS as u32;
    slots.filter(|slot| memory.slots[*slot as usize].state == state).collect()
}

/// A valid memory in which just these blocks aren't available.
fn memory_of(random: &mut Random, blocks: u32, taken: &Bitmap, kind: Kind) -> Memory {
    let mut memory = Memory::opened(blocks, Bitmap::EMPTY, Pending::Nothing);
    for (word, taken) in taken.words.into_iter().enumerate() {
        let (sam, com) = match kind {
            Kind::Held => (taken, taken),
            Kind::Allocating => (0, taken),
            Kind::Freeing => (taken, 0),
            Kind::Mixed => mixed(random, taken),
        };
        memory.sam.words[word] = sam;
        memory.com.words[word] = com;
    }
    if memory.com != memory.sam {
        let state =
            random.choose(&[SlotState::Precommitted, SlotState::Precommitted, SlotState::Open]);
        let slot = random.below(Memory::SLOTS as u32) as usize;
        memory.slots[slot] = Slot::unreserved(state, memory.com);
    }
    memory
}

/// Words of SAM and of COM with a 1 in either at just these blocks.
fn mixed(random: &mut Random, taken: u32) -> (u32, u32) {
    let (one, other) = (random.number() as u32, random.number() as u32);
    (taken & one, taken & (!one | other))
}

/// Opens this many idle slots, which have touched nothing.
fn open_slots(random: &mut Random, memory: &mut Memory, wanted: u32) {
    for _ in 0..wanted {
        let idle = slots_in(memory, SlotState::Idle);
        let slot = random.choose(&idle) as usize;
        memory.slots[slot] = Slot::unreserved(SlotState::Open, memory.sam);
    }
}
