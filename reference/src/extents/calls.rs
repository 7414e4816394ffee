//! The calls on a volume: extents near blocks where the choice between two starts is close, and now
//! and then another call.

use super::volumes::slots_in;
use super::Extents;
use crate::calls::MAX_COUNT;
use crate::line::Operation;
use crate::memory::{Memory, SlotState};
use crate::ranges::{between_starts, longest};
use crate::test_line::TestLine;

const SHOW_IN: u32 = 70;
const ALLOCATE_IN: u32 = 55;
/// One in this many extents is followed by an allocate, which carries on behind it.
const FOLLOWED_IN: u32 = 30;
const MOVED_CURSOR_IN: u32 = 2;
const DEALLOCATE_IN: u32 = 60;
const RESERVE_IN: u32 = 150;
/// The same where all that is available is reserved for others.
const RESERVE_IF_BLOCKED_IN: u32 = 6;
const SHORT_LIST_IN: u32 = 70;
const LONG_LIST_IN: u32 = 4;
const NEW_START_IN: u32 = 55;
/// The same where no block is available.
const NEW_START_IF_FULL_IN: u32 = 5;
const PRECOMMIT_IN: u32 = 3;
const WRONG_ROLLBACK_IN: u32 = 3;
/// Where nothing can be had at all, no more extents than these are asked for.
const MOST_IN_VAIN: u32 = 5;
const OTHER_SLOT_IN: u32 = 60;
const WRONG_COUNT_IN: u32 = 60;
const WRONG_NEAR_IN: u32 = 40;
const WRONG_COUNTS: [u32; 4] = [0, 65, 66, u32::MAX];
const EDGE_COUNTS: [u32; 6] = [1, 31, 32, 33, 63, 64];
const SMALL_COUNT: u32 = 8;
/// Blocks from m on are m and this much more.
const BEYOND: [u32; 5] = [0, 0, 0, 1, u32::MAX];

impl Extents {
    pub(super) fn make_a_call(&mut self) {
        let full = longest(&self.ranges()) == 0;
        let new_start_in = if full { NEW_START_IF_FULL_IN } else { NEW_START_IN };
        let reserve_in = if self.is_blocked() { RESERVE_IF_BLOCKED_IN } else { RESERVE_IN };
        let touched = self.touched_open_slots();
        if full && touched.is_empty() {
            self.extents_left = self.extents_left.min(MOST_IN_VAIN);
        }
        if self.random.one_in(SHOW_IN) {
            self.alter(TestLine::Show);
        } else if !touched.is_empty() && self.random.one_in(new_start_in) {
            let slot = self.random.choose(&touched);
            self.start_anew(slot);
        } else if self.random.one_in(ALLOCATE_IN) {
            if self.random.one_in(MOVED_CURSOR_IN) {
                let block = self.any_cursor(self.state.memory.blocks);
                self.alter(TestLine::Cursor { block });
            }
            self.allocate_a_few();
        } else if self.random.one_in(DEALLOCATE_IN) {
            self.free_a_block();
        } else if self.random.one_in(reserve_in) {
            self.reserve_anew();
        } else {
            self.make_an_extent();
            if self.random.one_in(FOLLOWED_IN) {
                self.allocate_a_few();
            }
        }
    }

    fn make_an_extent(&mut self) {
        self.extents_left -= 1;
        self.lend_another_list();
        let (slot, count) = (self.any_slot(), self.any_count());
        let near = self.any_near(count);
        self.alter(TestLine::Extent { slot, count, near });
    }

    fn allocate_a_few(&mut self) {
        let (slot, count) = (self.open_slot(), 1 + self.random.below(4));
        self.call(Operation::Allocate, slot, count);
    }

    /// Rolls an open slot back, now and then as a precommitted one, and starts it anew. The call
    /// that serves the other state comes first now and then.
    fn start_anew(&mut self, slot: u32) {
        let (mut right, mut wrong) = (Operation::Drop, Operation::Revoke);
        if self.random.one_in(PRECOMMIT_IN) {
            self.call(Operation::Precommit, slot, 0);
            (right, wrong) = (wrong, right);
        }
        if self.random.one_in(WRONG_ROLLBACK_IN) {
            self.call(wrong, slot, 0);
        }
        self.call(right, slot, 0);
        self.call(Operation::Start, slot, 0);
    }

    /// The open slots that have touched something.
    fn touched_open_slots(&self) -> Vec<u32> {
        let memory = &self.state.memory;
        let mut open = slots_in(memory, SlotState::Open);
        open.retain(|slot| memory.touched_blocks(&memory.slots[*slot as usize].tam) > 0);
        open
    }

    /// Frees a block with SAM 1, if there is one.
    fn free_a_block(&mut self) {
        let Memory { blocks, sam, .. } = &self.state.memory;
        let first = self.random.below(*blocks);
        let held = (first..*blocks).chain(0..first).find(|block| sam.has(*block));
        if let Some(block) = held {
            let slot = self.open_slot();
            self.call(Operation::Deallocate, slot, block);
        }
    }

    /// Now and then shortens the list, for a few calls.
    fn lend_another_list(&mut self) {
        if self.state.places < MAX_COUNT as usize && self.random.one_in(LONG_LIST_IN) {
            self.alter(TestLine::List { places: MAX_COUNT });
        } else if self.random.one_in(SHORT_LIST_IN) {
            let places = self.random.choose(&[0, 1, 2, 8, 8, 63]);
            self.alter(TestLine::List { places });
        }
    }

    /// An open slot, of which there always is one.
    fn open_slot(&mut self) -> u32 {
        let open = slots_in(&self.state.memory, SlotState::Open);
        self.random.choose(&open)
    }

    fn any_slot(&mut self) -> u32 {
        if self.random.one_in(OTHER_SLOT_IN) {
            self.random.below(Memory::SLOTS as u32 + 1)
        } else {
            self.open_slot()
        }
    }

    /// Mostly a small count, and often one that just can be had or just can't.
    fn any_count(&mut self) -> u32 {
        if self.random.one_in(WRONG_COUNT_IN) {
            return self.random.choose(&WRONG_COUNTS);
        }
        let most = longest(&self.ranges());
        let count = match self.random.below(16) {
            0 | 1 => 1 + self.random.below(SMALL_COUNT),
            2..=7 => 1 + self.random.below(most.min(SMALL_COUNT)),
            8 | 9 => self.usual_count,
            10 => most,
            11 => most + 1,
            12 => 1 + self.random.below(MAX_COUNT),
            13 => 1 + self.random.below(most),
            14 => self.random.choose(&EDGE_COUNTS),
            _ => 1,
        };
        count.clamp(1, MAX_COUNT)
    }

    /// Often a block between two starts or next to it.
    fn any_near(&mut self, count: u32) -> u32 {
        let blocks = self.state.memory.blocks;
        if self.random.one_in(WRONG_NEAR_IN) {
            return blocks.saturating_add(self.random.choose(&BEYOND));
        }
        let near = match self.random.below(16) {
            0 => 0,
            1 => blocks - 1,
            2..=4 => self.random.below(blocks),
            5..=7 => self.end_of_a_range(),
            8..=13 => self.between(count),
            _ => {
                let between = self.between(count);
                self.next_to(between)
            }
        };
        near.min(blocks - 1)
    }

    /// A block equally far from two starts of extents, if there is one.
    fn between(&mut self, count: u32) -> u32 {
        let between = between_starts(&self.ranges(), count.max(1));
        if between.is_empty() {
            self.random.below(self.state.memory.blocks)
        } else {
            self.random.choose(&between)
        }
    }

    /// A block at or next to the begin or the end of a range of available blocks.
    fn end_of_a_range(&mut self) -> u32 {
        let ends: Vec<u32> =
            self.ranges().iter().flat_map(|range| [range.start, range.end]).collect();
        let end = if ends.is_empty() { 0 } else { self.random.choose(&ends) };
        self.next_to(end)
    }

    fn next_to(&mut self, block: u32) -> u32 {
        self.random.choose(&[block.saturating_sub(1), block, block + 1])
    }
}
