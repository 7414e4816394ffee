//! Other pending work in the memory: almost right, so that one rule of validity alone speaks
//! against it, or for another disk.

use super::Damage;
use crate::bitmap::Bitmap;
use crate::codes::pending_codes;
use crate::line::Operation;
use crate::memory::{Pending, SlotState};
use crate::store_list::StoreList;
use crate::test_line::TestLine;

const MADE_UP_IN: u32 = 4;
const UNTOUCHED_IN: u32 = 3;

impl Damage {
    /// Changes one of the pending work's numbers by one, or makes up other work.
    pub(super) fn change_pending(&mut self) {
        let pending = self.state.memory.pending;
        let codes = if pending == Pending::Nothing || self.random.one_in(MADE_UP_IN) {
            self.made_up_codes()
        } else {
            let mut codes = pending_codes(pending);
            let changed = 1 + self.random.below(3) as usize;
            codes[changed] = codes[changed].wrapping_add(self.random.choose(&[1, u32::MAX]));
            codes
        };
        self.alter(TestLine::Pending { codes });
    }

    fn made_up_codes(&mut self) -> [u32; 4] {
        match self.random.below(7) {
            0 => [0, 0, 0, 0],
            1..=3 => self.codes_of_a_commit(),
            _ => self.codes_of_a_recovery(),
        }
    }

    fn codes_of_a_commit(&mut self) -> [u32; 4] {
        let slot = self.precommitted_slot().unwrap_or_else(|| self.any_slot());
        let memory = &self.state.memory;
        let tam = memory.slots.get(slot as usize).map(|slot| &slot.tam);
        let changed = tam.map_or(1, |tam| memory.changed_words(tam));
        let step = self.random.choose(&[0, 0, 0, 0, 1, u32::MAX, 3]);
        let due = StoreList::due_for(changed).wrapping_add(step);
        [1, slot, self.done_of(due), due]
    }

    /// A precommitted slot, now and then one that has touched nothing, so that a commit of it would
    /// have no store.
    fn precommitted_slot(&mut self) -> Option<u32> {
        let idle = self.choose_slot(SlotState::Idle).filter(|_| self.random.one_in(2));
        let at_rest = self.state.memory.pending == Pending::Nothing;
        let Some(slot) = idle.filter(|_| at_rest) else {
            return self.choose_slot(SlotState::Precommitted);
        };
        self.start_reserving(slot);
        if !self.random.one_in(UNTOUCHED_IN) {
            self.touch(slot);
        }
        self.call(Operation::Precommit, slot, 0);
        Some(slot)
    }

    fn codes_of_a_recovery(&mut self) -> [u32; 4] {
        let most = Bitmap::words_for(self.state.memory.blocks) + 1;
        let due = self.random.choose(&[0, 1, 1, 2, 2, most, most + 1, most + 1, 129, u32::MAX]);
        [2, 0, self.done_of(due), due]
    }

    fn done_of(&mut self, due: u32) -> u32 {
        self.random.choose(&[0, 0, 1, due.wrapping_sub(1), due, due, due.wrapping_add(1)])
    }
}
