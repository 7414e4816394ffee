//! The ways to a state without pending work, to one with it, and to a slot in a wanted state.

use super::log_damage::Fault;
use super::Damage;
use crate::line::Operation;
use crate::memory::{Memory, Pending, SlotState};

/// Pending work with more stores left than this isn't run to its end.
const MOST_STORES: u32 = 24;
/// So many of five times the work is a commit, otherwise a recovery.
const COMMITS_OF_5: u32 = 3;
const MOST_TOUCHES: u32 = 4;
const WRONG_ROLLBACK_IN: u32 = 3;
const STATUS_IN_WORK_IN: u32 = 6;
/// One in this many allocates has another cursor.
const MOVED_CURSOR_IN: u32 = 4;

impl Damage {
    /// Sees to it that nothing is pending, unless too many stores are left.
    pub(super) fn come_to_rest(&mut self) -> Option<()> {
        if self.state.memory == Memory::ZEROS {
            self.call(Operation::Open, 0, 0);
        }
        if self.stores_left() > MOST_STORES && self.random.one_in(3) {
            self.make_volume();
        }
        if self.stores_left() <= MOST_STORES {
            self.make_stores(self.stores_left());
        }
        (self.stores_left() == 0).then_some(())
    }

    /// Sees to it that a commit or a recovery is pending, at any of its stores.
    pub(super) fn come_to_work(&mut self) -> Option<()> {
        if self.stores_left() == 0 {
            if self.random.below(5) < COMMITS_OF_5 {
                self.begin_commit()?;
            } else {
                self.write_log(Fault::Sound);
                self.call(Operation::Open, 0, 0);
            }
            let stores = self.random.below(self.stores_left());
            self.make_stores(stores.min(MOST_STORES));
            self.status_one_in(STATUS_IN_WORK_IN);
        }
        (self.stores_left() > 0).then_some(())
    }

    fn begin_commit(&mut self) -> Option<()> {
        let slot = self.slot_in(SlotState::Open)?;
        for _ in 0..=self.random.below(MOST_TOUCHES) {
            self.touch(slot);
        }
        self.call(Operation::Precommit, slot, 0);
        self.call(Operation::Commit, slot, 0);
        Some(())
    }

    /// Allocates or frees something, if there is something to be had.
    pub(super) fn touch(&mut self, slot: u32) {
        let held = self.block_with(true, true);
        match held {
            Some(block) if self.random.one_in(2) => {
                self.call(Operation::Deallocate, slot, block);
            }
            _ => {
                if let Some(count) = self.right_count(slot) {
                    if self.random.one_in(MOVED_CURSOR_IN) {
                        self.move_the_cursor();
                    }
                    self.call(Operation::Allocate, slot, count);
                }
            }
        }
    }

    /// A slot in this state with nothing pending, brought there by calls if there is none.
    pub(super) fn slot_in(&mut self, state: SlotState) -> Option<u32> {
        self.come_to_rest()?;
        if let Some(slot) = self.choose_slot(state) {
            return Some(slot);
        }
        let slot = self.random.below(Memory::SLOTS as u32);
        if self.state_of(slot) == SlotState::Precommitted || state == SlotState::Idle {
            self.roll_back(slot);
        }
        if self.state_of(slot) == SlotState::Idle && state != SlotState::Idle {
            self.start_reserving(slot);
        }
        if state == SlotState::Precommitted {
            self.call(Operation::Precommit, slot, 0);
        }
        (self.state_of(slot) == state).then_some(slot)
    }

    /// Makes a slot idle by the call that its state needs, now and then after the other one, which
    /// is refused.
    fn roll_back(&mut self, slot: u32) {
        let (right, wrong) = match self.state_of(slot) {
            SlotState::Precommitted => (Operation::Revoke, Operation::Drop),
            SlotState::Open | SlotState::Idle => (Operation::Drop, Operation::Revoke),
        };
        if self.random.one_in(WRONG_ROLLBACK_IN) {
            self.call(wrong, slot, 0);
        }
        self.call(right, slot, 0);
    }

    /// A slot in this state that has touched something, with another one that has too, if so much
    /// can be had.
    pub(super) fn touched_slot_in(&mut self, state: SlotState) -> Option<u32> {
        self.come_to_rest()?;
        if self.touched_slots().len() < 2 {
            self.touch_in_two_slots();
        }
        let mut touched = self.touched_slots();
        touched.retain(|slot| self.state_of(*slot) == state);
        if !touched.is_empty() {
            return Some(self.random.choose(&touched));
        }
        let slot = self.slot_in(SlotState::Open)?;
        self.touch(slot);
        if state == SlotState::Precommitted {
            self.call(Operation::Precommit, slot, 0);
        }
        Some(slot)
    }

    fn touch_in_two_slots(&mut self) {
        self.lengthen_list();
        for slot in self.slots_to_touch(2) {
            if self.state_of(slot) == SlotState::Open {
                self.touch(slot);
            }
        }
    }

    /// The slots that have touched something.
    fn touched_slots(&self) -> Vec<u32> {
        let memory = &self.state.memory;
        let mut slots = self.active_slots();
        slots.retain(|slot| memory.touched_blocks(&memory.slots[*slot as usize].tam) > 0);
        slots
    }

    /// One of the slots in this state, if there is one.
    pub(super) fn choose_slot(&mut self, state: SlotState) -> Option<u32> {
        let slots = (0..Memory::SLOTS as u32).filter(|slot| self.state_of(*slot) == state);
        let slots: Vec<u32> = slots.collect();
        (!slots.is_empty()).then(|| self.random.choose(&slots))
    }

    pub(super) fn active_slots(&self) -> Vec<u32> {
        let active = |slot: &u32| self.state_of(*slot) != SlotState::Idle;
        (0..Memory::SLOTS as u32).filter(active).collect()
    }

    fn state_of(&self, slot: u32) -> SlotState {
        self.state.memory.slots[slot as usize].state
    }

    pub(super) fn stores_left(&self) -> u32 {
        match self.state.memory.pending {
            Pending::Nothing => 0,
            Pending::Commit { done, due, .. } | Pending::Recovery { done, due } => {
                due.saturating_sub(done)
            }
        }
    }

    pub(super) fn make_stores(&mut self, stores: u32) {
        for _ in 0..stores {
            self.call(Operation::Store, 0, 0);
        }
    }
}
