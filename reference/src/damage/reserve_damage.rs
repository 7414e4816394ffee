//! Changes to reservations and to what is drawn: most of which make the memory invalid, and others
//! with which it stays valid.

use super::Damage;
use crate::memory::{Memory, Slot};
use crate::test_line::TestLine;

const SPOILED_IN_WORK_IN: u32 = 2;
/// One in this many of these damages changes all slots.
const ALL_SLOTS_IN: u32 = 4;
/// Eight of each add up to a number that isn't valid or wraps to one that is.
const LARGE: [u32; 3] = [u32::MAX, 1 << 29, 1 << 31];

impl Damage {
    /// Reservations that add up to too much, often to just one block too much, and now and then to
    /// a sum that would wrap.
    pub(super) fn spoil_reservations(&mut self) {
        if self.random.one_in(SPOILED_IN_WORK_IN) {
            self.come_to_work();
        }
        let slot = self.random.below(Memory::SLOTS as u32);
        let left = self.left_to(slot);
        match self.random.below(8) {
            0..=2 => self.put_reservation(slot, left.saturating_add(1)),
            3 => self.put_reservation(slot, left),
            4 => {
                let large = self.random.choose(&LARGE);
                self.put_reservation(slot, large);
            }
            5 if self.random.one_in(ALL_SLOTS_IN) => {
                let large = self.random.choose(&LARGE);
                (0..Memory::SLOTS as u32).for_each(|slot| self.put_reservation(slot, large));
            }
            _ => self.wrap_the_sum(slot),
        }
    }

    /// A reservation with which the sum of all wraps to one that could be had.
    fn wrap_the_sum(&mut self, slot: u32) {
        if self.reserved_by_others(slot) == 0 {
            let slots = Memory::SLOTS as u32;
            let other = (slot + 1 + self.random.below(slots - 1)) % slots;
            let blocks = self.random.choose(&[1, 1 << 31]);
            self.put_reservation(other, blocks);
        }
        let others = self.reserved_by_others(slot) as u32;
        let wrapped = 0_u32.wrapping_sub(others);
        let sum = self.random.below(self.available() + 1).min(others.saturating_sub(1));
        self.put_reservation(slot, wrapped.saturating_add(sum));
    }

    /// More drawn than the slot took, often one block more, in idle slots too. Now and then just
    /// what it took.
    pub(super) fn spoil_drawn(&mut self) {
        if self.random.one_in(SPOILED_IN_WORK_IN) {
            self.come_to_work();
        }
        let active = self.active_slots();
        let slot = if active.is_empty() || self.random.one_in(2) {
            self.random.below(Memory::SLOTS as u32)
        } else {
            self.random.choose(&active)
        };
        let taken = self.taken(slot);
        let blocks = self.random.choose(&[taken + 1, taken + 1, taken + 1, u32::MAX, taken]);
        self.put_drawn(slot, blocks);
    }

    /// Other reservations or another drawn number with which the memory stays valid.
    pub(super) fn change_reservations_validly(&mut self) {
        let slot = self.random.below(Memory::SLOTS as u32);
        let (left, taken) = (self.left_to(slot), self.taken(slot));
        if taken > 0 && self.random.one_in(2) {
            let any = self.random.below(taken + 1);
            let blocks = self.random.choose(&[taken, any, 0]);
            self.put_drawn(slot, blocks);
        } else {
            let any = self.random.below(left + 1);
            let blocks = self.random.choose(&[left, any, any.min(4), 0]);
            self.put_reservation(slot, blocks);
        }
    }

    /// Lowers what no longer fits after another change that was to leave the memory valid.
    pub(super) fn fit_reservations(&mut self) {
        for slot in 0..Memory::SLOTS as u32 {
            let Slot { reservation, drawn, .. } = self.state.memory.slots[slot as usize];
            let taken = self.taken(slot);
            if drawn > taken {
                self.put_drawn(slot, taken);
            }
            let excess = self.state.memory.reserved().saturating_sub(u64::from(self.available()));
            if excess > 0 && reservation > 0 {
                self.put_reservation(slot, u64::from(reservation).saturating_sub(excess) as u32);
            }
        }
    }

    /// The blocks that the slot took.
    fn taken(&self, slot: u32) -> u32 {
        let memory = &self.state.memory;
        memory.taken_blocks(&memory.slots[slot as usize].tam)
    }

    fn put_reservation(&mut self, slot: u32, blocks: u32) {
        self.alter(TestLine::Reservation { slot, blocks });
    }

    fn put_drawn(&mut self, slot: u32, blocks: u32) {
        self.alter(TestLine::Drawn { slot, blocks });
    }
}
