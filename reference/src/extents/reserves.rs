//! Reservations on a volume, so that extents that could be had are refused: what they leave is often
//! about as much as an extent takes.

use super::volumes::slots_in;
use super::Extents;
use crate::memory::{Memory, SlotState};
use crate::random::Random;
use crate::test_line::TestLine;

/// One in this many volumes has reservations from the start.
const RESERVED_IN: u32 = 5;
const MOST_SLOTS: u32 = 3;
/// The most blocks that reservations leave, where they leave few.
const MOST_LEFT: u32 = 24;

/// Now and then reserves most of the available blocks of a new volume, for some slots.
pub fn reserve_some(random: &mut Random, memory: &mut Memory) {
    if !random.one_in(RESERVED_IN) {
        return;
    }
    let available = memory.available();
    let any = random.below(available + 1);
    let few = random.below(MOST_LEFT + 1).min(available);
    let mut to_reserve = available - random.choose(&[any, few, few]);
    for turn in (0..=random.below(MOST_SLOTS)).rev() {
        let part = if turn == 0 { to_reserve } else { random.below(to_reserve + 1) };
        to_reserve -= part;
        memory.slots[random.below(Memory::SLOTS as u32) as usize].reservation += part;
    }
}

impl Extents {
    /// Whether a slot at work can have nothing for what is reserved for others.
    pub(super) fn is_blocked(&self) -> bool {
        let memory = &self.state.memory;
        let is_blocked =
            |slot: &u32| memory.reserved_by_others(*slot as usize) == u64::from(memory.available());
        memory.reserved() > 0 && slots_in(memory, SlotState::Open).iter().any(is_blocked)
    }

    /// Another reservation for an idle slot, mostly for one that has one: none, less, all that can be
    /// reserved, or one more.
    pub(super) fn reserve_anew(&mut self) {
        let memory = &self.state.memory;
        let idle = slots_in(memory, SlotState::Idle);
        let has_reservation = |slot: &u32| memory.slots[*slot as usize].reservation > 0;
        let reserving: Vec<u32> = idle.iter().copied().filter(has_reservation).collect();
        let slots = if reserving.is_empty() { idle } else { reserving };
        if slots.is_empty() {
            return;
        }
        let slot = self.random.choose(&slots);
        let memory = &self.state.memory;
        let (available, others) =
            (u64::from(memory.available()), memory.reserved_by_others(slot as usize));
        let left = available.saturating_sub(others) as u32;
        let (less, few) = (left / 2, left.saturating_sub(self.random.below(MOST_LEFT)));
        let blocks = self.random.choose(&[0, 0, less, few, few, left, left + 1]);
        self.alter(TestLine::Reserve { slot, blocks });
    }
}
