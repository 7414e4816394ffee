//! Reserves: the ways to their causes, accepted ones, and reservations that keep blocks from other
//! slots.

use super::Damage;
use crate::calls::MAX_COUNT;
use crate::error::Error;
use crate::line::Operation;
use crate::memory::{Memory, Slot, SlotState};
use crate::test_line::TestLine;

const SMALL_RESERVATION: u32 = 8;
const OTHER_MEMORY_IN: u32 = 3;
const JUST_ENOUGH_IN: u32 = 8;
/// One in this many slots that are started is given a reservation before.
const RESERVING_IN: u32 = 3;

impl Damage {
    /// Brings about that a reserve is refused with this error, or accepted, and gives its slot and
    /// its number.
    pub(super) fn prepare_reserve(&mut self, error: Option<Error>) -> Option<(u32, u32)> {
        match error {
            None => {
                let slot = self.slot_to_reserve_for()?;
                Some((slot, self.right_reservation(slot)))
            }
            Some(Error::SlotNumber) => {
                self.come_to_rest()?;
                Some((self.large_wrong_slot(), self.any_reservation()))
            }
            Some(Error::OverReserved) => {
                let slot = self.slot_to_reserve_for()?;
                Some((slot, self.wrong_reservation(slot)))
            }
            Some(error) => {
                let (slot, _) = self.prepare_refusal(error, Operation::Start)?;
                Some((slot, self.any_reservation()))
            }
        }
    }

    /// An idle slot, mostly one that has a reservation, if there is one; now and then in another
    /// memory that is valid.
    fn slot_to_reserve_for(&mut self) -> Option<u32> {
        let idle = self.slot_in(SlotState::Idle)?;
        let slots = self.state.memory.slots.iter().enumerate();
        let is_reserving = |slot: &Slot| slot.state == SlotState::Idle && slot.reservation > 0;
        let reserving = slots.filter(|(_, slot)| is_reserving(slot)).map(|(index, _)| index as u32);
        let reserving: Vec<u32> = reserving.collect();
        let slot = if reserving.is_empty() || self.random.one_in(3) {
            idle
        } else {
            self.random.choose(&reserving)
        };
        if self.random.one_in(OTHER_MEMORY_IN) {
            self.change_validly();
        }
        Some(slot)
    }

    /// A number for which there are blocks, often all that are left.
    fn right_reservation(&mut self, slot: u32) -> u32 {
        let most = self.left_to(slot);
        let any = self.random.below(most + 1);
        self.random.choose(&[most, any, any.min(SMALL_RESERVATION), 0])
    }

    /// A number for which there are too few blocks: one too many, more, or so many that the sum of
    /// all would wrap.
    fn wrong_reservation(&mut self, slot: u32) -> u32 {
        let most = self.left_to(slot);
        let others = self.reserved_by_others(slot).max(1) as u32;
        let more = most.saturating_add(1 + self.random.below(SMALL_RESERVATION));
        let wrapped = 0_u32.wrapping_sub(others);
        let higher = wrapped.saturating_add(self.random.below(others));
        self.random.choose(&[most + 1, most + 1, more, wrapped, higher, 1 << 31, u32::MAX])
    }

    /// A number for a reserve that may be refused for any reason.
    pub(super) fn any_reservation(&mut self) -> u32 {
        let available = self.available();
        match self.random.below(6) {
            0 => 0,
            1 => available,
            2 => available + 1,
            3 => self.any_word(),
            _ => self.random.below(SMALL_RESERVATION),
        }
    }

    /// Starts an idle slot, now and then with a small reservation, from which its transaction draws.
    pub(super) fn start_reserving(&mut self, slot: u32) {
        if self.random.one_in(RESERVING_IN) {
            let most = self.left_to(slot);
            let blocks = self.random.below(most.min(SMALL_RESERVATION) + 1);
            self.reserve(slot, blocks);
        }
        self.call(Operation::Start, slot, 0);
    }

    /// A reserve in whatever state this is, once in this many times.
    pub(super) fn reserve_one_in(&mut self, times: u32) {
        if self.random.one_in(times) {
            let idle = self.choose_slot(SlotState::Idle).filter(|_| !self.random.one_in(4));
            let slot = idle.unwrap_or_else(|| self.any_slot());
            let blocks = self.any_reservation();
            self.reserve(slot, blocks);
        }
    }

    pub(super) fn reserve(&mut self, slot: u32, blocks: u32) -> Option<Error> {
        self.put_test_line(&TestLine::Reserve { slot, blocks })
    }

    /// Reserves blocks for other slots and gives a count, of at most this many, after which too few
    /// would be left for them, or now and then just enough.
    pub(super) fn leave_to_others(&mut self, slot: u32, most: u32) -> Option<u32> {
        let most = most.min(MAX_COUNT);
        if most == 0 {
            return self.give_up_volume();
        }
        self.lengthen_list();
        let own = self.reservation_of(slot);
        if own > 0 {
            self.alter(TestLine::Reservation { slot, blocks: 0 });
        }
        let count = 1 + self.random.below(most);
        let least = self.available() - count + 1;
        let wanted = least + self.random.choose(&[0, 0, self.available() - least]);
        if self.reserved_by_others(slot) < u64::from(wanted) {
            self.reserve_for_another(slot, wanted);
        }
        let just_enough = count > 1 && self.random.one_in(JUST_ENOUGH_IN);
        Some(if just_enough { count - 1 } else { count })
    }

    /// Another slot gets as much as is missing to this sum of all others' reservations.
    fn reserve_for_another(&mut self, slot: u32, sum: u32) {
        let others = (0..Memory::SLOTS as u32).filter(|other| *other != slot);
        let others: Vec<u32> = others.collect();
        let idle = self.choose_slot(SlotState::Idle).filter(|idle| *idle != slot);
        let other = idle.unwrap_or_else(|| self.random.choose(&others));
        let missing = u64::from(sum) - self.reserved_by_others(slot);
        let blocks = self.reservation_of(other) + missing as u32;
        self.set_reservation(other, blocks);
    }

    /// Gives up the other slots' reservations, so that blocks can be taken.
    pub(super) fn give_up_reservations(&mut self, slot: u32) {
        for other in (0..Memory::SLOTS as u32).filter(|other| *other != slot) {
            if self.reservation_of(other) > 0 {
                self.set_reservation(other, 0);
            }
        }
    }

    /// Sets a reservation by the call if the slot is idle, and otherwise by a test line.
    fn set_reservation(&mut self, slot: u32, blocks: u32) {
        if self.state.memory.slots[slot as usize].state == SlotState::Idle {
            self.reserve(slot, blocks);
        } else {
            self.alter(TestLine::Reservation { slot, blocks });
        }
    }

    /// The available blocks that others' reservations leave to this slot.
    pub(super) fn left_to(&self, slot: u32) -> u32 {
        u64::from(self.available()).saturating_sub(self.reserved_by_others(slot)) as u32
    }

    pub(super) fn reserved_by_others(&self, slot: u32) -> u64 {
        self.state.memory.reserved() - u64::from(self.reservation_of(slot))
    }

    /// The slot's reservation, or 0 if the slot is above 7.
    fn reservation_of(&self, slot: u32) -> u32 {
        self.state.memory.slots.get(slot as usize).map_or(0, |slot| slot.reservation)
    }
}
