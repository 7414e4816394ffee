//! The reserve lines of a history, and the counts of grants where slots have reservations, chosen by
//! the state that the allocator is in.

use super::History;
use crate::calls::{reserve, MAX_COUNT};
use crate::memory::{Memory, Pending, SlotState};

/// One in this many lines is a reserve line while a slot is idle that is to be started, and at other
/// times at rest.
const IDLE_IN: u32 = 3;
const AT_REST_IN: u32 = 12;
/// The same while work is pending or nothing is available, and while the memory is lost.
const IN_WORK_IN: u32 = 30;
const LOST_IN: u32 = 5;
/// Where fewer than one in this many blocks are available, there is little to be reserved.
const SCARCE_IN: u32 = 4;
const WRONG_SLOTS: [u32; 6] = [8, 9, 100, 256, 65_536, u32::MAX];
const SMALL_RESERVATION: u32 = 12;
/// A grant mostly has at most about this part of the volume.
const PART_OF_VOLUME: u32 = 10;
/// One in this many grants is at a limit that the reservations set.
const AT_A_LIMIT_IN: u32 = 3;
/// One in this many grants is asked for without regard to what is reserved for others.
const REGARDLESS_IN: u32 = 4;

impl History {
    /// The next line, if a reserve line is wanted and one is to stand here.
    pub(super) fn next_reserve(&mut self) -> Option<Vec<u8>> {
        if !self.shape.reserves || !self.formatted {
            return None;
        }
        let memory = &self.bench.memory;
        let all_reserved = memory.reserved() == u64::from(memory.available());
        let times = match memory.pending {
            _ if *memory == Memory::ZEROS => LOST_IN,
            Pending::Nothing if memory.available() == 0 => IN_WORK_IN,
            Pending::Nothing if self.idle_slots(self.phase.slots).is_empty() => AT_REST_IN,
            Pending::Nothing => IDLE_IN,
            Pending::Commit { .. } | Pending::Recovery { .. } => IN_WORK_IN,
        };
        if !self.random.one_in(times) {
            return None;
        }
        let slot = self.slot_to_reserve_for();
        let blocks = self.blocks_to_reserve(slot, all_reserved);
        let _ = reserve(&mut self.bench.memory, slot, blocks);
        Some(format!("reserve {slot} {blocks}").into_bytes())
    }

    /// Mostly an idle slot, if there is one, often one that is to be started or that has a
    /// reservation, and now and then none at all.
    fn slot_to_reserve_for(&mut self) -> u32 {
        let slots = &self.bench.memory.slots;
        let idle = self.idle_slots(Memory::SLOTS as u32);
        let to_be_started = self.idle_slots(self.phase.slots);
        let has_reservation = |slot: &u32| slots[*slot as usize].reservation > 0;
        let reserving: Vec<u32> = idle.iter().copied().filter(has_reservation).collect();
        match self.random.below(20) {
            0 => self.random.choose(&WRONG_SLOTS),
            1..=5 if !reserving.is_empty() => self.random.choose(&reserving),
            1..=15 if !to_be_started.is_empty() => self.random.choose(&to_be_started),
            1..=17 if !idle.is_empty() => self.random.choose(&idle),
            _ => self.random.below(Memory::SLOTS as u32),
        }
    }

    /// The idle ones of the first slots.
    fn idle_slots(&self, slots: u32) -> Vec<u32> {
        let is_idle = |slot: &u32| self.bench.memory.slots[*slot as usize].state == SlotState::Idle;
        (0..slots).filter(is_idle).collect()
    }

    /// Whether there are to be reservations and so few blocks are available that more are to be
    /// freed first.
    pub(super) fn is_scarce(&self) -> bool {
        let memory = &self.bench.memory;
        self.shape.reserves && memory.available() < memory.blocks / SCARCE_IN
    }

    /// Often just what can still be reserved, or one more, and often little or nothing, above all
    /// where nothing is left for others.
    fn blocks_to_reserve(&mut self, slot: u32, all_reserved: bool) -> u32 {
        if all_reserved && self.random.one_in(2) {
            return self.random.below(2) * self.random.below(SMALL_RESERVATION);
        }
        let (available, most) = (self.bench.memory.available(), self.left_by_others(slot));
        match self.random.below(20) {
            0..=2 => 0,
            3..=5 => most,
            6 | 7 => most + 1,
            8..=12 => 1 + self.random.below(SMALL_RESERVATION),
            13 | 14 => self.random.below(MAX_COUNT + 1),
            15 | 16 => self.random.below(most + 1),
            17 => available + self.random.below(2),
            _ => self.huge_reservation(available - most),
        }
    }

    /// A number with which the sum of all would wrap, often to one that could be had.
    fn huge_reservation(&mut self, others: u32) -> u32 {
        let wrapped = 0_u32.wrapping_sub(others.max(1));
        let more = self.random.below(self.bench.memory.blocks.max(1)).min(others.saturating_sub(1));
        self.random.choose(&[u32::MAX, 1 << 31, wrapped, wrapped + more, wrapped - 1])
    }

    /// The most blocks that a grant is mostly to have. Where there are to be reservations, it leaves
    /// most of the volume to others.
    pub(super) fn most_of_grant(&self) -> u32 {
        self.phase.most_blocks.min(self.most_of_extent())
    }

    /// The same of an extent, which has no other limit.
    pub(super) fn most_of_extent(&self) -> u32 {
        if self.shape.reserves {
            1 + self.bench.memory.blocks / PART_OF_VOLUME
        } else {
            u32::MAX
        }
    }

    /// The available blocks that the other slots' reservations leave to this one.
    fn left_by_others(&self, slot: u32) -> u32 {
        let memory = &self.bench.memory;
        let own = memory.slots.get(slot as usize).map_or(0, |slot| slot.reservation);
        let others = memory.reserved() - u64::from(own);
        u64::from(memory.available()).saturating_sub(others) as u32
    }

    /// The blocks that a transaction's next grant may have: mostly what others leave to it.
    pub(super) fn available_to(&mut self, slot: u32) -> u32 {
        let (available, left) = (self.bench.memory.available(), self.left_by_others(slot));
        if left < available && self.random.one_in(REGARDLESS_IN) {
            available
        } else {
            left
        }
    }

    /// Where there are reservations, now and then a count at a limit that they set: just the slot's
    /// own or one more, just what others leave to it or one more.
    pub(super) fn count_at_a_limit(&mut self, slot: u32) -> Option<u32> {
        let memory = &self.bench.memory;
        if memory.reserved() == 0 || !self.random.one_in(AT_A_LIMIT_IN) {
            return None;
        }
        let own = self.bench.memory.slots.get(slot as usize)?.reservation;
        let left = self.left_by_others(slot);
        let count = self.random.choose(&[own, own, own + 1, own / 2, left, left + 1, left + 1]);
        Some(count.clamp(1, MAX_COUNT))
    }
}
