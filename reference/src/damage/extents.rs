//! Extents: the ways to their causes, which are mostly allocate's ways, and accepted ones.

use super::Damage;
use crate::calls::MAX_COUNT;
use crate::error::Error;
use crate::line::Operation;
use crate::memory::SlotState;
use crate::ranges::{available_ranges, between_starts, longest};
use crate::test_line::TestLine;
use std::ops::Range;

const WRONG_COUNTS: [u32; 8] = [0, 0, 65, 65, 66, 128, 65_537, u32::MAX];
const EDGE_COUNTS: [u32; 7] = [1, 1, 2, 3, 32, 33, 64];
/// Blocks from m on are m and this much more.
const BEYOND: [u32; 6] = [0, 0, 1, 32, 65_536, u32::MAX];
const WRONG_NEAR_IN: u32 = 5;
const OTHER_MEMORY_IN: u32 = 3;
const SHORT_LIST_IN: u32 = 4;
/// The most extents of one block that break up the long ranges of available blocks.
const MOST_BREAKS: usize = 3;

impl Damage {
    /// Brings about that an extent is refused with this error, or accepted, and gives its slot and
    /// its count.
    pub(super) fn prepare_extent(&mut self, error: Option<Error>) -> Option<(u32, u32)> {
        match error {
            None => {
                let slot = self.slot_for_extent()?;
                Some((slot, self.right_extent_count(slot)?))
            }
            Some(Error::SlotNumber) => {
                self.come_to_rest()?;
                Some((self.large_wrong_slot(), self.any_extent_count()))
            }
            Some(Error::Count) => Some((self.slot_in(SlotState::Open)?, self.wrong_extent_count())),
            Some(error @ Error::ListLength) => self.prepare_refusal(error, Operation::Allocate),
            Some(Error::BlockNumber) => {
                self.lengthen_list();
                Some((self.slot_in(SlotState::Open)?, 1 + self.random.below(MAX_COUNT)))
            }
            Some(Error::NoExtent) => {
                let slot = self.slot_for_extent()?;
                Some((slot, self.leave_no_extent(slot)?))
            }
            Some(Error::ReservedForOthers) => {
                let slot = self.slot_for_extent()?;
                let most = longest(&self.ranges());
                Some((slot, self.leave_to_others(slot, most)?))
            }
            Some(error) => {
                let (slot, _) = self.prepare_refusal(error, Operation::Allocate)?;
                Some((slot, self.any_extent_count()))
            }
        }
    }

    /// A count for which there are adjoining blocks and places, if there are any.
    pub(super) fn right_extent_count(&mut self, slot: u32) -> Option<u32> {
        let most = longest(&self.ranges()).min(MAX_COUNT).min(self.left_to(slot));
        if most == 0 {
            return None;
        }
        let any = 1 + self.random.below(most);
        let count = self.random.choose(&[1, any, any, most]);
        if self.random.one_in(SHORT_LIST_IN) {
            self.alter(TestLine::List { places: count });
        } else {
            self.lengthen_list();
        }
        Some(count)
    }

    /// An open slot, now and then in another memory that is valid.
    fn slot_for_extent(&mut self) -> Option<u32> {
        let slot = self.slot_in(SlotState::Open)?;
        if self.random.one_in(OTHER_MEMORY_IN) {
            self.change_validly();
        }
        Some(slot)
    }

    /// A count for which there are no adjoining blocks, or now and then just enough. Long ranges are
    /// broken up for it. It is nothing if that takes too many extents, without the end of the
    /// volume too.
    fn leave_no_extent(&mut self, slot: u32) -> Option<u32> {
        if breaking_blocks(&self.ranges()).len() > MOST_BREAKS {
            self.cut_off_the_end();
        }
        let breaking = breaking_blocks(&self.ranges());
        if breaking.len() > MOST_BREAKS {
            return self.give_up_volume();
        }
        self.lengthen_list();
        if !breaking.is_empty() {
            self.give_up_reservations(slot);
        }
        for block in breaking {
            self.extent(slot, 1, block);
        }
        let most = longest(&self.ranges());
        self.count_beyond(most)
    }

    /// A block that leads to this error, or to none.
    pub(super) fn near_for(&mut self, error: Option<Error>, count: u32) -> u32 {
        let wrong = match error {
            Some(Error::BlockNumber) => true,
            Some(Error::NoExtent | Error::ReservedForOthers) | None => false,
            Some(_) => self.random.one_in(WRONG_NEAR_IN),
        };
        if wrong {
            self.state.memory.blocks.saturating_add(self.random.choose(&BEYOND))
        } else {
            self.near_in_volume(count)
        }
    }

    /// Any block, or one between two starts of extents, if there are such.
    pub(super) fn near_in_volume(&mut self, count: u32) -> u32 {
        let count = count.clamp(1, MAX_COUNT);
        let between = between_starts(&self.ranges(), count);
        if between.is_empty() || self.random.one_in(2) {
            self.volume_block()
        } else {
            self.random.choose(&between)
        }
    }

    /// An extent in whatever state this is, once in this many times.
    pub(super) fn extent_one_in(&mut self, times: u32) {
        if self.random.one_in(times) {
            let open = self.choose_slot(SlotState::Open).filter(|_| !self.random.one_in(3));
            let slot = open.unwrap_or_else(|| self.any_slot());
            let count = self.any_extent_count();
            self.any_extent(slot, count);
        }
    }

    /// An extent with any near block.
    pub(super) fn any_extent(&mut self, slot: u32, count: u32) -> Option<Error> {
        let near = if self.random.one_in(WRONG_NEAR_IN) {
            self.near_for(Some(Error::BlockNumber), count)
        } else {
            self.near_in_volume(count)
        };
        self.extent(slot, count, near)
    }

    pub(super) fn extent(&mut self, slot: u32, count: u32, near: u32) -> Option<Error> {
        self.put_test_line(&TestLine::Extent { slot, count, near })
    }

    pub(super) fn wrong_extent_count(&mut self) -> u32 {
        self.random.choose(&WRONG_COUNTS)
    }

    /// A count for an extent that may be refused for any reason.
    pub(super) fn any_extent_count(&mut self) -> u32 {
        match self.random.below(8) {
            0 => self.wrong_extent_count(),
            1 => longest(&self.ranges()),
            2 => longest(&self.ranges()) + 1,
            3 => 1 + self.random.below(MAX_COUNT),
            _ => self.random.choose(&EDGE_COUNTS),
        }
    }

    fn ranges(&self) -> Vec<Range<u32>> {
        available_ranges(&self.state.memory)
    }
}

/// The blocks without which fewer than 64 lie together.
fn breaking_blocks(ranges: &[Range<u32>]) -> Vec<u32> {
    let step = MAX_COUNT as usize;
    ranges.iter().flat_map(|range| range.clone().skip(step - 1).step_by(step)).collect()
}
