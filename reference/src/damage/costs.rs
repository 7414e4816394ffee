//! Commit costs: the ways to their causes, which are mostly allocate's ways, and accepted ones.

use super::Damage;
use crate::bitmap::Bitmap;
use crate::calls::MAX_COUNT;
use crate::error::Error;
use crate::line::Operation;
use crate::memory::SlotState;
use crate::test_line::TestLine;

const WRONG_COUNTS: [u32; 9] = [65, 65, 66, 128, 256, 4096, 65_536, 1 << 31, u32::MAX];
const EDGE_COUNTS: [u32; 6] = [0, 0, 1, 32, 63, 64];
const SHORT_LIST_IN: u32 = 3;

impl Damage {
    /// Brings about that a commit cost is refused with this error, or accepted, and gives its slot
    /// and its count.
    pub(super) fn prepare_cost(&mut self, error: Option<Error>) -> Option<(u32, u32)> {
        match error {
            None => self.prepare_accepted_cost(),
            Some(Error::SlotNumber) => {
                self.come_to_rest()?;
                Some((self.large_wrong_slot(), self.any_cost_count()))
            }
            Some(Error::Count) => Some((self.slot_in(SlotState::Open)?, self.wrong_cost_count())),
            Some(error @ (Error::TooFewAvailable | Error::ReservedForOthers)) => {
                self.prepare_refusal(error, Operation::Allocate)
            }
            Some(error) => {
                let (slot, _) = self.prepare_refusal(error, Operation::Allocate)?;
                Some((slot, self.any_cost_count()))
            }
        }
    }

    /// An open slot in another memory and a count for which there are blocks. The list may be
    /// shorter, for none is lent.
    fn prepare_accepted_cost(&mut self) -> Option<(u32, u32)> {
        self.make_other_memory()?;
        if self.random.one_in(SHORT_LIST_IN) {
            self.shorten_list();
        }
        let slot = self.slot_in(SlotState::Open)?;
        let most = self.left_to(slot).min(MAX_COUNT);
        let count = match self.random.below(6) {
            0 => 0,
            1 => most,
            2 => self.random.below(most + 1),
            _ => self.count_to_all_words(slot).min(most),
        };
        Some((slot, count))
    }

    /// With so many blocks more, or one more or less, the slot has touched as many as there are
    /// words, unless it has touched more.
    fn count_to_all_words(&mut self, slot: u32) -> u32 {
        let memory = &self.state.memory;
        let touched = memory.touched_blocks(&memory.slots[slot as usize].tam);
        let missing = Bitmap::words_for(memory.blocks).saturating_sub(touched);
        self.random.choose(&[missing, missing, missing + 1, missing.saturating_sub(1)])
    }

    /// A commit cost in whatever state this is, once in this many times.
    pub(super) fn cost_one_in(&mut self, times: u32) {
        if self.random.one_in(times) {
            let open = self.choose_slot(SlotState::Open).filter(|_| !self.random.one_in(3));
            let slot = open.unwrap_or_else(|| self.any_slot());
            let count = self.any_cost_count();
            self.cost(slot, count);
        }
    }

    pub(super) fn cost(&mut self, slot: u32, count: u32) -> Option<Error> {
        self.put_test_line(&TestLine::Cost { slot, count })
    }

    pub(super) fn wrong_cost_count(&mut self) -> u32 {
        self.random.choose(&WRONG_COUNTS)
    }

    /// A count for a commit cost that may be refused for any reason.
    pub(super) fn any_cost_count(&mut self) -> u32 {
        let available = self.available();
        match self.random.below(8) {
            0 => self.wrong_cost_count(),
            1 => available.saturating_sub(1),
            2 => available,
            3 => available + 1,
            4 => self.random.below(MAX_COUNT + 1),
            _ => self.random.choose(&EDGE_COUNTS),
        }
    }
}
