//! Commits of many words and their recoveries, damaged at any of their stores.

use super::mending::{is_sound, MOST_MEMORY_LINES};
use super::Damage;
use crate::calls::MAX_COUNT;
use crate::disk::LOG_LENGTH_POSITION;
use crate::line::Operation;
use crate::memory::SlotState;

const VOLUMES: [u32; 7] = [200, 300, 300, 1000, 1000, 4095, 4096];
const DAMAGES: u32 = 12;
/// The stores between two damages are at most this part of those left.
const PART: u32 = 4;
const CRASH_IN: u32 = 3;

impl Damage {
    /// Takes most of a new volume in one transaction and commits it with damages on the way.
    pub(super) fn do_wide_work(&mut self) {
        let blocks = self.random.choose(&VOLUMES);
        self.make_volume_of(blocks);
        self.lengthen_list();
        let Some(slot) = self.slot_in(SlotState::Open) else {
            return;
        };
        for _ in 0..self.available() / MAX_COUNT {
            self.call(Operation::Allocate, slot, MAX_COUNT);
        }
        self.call(Operation::Precommit, slot, 0);
        self.call(Operation::Commit, slot, 0);
        for _ in 0..DAMAGES {
            self.go_on_with_wide_work();
        }
    }

    /// Makes some stores, damages something for one, and mends it.
    fn go_on_with_wide_work(&mut self) {
        let stores = self.random.below(self.stores_left() / PART + 1);
        self.make_stores(stores);
        if self.state.disk[LOG_LENGTH_POSITION] > 0 && self.random.one_in(CRASH_IN) {
            self.call(Operation::Crash, 0, 0);
            self.call(Operation::Open, 0, 0);
        }
        self.spoil_agreement();
        self.call(Operation::Store, 0, 0);
        self.show_one_in(2);
        self.status_one_in(3);
        self.cost_one_in(6);
        if !is_sound(&self.state) {
            self.mend_words(MOST_MEMORY_LINES);
        }
    }
}
