//! Counts for allocates, as the available blocks and the list's places allow or not.

use super::Damage;
use crate::calls::MAX_COUNT;
use crate::line::Operation;
use crate::test_line::TestLine;

/// The most allocates that leave few blocks available.
const MOST_ALLOCATES: u32 = 3;
const GIVE_UP_IN: u32 = 4;

impl Damage {
    /// A count for which there are blocks and places, if there are any.
    pub(super) fn right_count(&mut self, slot: u32) -> Option<u32> {
        let most = self.left_to(slot).min(MAX_COUNT).min(self.state.places as u32);
        (most > 0).then(|| 1 + self.random.below(most))
    }

    /// A shorter list than the count, or now and then one that is just long enough.
    pub(super) fn shorten_list(&mut self) -> u32 {
        let any = self.random.below(MAX_COUNT);
        let places = self.random.choose(&[0, 0, 1, 63, any, any]);
        self.alter(TestLine::List { places });
        let longer = MAX_COUNT - places;
        match self.random.below(5) {
            0 => places.max(1),
            1 => MAX_COUNT,
            2 => places + 1,
            _ => places + 1 + self.random.below(longer),
        }
    }

    /// Makes the list long enough and gives a count with too few blocks available, or now and then
    /// just enough. It is nothing if too many are available; then there may be another volume.
    pub(super) fn leave_few_available(&mut self, slot: u32) -> Option<u32> {
        if self.available() >= (MOST_ALLOCATES + 1) * MAX_COUNT {
            return self.give_up_volume();
        }
        self.lengthen_list();
        if self.available() >= MAX_COUNT {
            self.give_up_reservations(slot);
        }
        for _ in 0..MOST_ALLOCATES {
            if self.available() >= MAX_COUNT {
                self.call(Operation::Allocate, slot, MAX_COUNT);
            }
        }
        self.count_beyond(self.available())
    }

    /// Now and then makes another volume, for this one has too many blocks for what is wanted.
    pub(super) fn give_up_volume<T>(&mut self) -> Option<T> {
        if self.random.one_in(GIVE_UP_IN) {
            self.make_volume();
        }
        None
    }

    /// A count above the most that can be had, or now and then just that, if there is one.
    pub(super) fn count_beyond(&mut self, most: u32) -> Option<u32> {
        let beyond = MAX_COUNT.checked_sub(most).filter(|beyond| *beyond > 0)?;
        match self.random.below(6) {
            0 => Some(most.max(1)),
            1 => Some(MAX_COUNT),
            2 | 3 => Some(most + 1),
            _ => Some(most + 1 + self.random.below(beyond)),
        }
    }

    pub(super) fn lengthen_list(&mut self) {
        if self.state.places < MAX_COUNT as usize {
            self.alter(TestLine::List { places: MAX_COUNT });
        }
    }

    /// The number of blocks with SAM 0 and COM 0.
    pub(super) fn available(&self) -> u32 {
        self.state.memory.available()
    }
}
