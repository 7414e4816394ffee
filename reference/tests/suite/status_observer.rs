//! What the `status` lines of a damaging sequence do: they are checked and counted.

use crate::counts::{counts_by_blocks, printed};
use reference::{Error, Memory, Pending, Status};

/// What was seen of `status` lines.
#[derive(Default, Debug)]
pub struct SeenStatuses {
    pub accepted: u32,
    pub refused: u32,
    /// Accepted with a block of this kind: available, allocating, freeing, held.
    pub with: [u32; 4],
    /// Accepted with blocks of all four kinds.
    pub with_all: u32,
    /// Of those, with two or more active slots.
    pub busy: u32,
    /// Accepted on a memory that test lines have changed since the last call, and of those with
    /// blocks of all four kinds.
    pub altered: u32,
    pub altered_with_all: u32,
    /// Accepted with work pending.
    pub in_work: u32,
    /// Almost a `status`, but not in form.
    pub not_in_form: u32,
}

impl SeenStatuses {
    /// Counts a `status` on this memory, which test lines have altered or not.
    pub fn count(&mut self, memory: &Memory, altered: bool) {
        if !memory.is_valid() {
            self.refused += 1;
            return;
        }
        let Status { available, allocating, freeing, held, .. } = counts_by_blocks(memory);
        let kinds = [available, allocating, freeing, held];
        let all = u32::from(kinds.iter().all(|count| *count > 0));
        let altered = u32::from(altered);
        self.accepted += 1;
        self.with.iter_mut().zip(kinds).for_each(|(with, count)| *with += u32::from(count > 0));
        self.with_all += all;
        self.busy += all * u32::from(memory.active_slots().count() > 1);
        self.altered += altered;
        self.altered_with_all += all * altered;
        self.in_work += u32::from(memory.pending != Pending::Nothing);
    }
}

/// A `status` answers and prints what a count block by block gives.
pub fn check_status(memory: &Memory, answer: Result<u32, Error>, more: &str) {
    if memory.is_valid() {
        let counts = counts_by_blocks(memory);
        assert_eq!((answer, more), (Ok(counts.allocated), printed(&counts).as_str()));
    } else {
        assert_eq!((answer, more), (Err(Error::InvalidMemory), ""));
    }
}
