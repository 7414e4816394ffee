//! What the `cost` lines of a damaging sequence do: they are checked and counted.

use crate::costs::{cost_by_blocks, touched_by_blocks};
use reference::inspector::Inspector;
use reference::Error;

/// What was seen of `cost` lines.
#[derive(Default, Debug)]
pub struct SeenCosts {
    /// By the answer's number, accepted ones as 0.
    pub answers: [u32; 25],
    /// Accepted with t + n of 0, from 1 to W - 1, of W, and above W.
    pub by_touched: [u32; 4],
    /// Accepted with two or more active slots.
    pub busy: u32,
    /// Accepted on a memory that test lines have changed since the last call.
    pub altered: u32,
    /// Accepted with a list shorter than the count.
    pub short_lists: u32,
    /// Accepted while the disk is another's or damaged.
    pub foreign_disks: u32,
    /// Refused where a later cause of commit cost holds too.
    pub several_causes: u32,
    /// Almost a `cost`, but not in form.
    pub not_in_form: u32,
}

impl SeenCosts {
    /// Checks a `cost` line's answer in this state against document 02, and counts it.
    pub fn count(
        &mut self,
        state: &Inspector,
        (slot, count): (u32, u32),
        answer: Result<u32, Error>,
        altered: bool,
    ) {
        let memory = &state.memory;
        assert_eq!(answer, cost_by_blocks(memory, slot, count));
        self.answers[answer.err().map_or(0, Error::code) as usize] += 1;
        if let Err(error) = answer {
            let later = error < Error::Count && count > 64
                || error < Error::SlotNumber && slot > 7
                || error < Error::TooFewAvailable && memory.available() < count;
            self.several_causes += u32::from(later);
            return;
        }
        let all = touched_by_blocks(memory, &memory.slots[slot as usize]) + count;
        let words = memory.blocks.div_ceil(32);
        let kind =
            if all == 0 { 0 } else { 2 + usize::from(all > words) - usize::from(all < words) };
        self.by_touched[kind] += 1;
        self.busy += u32::from(memory.active_slots().count() > 1);
        self.altered += u32::from(altered);
        self.short_lists += u32::from(state.places < count as usize);
        let disk = &state.disk;
        let own = disk.len() == 386 && disk[0] == memory.blocks && disk[2..130] == memory.sam.words;
        self.foreign_disks += u32::from(!own);
    }
}
