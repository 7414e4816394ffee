//! What the extent lines of a sequence for `inspect` do: they are checked and counted.

use crate::extents::{assert_granted, extent_by_blocks, is_tie, Asked};
use reference::inspector::Inspector;
use reference::{Error, Memory};

/// What was seen of extent lines.
#[derive(Default, Debug)]
pub struct SeenExtents {
    /// By the answer's number, accepted ones as 0.
    pub answers: [u32; 25],
    /// Accepted with the start at the near block, below it, above it.
    pub at_near: u32,
    pub below: u32,
    pub above: u32,
    /// Of those below, with another start equally far above.
    pub ties: u32,
    /// Accepted from block 0 on, up to the last block, in two words, in three.
    pub from_0: u32,
    pub to_the_end: u32,
    pub in_two_words: u32,
    pub in_three_words: u32,
    /// Accepted with 64 blocks.
    pub longest: u32,
    /// Accepted with two or more active slots.
    pub busy: u32,
    /// Accepted on a memory that test lines have changed since the last call.
    pub altered: u32,
    /// Accepted with a list of just as many places.
    pub short_lists: u32,
    /// Accepted while the disk is another's or damaged.
    pub foreign_disks: u32,
    /// Refused with 22 though as many blocks are available.
    pub scattered: u32,
    /// Refused where a later cause of an extent holds too.
    pub several_causes: u32,
    /// Almost an extent, but not in form.
    pub not_in_form: u32,
}

impl SeenExtents {
    /// Checks an extent line's answer and effect against document 02, and counts it.
    pub fn count(
        &mut self,
        before: &Inspector,
        after: &Inspector,
        asked: Asked,
        answer: Result<u32, Error>,
        altered: bool,
    ) {
        assert_eq!(answer, extent_by_blocks(&before.memory, before.places, asked), "{asked:?}");
        self.answers[answer.err().map_or(0, Error::code) as usize] += 1;
        match answer {
            Ok(start) => {
                assert_granted(before, after, asked, start);
                assert!(after.memory.is_valid());
                self.count_place(&before.memory, asked, start);
                self.count_state(before, asked);
                self.altered += u32::from(altered);
            }
            Err(error) => {
                assert_eq!(after, before);
                self.count_refused(before, asked, error);
            }
        }
    }

    fn count_place(&mut self, memory: &Memory, asked: Asked, start: u32) {
        let words = (start + asked.count - 1) / 32 - start / 32;
        self.at_near += u32::from(start == asked.near);
        self.below += u32::from(start < asked.near);
        self.above += u32::from(start > asked.near);
        self.ties += u32::from(is_tie(memory, asked, start));
        self.from_0 += u32::from(start == 0);
        self.to_the_end += u32::from(start + asked.count == memory.blocks);
        self.in_two_words += u32::from(words == 1);
        self.in_three_words += u32::from(words == 2);
        self.longest += u32::from(asked.count == 64);
    }

    fn count_state(&mut self, state: &Inspector, asked: Asked) {
        let Inspector { memory, disk, places, .. } = state;
        self.busy += u32::from(memory.active_slots().count() > 1);
        self.short_lists += u32::from(*places == asked.count as usize);
        let own = disk.len() == 386 && disk[0] == memory.blocks && disk[2..130] == memory.sam.words;
        self.foreign_disks += u32::from(!own);
    }

    fn count_refused(&mut self, state: &Inspector, asked: Asked, error: Error) {
        let Asked { slot, count, near } = asked;
        let enough = state.memory.available() >= count;
        self.scattered += u32::from(error == Error::NoExtent && enough);
        let later = error < Error::SlotNumber && slot > 7
            || error < Error::Count && (count == 0 || count > 64)
            || error < Error::ListLength && state.places < count as usize
            || error < Error::BlockNumber && near >= state.memory.blocks
            || error < Error::NoExtent && !enough;
        self.several_causes += u32::from(later);
    }
}
