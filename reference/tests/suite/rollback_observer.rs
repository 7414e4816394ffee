//! What the drops and revokes of a sequence do: they are checked and counted.

use crate::rollbacks::{answer_by_words, assert_memory, rolled_back, touched_blocks};
use reference::line::{Line, Operation};
use reference::{Error, Memory};

/// What was seen of one of the two calls.
#[derive(Default, Debug)]
pub struct SeenCalls {
    /// By the answer's number, accepted ones as 0.
    pub answers: [u32; 15],
    /// Accepted where the slot and another one have touched something.
    pub among_others: u32,
    /// The same of those refused for the slot's state, with 13 or 14.
    pub wrong_among_others: u32,
}

/// What was seen of both.
#[derive(Default, Debug)]
pub struct SeenRollbacks {
    pub drops: SeenCalls,
    pub revokes: SeenCalls,
}

impl SeenRollbacks {
    /// Checks the answer and the effect of a drop or a revoke against document 02, and counts it.
    /// Other calls aren't looked at.
    pub fn count(
        &mut self,
        before: &Memory,
        after: &Memory,
        line: &Line,
        answer: Result<u32, Error>,
    ) {
        let seen = match line.operation {
            Operation::Drop => &mut self.drops,
            Operation::Revoke => &mut self.revokes,
            _ => return,
        };
        assert_eq!(answer, answer_by_words(before, line.operation, line.slot).map(|()| 0));
        assert_memory(before, after, line.slot, answer.is_ok());
        seen.answers[answer.err().map_or(0, Error::code) as usize] += 1;
        match answer {
            Ok(_) => seen.among_others += u32::from(is_among_others(before, line.slot)),
            Err(Error::SlotPrecommitted | Error::SlotNotPrecommitted) => {
                seen.wrong_among_others += u32::from(is_among_others(before, line.slot));
            }
            Err(_) => {}
        }
    }
}

/// Whether this active slot of a valid memory has touched something, and another one has too.
fn is_among_others(memory: &Memory, slot: u32) -> bool {
    let without = rolled_back(memory, slot);
    !touched_blocks(memory, slot).is_empty() && without.com != without.sam
}
