//! Drop and revoke as document 02 says them (job 5), one block at a time.

use crate::slots::ready_slot;
use reference::line::Operation;
use reference::{drop, revoke, Error, Memory, Slot, SlotState};

/// The two calls.
pub const BOTH: [Operation; 2] = [Operation::Drop, Operation::Revoke];

/// What a drop or a revoke is to answer: rollback's causes in number order, then its own.
pub fn answer_by_words(memory: &Memory, operation: Operation, slot: u32) -> Result<(), Error> {
    match (operation, ready_slot(memory, slot)?.state) {
        (_, SlotState::Idle) => Err(Error::SlotIdle),
        (Operation::Drop, SlotState::Precommitted) => Err(Error::SlotPrecommitted),
        (Operation::Revoke, SlotState::Open) => Err(Error::SlotNotPrecommitted),
        (Operation::Drop | Operation::Revoke, _) => Ok(()),
        _ => panic!("{operation:?} rolls nothing back"),
    }
}

/// The memory with this slot rolled back: COM has SAM's bit again at each block that the slot has
/// touched, the slot is idle, and what it has drawn is its reservation's again.
pub fn rolled_back(memory: &Memory, slot: u32) -> Memory {
    let mut after = memory.clone();
    for block in touched_blocks(memory, slot) {
        let (word, bit) = (block as usize / 32, 1 << (block % 32));
        after.com.words[word] = after.com.words[word] & !bit | memory.sam.words[word] & bit;
    }
    let Slot { reservation, drawn, .. } = memory.slots[slot as usize];
    after.slots[slot as usize] = Slot { reservation: reservation + drawn, ..Slot::IDLE };
    after
}

/// The blocks that an active slot has touched.
pub fn touched_blocks(memory: &Memory, slot: u32) -> Vec<u32> {
    let tam = &memory.slots[slot as usize].tam;
    (0..4096).filter(|block| tam.has(*block) != memory.sam.has(*block)).collect()
}

/// Makes the call, and compares its answer and all of the memory with the words.
pub fn checked(memory: &mut Memory, operation: Operation, slot: u32) -> Result<(), Error> {
    let expected = answer_by_words(memory, operation, slot);
    let before = memory.clone();
    let answer = match operation {
        Operation::Drop => drop(memory, slot),
        _ => revoke(memory, slot),
    };
    assert_eq!(answer, expected, "{operation:?} of slot {slot}");
    assert_memory(&before, memory, slot, answer.is_ok());
    answer
}

/// The slot is rolled back if the call was accepted, and otherwise all is as it was.
pub fn assert_memory(before: &Memory, after: &Memory, slot: u32, accepted: bool) {
    if accepted {
        assert_eq!(*after, rolled_back(before, slot));
    } else {
        assert_eq!(after, before);
    }
}
