//! The course of a transaction: start, precommit, commit, and the two ways to back out, drop and
//! revoke (document 02, job 5).

use super::readiness::{idle_slot, open_slot, precommitted_slot};
use crate::bitmap::{majority, Bitmap};
use crate::error::Error;
use crate::memory::{Memory, Pending, SlotState};
use crate::store_list::StoreList;

/// Opens a transaction in an idle slot, on a copy of SAM.
pub fn start(memory: &mut Memory, slot: u32) -> Result<(), Error> {
    let index = idle_slot(memory, slot)?;
    let slot = &mut memory.slots[index];
    (slot.state, slot.tam) = (SlotState::Open, memory.sam);
    Ok(())
}

/// Ends a transaction's touches. No bitmap changes: document 01 departs from row 6 of table 1.
pub fn precommit(memory: &mut Memory, slot: u32) -> Result<(), Error> {
    let index = open_slot(memory, slot)?;
    memory.slots[index].state = SlotState::Precommitted;
    Ok(())
}

/// Begins a commit and gives the stores due. One that changes no word ends here, with 0.
pub fn commit(memory: &mut Memory, slot: u32) -> Result<u32, Error> {
    let index = precommitted_slot(memory, slot)?;
    let changed = memory.changed_words(&memory.slots[index].tam);
    if changed == 0 {
        memory.slots[index].end_committed();
        return Ok(0);
    }
    let due = StoreList::due_for(changed);
    memory.pending = Pending::Commit { slot, done: 0, due };
    Ok(due)
}

/// Rolls back an open transaction.
pub fn drop(memory: &mut Memory, slot: u32) -> Result<(), Error> {
    let index = open_slot(memory, slot)?;
    roll_back(memory, index);
    Ok(())
}

/// Rolls back a precommitted transaction.
pub fn revoke(memory: &mut Memory, slot: u32) -> Result<(), Error> {
    let index = precommitted_slot(memory, slot)?;
    roll_back(memory, index);
    Ok(())
}

/// Undoes a transaction: COM becomes the majority of COM, SAM and the complement of TAM (table 2).
fn roll_back(memory: &mut Memory, index: usize) {
    let tam = &memory.slots[index].tam;
    memory.com =
        Bitmap::combine(&memory.com, &memory.sam, tam, |com, sam, tam| majority(com, sam, !tam));
    memory.slots[index].end_rolled_back();
}
