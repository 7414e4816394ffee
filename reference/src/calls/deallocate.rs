//! The freeing of a block by a transaction.

use super::readiness::open_slot;
use crate::error::{require, Error};
use crate::memory::Memory;

/// Frees one block with SAM 1 and COM 1. A block that an uncommitted transaction took has SAM 0.
pub fn deallocate(memory: &mut Memory, slot: u32, block: u32) -> Result<(), Error> {
    let index = open_slot(memory, slot)?;
    require(block < memory.blocks, Error::BlockNumber)?;
    require(memory.sam.has(block), Error::BlockNotAllocated)?;
    require(memory.com.has(block), Error::BlockAlreadyFreed)?;
    memory.com.clear(block);
    memory.slots[index].tam.clear(block);
    Ok(())
}
