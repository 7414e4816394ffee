//! The commit cost, document 02's foretelling (job 2).

use super::allocate::{has_blocks_for, MAX_COUNT};
use super::readiness::open_slot;
use crate::bitmap::Bitmap;
use crate::error::{require, Error};
use crate::memory::Memory;
use crate::store_list::StoreList;

/// The most stores that the slot's commit makes once it has allocated `count` more blocks and
/// touched nothing else. Blocks may share a word, so the commit may make fewer.
pub fn commit_cost(memory: &Memory, slot: u32, count: u32) -> Result<u32, Error> {
    let index = open_slot(memory, slot)?;
    require(count <= MAX_COUNT, Error::Count)?;
    has_blocks_for(memory, index, count)?;
    match memory.touched_blocks(&memory.slots[index].tam) + count {
        0 => Ok(0),
        touched => Ok(StoreList::due_for(touched.min(Bitmap::words_for(memory.blocks)))),
    }
}
