//! The next store of the pending work.

use crate::agreement;
use crate::bitmap::Bitmap;
use crate::disk::{BITMAP_START, DISK_WORDS, LOG_LENGTH_POSITION};
use crate::error::{require, Error};
use crate::log;
use crate::memory::{Memory, Pending, SlotState};
use crate::store_list::StoreList;

/// Makes the next store and gives the number still due.
pub fn store(memory: &mut Memory, disk: &mut [u32]) -> Result<u32, Error> {
    require(memory.is_valid(), Error::InvalidMemory)?;
    require(disk.len() == DISK_WORDS, Error::DiskLength)?;
    match memory.pending {
        Pending::Nothing => {
            require(agreement::at_rest(memory, disk), Error::DiskMismatch)?;
            Err(Error::NothingPending)
        }
        Pending::Commit { slot, done, due } => store_of_commit(memory, disk, slot, done, due),
        Pending::Recovery { done, due } => store_of_recovery(memory, disk, done, due),
    }
}

fn store_of_commit(
    memory: &mut Memory,
    disk: &mut [u32],
    slot: u32,
    done: u32,
    due: u32,
) -> Result<u32, Error> {
    let stores = StoreList::of(memory, &memory.slots[slot as usize].tam);
    require(agreement::in_commit(memory, &stores, done, disk), Error::DiskMismatch)?;
    let next = stores.store(done as usize);
    disk[next.position] = next.contents;
    let done = done + 1;
    if done == due {
        finish_commit(memory, slot as usize, stores.sam);
    } else {
        memory.pending = Pending::Commit { slot, done, due };
    }
    Ok(due - done)
}

/// The bitmaps in memory change with the last store. Every other active slot takes the new SAM bit
/// for each block that the commit changed; document 000 leaves this out.
fn finish_commit(memory: &mut Memory, index: usize, sam: Bitmap) {
    let before = memory.sam;
    memory.slots[index].end_committed();
    for slot in memory.slots.iter_mut().filter(|slot| slot.state != SlotState::Idle) {
        slot.tam = Bitmap::combine(&slot.tam, &before, &sam, |tam, before, after| {
            let changed = before ^ after;
            (tam & !changed) | (after & changed)
        });
    }
    memory.sam = sam;
    memory.pending = Pending::Nothing;
}

fn store_of_recovery(
    memory: &mut Memory,
    disk: &mut [u32],
    done: u32,
    due: u32,
) -> Result<u32, Error> {
    require(agreement::in_recovery(memory, done, due, disk), Error::DiskMismatch)?;
    let entry = log::entries(disk).nth(done as usize);
    let done = done + 1;
    match entry {
        Some(entry) => {
            disk[BITMAP_START + entry.word as usize] = entry.contents;
            memory.pending = Pending::Recovery { done, due };
        }
        None => {
            disk[LOG_LENGTH_POSITION] = 0;
            memory.pending = Pending::Nothing;
        }
    }
    Ok(due - done)
}
