//! Cause 6: the agreement of a disk of 386 words with a valid memory and its stores done.

use crate::bitmap::Bitmap;
use crate::disk::{header, BITMAP_START, LOG_START};
use crate::log;
use crate::memory::Memory;
use crate::store_list::StoreList;

/// Whether the disk is as a memory without pending work leaves it.
pub fn at_rest(memory: &Memory, disk: &[u32]) -> bool {
    disk[..LOG_START] == header(memory.blocks, 0, &memory.sam)
}

/// Whether the disk is as the first `done` stores of a commit leave it. Other log words are free.
pub fn in_commit(memory: &Memory, stores: &StoreList, done: u32, disk: &[u32]) -> bool {
    let mut expected = header(memory.blocks, 0, &memory.sam);
    for store in (0..done as usize).map(|index| stores.store(index)) {
        if store.position < LOG_START {
            expected[store.position] = store.contents;
        } else if disk[store.position] != store.contents {
            return false;
        }
    }
    disk[..LOG_START] == expected
}

/// Whether the disk is as the first `done` stores of a recovery leave it: the log is sound, agrees
/// with SAM, and its words still to be rewritten are free below m.
pub fn in_recovery(memory: &Memory, done: u32, due: u32, disk: &[u32]) -> bool {
    if !log::is_sound(disk, memory.blocks) {
        return false;
    }
    let mut expected = header(memory.blocks, due - 1, &memory.sam);
    for (index, entry) in log::entries(disk).enumerate() {
        let word = entry.word as usize;
        if entry.contents != memory.sam.words[word] {
            return false;
        }
        if index >= done as usize {
            let free_bits = Bitmap::volume_bits(memory.blocks, word);
            expected[BITMAP_START + word] = disk[BITMAP_START + word] & free_bits;
        }
    }
    disk[..LOG_START] == expected
}
