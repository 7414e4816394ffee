//! The list of stores that a commit makes (document 01, "The medium and its stores").

use crate::bitmap::Bitmap;
use crate::disk::{BITMAP_START, LOG_LENGTH_POSITION, LOG_START};
use crate::memory::Memory;

/// One word to be written to the disk.
#[derive(Clone, Copy, PartialEq, Eq, Debug)]
pub struct Store {
    pub position: usize,
    pub contents: u32,
}

/// A commit's stores: the log entries, the commit point, the changed words, the end of the log.
pub struct StoreList {
    /// SAM as the commit leaves it.
    pub sam: Bitmap,
    words: [u32; Bitmap::WORDS],
    changed: usize,
}

impl StoreList {
    /// The stores of the commit of this transaction.
    pub fn of(memory: &Memory, tam: &Bitmap) -> StoreList {
        let sam = memory.sam_after_commit(tam);
        let mut list = StoreList { sam, words: [0; Bitmap::WORDS], changed: 0 };
        for (word, (after, before)) in sam.words.iter().zip(&memory.sam.words).enumerate() {
            if after != before {
                list.words[list.changed] = word as u32;
                list.changed += 1;
            }
        }
        list
    }

    /// The number of stores of a commit that changes this many words, not 0.
    pub fn due_for(changed: u32) -> u32 {
        3 * changed + 2
    }

    /// The store that follows when this many are done.
    pub fn store(&self, done: usize) -> Store {
        let commit_point = 2 * self.changed;
        if done < commit_point {
            let word = self.words[done / 2];
            let contents = match done % 2 {
                0 => word,
                _ => self.sam.words[word as usize],
            };
            Store { position: LOG_START + done, contents }
        } else if done == commit_point {
            Store { position: LOG_LENGTH_POSITION, contents: self.changed as u32 }
        } else if done - commit_point <= self.changed {
            let word = self.words[done - commit_point - 1] as usize;
            Store { position: BITMAP_START + word, contents: self.sam.words[word] }
        } else {
            Store { position: LOG_LENGTH_POSITION, contents: 0 }
        }
    }
}
