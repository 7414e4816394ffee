//! Changes to the disk: its length, its block count, its bitmap, single words.

use super::Damage;
use crate::bitmap::Bitmap;
use crate::disk::{
    bitmap, BITMAP_START, BLOCKS_POSITION, DISK_WORDS, LOG_LENGTH_POSITION, LOG_START,
};
use crate::log::{self, Entry};
use crate::memory::Pending;
use crate::store_list::StoreList;
use crate::test_line::TestLine;

const NEAR_LENGTHS: [u32; 4] = [385, 387, 385, 400];
const SHORT_LENGTHS: [u32; 5] = [0, 0, 1, 129, 130];
/// A disk with more words than these isn't cut to a short one, for mending takes a line for each.
const MOST_WORDS_LOST: usize = 15;
const WRONG_BLOCK_COUNTS: [u32; 6] = [0, 4097, 4128, 65_537, 1 << 31, u32::MAX];

impl Damage {
    /// A disk of another length.
    pub(super) fn change_length(&mut self) {
        let words = self.state.disk.iter().filter(|word| **word != 0).count();
        let may_be_short = words <= MOST_WORDS_LOST && self.random.one_in(2);
        let lengths: &[u32] = if may_be_short { &SHORT_LENGTHS } else { &NEAR_LENGTHS };
        let words = self.random.choose(lengths);
        self.alter(TestLine::Length { words });
    }

    /// A block count outside 1 to 4,096.
    pub(super) fn spoil_block_count(&mut self) {
        let word = self.random.choose(&WRONG_BLOCK_COUNTS);
        self.put_word(BLOCKS_POSITION, word);
    }

    /// A bitmap with a bit from m on: a bit more, or a lower m.
    pub(super) fn spoil_bitmap(&mut self) {
        let sam = bitmap(&self.state.disk);
        let blocks = self.state.disk[BLOCKS_POSITION];
        let last = (0..blocks).rev().find(|block| sam.has(*block));
        let last = last.filter(|last| *last > 0);
        match (last, self.block_from(blocks)) {
            (Some(last), outer) if outer.is_none() || self.random.one_in(3) => {
                // With one more than the last block, the bitmap is as it should be.
                let more = u32::from(self.random.one_in(5));
                self.put_word(BLOCKS_POSITION, last + more);
            }
            (_, Some(outer)) => self.flip_bit_on_disk(outer),
            (_, None) => {
                self.put_word(BLOCKS_POSITION, blocks - 1);
                self.flip_bit_on_disk(blocks - 1);
            }
        }
    }

    /// Something for which a store finds the disk another's, mostly.
    pub(super) fn spoil_agreement(&mut self) {
        let in_recovery = matches!(self.state.memory.pending, Pending::Recovery { .. });
        match self.random.below(8) {
            0..=2 if in_recovery => self.change_loose_word(),
            0 => {
                let block = self.volume_block();
                self.flip_everywhere(block);
            }
            1 => self.change_pending(),
            _ => self.change_word(),
        }
    }

    /// One word of the disk, mostly one that counts.
    pub(super) fn change_word(&mut self) {
        let words = Bitmap::words_for(self.state.memory.blocks).clamp(1, Bitmap::WORDS as u32);
        let log_words = 2 * self.logged_words() + 2;
        let position = match self.random.below(8) {
            0 => BLOCKS_POSITION,
            1 => LOG_LENGTH_POSITION,
            2 | 3 => BITMAP_START + self.random.below(words) as usize,
            4 => BITMAP_START + self.random.below(Bitmap::WORDS as u32) as usize,
            5 | 6 => LOG_START + self.random.below(log_words) as usize,
            _ => self.random.below(DISK_WORDS as u32) as usize,
        };
        let Some(word) = self.state.disk.get(position).copied() else {
            return;
        };
        let word = match self.random.below(5) {
            0 => word.wrapping_add(1),
            1 => word.wrapping_sub(1),
            2 => self.any_word(),
            _ => word ^ 1 << self.random.below(Bitmap::WORD_BITS),
        };
        self.put_word(position, word);
    }

    /// In a recovery, a logged word that is still to be rewritten: other bits below m may stand in
    /// it, a bit from m on may not.
    fn change_loose_word(&mut self) {
        let Pending::Recovery { done, .. } = self.state.memory.pending else {
            return;
        };
        let loose: Vec<Entry> = log::entries(&self.state.disk).skip(done as usize).collect();
        let Some(entry) = loose.get(self.random.below(loose.len() as u32) as usize) else {
            return self.change_word();
        };
        let bits = Bitmap::volume_bits(self.state.memory.blocks, entry.word as usize);
        let position = BITMAP_START + entry.word as usize;
        let word = match self.random.below(3) {
            0 if bits != u32::MAX => self.state.disk[position] | !bits & (bits << 1 | 1 << 31),
            _ => self.any_word() & bits,
        };
        self.put_word(position, word);
    }

    /// How many log entries the disk has, or the pending commit will write.
    fn logged_words(&self) -> u32 {
        let on_disk = self.state.disk.get(LOG_LENGTH_POSITION).copied().unwrap_or(0);
        let changed = match self.state.memory.pending {
            Pending::Commit { due, .. } => due.saturating_sub(StoreList::due_for(0)) / 3,
            _ => 0,
        };
        on_disk.max(changed).min(Bitmap::WORDS as u32 - 1)
    }

    fn flip_bit_on_disk(&mut self, block: u32) {
        let position = BITMAP_START + (block / Bitmap::WORD_BITS) as usize;
        let bit = 1 << (block % Bitmap::WORD_BITS);
        self.put_word(position, self.state.disk[position] ^ bit);
    }

    pub(super) fn put_word(&mut self, position: usize, word: u32) {
        self.alter(TestLine::Disk { index: position as u32, word });
    }
}
