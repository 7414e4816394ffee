//! A set of block numbers, one flag for each block. It shares only the limits with the bitmaps that
//! it is compared with.

use crate::bitmap::Bitmap;

const FLAGS: usize = Bitmap::MAX_BLOCKS as usize;
const WORD_BITS: usize = Bitmap::WORD_BITS as usize;

#[derive(Clone, PartialEq, Eq, Debug)]
pub struct BlockSet {
    flags: [bool; FLAGS],
}

impl BlockSet {
    pub const EMPTY: BlockSet = BlockSet { flags: [false; FLAGS] };

    pub fn insert(&mut self, block: u32) {
        self.flags[block as usize] = true;
    }

    pub fn contains(&self, block: u32) -> bool {
        self.flags[block as usize]
    }

    pub fn count(&self) -> u32 {
        self.flags.iter().map(|flag| u32::from(*flag)).sum()
    }

    pub fn clear(&mut self) {
        self.flags.fill(false);
    }

    pub fn remove_all(&mut self, other: &BlockSet) {
        for (flag, other) in self.flags.iter_mut().zip(&other.flags) {
            *flag &= !other;
        }
    }

    pub fn insert_all(&mut self, other: &BlockSet) {
        for (flag, other) in self.flags.iter_mut().zip(&other.flags) {
            *flag |= other;
        }
    }

    pub fn meets(&self, other: &BlockSet) -> bool {
        let pairs = self.flags.iter().zip(&other.flags);
        pairs.fold(false, |met, (one, other)| met | (one & other))
    }

    /// The number of bitmap words in which one of two sets has a block.
    pub fn words_of_either(one: &BlockSet, other: &BlockSet) -> u32 {
        let words = one.flags.chunks(WORD_BITS).zip(other.flags.chunks(WORD_BITS));
        let in_use = words.filter(|(one, other)| one.contains(&true) || other.contains(&true));
        in_use.count() as u32
    }

    /// Whether the words have a 1 at exactly the blocks of this set.
    pub fn equals_words(&self, words: &[u32]) -> bool {
        let bit = |block: usize| words[block / WORD_BITS] >> (block % WORD_BITS) & 1 == 1;
        words.len() * WORD_BITS == FLAGS && (0..FLAGS).all(|block| self.flags[block] == bit(block))
    }
}
