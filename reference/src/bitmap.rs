//! The bitmap of a volume's blocks (document 01, "The maps").

/// A bitmap, document 01's map: block b is bit b mod 32, bit 0 the lowest, of word b div 32.
/// 1 means allocated.
#[derive(Clone, Copy, PartialEq, Eq, Debug)]
pub struct Bitmap {
    pub words: [u32; Bitmap::WORDS],
}

impl Bitmap {
    pub const WORDS: usize = 128;
    pub const WORD_BITS: u32 = 32;
    pub const MAX_BLOCKS: u32 = 4096;
    pub const EMPTY: Bitmap = Bitmap { words: [0; Bitmap::WORDS] };

    /// Whether a volume may have this many blocks: m is 1 to 4,096.
    pub fn can_hold(blocks: u32) -> bool {
        (1..=Bitmap::MAX_BLOCKS).contains(&blocks)
    }

    /// W, the number of words that hold a bit of a volume of this many blocks.
    pub fn words_for(blocks: u32) -> u32 {
        blocks.div_ceil(Bitmap::WORD_BITS)
    }

    /// The bits of one word that stand for blocks of a volume of this many blocks.
    pub fn volume_bits(blocks: u32, word: usize) -> u32 {
        let below = blocks.saturating_sub(word as u32 * Bitmap::WORD_BITS);
        if below >= Bitmap::WORD_BITS {
            u32::MAX
        } else {
            (1 << below) - 1
        }
    }

    /// The word that holds this block, and its bits from this block on.
    pub fn from_block(block: u32) -> (usize, u32) {
        ((block / Bitmap::WORD_BITS) as usize, u32::MAX << (block % Bitmap::WORD_BITS))
    }

    /// Whether all bits from block number `blocks` on are 0.
    pub fn fits(&self, blocks: u32) -> bool {
        let whole_words = (blocks / Bitmap::WORD_BITS) as usize;
        match self.words.get(whole_words..) {
            Some([edge, rest @ ..]) => {
                // Folded and not searched, so that many words are looked at together.
                let rest = rest.iter().fold(0, |bits, word| bits | word);
                edge >> (blocks % Bitmap::WORD_BITS) == 0 && rest == 0
            }
            _ => true,
        }
    }

    /// Whether the block is allocated. The block number is below 4,096.
    pub fn has(&self, block: u32) -> bool {
        let (word, bit) = Bitmap::place(block);
        self.words[word] & bit != 0
    }

    /// Makes the block's bit 1. The block number is below 4,096.
    pub fn set(&mut self, block: u32) {
        let (word, bit) = Bitmap::place(block);
        self.words[word] |= bit;
    }

    /// Makes the block's bit 0. The block number is below 4,096.
    pub fn clear(&mut self, block: u32) {
        let (word, bit) = Bitmap::place(block);
        self.words[word] &= !bit;
    }

    /// The bitmap whose words are made from the words of three others.
    pub fn combine(
        first: &Bitmap,
        second: &Bitmap,
        third: &Bitmap,
        word: impl Fn(u32, u32, u32) -> u32,
    ) -> Bitmap {
        let words =
            |index: usize| word(first.words[index], second.words[index], third.words[index]);
        Bitmap { words: std::array::from_fn(words) }
    }

    fn place(block: u32) -> (usize, u32) {
        ((block / Bitmap::WORD_BITS) as usize, 1 << (block % Bitmap::WORD_BITS))
    }
}

/// Bit by bit, what at least two of the three words have.
pub fn majority(first: u32, second: u32, third: u32) -> u32 {
    (first & second) | (first & third) | (second & third)
}
