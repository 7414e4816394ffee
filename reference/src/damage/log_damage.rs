//! Logs written to the disk by hand, sound ones and such as cause 5 names.

use super::Damage;
use crate::bitmap::Bitmap;
use crate::disk::{BLOCKS_POSITION, LOG_LENGTH_POSITION, LOG_START};
use crate::log::Entry;

const MOST_ENTRIES: u32 = 4;

/// What is wrong with a log.
#[derive(Clone, Copy, PartialEq, Eq, Debug)]
pub enum Fault {
    /// Nothing.
    Sound,
    /// Nothing, but what stands beyond the entries would be.
    Beyond,
    TooLong,
    NumberTooHigh,
    NumbersEqual,
    NumbersFalling,
    BitFromM,
}

const FAULTS: [Fault; 8] = [
    Fault::Beyond,
    Fault::TooLong,
    Fault::NumberTooHigh,
    Fault::NumbersEqual,
    Fault::NumbersEqual,
    Fault::NumbersFalling,
    Fault::NumbersFalling,
    Fault::BitFromM,
];

impl Damage {
    /// One of the faults that a log of this disk can have: a volume of one word has no place for two
    /// numbers, and one that ends with a word none for a bit from m on.
    pub(super) fn any_fault(&mut self) -> Fault {
        let blocks = self.state.disk[BLOCKS_POSITION];
        let can_be = |fault: &Fault| match fault {
            Fault::NumbersEqual | Fault::NumbersFalling => Bitmap::words_for(blocks) > 1,
            Fault::BitFromM => blocks < blocks.next_multiple_of(Bitmap::WORD_BITS),
            _ => true,
        };
        let faults: Vec<Fault> = FAULTS.into_iter().filter(can_be).collect();
        self.random.choose(&faults)
    }

    /// Writes a log to a disk that could be opened.
    pub(super) fn write_log(&mut self, fault: Fault) {
        let blocks = self.state.disk[BLOCKS_POSITION];
        let words = Bitmap::words_for(blocks);
        let least = match fault {
            Fault::NumbersEqual | Fault::NumbersFalling => 2,
            _ => 1,
        };
        let mut entries = self.sound_entries(blocks, least);
        let mut log_length = entries.len() as u32;
        let last = entries.len() - 1;
        match fault {
            Fault::Sound => {}
            Fault::Beyond => entries.push(Entry { word: words, contents: u32::MAX }),
            Fault::TooLong => {
                log_length =
                    self.random.choose(&[words + 1, words + 1, words + 2, 129, 65_536, u32::MAX]);
            }
            Fault::NumberTooHigh => {
                let word = self.random.choose(&[words, words, words + 1, 128, u32::MAX]);
                entries[last] = Entry { word, contents: 0 };
            }
            Fault::NumbersEqual if last > 0 => entries[last].word = entries[last - 1].word,
            Fault::NumbersFalling if last > 0 => entries.swap(last, last - 1),
            Fault::NumbersEqual | Fault::NumbersFalling => {}
            Fault::BitFromM => {
                let word = words - 1;
                let outer = !Bitmap::volume_bits(blocks, word as usize);
                let contents = outer & self.random.choose(&[u32::MAX, 1 << 31, outer << 1 ^ outer]);
                entries[last] = Entry { word, contents };
            }
        }
        self.put_log(log_length, &entries);
    }

    fn put_log(&mut self, log_length: u32, entries: &[Entry]) {
        for (index, entry) in entries.iter().enumerate() {
            self.put_word(LOG_START + 2 * index, entry.word);
            self.put_word(LOG_START + 2 * index + 1, entry.contents);
        }
        self.put_word(LOG_LENGTH_POSITION, log_length);
    }

    /// A few entries, if there are words for that, and often with the last word of the volume.
    fn sound_entries(&mut self, blocks: u32, least: u32) -> Vec<Entry> {
        let words = Bitmap::words_for(blocks);
        let most = words.min(MOST_ENTRIES);
        let mut left = (1 + self.random.below(most)).max(least).min(most);
        let mut numbers = Vec::new();
        for word in 0..words {
            if self.random.below(words - word) < left {
                numbers.push(word);
                left -= 1;
            }
        }
        if self.random.one_in(2) {
            numbers.pop();
            numbers.push(words - 1);
        }
        let entry = |word: u32| {
            let contents = self.any_word() & Bitmap::volume_bits(blocks, word as usize);
            Entry { word, contents }
        };
        numbers.into_iter().map(entry).collect()
    }
}
