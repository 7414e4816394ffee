//! The log on a disk of 386 words.

use crate::bitmap::Bitmap;
use crate::disk::{LOG_LENGTH_POSITION, LOG_START};

/// A log entry: the number of a bitmap word and its new contents.
pub struct Entry {
    pub word: u32,
    pub contents: u32,
}

/// The entries that count: as many as the log length says, or as the disk has room for.
pub fn entries(disk: &[u32]) -> impl Iterator<Item = Entry> + '_ {
    let log = disk[LOG_START..].chunks_exact(2);
    log.map(|pair| Entry { word: pair[0], contents: pair[1] })
        .take(disk[LOG_LENGTH_POSITION] as usize)
}

/// Whether the log passes cause 5 on a volume of this many blocks: not too long, word numbers in
/// range and strictly rising, no bit from m on.
pub fn is_sound(disk: &[u32], blocks: u32) -> bool {
    let words = Bitmap::words_for(blocks);
    if disk[LOG_LENGTH_POSITION] > words {
        return false;
    }
    let mut lowest = 0;
    for entry in entries(disk) {
        let in_order = (lowest..words).contains(&entry.word);
        if !in_order || entry.contents & !Bitmap::volume_bits(blocks, entry.word as usize) != 0 {
            return false;
        }
        lowest = entry.word + 1;
    }
    true
}

/// Puts the logged contents into the bitmap. The log is sound.
pub fn replay(disk: &[u32], bitmap: &mut Bitmap) {
    for entry in entries(disk) {
        bitmap.words[entry.word as usize] = entry.contents;
    }
}
