//! The layout of the disk, document 01's medium: which word holds what.

use crate::bitmap::Bitmap;

/// m, the number of blocks.
pub const BLOCKS_POSITION: usize = 0;
/// The log length, document 01's pending count p.
pub const LOG_LENGTH_POSITION: usize = 1;
/// The first word of SAM.
pub const BITMAP_START: usize = 2;
/// The first word of the log, which has room for an entry of two words for each word of SAM.
pub const LOG_START: usize = BITMAP_START + Bitmap::WORDS;
pub const DISK_WORDS: usize = LOG_START + 2 * Bitmap::WORDS;

/// The words before the log.
pub type Header = [u32; LOG_START];

/// The header of a disk with these contents.
pub fn header(blocks: u32, log_length: u32, sam: &Bitmap) -> Header {
    let mut header = [0; LOG_START];
    header[BLOCKS_POSITION] = blocks;
    header[LOG_LENGTH_POSITION] = log_length;
    header[BITMAP_START..].copy_from_slice(&sam.words);
    header
}

/// The bitmap on a disk of 386 words.
pub fn bitmap(disk: &[u32]) -> Bitmap {
    let mut bitmap = Bitmap::EMPTY;
    bitmap.words.copy_from_slice(&disk[BITMAP_START..LOG_START]);
    bitmap
}
