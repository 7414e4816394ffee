//! The formatting of a disk.

use crate::bitmap::Bitmap;
use crate::disk::{BLOCKS_POSITION, DISK_WORDS};
use crate::error::{require, Error};

/// Writes an empty volume of this many blocks: m, then zeros.
pub fn format(disk: &mut [u32], blocks: u32) -> Result<(), Error> {
    require(disk.len() == DISK_WORDS, Error::DiskLength)?;
    require(Bitmap::can_hold(blocks), Error::BlockCount)?;
    disk.fill(0);
    disk[BLOCKS_POSITION] = blocks;
    Ok(())
}
