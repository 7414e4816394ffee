//! The opening of a disk, with the recovery of a logged commit.

use crate::bitmap::Bitmap;
use crate::disk::{self, BLOCKS_POSITION, DISK_WORDS, LOG_LENGTH_POSITION};
use crate::error::{require, Error};
use crate::log;
use crate::memory::{Memory, Pending};

/// What an open gives: the memory, which is of zeros when refused, and the stores due.
pub struct Opened {
    pub memory: Memory,
    pub answer: Result<u32, Error>,
}

/// Opens the disk. A logged commit is in the memory from the start, and recovery's stores are due.
pub fn open(disk: &[u32]) -> Opened {
    match check(disk) {
        Ok(()) => read(disk),
        Err(error) => Opened { memory: Memory::ZEROS, answer: Err(error) },
    }
}

fn check(disk: &[u32]) -> Result<(), Error> {
    require(disk.len() == DISK_WORDS, Error::DiskLength)?;
    let blocks = disk[BLOCKS_POSITION];
    require(Bitmap::can_hold(blocks), Error::DiskBlockCount)?;
    require(disk::bitmap(disk).fits(blocks), Error::DiskBitmap)?;
    require(log::is_sound(disk, blocks), Error::DiskLog)
}

fn read(disk: &[u32]) -> Opened {
    let mut sam = disk::bitmap(disk);
    log::replay(disk, &mut sam);
    let (pending, due) = match disk[LOG_LENGTH_POSITION] {
        0 => (Pending::Nothing, 0),
        log_length => (Pending::Recovery { done: 0, due: log_length + 1 }, log_length + 1),
    };
    Opened { memory: Memory::opened(disk[BLOCKS_POSITION], sam, pending), answer: Ok(due) }
}
