//! The sweep: a crash after each store of the longest commit, and again after each store of the
//! recovery that follows (docs/TEST-LINES.md).

use crate::bitmap::Bitmap;
use crate::calls::{allocate, commit, format, open, precommit, start, store, Opened, MAX_COUNT};
use crate::disk::{BITMAP_START, DISK_WORDS, LOG_START};
use crate::error::Error;
use crate::memory::Memory;
use std::io::{self, BufWriter, Write};

const SLOT: u32 = 0;

/// A memory with its disk, and the stores that are due at first.
struct Volume {
    memory: Memory,
    disk: [u32; DISK_WORDS],
    due: u32,
}

/// Prints the sweep. No call of it is refused.
pub fn run(output: impl Write) -> io::Result<()> {
    let mut output = BufWriter::new(output);
    let mut volume = longest_commit().map_err(refused)?;
    for stores in 0..=volume.due {
        if stores > 0 {
            volume.store()?;
        }
        let recovery = volume.reopened()?;
        write!(output, "stores={stores} due={}", recovery.due)?;
        write_runs(&mut output, &recovery.memory.sam.words)?;
        writeln!(output)?;
        sweep_recovery(&mut output, recovery)?;
    }
    output.flush()
}

/// All 4,096 blocks taken in one slot, and its commit begun.
fn longest_commit() -> Result<Volume, Error> {
    let mut disk = [0; DISK_WORDS];
    format(&mut disk, Bitmap::MAX_BLOCKS)?;
    let mut memory = open(&disk).memory;
    start(&mut memory, SLOT)?;
    for _ in 0..Bitmap::MAX_BLOCKS / MAX_COUNT {
        allocate(&mut memory, SLOT, MAX_COUNT, &mut [0; MAX_COUNT as usize])?;
    }
    precommit(&mut memory, SLOT)?;
    let due = commit(&mut memory, SLOT)?;
    Ok(Volume { memory, disk, due })
}

/// A crash after each store of this recovery, and what the next one finds and leaves.
fn sweep_recovery(output: &mut impl Write, mut recovery: Volume) -> io::Result<()> {
    for stores in 0..=recovery.due {
        if stores > 0 {
            recovery.store()?;
        }
        let mut again = recovery.reopened()?;
        write!(output, " again={stores} due={}", again.due)?;
        write_runs(output, &again.memory.sam.words)?;
        (0..again.due).try_for_each(|_| again.store())?;
        write!(output, " disk")?;
        write_runs(output, &again.disk[BITMAP_START..LOG_START])?;
        writeln!(output)?;
    }
    Ok(())
}

/// Writes the words as runs of equal ones, lowest first.
pub fn write_runs(output: &mut impl Write, words: &[u32]) -> io::Result<()> {
    let mut runs = words.chunk_by(|word, next| word == next);
    runs.try_for_each(|run| write!(output, " {}x{}", run.len(), run[0]))
}

impl Volume {
    fn store(&mut self) -> io::Result<()> {
        store(&mut self.memory, &mut self.disk).map(|_| ()).map_err(refused)
    }

    /// The volume as an open of its disk gives it.
    fn reopened(&self) -> io::Result<Volume> {
        let Opened { memory, answer } = open(&self.disk);
        Ok(Volume { memory, disk: self.disk, due: answer.map_err(refused)? })
    }
}

fn refused(error: Error) -> io::Error {
    io::Error::other(format!("a call of the sweep is refused: {error:?}"))
}
