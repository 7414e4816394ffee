//! The counts of a volume.

use crate::error::{require, Error};
use crate::memory::Memory;

/// The blocks by their bits in SAM and COM, document 02's four counts, and the active slots.
#[derive(Clone, Copy, PartialEq, Eq, Debug)]
pub struct Status {
    /// The number of ones in SAM.
    pub allocated: u32,
    /// SAM 0 and COM 0, document 01's grantable.
    pub available: u32,
    /// SAM 0 and COM 1, being taken.
    pub allocating: u32,
    /// SAM 1 and COM 0, being released.
    pub freeing: u32,
    /// SAM 1 and COM 1.
    pub held: u32,
    /// The slots that aren't idle.
    pub active: u32,
}

/// Counts the blocks and the active slots. A valid memory's bitmaps have no bit from m on, so the
/// blocks with neither bit are the rest of m. Inlined, a call pays only for the counts that it uses.
#[inline]
pub fn status(memory: &Memory) -> Result<Status, Error> {
    require(memory.is_valid(), Error::InvalidMemory)?;
    let (mut allocated, mut allocating, mut freeing, mut held) = (0, 0, 0, 0);
    for (sam, com) in memory.sam.words.iter().zip(&memory.com.words) {
        allocated += sam.count_ones();
        allocating += (!sam & com).count_ones();
        freeing += (sam & !com).count_ones();
        held += (sam & com).count_ones();
    }
    let available = memory.blocks - allocating - allocated;
    let active = memory.active_slots().count() as u32;
    Ok(Status { allocated, available, allocating, freeing, held, active })
}
