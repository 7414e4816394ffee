//! Allocate extent as document 02 says it, one block at a time.

use crate::allocates::granted;
use crate::reserves::leaves_others_theirs;
use crate::slots::ready_slot;
use reference::inspector::Inspector;
use reference::{Bitmap, Error, Memory, SlotState};

/// The arguments of an extent.
#[derive(Clone, Copy, Debug)]
pub struct Asked {
    pub slot: u32,
    pub count: u32,
    pub near: u32,
}

/// What an extent is to answer with a list of so many places: allocate's causes without 17 in
/// number order, then 18, 22 and 24, then its first block.
pub fn extent_by_blocks(memory: &Memory, places: usize, asked: Asked) -> Result<u32, Error> {
    let Asked { slot, count, near } = asked;
    match ready_slot(memory, slot)?.state {
        SlotState::Idle => Err(Error::SlotIdle),
        SlotState::Precommitted => Err(Error::SlotPrecommitted),
        SlotState::Open if count == 0 || count > 64 => Err(Error::Count),
        SlotState::Open if places < count as usize => Err(Error::ListLength),
        SlotState::Open if near >= memory.blocks => Err(Error::BlockNumber),
        SlotState::Open => {
            let start = nearest_start(memory, count, near).ok_or(Error::NoExtent)?;
            leaves_others_theirs(memory, slot, count).map(|()| start)
        }
    }
}

/// From the near block outwards, the lower block first.
pub fn nearest_start(memory: &Memory, count: u32, near: u32) -> Option<u32> {
    (0..memory.blocks).find_map(|distance| {
        let lower = near.checked_sub(distance);
        [lower, Some(near + distance)].into_iter().flatten().find(|b| is_start(memory, *b, count))
    })
}

/// Whether so many adjoining blocks from this one on are below m and have SAM 0 and COM 0.
pub fn is_start(memory: &Memory, start: u32, count: u32) -> bool {
    let is_available =
        |block: u32| block < memory.blocks && !memory.sam.has(block) && !memory.com.has(block);
    (0..count).all(|place| is_available(start + place))
}

/// Whether this start, the nearest one, has another above the near block that is equally far.
pub fn is_tie(memory: &Memory, asked: Asked, start: u32) -> bool {
    start < asked.near && is_start(memory, 2 * asked.near - start, asked.count)
}

/// The state is the former one, but for the blocks of the extent in COM, in the slot's bitmap and,
/// rising, in the first places of the list, and for the cursor behind them.
pub fn assert_granted(before: &Inspector, after: &Inspector, asked: Asked, start: u32) {
    let listed: Vec<u32> = (start..start + asked.count).collect();
    let mut expected = before.clone();
    expected.memory = granted(&before.memory, asked.slot, &listed);
    expected.list[..listed.len()].copy_from_slice(&listed);
    assert_eq!(*after, expected, "{asked:?} at {start}");
}

/// Makes the block's bit 1.
pub fn put(bitmap: &mut Bitmap, block: u32) {
    bitmap.words[block as usize / 32] |= 1 << (block % 32);
}
