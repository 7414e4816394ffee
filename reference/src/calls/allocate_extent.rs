//! The allocation of an extent to a transaction: adjoining blocks near a place, document 02's run
//! (job 4).

use super::allocate::slot_to_list;
use super::reserve::leave_to_others;
use crate::error::{require, Error};
use crate::memory::Memory;

/// Allocates `count` adjoining available blocks, those whose first is nearest to the block `near`,
/// the lower one at equal distance, and gives the first. Their numbers go to the first places of
/// the list, rising; later places stay. The next allocate carries on behind them.
pub fn allocate_extent(
    memory: &mut Memory,
    slot: u32,
    count: u32,
    near: u32,
    list: &mut [u32],
) -> Result<u32, Error> {
    let index = slot_to_list(memory, slot, count, list)?;
    require(near < memory.blocks, Error::BlockNumber)?;
    let start = nearest_start(memory, count, near).ok_or(Error::NoExtent)?;
    leave_to_others(memory, index, memory.available_where_bitmaps_fit() - count)?;
    for (place, block) in list.iter_mut().zip(start..start + count) {
        *place = block;
        memory.com.set(block);
        memory.slots[index].tam.set(block);
    }
    memory.carry_on_after(start + count - 1);
    memory.slots[index].draw(count);
    Ok(start)
}

/// Of all starts of extents the nearest one, and of two the lower one. An extent ends below m.
fn nearest_start(memory: &Memory, count: u32, near: u32) -> Option<u32> {
    let last = memory.blocks.checked_sub(count)?;
    let starts = (0..=last).filter(|start| is_extent(memory, *start, count));
    starts.min_by_key(|start| (start.abs_diff(near), *start))
}

/// Whether all these blocks are available.
fn is_extent(memory: &Memory, start: u32, count: u32) -> bool {
    (start..start + count).all(|block| memory.is_available(block))
}
