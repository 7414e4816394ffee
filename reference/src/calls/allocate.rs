//! The allocation of blocks to a transaction: the first ones met from the cursor on (document 02,
//! job 6).

use super::readiness::open_slot;
use super::reserve::leave_to_others;
use crate::bitmap::Bitmap;
use crate::error::{require, Error};
use crate::memory::Memory;
use std::iter::once;

/// The most blocks that one call allocates.
pub const MAX_COUNT: u32 = 64;

/// Allocates the first `count` available blocks met from the cursor on, round at m. Their numbers
/// go to the first places of the list in the order met; later places stay.
pub fn allocate(memory: &mut Memory, slot: u32, count: u32, list: &mut [u32]) -> Result<(), Error> {
    let index = slot_to_list(memory, slot, count, list)?;
    has_blocks_for(memory, index, count)?;
    grant(memory, index, &mut list[..count as usize]);
    Ok(())
}

/// The causes before 17, which the allocation of an extent has too. It gives the slot's index.
pub(super) fn slot_to_list(
    memory: &Memory,
    slot: u32,
    count: u32,
    list: &[u32],
) -> Result<usize, Error> {
    let index = open_slot(memory, slot)?;
    require((1..=MAX_COUNT).contains(&count), Error::Count)?;
    require(list.len() >= count as usize, Error::ListLength)?;
    Ok(index)
}

/// The causes 17 and 24, which commit cost has too. The memory is valid.
pub(super) fn has_blocks_for(memory: &Memory, index: usize, count: u32) -> Result<(), Error> {
    let available = memory.available_where_bitmaps_fit();
    require(available >= count, Error::TooFewAvailable)?;
    leave_to_others(memory, index, available - count)
}

/// Gives the slot the first available blocks met, as many as the list has places, of which there
/// are enough.
fn grant(memory: &mut Memory, index: usize, list: &mut [u32]) {
    let mut listed = 0;
    for (word, bits) in words_in_turn(memory.cursor, memory.blocks) {
        let taken = list_rising(memory.available_in(word) & bits, word, &mut list[listed..]);
        memory.com.words[word] |= taken;
        memory.slots[index].tam.words[word] |= taken;
        listed += taken.count_ones() as usize;
        if listed == list.len() {
            break;
        }
    }
    memory.carry_on_after(list[list.len() - 1]);
    memory.slots[index].draw(list.len() as u32);
}

/// The words in the order of the search, each with the bits that are looked at then. The cursor's
/// word comes first, from the cursor on, and last, up to it.
fn words_in_turn(cursor: u32, blocks: u32) -> impl Iterator<Item = (usize, u32)> {
    let (first, from_cursor) = Bitmap::from_block(cursor);
    let whole = (first + 1..Bitmap::words_for(blocks) as usize).chain(0..first);
    once((first, from_cursor))
        .chain(whole.map(|word| (word, u32::MAX)))
        .chain(once((first, !from_cursor)))
}

/// Lists the lowest of these blocks of one word while there are places, and gives their bits.
fn list_rising(available: u32, word: usize, places: &mut [u32]) -> u32 {
    let mut left = available;
    for place in places.iter_mut().take(available.count_ones() as usize) {
        *place = word as u32 * Bitmap::WORD_BITS + left.trailing_zeros();
        left &= left - 1;
    }
    available ^ left
}
