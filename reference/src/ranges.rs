//! Where the available blocks of a memory lie together, for the makers of inputs. The allocator has
//! its own search.

use crate::bitmap::Bitmap;
use crate::memory::Memory;
use std::ops::Range;

/// The longest ranges of available blocks, rising. Any words and numbers may stand in the memory.
pub fn available_ranges(memory: &Memory) -> Vec<Range<u32>> {
    let mut ranges: Vec<Range<u32>> = Vec::new();
    for block in (0..memory.blocks.min(Bitmap::MAX_BLOCKS)).filter(|b| memory.is_available(*b)) {
        match ranges.last_mut() {
            Some(last) if last.end == block => last.end = block + 1,
            _ => ranges.push(block..block + 1),
        }
    }
    ranges
}

/// The number of blocks of the longest range.
pub fn longest(ranges: &[Range<u32>]) -> u32 {
    ranges.iter().map(|range| range.end - range.start).max().unwrap_or(0)
}

/// The blocks equally far from two starts of extents of this many blocks, with none nearer. The
/// count isn't 0.
pub fn between_starts(ranges: &[Range<u32>], count: u32) -> Vec<u32> {
    let wide: Vec<&Range<u32>> =
        ranges.iter().filter(|range| range.end - range.start >= count).collect();
    let gaps = wide.windows(2).map(|pair| (pair[0].end - count, pair[1].start));
    gaps.filter(|(lower, upper)| (upper - lower) % 2 == 0)
        .map(|(lower, upper)| (lower + upper) / 2)
        .collect()
}
