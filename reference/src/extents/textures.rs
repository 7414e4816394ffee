//! Which blocks of a volume aren't available: in many textures, some made for a count.

use crate::bitmap::Bitmap;
use crate::random::Random;
use std::ops::Range;

/// The longest of random stretches.
const MOST_ADJOINING: u32 = 80;
const MOST_SPARSE: u32 = 8;
const PERCENTS: [u32; 7] = [3, 10, 25, 50, 75, 90, 97];

/// The blocks that aren't available where most of the volume is to be empty.
pub fn sparse_texture(random: &mut Random, blocks: u32) -> Bitmap {
    let mut taken = Bitmap::EMPTY;
    for _ in 0..random.below(MOST_SPARSE + 1) {
        let start = random.below(blocks);
        let end = (start + 1 + random.below(MOST_ADJOINING)).min(blocks);
        (start..end).for_each(|block| taken.set(block));
    }
    taken
}

/// The blocks that aren't available, in one of the textures.
pub fn texture(random: &mut Random, blocks: u32, count: u32) -> Bitmap {
    match random.below(12) {
        0 => Bitmap::EMPTY,
        1 => all_but(blocks, &[]),
        2 => one_hole(random, blocks),
        3 => comb(random, blocks),
        4 | 5 => scattered(random, blocks),
        6 | 7 => stretches(random, blocks),
        8 => hole_at_an_end(random, blocks, count),
        9 => short_holes(random, blocks, count),
        _ => two_holes(random, blocks, count),
    }
}

/// All blocks but those of the holes.
fn all_but(blocks: u32, holes: &[Range<u32>]) -> Bitmap {
    let mut taken = Bitmap::EMPTY;
    (0..blocks).for_each(|block| taken.set(block));
    for hole in holes {
        hole.clone().filter(|block| *block < blocks).for_each(|block| taken.clear(block));
    }
    taken
}

fn one_hole(random: &mut Random, blocks: u32) -> Bitmap {
    let start = random.below(blocks);
    let hole = start..start + 1 + random.below(MOST_ADJOINING);
    all_but(blocks, &[hole])
}

/// Every other block.
fn comb(random: &mut Random, blocks: u32) -> Bitmap {
    let mut taken = Bitmap::EMPTY;
    (random.below(2)..blocks).step_by(2).for_each(|block| taken.set(block));
    taken
}

/// Each block by itself, at a density.
fn scattered(random: &mut Random, blocks: u32) -> Bitmap {
    let percent = random.choose(&PERCENTS);
    let mut taken = Bitmap::EMPTY;
    (0..blocks).filter(|_| random.below(100) < percent).for_each(|block| taken.set(block));
    taken
}

/// Stretches of random lengths, available ones and others by turns.
fn stretches(random: &mut Random, blocks: u32) -> Bitmap {
    let mut taken = Bitmap::EMPTY;
    let mut is_taken = random.one_in(2);
    let most = random.choose(&[4, 16, MOST_ADJOINING]);
    let mut start = 0;
    while start < blocks {
        let end = (start + 1 + random.below(most)).min(blocks);
        if is_taken {
            (start..end).for_each(|block| taken.set(block));
        }
        (start, is_taken) = (end, !is_taken);
    }
    taken
}

/// A hole that begins with block 0, ends with the last block, or both, about as long as the count.
fn hole_at_an_end(random: &mut Random, blocks: u32, count: u32) -> Bitmap {
    let mut length = || (count + random.below(3)).saturating_sub(1).min(blocks);
    let (first, last) = (0..length(), blocks - length()..blocks);
    match random.below(3) {
        0 => all_but(blocks, &[first]),
        1 => all_but(blocks, &[last]),
        _ => all_but(blocks, &[first, last]),
    }
}

/// Holes that are one block too short for the count, and now and then one that is just long enough.
fn short_holes(random: &mut Random, blocks: u32, count: u32) -> Bitmap {
    let step = count + random.below(2);
    let starts = (random.below(step)..blocks).step_by(step as usize);
    let mut holes: Vec<Range<u32>> = starts.map(|start| start..start + count - 1).collect();
    if random.one_in(2) {
        let start = random.below(blocks);
        holes.push(start..start + count);
    }
    all_but(blocks, &holes)
}

/// Two holes just long enough for the count. The block in the middle is equally far from both, if
/// there is such a block.
fn two_holes(random: &mut Random, blocks: u32, count: u32) -> Bitmap {
    let middle = random.below(blocks);
    let distance = count.div_ceil(2) + random.below(3 * count);
    let lower = middle.saturating_sub(distance);
    let upper = middle + distance;
    all_but(blocks, &[lower..lower + count, upper..upper + count])
}
