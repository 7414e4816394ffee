//! The extents by hand (document 02, job 4), and on random memories against its words.

use crate::extents::{assert_granted, extent_by_blocks, is_tie, put, Asked};
use crate::state::{assert_refused, State, UNWRITTEN};
use crate::valid_memory::valid_memory;
use reference::inspector::Inspector;
use reference::{allocate_extent, drop, Bitmap, Error, Memory, Pending, Random};
use std::ops::RangeInclusive;

pub const SLOT: u32 = 5;

/// A volume on which just these blocks are available, with a slot open.
pub fn available(blocks: u32, ranges: &[RangeInclusive<u32>]) -> State {
    let mut sam = Bitmap::EMPTY;
    let is_available = |block: &u32| ranges.iter().any(|range| range.contains(block));
    (0..blocks).filter(|block| !is_available(block)).for_each(|block| put(&mut sam, block));
    let mut state = State::opened(blocks);
    state.memory = Memory::opened(blocks, sam, Pending::Nothing);
    state.start(SLOT);
    state
}

/// Makes an extent on a copy, and gives the numbers listed. Later places stay.
fn listed(state: &State, count: u32, near: u32) -> Vec<u32> {
    let State { mut memory, mut list, .. } = state.clone();
    let start = allocate_extent(&mut memory, SLOT, count, near, &mut list).unwrap();
    let (listed, later) = list.split_at(count as usize);
    assert_eq!(listed[0], start);
    assert!(later.iter().all(|place| *place == UNWRITTEN));
    listed.to_vec()
}

fn start(state: &State, count: u32, near: u32) -> u32 {
    listed(state, count, near)[0]
}

fn no_extent(state: &State, count: u32, near: u32) {
    assert_refused(state, Error::NoExtent, |s| {
        allocate_extent(&mut s.memory, SLOT, count, near, &mut s.list)
    });
}

#[test]
fn on_an_empty_volume_it_begins_at_the_near_block() {
    let state = available(100, &[0..=99]);
    for near in [0, 1, 31, 32, 50, 97] {
        assert_eq!(listed(&state, 3, near), [near, near + 1, near + 2]);
    }
    assert_eq!(listed(&state, 3, 98), [97, 98, 99]);
    assert_eq!(listed(&state, 3, 99), [97, 98, 99]);
    assert_eq!(listed(&state, 64, 99), (36..100).collect::<Vec<u32>>());
}

#[test]
fn of_two_starts_the_nearer_one_and_at_equal_distance_the_lower_one() {
    let state = available(100, &[10..=11, 20..=21]);
    assert_eq!(start(&state, 2, 15), 10);
    assert_eq!(start(&state, 2, 16), 20);
    assert_eq!(start(&state, 2, 14), 10);
    assert_eq!(start(&state, 2, 0), 10);
    assert_eq!(start(&state, 2, 99), 20);
    let odd = available(100, &[10..=11, 21..=22]);
    assert_eq!([start(&odd, 2, 15), start(&odd, 2, 16)], [10, 21]);
    let next_to = available(100, &[40..=40, 42..=42]);
    assert_eq!(start(&next_to, 1, 41), 40);
}

#[test]
fn nearness_counts_from_the_first_block_and_not_from_the_end() {
    // The starts are 3 to 6, whose extents end at 7 to 10, and 17.
    let state = available(100, &[3..=10, 17..=21]);
    assert_eq!(start(&state, 5, 12), 17);
    assert_eq!(start(&state, 5, 11), 6);
    // The one start below has its extent around the near block.
    let around = available(100, &[10..=39, 43..=72]);
    assert_eq!(start(&around, 30, 27), 43);
    assert_eq!(start(&around, 30, 26), 10);
}

#[test]
fn one_block_near_an_available_one_is_that_one() {
    let state = available(70, &[3..=3, 5..=5, 31..=32, 64..=64, 69..=69]);
    for block in [3, 5, 31, 32, 64, 69] {
        assert_eq!(listed(&state, 1, block), [block]);
    }
    assert_eq!([start(&state, 1, 4), start(&state, 1, 63), start(&state, 1, 67)], [3, 64, 69]);
}

#[test]
fn an_extent_across_the_end_of_a_word() {
    let state = available(100, &[30..=34, 63..=64]);
    assert_eq!(listed(&state, 5, 0), [30, 31, 32, 33, 34]);
    assert_eq!(listed(&state, 2, 99), [63, 64]);
    assert_eq!(listed(&state, 2, 31), [31, 32]);
    no_extent(&state, 6, 30);
}

#[test]
fn an_extent_of_64_blocks_in_three_words() {
    let state = available(200, &[31..=94, 100..=162]);
    for near in [0, 95, 100, 199] {
        assert_eq!(listed(&state, 64, near), (31..95).collect::<Vec<u32>>());
    }
    let mut after = state.clone();
    allocate_extent(&mut after.memory, SLOT, 64, 0, &mut after.list).unwrap();
    let taken = |word: usize| after.memory.com.words[word] ^ state.memory.com.words[word];
    assert_eq!([taken(0), taken(1), taken(2), taken(3)], [1 << 31, u32::MAX, u32::MAX >> 1, 0]);
}

#[test]
fn an_extent_at_block_0() {
    for blocks in [3, 31, 32, 33, 4096] {
        let state = available(blocks, &[0..=2]);
        for near in [0, 1, blocks - 1] {
            assert_eq!(listed(&state, 3, near), [0, 1, 2], "{blocks} blocks");
        }
        no_extent(&state, 4, 0);
    }
    assert_eq!(listed(&available(1, &[0..=0]), 1, 0), [0]);
}

#[test]
fn an_extent_at_the_last_blocks() {
    for blocks in [31, 32, 33, 64, 4095, 4096] {
        let state = available(blocks, &[blocks - 3..=blocks - 1]);
        for near in [0, blocks - 2, blocks - 1] {
            let expected = [blocks - 3, blocks - 2, blocks - 1];
            assert_eq!(listed(&state, 3, near), expected, "{blocks} blocks");
        }
        assert_eq!(listed(&state, 1, blocks - 1), [blocks - 1]);
        // What would come from m on isn't there, though its bits are 0.
        no_extent(&state, 4, blocks - 1);
        no_extent(&state, 4, 0);
    }
    let one = available(1, &[0..=0]);
    no_extent(&one, 2, 0);
    no_extent(&one, 64, 0);
}

#[test]
fn there_may_be_no_extent_though_enough_blocks_are_available() {
    let comb: Vec<RangeInclusive<u32>> = (0..2048).map(|pair| 2 * pair..=2 * pair).collect();
    let state = available(4096, &comb);
    assert_eq!(state.memory.available(), 2048);
    for near in [0, 1, 2000, 4095] {
        no_extent(&state, 2, near);
        no_extent(&state, 64, near);
        assert_eq!(start(&state, 1, near), near / 2 * 2);
    }
    let halves = available(128, &[0..=62, 64..=126]);
    no_extent(&halves, 64, 64);
    assert_eq!(start(&halves, 63, 33), 64);
    no_extent(&available(50, &[]), 1, 0);
}

#[test]
fn all_extents_of_a_small_volume() {
    // Each way in which 7 blocks can be available or not.
    for bits in 0..1u32 << 7 {
        let free: Vec<u32> = (0..7).filter(|block| bits >> block & 1 == 1).collect();
        let ranges: Vec<RangeInclusive<u32>> = free.iter().map(|block| *block..=*block).collect();
        let state = available(7, &ranges);
        for (count, near) in (1..=7).flat_map(|count| (0..7).map(move |near| (count, near))) {
            let mut starts = free.clone();
            starts.retain(|start| (0..count).all(|place| free.contains(&(start + place))));
            starts.sort_by_key(|start| (start.abs_diff(near), *start));
            match starts.first() {
                Some(first) => assert_eq!(start(&state, count, near), *first, "{free:?} {near}"),
                None => no_extent(&state, count, near),
            }
        }
    }
}

#[test]
fn its_blocks_get_1_in_com_and_in_the_slots_bitmap_alone() {
    let mut state = State::busy();
    let before = state.memory.clone();
    assert_eq!(allocate_extent(&mut state.memory, 1, 3, 80, &mut state.list), Ok(80));
    let mut expected = before;
    for block in 80..83 {
        put(&mut expected.com, block);
        put(&mut expected.slots[1].tam, block);
    }
    expected.cursor = 83;
    assert_eq!(state.memory, expected);
    assert_eq!(state.list[..3], [80, 81, 82]);
}

#[test]
fn what_others_have_touched_is_not_available() {
    // Slot 1 took 70 to 72 and freed 10, slot 2 took 73 and 74 and freed 20.
    let state = State::busy();
    for near in [9, 10, 20, 69, 70, 73, 74, 75] {
        let mut after = state.clone();
        assert_eq!(allocate_extent(&mut after.memory, 1, 1, near, &mut after.list), Ok(75));
    }
}

#[test]
fn an_extent_is_lost_at_a_crash_given_back_at_a_drop_and_kept_at_a_commit() {
    let mut state = State::opened(100);
    state.start(2);
    assert_eq!(allocate_extent(&mut state.memory, 2, 10, 50, &mut state.list), Ok(50));
    let (mut crashed, mut dropped) = (state.clone(), state.clone());
    assert_eq!(crashed.crash_and_open(), 0);
    assert_eq!(crashed.memory, State::opened(100).memory);
    assert_eq!(drop(&mut dropped.memory, 2), Ok(()));
    assert_eq!(dropped.memory, Memory { cursor: 60, ..State::opened(100).memory });
    state.commit(2);
    assert_eq!(state.crash_and_open(), 0);
    assert_eq!(state.memory.sam.words[1], ((1 << 10) - 1) << 18);
    state.start(2);
    assert_eq!(
        allocate_extent(&mut state.memory, 2, 60, 50, &mut state.list),
        Err(Error::NoExtent)
    );
    assert_eq!(allocate_extent(&mut state.memory, 2, 40, 50, &mut state.list), Ok(60));
}

#[test]
fn random_memories_read_block_by_block() {
    let mut random = Random::new(41);
    let (mut accepted, mut moved, mut ties, mut without) = (0, 0, 0, 0);
    for time in 0..3000 {
        let any = 1 + random.below(4096);
        let blocks = [1, 31, 32, 33, 100, 4095, 4096].get(time % 8).copied().unwrap_or(any);
        let memory = valid_memory(&mut random, blocks);
        for slot in 0..9 {
            let before = Inspector { memory: memory.clone(), ..Inspector::new() };
            let count = random.choose(&[1, 1, 2, 2, 3, 5, 9, 20, 64, 65]);
            let near = if random.one_in(12) { blocks } else { random.below(blocks) };
            let asked = Asked { slot, count, near };
            let mut after = before.clone();
            let Inspector { memory: own, list, .. } = &mut after;
            let answer = allocate_extent(own, slot, count, near, list);
            assert_eq!(answer, extent_by_blocks(&memory, 64, asked), "{asked:?} {memory:?}");
            match answer {
                Ok(start) => assert_granted(&before, &after, asked, start),
                Err(_) => assert_eq!(after, before),
            }
            accepted += u32::from(answer.is_ok());
            moved += u32::from(answer.is_ok_and(|start| start != near));
            ties += u32::from(answer.is_ok_and(|start| is_tie(&memory, asked, start)));
            without += u32::from(answer == Err(Error::NoExtent));
        }
    }
    println!("{accepted} {moved} {ties} {without}");
    assert!(accepted >= 500 && moved >= 300 && ties >= 20 && without >= 500);
}
