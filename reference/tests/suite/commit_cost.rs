//! The numbers of a commit cost (document 02, job 2).

use crate::costs::{cost_by_blocks, touched_by_blocks};
use crate::state::State;
use crate::valid_memory::valid_memory;
use reference::{commit_cost, Bitmap, Memory, Pending, Random, Slot, SlotState};

const EDGE_BLOCKS: [u32; 6] = [1, 31, 32, 33, 4095, 4096];

/// A memory of this many blocks in which slot 5 is open and has touched the first ones. Of those,
/// every second one is freed and the others are taken.
fn with_touched(blocks: u32, touched: u32) -> Memory {
    let mut memory = Memory::opened(blocks, Bitmap::EMPTY, Pending::Nothing);
    for block in 0..touched {
        let bitmap = if block % 2 == 0 { &mut memory.sam } else { &mut memory.com };
        bitmap.words[block as usize / 32] |= 1 << (block % 32);
    }
    memory.slots[5] = Slot::unreserved(SlotState::Open, memory.com);
    assert!(memory.is_valid());
    memory
}

#[test]
fn nothing_touched_and_no_block_more_is_0() {
    for blocks in EDGE_BLOCKS {
        assert_eq!(commit_cost(&with_touched(blocks, 0), 5, 0), Ok(0), "{blocks} blocks");
    }
}

#[test]
fn the_numbers_by_hand() {
    let cost = |blocks, touched, count| commit_cost(&with_touched(blocks, touched), 5, count);
    assert_eq!([cost(1, 0, 1), cost(1, 1, 0)], [Ok(5); 2]);
    assert_eq!([cost(31, 3, 5), cost(32, 0, 32), cost(32, 32, 0)], [Ok(5); 3]);
    assert_eq!([cost(33, 0, 1), cost(33, 1, 0)], [Ok(5); 2]);
    assert_eq!([cost(33, 1, 1), cost(33, 2, 0), cost(33, 0, 33)], [Ok(8); 3]);
    for blocks in [4095, 4096] {
        assert_eq!([cost(blocks, 1, 0), cost(blocks, 0, 1)], [Ok(5); 2]);
        assert_eq!([cost(blocks, 0, 64), cost(blocks, 1, 63)], [Ok(194); 2]);
        assert_eq!([cost(blocks, 63, 64), cost(blocks, 127, 0)], [Ok(383); 2]);
        assert_eq!([cost(blocks, 64, 64), cost(blocks, 128, 0)], [Ok(386); 2]);
        assert_eq!(
            [cost(blocks, 65, 64), cost(blocks, 129, 0), cost(blocks, 4000, 9)],
            [Ok(386); 3]
        );
    }
}

#[test]
fn the_touched_blocks_and_those_to_come_around_the_number_of_words() {
    for blocks in EDGE_BLOCKS {
        let words = blocks.div_ceil(32);
        for all in [words - 1, words, words + 1] {
            for count in (0..=64).filter(|count| *count <= all && all <= blocks) {
                let expected = if all == 0 { 0 } else { 3 * all.min(words) + 2 };
                let memory = with_touched(blocks, all - count);
                assert_eq!(commit_cost(&memory, 5, count), Ok(expected), "{blocks} {all} {count}");
            }
        }
    }
}

#[test]
fn a_freed_block_counts_as_a_taken_one_does() {
    let mut state = State::opened(200);
    state.start(0);
    state.allocate(0, 100);
    state.commit(0);
    let costs = |state: &State| [0, 1, 2].map(|slot| commit_cost(&state.memory, slot, 0));
    (0..3).for_each(|slot| state.start(slot));
    assert_eq!(costs(&state), [Ok(0), Ok(0), Ok(0)]);
    state.free(0, 99);
    state.allocate(1, 1);
    assert_eq!(costs(&state), [Ok(5), Ok(5), Ok(0)]);
    state.free(0, 3);
    state.allocate(1, 1);
    assert_eq!(costs(&state), [Ok(8), Ok(8), Ok(0)]);
    state.allocate(0, 1);
    state.free(1, 98);
    assert_eq!(costs(&state), [Ok(11), Ok(11), Ok(0)]);
    let expected = [Ok(17), Ok(17), Ok(8)];
    assert_eq!([0, 1, 2].map(|slot| commit_cost(&state.memory, slot, 2)), expected);
}

#[test]
fn what_others_touch_does_not_count_before_their_commit_or_after() {
    let mut state = State::opened(300);
    state.start(1);
    state.allocate(1, 2);
    state.start(2);
    state.allocate(2, 60);
    assert_eq!(commit_cost(&state.memory, 1, 1), Ok(11));
    state.commit(2);
    assert_eq!(commit_cost(&state.memory, 1, 1), Ok(11));
    state.start(3);
    state.free(3, 40);
    assert_eq!(commit_cost(&state.memory, 1, 1), Ok(11));
    state.commit(3);
    assert_eq!(commit_cost(&state.memory, 1, 1), Ok(11));
    state.free(1, 41);
    assert_eq!(commit_cost(&state.memory, 1, 1), Ok(14));
}

#[test]
fn random_memories_counted_block_by_block() {
    let mut random = Random::new(21);
    let (mut accepted, mut below_words, mut refused) = (0, 0, 0);
    for time in 0..3000 {
        let any = 1 + random.below(4096);
        let blocks = EDGE_BLOCKS.get(time % 8).copied().unwrap_or(any);
        let memory = valid_memory(&mut random, blocks);
        for slot in (0..9).flat_map(|slot| [slot; 3]) {
            let near = memory.available().min(64);
            let count = random.choose(&[0, 0, 1, near, near, near + 1, 64, 65, u32::MAX]);
            let answer = commit_cost(&memory, slot, count);
            assert_eq!(answer, cost_by_blocks(&memory, slot, count), "{slot} {count} {memory:?}");
            accepted += u32::from(answer.is_ok());
            refused += u32::from(answer.is_err());
            let touched =
                memory.slots.get(slot as usize).map_or(0, |slot| touched_by_blocks(&memory, slot));
            below_words +=
                u32::from(answer.is_ok() && touched > 0 && touched < blocks.div_ceil(32));
        }
    }
    println!("{accepted} {below_words} {refused}");
    assert!(accepted >= 5000 && below_words >= 500 && refused >= 5000);
}
