//! The search of allocate by hand (document 02, job 6): from the cursor on, round at m, and what
//! moves the cursor.

use crate::allocate_extent::{available, SLOT};
use crate::state::{assert_refused, State, UNWRITTEN};
use reference::{
    allocate, allocate_extent, commit, commit_cost, deallocate, drop, format, open, precommit,
    revoke, start, status, store, Error, Memory, Pending,
};
use std::ops::RangeInclusive;

const EDGE_BLOCKS: [u32; 7] = [1, 2, 31, 32, 33, 4095, 4096];

/// A volume on which just these blocks are available, with a slot open and this cursor.
fn searched_from(blocks: u32, cursor: u32, ranges: &[RangeInclusive<u32>]) -> State {
    let mut state = available(blocks, ranges);
    state.memory.cursor = cursor;
    state
}

/// Makes an allocate on a copy, and gives the numbers listed and the cursor. Later places stay.
fn listed(state: &State, count: u32) -> (Vec<u32>, u32) {
    let State { mut memory, mut list, .. } = state.clone();
    assert_eq!(allocate(&mut memory, SLOT, count, &mut list), Ok(()));
    assert!(memory.is_valid());
    let (listed, later) = list.split_at(count as usize);
    assert!(later.iter().all(|place| *place == UNWRITTEN));
    (listed.to_vec(), memory.cursor)
}

#[test]
fn it_carries_on_after_the_last_block_granted_to_any_slot() {
    let mut state = State::opened(20);
    (0..3).for_each(|slot| state.start(slot));
    assert_eq!(state.allocate(0, 3), [0, 1, 2]);
    assert_eq!(state.allocate(1, 2), [3, 4]);
    assert_eq!(state.allocate(0, 1), [5]);
    state.commit(0);
    assert_eq!(state.allocate(2, 4), [6, 7, 8, 9]);
    assert_eq!(state.memory.cursor, 10);
}

#[test]
fn blocks_below_the_cursor_are_passed_over_until_it_comes_round() {
    let mut state = State::opened(8);
    state.start(0);
    state.allocate(0, 5);
    state.commit(0);
    state.start(0);
    state.free(0, 1);
    state.free(0, 3);
    state.commit(0);
    state.start(1);
    assert_eq!(state.allocate(1, 1), [5]);
    assert_eq!(state.allocate(1, 3), [6, 7, 1]);
    assert_eq!(state.memory.cursor, 2);
    assert_eq!(state.allocate(1, 1), [3]);
    assert_refused(&state, Error::TooFewAvailable, |s| allocate(&mut s.memory, 1, 1, &mut s.list));
}

#[test]
fn it_goes_round_at_m_and_lists_in_the_order_met() {
    let state = searched_from(10, 8, &[0..=2, 6..=9]);
    assert_eq!(listed(&state, 1), (vec![8], 9));
    assert_eq!(listed(&state, 2), (vec![8, 9], 0));
    assert_eq!(listed(&state, 3), (vec![8, 9, 0], 1));
    assert_eq!(listed(&state, 5), (vec![8, 9, 0, 1, 2], 3));
    assert_eq!(listed(&state, 7), (vec![8, 9, 0, 1, 2, 6, 7], 8));
}

#[test]
fn it_goes_round_just_where_it_must() {
    // The cursor's block isn't available, nothing from it on is, nothing below it is.
    assert_eq!(listed(&searched_from(10, 5, &[2..=2, 7..=7]), 2), (vec![7, 2], 3));
    assert_eq!(listed(&searched_from(10, 8, &[2..=7]), 3), (vec![2, 3, 4], 5));
    assert_eq!(listed(&searched_from(10, 3, &[3..=9]), 7), (vec![3, 4, 5, 6, 7, 8, 9], 0));
    assert_eq!(listed(&searched_from(10, 0, &[0..=9]), 10), ((0..10).collect(), 0));
}

#[test]
fn within_one_word_and_across_the_ends_of_words() {
    assert_eq!(listed(&searched_from(32, 10, &[5..=5, 20..=20]), 2), (vec![20, 5], 6));
    assert_eq!(listed(&searched_from(100, 40, &[33..=33, 70..=70]), 2), (vec![70, 33], 34));
    for cursor in [31, 32, 33, 63, 64, 65] {
        let state = searched_from(100, cursor, &[0..=99]);
        let expected: Vec<u32> = (cursor..cursor + 3).collect();
        assert_eq!(listed(&state, 3), (expected, cursor + 3));
        let (all, next) = listed(&state, 64);
        assert!(all.iter().copied().eq((cursor..100).chain(0..cursor).take(64)));
        assert_eq!(next, (cursor + 64) % 100);
    }
    let far = searched_from(4096, 64, &[63..=63, 4000..=4000]);
    assert_eq!(listed(&far, 2), (vec![4000, 63], 64));
}

#[test]
fn after_block_m_less_1_the_cursor_is_0() {
    for blocks in EDGE_BLOCKS {
        let state = searched_from(blocks, blocks - 1, &[0..=blocks - 1]);
        assert_eq!(listed(&state, 1), (vec![blocks - 1], 0), "{blocks} blocks");
        if blocks > 1 {
            assert_eq!(listed(&state, 2), (vec![blocks - 1, 0], 1), "{blocks} blocks");
        }
        let mut all = State::opened(blocks);
        all.start(3);
        assert_eq!(all.allocate(3, blocks), (0..blocks).collect::<Vec<u32>>());
        assert_eq!(all.memory.cursor, 0, "{blocks} blocks");
    }
}

#[test]
fn cause_17_counts_the_whole_volume() {
    for cursor in 0..10 {
        let state = searched_from(10, cursor, &[0..=1, 5..=5]);
        assert_refused(&state, Error::TooFewAvailable, |s| {
            allocate(&mut s.memory, SLOT, 4, &mut s.list)
        });
        let (mut numbers, _) = listed(&state, 3);
        numbers.sort_unstable();
        assert_eq!(numbers, [0, 1, 5], "from {cursor}");
        assert_eq!(commit_cost(&state.memory, SLOT, 3), Ok(5));
        assert_eq!(commit_cost(&state.memory, SLOT, 4), Err(Error::TooFewAvailable));
    }
}

#[test]
fn the_commit_cost_bounds_blocks_of_both_ends() {
    let mut state = searched_from(4096, 4095, &[0..=4095]);
    assert_eq!(commit_cost(&state.memory, SLOT, 2), Ok(8));
    assert_eq!(state.allocate(SLOT, 2), [4095, 0]);
    assert_eq!(state.begin_commit(SLOT), 8);
}

#[test]
fn other_accepted_calls_leave_the_cursor() {
    let mut state = State::busy();
    assert_eq!(state.memory.cursor, 75);
    let at_75 = |state: &mut State, call: fn(&mut State)| {
        call(state);
        assert_eq!(state.memory.cursor, 75);
    };
    at_75(&mut state, |s| s.start(3));
    at_75(&mut state, |s| s.free(3, 40));
    at_75(&mut state, |s| assert_eq!(status(&s.memory).map(|counts| counts.available), Ok(25)));
    at_75(&mut state, |s| assert_eq!(commit_cost(&s.memory, 3, 9), Ok(14)));
    at_75(&mut state, |s| assert_eq!(drop(&mut s.memory, 1), Ok(())));
    at_75(&mut state, |s| s.precommit(3));
    at_75(&mut state, |s| assert_eq!(revoke(&mut s.memory, 2), Ok(())));
    at_75(&mut state, |s| assert_eq!(commit(&mut s.memory, 3), Ok(5)));
    (0..5).for_each(|_| at_75(&mut state, |s| s.stores(1)));
    at_75(&mut state, |s| s.start(4));
    assert_eq!(state.allocate(4, 25), (75..100).collect::<Vec<u32>>());
    assert_eq!(state.allocate(4, 6), [40, 70, 71, 72, 73, 74]);
}

#[test]
fn what_a_drop_or_a_revoke_gives_back_comes_last() {
    for is_precommitted in [false, true] {
        let mut state = State::opened(10);
        state.start(1);
        state.start(2);
        assert_eq!(state.allocate(1, 4), [0, 1, 2, 3]);
        if is_precommitted {
            state.precommit(1);
            assert_eq!(revoke(&mut state.memory, 1), Ok(()));
        } else {
            assert_eq!(drop(&mut state.memory, 1), Ok(()));
        }
        assert_eq!(state.memory.cursor, 4);
        assert_eq!(state.allocate(2, 7), [4, 5, 6, 7, 8, 9, 0]);
        assert_eq!(state.memory.cursor, 1);
    }
}

#[test]
fn refused_calls_leave_the_cursor() {
    // `assert_refused` compares the whole memory.
    let state = State::busy();
    for (slot, count) in [(8, 1), (0, 1), (2, 1), (1, 0), (1, 65), (1, 26)] {
        let mut after = state.clone();
        assert!(allocate(&mut after.memory, slot, count, &mut after.list).is_err());
        assert_eq!(after, state);
    }
    assert_refused(&state, Error::ListLength, |s| allocate(&mut s.memory, 1, 2, &mut s.list[..1]));
    assert_refused(&state, Error::NoExtent, |s| {
        allocate_extent(&mut s.memory, 1, 26, 0, &mut s.list)
    });
    assert_refused(&State::pending(), Error::WorkPending, |s| {
        allocate(&mut s.memory, 1, 1, &mut s.list)
    });
}

#[test]
fn an_open_searches_from_block_0() {
    let mut state = State::opened(100);
    state.start(1);
    state.allocate(1, 40);
    state.begin_commit(1);
    state.stores(5);
    assert_eq!(state.memory.cursor, 40);
    let mut crashed = state.clone();
    assert_eq!(crashed.crash_and_open(), 3);
    assert!(matches!(crashed.memory.pending, Pending::Recovery { .. }));
    assert_eq!(crashed.memory.cursor, 0);
    crashed.stores(3);
    assert_eq!(crashed.memory.cursor, 0);
    crashed.start(1);
    assert_eq!(crashed.allocate(1, 1), [40]);
    state.stores(3);
    assert_eq!(state.crash_and_open(), 0);
    assert_eq!(state.memory.cursor, 0);
    state.disk[0] = 0;
    assert_eq!(open(&state.disk).memory, Memory::ZEROS);
}

#[test]
fn an_extent_sets_the_cursor_and_is_listed_rising() {
    let mut state = State::opened(100);
    state.start(1);
    state.allocate(1, 90);
    let call = |state: &mut State, count, near| {
        let State { memory, list, .. } = state;
        let first = allocate_extent(memory, 1, count, near, list).unwrap();
        assert!(list[..count as usize].iter().copied().eq(first..first + count));
        (first, memory.cursor)
    };
    assert_eq!(call(&mut state, 3, 92), (92, 95));
    assert_eq!(state.allocate(1, 2), [95, 96]);
    assert_eq!(call(&mut state, 3, 99), (97, 0));
    assert_eq!(state.allocate(1, 2), [90, 91]);
    let mut low = searched_from(100, 60, &[0..=99]);
    assert_eq!(allocate_extent(&mut low.memory, SLOT, 4, 20, &mut low.list), Ok(20));
    assert_eq!(low.allocate(SLOT, 2), [24, 25], "below where it was");
    for blocks in EDGE_BLOCKS {
        let mut state = searched_from(blocks, 0, &[0..=blocks - 1]);
        let last = blocks - 1;
        assert_eq!(allocate_extent(&mut state.memory, SLOT, 1, last, &mut state.list), Ok(last));
        assert_eq!(state.memory.cursor, 0, "{blocks} blocks");
    }
}

type AnyCall = fn(&mut State) -> Result<u32, Error>;

#[test]
fn with_a_cursor_of_m_or_above_each_call_that_tests_1_gets_it() {
    let calls: [AnyCall; 11] = [
        |s| start(&mut s.memory, 3).map(|()| 0),
        |s| allocate(&mut s.memory, 1, 1, &mut s.list).map(|()| 0),
        |s| allocate_extent(&mut s.memory, 1, 1, 0, &mut s.list),
        |s| deallocate(&mut s.memory, 1, 0).map(|()| 0),
        |s| precommit(&mut s.memory, 1).map(|()| 0),
        |s| drop(&mut s.memory, 1).map(|()| 0),
        |s| commit(&mut s.memory, 2),
        |s| revoke(&mut s.memory, 2).map(|()| 0),
        |s| store(&mut s.memory, &mut s.disk),
        |s| status(&s.memory).map(|counts| counts.allocated),
        |s| commit_cost(&s.memory, 1, 1),
    ];
    for mut state in [State::busy(), State::pending()] {
        for cursor in [100, 101, 4096, 4294967295] {
            state.memory.cursor = cursor;
            for call in calls {
                assert_refused(&state, Error::InvalidMemory, call);
            }
        }
        assert_eq!(format(&mut state.disk, 9), Ok(()));
        assert_eq!(open(&state.disk).answer, Ok(0));
    }
}
