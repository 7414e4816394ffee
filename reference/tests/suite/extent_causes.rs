//! Each cause of allocate extent, with all left as it was, and the first cause where several hold.

use crate::state::{assert_accepted, assert_refused, State};
use reference::{allocate_extent, Error};

/// Slots, counts and near blocks for causes that come before all of theirs.
const SLOTS: [u32; 5] = [0, 1, 2, 8, u32::MAX];
const COUNTS: [u32; 5] = [0, 1, 64, 65, u32::MAX];
const NEARS: [u32; 4] = [0, 99, 100, u32::MAX];

fn refused(state: &State, error: Error, slot: u32, count: u32, near: u32) {
    assert_refused(state, error, |s| {
        allocate_extent(&mut s.memory, slot, count, near, &mut s.list)
    });
}

fn accepted(state: &State, slot: u32, count: u32, near: u32) {
    assert_accepted(state, |s| allocate_extent(&mut s.memory, slot, count, near, &mut s.list));
}

/// Refused whatever the count, the near block and the list are.
fn refused_with_any(state: &State, error: Error, slot: u32) {
    let mut without_list = state.clone();
    without_list.list.clear();
    for (count, near) in COUNTS.into_iter().flat_map(|count| NEARS.map(|near| (count, near))) {
        refused(state, error, slot, count, near);
        refused(&without_list, error, slot, count, near);
    }
}

#[test]
fn cause_1_memory_not_valid() {
    for state in State::not_valid().into_iter().chain([State::not_valid_and_pending()]) {
        SLOTS.into_iter().for_each(|slot| refused_with_any(&state, Error::InvalidMemory, slot));
    }
}

#[test]
fn cause_8_work_pending() {
    let mut state = State::pending();
    let all_refused = |state: &State| {
        SLOTS.into_iter().for_each(|slot| refused_with_any(state, Error::WorkPending, slot));
    };
    all_refused(&state);
    state.stores(7);
    all_refused(&state);
    assert_eq!(state.crash_and_open(), 3);
    all_refused(&state);
    let mut state = State::pending();
    state.stores(8);
    accepted(&state, 1, 1, 0);
}

#[test]
fn cause_10_slot_above_7() {
    for slot in [8, 9, 256, u32::MAX] {
        refused_with_any(&State::busy(), Error::SlotNumber, slot);
    }
    let mut state = State::busy();
    state.start(7);
    accepted(&state, 7, 1, 0);
}

#[test]
fn cause_12_slot_idle() {
    for slot in [0, 3, 7] {
        refused_with_any(&State::busy(), Error::SlotIdle, slot);
    }
}

#[test]
fn cause_13_slot_precommitted() {
    refused_with_any(&State::busy(), Error::SlotPrecommitted, 2);
    let mut state = State::busy();
    state.precommit(1);
    refused_with_any(&state, Error::SlotPrecommitted, 1);
}

#[test]
fn cause_15_count_outside_1_to_64() {
    let mut without_list = State::busy();
    without_list.list.clear();
    for count in [0, 65, 66, 128, 4096, 1 << 31, u32::MAX] {
        for near in NEARS {
            refused(&State::busy(), Error::Count, 1, count, near);
            refused(&without_list, Error::Count, 1, count, near);
        }
    }
    let mut state = State::opened(4096);
    state.list.resize(100, 0);
    state.start(6);
    refused(&state, Error::Count, 6, 0, 0);
    refused(&state, Error::Count, 6, 65, 0);
    accepted(&state, 6, 1, 0);
    accepted(&state, 6, 64, 0);
}

#[test]
fn cause_16_list_shorter_than_the_count() {
    for (length, count) in [(0, 1), (0, 64), (1, 2), (19, 20), (63, 64)] {
        let mut state = State::busy();
        state.list.truncate(length);
        for near in NEARS {
            refused(&state, Error::ListLength, 1, count, near);
        }
    }
    let mut state = State::busy();
    state.list.truncate(20);
    accepted(&state, 1, 20, 0);
}

#[test]
fn cause_18_the_near_block_is_m_or_above() {
    for near in [100, 101, 127, 128, 4096, u32::MAX] {
        // 25 blocks are available, so for the larger counts cause 22 holds too.
        for count in [1, 25, 26, 64] {
            refused(&State::busy(), Error::BlockNumber, 1, count, near);
        }
    }
    for blocks in [1, 31, 32, 33, 4095, 4096] {
        let mut state = State::opened(blocks);
        state.start(0);
        refused(&state, Error::BlockNumber, 0, 1, blocks);
        accepted(&state, 0, 1, blocks - 1);
    }
}

#[test]
fn cause_22_no_such_blocks() {
    // The available ones are 75 to 99.
    for near in [0, 75, 99] {
        for count in [26, 63, 64] {
            refused(&State::busy(), Error::NoExtent, 1, count, near);
        }
        accepted(&State::busy(), 1, 25, near);
    }
    let mut full = State::busy();
    full.allocate(1, 25);
    refused(&full, Error::NoExtent, 1, 1, 0);
    let mut broken = State::busy();
    assert_eq!(allocate_extent(&mut broken.memory, 1, 1, 80, &mut broken.list), Ok(80));
    refused(&broken, Error::NoExtent, 1, 20, 80);
    accepted(&broken, 1, 19, 80);
}

#[test]
fn the_first_cause_where_all_later_ones_hold() {
    let ask = |mut state: State, error, places, (slot, count, near)| {
        state.list.truncate(places);
        refused(&state, error, slot, count, near);
    };
    ask(State::not_valid_and_pending(), Error::InvalidMemory, 0, (8, 65, 100));
    ask(State::pending(), Error::WorkPending, 0, (8, 65, 100));
    ask(State::busy(), Error::SlotNumber, 0, (8, 65, 100));
    ask(State::busy(), Error::SlotIdle, 0, (0, 65, 100));
    ask(State::busy(), Error::SlotPrecommitted, 0, (2, 65, 100));
    ask(State::busy(), Error::Count, 0, (1, 65, 100));
    ask(State::busy(), Error::ListLength, 25, (1, 26, 100));
    ask(State::busy(), Error::BlockNumber, 26, (1, 26, 100));
    ask(State::busy(), Error::NoExtent, 26, (1, 26, 99));
    let mut state = State::busy();
    state.list.truncate(25);
    accepted(&state, 1, 25, 99);
}

#[test]
fn the_disk_is_not_read() {
    let mut state = State::busy();
    state.disk.clear();
    accepted(&state, 1, 3, 80);
}
