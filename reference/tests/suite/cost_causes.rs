//! Each cause of commit cost, with all left as it was, and the first cause where several hold.

use crate::state::{assert_accepted, assert_refused, State};
use reference::{commit_cost, Error};

fn refused(state: &State, error: Error, slot: u32, count: u32) {
    assert_refused(state, error, |s| commit_cost(&s.memory, slot, count));
}

fn accepted(state: &State, slot: u32, count: u32) {
    assert_accepted(state, |s| commit_cost(&s.memory, slot, count));
}

#[test]
fn cause_1_memory_not_valid() {
    for state in State::not_valid().into_iter().chain([State::not_valid_and_pending()]) {
        for slot in [0, 1, 2, 8, u32::MAX] {
            for count in [0, 1, 64, 65, u32::MAX] {
                refused(&state, Error::InvalidMemory, slot, count);
            }
        }
    }
}

#[test]
fn cause_8_work_pending() {
    let mut state = State::pending();
    let all_refused = |state: &State| {
        for slot in [0, 1, 2, 8, u32::MAX] {
            for count in [0, 1, 26, 65, u32::MAX] {
                refused(state, Error::WorkPending, slot, count);
            }
        }
    };
    all_refused(&state);
    state.stores(7);
    all_refused(&state);
    assert_eq!(state.crash_and_open(), 3);
    all_refused(&state);
    let mut state = State::pending();
    state.stores(8);
    accepted(&state, 1, 0);
}

#[test]
fn cause_10_slot_above_7() {
    for slot in [8, 9, 256, u32::MAX] {
        for count in [0, 1, 26, 65, u32::MAX] {
            refused(&State::busy(), Error::SlotNumber, slot, count);
        }
    }
    let mut state = State::busy();
    state.start(7);
    accepted(&state, 7, 0);
}

#[test]
fn cause_12_slot_idle() {
    for slot in [0, 3, 7] {
        for count in [0, 1, 26, 65, u32::MAX] {
            refused(&State::busy(), Error::SlotIdle, slot, count);
        }
    }
}

#[test]
fn cause_13_slot_precommitted() {
    for count in [0, 1, 26, 65, u32::MAX] {
        refused(&State::busy(), Error::SlotPrecommitted, 2, count);
    }
    let mut state = State::busy();
    state.precommit(1);
    refused(&state, Error::SlotPrecommitted, 1, 0);
}

#[test]
fn cause_15_count_above_64() {
    // 25 blocks are available, so for these counts cause 17 holds too.
    for count in [65, 66, 128, 256, 4096, 65_536, 1 << 31, u32::MAX] {
        refused(&State::busy(), Error::Count, 1, count);
    }
    let mut state = State::opened(4096);
    state.start(6);
    for count in [65, u32::MAX] {
        refused(&state, Error::Count, 6, count);
    }
    for count in [0, 1, 64] {
        accepted(&state, 6, count);
    }
}

#[test]
fn cause_17_fewer_available_blocks_than_the_count() {
    // Of 100 blocks 70 are allocated and 5 taken; the 2 being freed aren't available.
    for count in [26, 63, 64] {
        refused(&State::busy(), Error::TooFewAvailable, 1, count);
    }
    for count in [0, 1, 25] {
        accepted(&State::busy(), 1, count);
    }
    let mut full = State::busy();
    full.allocate(1, 25);
    refused(&full, Error::TooFewAvailable, 1, 1);
    accepted(&full, 1, 0);
}

#[test]
fn no_list_is_lent() {
    let mut state = State::busy();
    state.list.clear();
    accepted(&state, 1, 25);
}

#[test]
fn the_disk_is_not_read() {
    let mut state = State::busy();
    let cost = commit_cost(&state.memory, 1, 3);
    state.disk.clear();
    assert_eq!(commit_cost(&state.memory, 1, 3), cost);
}
