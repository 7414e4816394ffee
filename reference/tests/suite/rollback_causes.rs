//! Each cause of drop and of revoke, with all left as it was, and the first cause where several
//! hold.

use crate::state::{assert_accepted, assert_refused, State};
use reference::{commit, drop, revoke, Error, SlotState};

fn drop_refused(state: &State, error: Error, slot: u32) {
    assert_refused(state, error, |s| drop(&mut s.memory, slot));
}

fn revoke_refused(state: &State, error: Error, slot: u32) {
    assert_refused(state, error, |s| revoke(&mut s.memory, slot));
}

fn both_refused(state: &State, error: Error, slot: u32) {
    drop_refused(state, error, slot);
    revoke_refused(state, error, slot);
}

fn drop_accepted(state: &State, slot: u32) {
    assert_accepted(state, |s| drop(&mut s.memory, slot));
}

fn revoke_accepted(state: &State, slot: u32) {
    assert_accepted(state, |s| revoke(&mut s.memory, slot));
}

#[test]
fn cause_1_memory_not_valid() {
    for state in State::not_valid().into_iter().chain([State::not_valid_and_pending()]) {
        for slot in [0, 1, 2, 8, u32::MAX] {
            both_refused(&state, Error::InvalidMemory, slot);
        }
    }
}

#[test]
fn cause_8_work_pending() {
    let all_refused = |state: &State| {
        for slot in [0, 1, 2, 8, u32::MAX] {
            both_refused(state, Error::WorkPending, slot);
        }
    };
    let mut state = State::pending();
    all_refused(&state);
    state.stores(7);
    all_refused(&state);
    assert_eq!(state.crash_and_open(), 3);
    all_refused(&state);
    let mut state = State::pending();
    state.stores(8);
    drop_accepted(&state, 1);
}

#[test]
fn cause_8_while_a_precommitted_slot_waits_for_anothers_commit() {
    let mut state = State::busy();
    state.precommit(1);
    assert_eq!(commit(&mut state.memory, 2), Ok(8));
    both_refused(&state, Error::WorkPending, 1);
    state.stores(8);
    drop_refused(&state, Error::SlotPrecommitted, 1);
    revoke_accepted(&state, 1);
}

#[test]
fn cause_10_slot_above_7() {
    for slot in [8, 9, 256, u32::MAX] {
        both_refused(&State::busy(), Error::SlotNumber, slot);
    }
    let mut state = State::busy();
    state.start(7);
    drop_accepted(&state, 7);
    state.precommit(7);
    revoke_accepted(&state, 7);
}

#[test]
fn cause_12_slot_idle() {
    for slot in [0, 3, 7] {
        both_refused(&State::busy(), Error::SlotIdle, slot);
    }
    let mut state = State::busy();
    assert_eq!(drop(&mut state.memory, 1), Ok(()));
    both_refused(&state, Error::SlotIdle, 1);
    assert_eq!(revoke(&mut state.memory, 2), Ok(()));
    both_refused(&state, Error::SlotIdle, 2);
}

#[test]
fn cause_13_of_drop_slot_precommitted() {
    let mut state = State::busy();
    drop_refused(&state, Error::SlotPrecommitted, 2);
    revoke_accepted(&state, 2);
    drop_accepted(&state, 1);
    state.precommit(1);
    drop_refused(&state, Error::SlotPrecommitted, 1);
}

#[test]
fn cause_14_of_revoke_slot_not_precommitted() {
    let mut state = State::busy();
    revoke_refused(&state, Error::SlotNotPrecommitted, 1);
    drop_accepted(&state, 1);
    state.precommit(1);
    revoke_accepted(&state, 1);
}

#[test]
fn slots_that_have_touched_nothing_have_the_same_causes() {
    let mut state = State::opened(33);
    state.start(4);
    revoke_refused(&state, Error::SlotNotPrecommitted, 4);
    drop_accepted(&state, 4);
    state.precommit(4);
    drop_refused(&state, Error::SlotPrecommitted, 4);
    revoke_accepted(&state, 4);
}

#[test]
fn the_first_cause_where_later_ones_hold() {
    both_refused(&State::not_valid_and_pending(), Error::InvalidMemory, 8);
    // The wrong call of each slot, with the causes before taken away one by one.
    let mut state = State::not_valid_and_pending();
    drop_refused(&state, Error::InvalidMemory, 2);
    revoke_refused(&state, Error::InvalidMemory, 1);
    state.memory.slots[7].tam.words[0] = 0;
    both_refused(&state, Error::WorkPending, 8);
    both_refused(&state, Error::WorkPending, 0);
    drop_refused(&state, Error::WorkPending, 2);
    revoke_refused(&state, Error::WorkPending, 1);
    let state = State::busy();
    both_refused(&state, Error::SlotNumber, 8);
    both_refused(&state, Error::SlotIdle, 0);
    drop_refused(&state, Error::SlotPrecommitted, 2);
    revoke_refused(&state, Error::SlotNotPrecommitted, 1);
}

#[test]
fn a_state_changed_to_one_that_is_not_valid_has_cause_1_first() {
    for (slot, state) in [(1, SlotState::Idle), (2, SlotState::Idle), (0, SlotState::Open)] {
        let mut damaged = State::busy();
        damaged.memory.slots[slot].state = state;
        both_refused(&damaged, Error::InvalidMemory, slot as u32);
    }
}

#[test]
fn the_disk_is_not_read() {
    let mut state = State::busy();
    state.disk.clear();
    drop_accepted(&state, 1);
    revoke_accepted(&state, 2);
}
