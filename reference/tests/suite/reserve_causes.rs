//! Each cause of reserve, and 24 for each call that grants or foretells a grant, with all left as it
//! was, and the first cause where several hold.

use crate::state::{assert_accepted, assert_refused, State};
use reference::{allocate, allocate_extent, commit_cost, reserve, Error};

/// Slots and numbers for causes that come before all of theirs.
const SLOTS: [u32; 5] = [0, 1, 2, 8, u32::MAX];
const NUMBERS: [u32; 5] = [0, 1, 25, 26, u32::MAX];

fn refused(state: &State, error: Error, slot: u32, blocks: u32) {
    assert_refused(state, error, |s| reserve(&mut s.memory, slot, blocks));
}

fn refused_with_any(state: &State, error: Error, slot: u32) {
    NUMBERS.into_iter().for_each(|blocks| refused(state, error, slot, blocks));
}

fn accepted(state: &State, slot: u32, blocks: u32) {
    assert_accepted(state, |s| reserve(&mut s.memory, slot, blocks));
}

#[test]
fn cause_1_memory_not_valid() {
    for state in State::not_valid().into_iter().chain([State::not_valid_and_pending()]) {
        SLOTS.into_iter().for_each(|slot| refused_with_any(&state, Error::InvalidMemory, slot));
    }
}

#[test]
fn cause_1_also_where_the_reserve_would_make_it_valid() {
    let mut state = State::busy();
    state.memory.slots[5].reservation = 26;
    refused_with_any(&state, Error::InvalidMemory, 5);
    state.memory.slots[5].reservation = 25;
    NUMBERS[..3].iter().for_each(|blocks| accepted(&state, 5, *blocks));
}

#[test]
fn cause_8_work_pending() {
    let mut state = State::pending();
    let all_refused = |state: &State| {
        SLOTS.into_iter().for_each(|slot| refused_with_any(state, Error::WorkPending, slot));
    };
    all_refused(&state);
    state.stores(7);
    all_refused(&state);
    assert_eq!(state.crash_and_open(), 3);
    all_refused(&state);
    state.stores(3);
    accepted(&state, 1, 1);
}

#[test]
fn cause_10_slot_above_7() {
    for slot in [8, 9, 256, u32::MAX] {
        refused_with_any(&State::busy(), Error::SlotNumber, slot);
    }
    accepted(&State::busy(), 7, 25);
}

#[test]
fn cause_11_slot_not_idle() {
    refused_with_any(&State::busy(), Error::SlotNotIdle, 1);
    refused_with_any(&State::busy(), Error::SlotNotIdle, 2);
}

#[test]
fn cause_23_more_than_the_available_blocks() {
    let mut state = State::busy();
    for blocks in [26, 27, 100, 4096, 1 << 31, u32::MAX] {
        refused(&state, Error::OverReserved, 0, blocks);
    }
    accepted(&state, 0, 25);
    // An open slot's reservation counts too.
    state.memory.slots[1].reservation = 20;
    refused(&state, Error::OverReserved, 0, 6);
    accepted(&state, 0, 5);
    state.memory.slots[7].reservation = 5;
    refused(&state, Error::OverReserved, 0, 1);
    accepted(&state, 0, 0);
    accepted(&state, 7, 5);
    refused(&state, Error::OverReserved, 7, 6);
}

#[test]
fn the_first_cause_where_all_later_ones_hold() {
    refused(&State::not_valid_and_pending(), Error::InvalidMemory, 8, 26);
    refused(&State::pending(), Error::WorkPending, 8, 26);
    refused(&State::busy(), Error::SlotNumber, 8, 26);
    refused(&State::busy(), Error::SlotNotIdle, 1, 26);
    refused(&State::busy(), Error::OverReserved, 0, 26);
    accepted(&State::busy(), 0, 25);
}

#[test]
fn the_disk_is_not_read() {
    let mut state = State::busy();
    state.disk.clear();
    accepted(&state, 0, 3);
}

/// The calls that have cause 24, of slot 1.
type GrantCall = fn(&mut State, u32) -> Result<u32, Error>;
const GRANTS: [GrantCall; 3] = [
    |s, count| allocate(&mut s.memory, 1, count, &mut s.list).map(|()| 0),
    |s, count| allocate_extent(&mut s.memory, 1, count, 0, &mut s.list),
    |s, count| commit_cost(&s.memory, 1, count),
];

#[test]
fn cause_24_the_others_reservations() {
    let mut state = State::busy();
    state.reserve(0, 12);
    state.reserve(7, 3);
    // A precommitted slot's reservation counts too, and the slot's own doesn't.
    state.memory.slots[2].reservation = 5;
    state.memory.slots[1].reservation = 5;
    for call in GRANTS {
        for count in [6, 10, 24, 25] {
            assert_refused(&state, Error::ReservedForOthers, |s| call(s, count));
        }
        assert_accepted(&state, |s| call(s, 5));
        assert_accepted(&state, |s| call(s, 1));
    }
}

#[test]
fn cause_24_comes_last() {
    let mut state = State::busy();
    state.reserve(0, 25);
    let [by_allocate, by_extent, by_cost] = GRANTS;
    assert_refused(&state, Error::TooFewAvailable, |s| by_allocate(s, 26));
    assert_refused(&state, Error::NoExtent, |s| by_extent(s, 26));
    assert_refused(&state, Error::TooFewAvailable, |s| by_cost(s, 26));
    for call in GRANTS {
        assert_refused(&state, Error::Count, |s| call(s, 65));
        assert_refused(&state, Error::ReservedForOthers, |s| call(s, 25));
        assert_refused(&state, Error::ReservedForOthers, |s| call(s, 1));
    }
    assert_refused(&state, Error::BlockNumber, |s| {
        allocate_extent(&mut s.memory, 1, 1, 100, &mut s.list)
    });
    // Block 80 breaks the extent, though 24 blocks are still available.
    let mut broken = State::busy();
    assert_eq!(allocate_extent(&mut broken.memory, 1, 1, 80, &mut broken.list), Ok(80));
    broken.reserve(0, 24);
    assert_refused(&broken, Error::NoExtent, |s| by_extent(s, 20));
    assert_refused(&broken, Error::ReservedForOthers, |s| by_extent(s, 19));
    state.list.clear();
    for call in &GRANTS[..2] {
        assert_refused(&state, Error::ListLength, |s| call(s, 1));
    }
}
