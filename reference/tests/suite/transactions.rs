//! What transactions do to the bitmaps of each other, and status.

use crate::state::State;
use reference::{drop, revoke, status, Bitmap, Slot, SlotState, Status};

pub fn bitmap(first: u32, second: u32) -> Bitmap {
    let mut bitmap = Bitmap::EMPTY;
    bitmap.words[..2].copy_from_slice(&[first, second]);
    bitmap
}

/// 40 blocks, of which 0 to 31 are allocated. Slots 1 and 2 have each taken two and freed one.
pub fn two_transactions() -> State {
    let mut state = State::opened(40);
    state.start(0);
    state.allocate(0, 32);
    state.commit(0);
    state.start(1);
    state.start(2);
    assert_eq!(state.allocate(1, 2), [32, 33]);
    assert_eq!(state.allocate(2, 2), [34, 35]);
    state.free(1, 0);
    state.free(2, 1);
    state
}

#[test]
fn start_copies_sam() {
    let mut state = two_transactions();
    state.start(3);
    let tam = bitmap(u32::MAX, 0);
    assert_eq!(state.memory.slots[3], Slot::unreserved(SlotState::Open, tam));
    assert_eq!(state.memory.com, bitmap(!3, 0b1111));
}

#[test]
fn a_commit_gives_the_others_the_new_bits_of_its_blocks_alone() {
    let mut state = two_transactions();
    let mut expected = state.memory.clone();
    state.commit(1);
    expected.sam = bitmap(!1, 0b0011);
    expected.slots[1] = Slot::IDLE;
    expected.slots[2].tam = bitmap(!3, 0b1111);
    assert_eq!(state.memory, expected);
}

#[test]
fn a_block_freed_and_retaken_is_not_another_transactions() {
    for is_precommitted in [false, true] {
        let mut state = two_transactions();
        state.start(3);
        if is_precommitted {
            state.precommit(3);
        }
        state.commit(1);
        state.start(4);
        assert_eq!(state.allocate(4, 5), [36, 37, 38, 39, 0]);
        state.commit(2);
        let roll_back = if is_precommitted { revoke } else { drop };
        assert_eq!(roll_back(&mut state.memory, 3), Ok(()));
        state.commit(4);
        assert_eq!(state.memory.sam, bitmap(!2, 0b1111_1111));
        assert_eq!(state.memory.com, state.memory.sam);
    }
}

#[test]
fn status_counts_blocks_and_slots() {
    let mut state = two_transactions();
    let counts = |state: &State| status(&state.memory).unwrap();
    let before =
        Status { allocated: 32, available: 4, allocating: 4, freeing: 2, held: 30, active: 2 };
    assert_eq!(counts(&state), before);
    state.precommit(1);
    assert_eq!(counts(&state), before);
    assert_eq!(state.begin_commit(2), 8);
    assert_eq!(counts(&state), before);
    state.stores(7);
    assert_eq!(counts(&state), before);
    state.stores(1);
    let after =
        Status { allocated: 33, available: 5, allocating: 2, freeing: 1, held: 32, active: 1 };
    assert_eq!(counts(&state), after);
}
