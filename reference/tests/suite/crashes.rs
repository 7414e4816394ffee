//! Crashes after every store of the longest commit, and inside the recovery that follows.

use crate::state::{assert_refused, State};
use reference::{store, Bitmap, Error, SlotState, BITMAP_START, LOG_LENGTH_POSITION, LOG_START};

/// All 4,096 blocks are allocated, and slot 5 begins to commit the freeing of one in each word.
fn longest_commit() -> State {
    let mut state = State::opened(4096);
    state.start(5);
    state.allocate(5, 4096);
    assert_eq!(state.begin_commit(5), 386);
    state.stores(386);
    state.start(5);
    (0..128).for_each(|word| state.free(5, 32 * word + word % 32));
    assert_eq!(state.begin_commit(5), 386);
    state
}

fn freed_words() -> Vec<u32> {
    (0..128).map(|word| !(1 << (word % 32))).collect()
}

#[test]
fn a_crash_after_every_store_of_the_longest_commit() {
    let mut state = longest_commit();
    let before = vec![u32::MAX; 128];
    for done in 0..=386 {
        let mut crashed = state.clone();
        let due = crashed.crash_and_open();
        let committed = done > 256;
        let pending = (257..386).contains(&done);
        let sam = if committed { freed_words() } else { before.clone() };
        assert_eq!(due, if pending { 129 } else { 0 }, "after {done} stores");
        assert_eq!(crashed.memory.sam.words[..], sam, "after {done} stores");
        crashed.stores(due);
        assert_eq!(crashed.disk[BITMAP_START..LOG_START], sam, "after {done} stores");
        assert_eq!(crashed.disk[LOG_LENGTH_POSITION], 0);
        if done < 386 {
            state.stores(1);
        }
    }
    assert_eq!(state.memory.sam.words[..], freed_words());
}

#[test]
fn a_crash_after_every_store_of_a_recovery() {
    let mut state = longest_commit();
    state.stores(300);
    assert_eq!(state.crash_and_open(), 129);
    for done in 0..129 {
        let mut crashed = state.clone();
        assert_eq!(crashed.crash_and_open(), 129, "after {done} stores");
        assert_eq!(crashed.memory.sam.words[..], freed_words());
        crashed.stores(129);
        assert_eq!(crashed.disk[BITMAP_START..LOG_START], freed_words());
        assert_eq!(crashed.disk[LOG_LENGTH_POSITION], 0);
        state.stores(1);
    }
    assert_refused(&state, Error::NothingPending, |s| store(&mut s.memory, &mut s.disk));
    assert_eq!(state.crash_and_open(), 0);
}

#[test]
fn a_recovery_rewrites_in_log_order_even_what_already_fits() {
    let mut state = longest_commit();
    state.stores(385);
    assert_eq!(state.crash_and_open(), 129);
    // What is still to be rewritten may hold any bits, so each store shows where it goes.
    state.disk[BITMAP_START..LOG_START].fill(0);
    for (word, contents) in freed_words().into_iter().enumerate() {
        assert_eq!(store(&mut state.memory, &mut state.disk), Ok(128 - word as u32));
        assert_eq!(state.disk[BITMAP_START + word], contents);
        assert!(state.disk[BITMAP_START + word + 1..LOG_START].iter().all(|word| *word == 0));
        assert_eq!(state.disk[LOG_LENGTH_POSITION], 128);
    }
    assert_eq!(store(&mut state.memory, &mut state.disk), Ok(0));
    assert_eq!(state.disk[LOG_LENGTH_POSITION], 0);
}

#[test]
fn a_crash_idles_all_slots_and_gives_back_their_blocks() {
    let mut state = State::opened(100);
    (0..8).for_each(|slot| state.start(slot));
    (0..8).for_each(|slot| drop(state.allocate(slot, 3)));
    state.commit(2);
    assert_eq!(state.crash_and_open(), 0);
    assert!(state.memory.slots.iter().all(|slot| slot.state == SlotState::Idle));
    assert!(state.memory.slots.iter().all(|slot| slot.tam == Bitmap::EMPTY));
    state.start(0);
    assert_eq!(state.allocate(0, 8), [0, 1, 2, 3, 4, 5, 9, 10]);
}
