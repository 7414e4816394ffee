//! What reservations do, by hand, and against document 02's words (job 7) on random memories.

use crate::reserves::{available_by_blocks, reserve_by_blocks, reserved};
use crate::state::{assert_accepted, assert_refused, State};
use crate::valid_memory::valid_memory;
use reference::{
    allocate, allocate_extent, commit_cost, drop, reserve, revoke, Bitmap, Error, Memory, Pending,
    Random, Slot,
};

fn refused(state: &State, error: Error, slot: u32, blocks: u32) {
    assert_refused(state, error, |s| reserve(&mut s.memory, slot, blocks));
}

/// A fresh volume of 100 blocks. Slot 3 is open with a reservation of 10.
fn reserved_10() -> State {
    let mut state = State::opened(100);
    state.reserve(3, 10);
    state.start(3);
    state
}

#[test]
fn there_are_none_at_first() {
    assert!(Memory::ZEROS.slots.iter().all(|slot| (slot.reservation, slot.drawn) == (0, 0)));
    let opened = Memory::opened(7, Bitmap::EMPTY, Pending::Nothing);
    assert!(opened.slots.iter().all(|slot| *slot == Slot::IDLE));
}

#[test]
fn all_of_them_together_are_at_most_the_available_blocks() {
    let mut state = State::opened(100);
    state.reserve(0, 60);
    state.reserve(1, 40);
    refused(&state, Error::OverReserved, 2, 1);
    refused(&state, Error::OverReserved, 0, 61);
    state.reserve(2, 0);
    state.reserve(0, 59);
    state.reserve(7, 1);
    refused(&state, Error::OverReserved, 7, 2);
    assert_eq!(state.memory.reserved(), 100);
}

#[test]
fn a_new_one_takes_the_place_of_the_old_one() {
    let mut state = State::opened(100);
    for blocks in [70, 71, 3, 100, 0, 100, 1] {
        state.reserve(4, blocks);
        assert_eq!(state.reserved(4), (blocks, 0));
    }
    let mut expected = State::opened(100).memory;
    expected.slots[4].reservation = 1;
    assert_eq!(state.memory, expected, "nothing else is altered");
}

#[test]
fn what_is_taken_or_being_freed_is_not_available() {
    let mut state = State::busy();
    refused(&state, Error::OverReserved, 0, 26);
    state.reserve(0, 25);
    refused(&state, Error::OverReserved, 7, 1);
    // Blocks 10 and 20 are free only once the slots that freed them are committed.
    state.commit(1);
    refused(&state, Error::OverReserved, 7, 2);
    state.reserve(7, 1);
    assert_eq!(reserve(&mut state.memory, 1, 1), Err(Error::OverReserved));
    assert_eq!(revoke(&mut state.memory, 2), Ok(()));
    refused(&state, Error::OverReserved, 1, 3);
    state.reserve(1, 2);
}

#[test]
fn huge_numbers_do_not_wrap() {
    let mut state = State::opened(100);
    state.reserve(0, 10);
    for blocks in [u32::MAX, u32::MAX - 9, u32::MAX - 10, 1 << 31, u32::MAX - 8, 101] {
        refused(&state, Error::OverReserved, 0, blocks);
        refused(&state, Error::OverReserved, 1, blocks);
    }
    let mut state = State::opened(4096);
    (0..8).for_each(|slot| state.reserve(slot, 512));
    (0..8).for_each(|slot| refused(&state, Error::OverReserved, slot, u32::MAX - 3583));
}

#[test]
fn each_grant_lowers_it_and_not_below_0() {
    let mut state = reserved_10();
    state.allocate(3, 4);
    assert_eq!(state.reserved(3), (6, 4));
    assert_eq!(allocate_extent(&mut state.memory, 3, 3, 50, &mut state.list), Ok(50));
    assert_eq!(state.reserved(3), (3, 7));
    state.allocate(3, 5);
    assert_eq!(state.reserved(3), (0, 10), "two blocks more than there were left of it");
    state.allocate(3, 1);
    assert_eq!(state.reserved(3), (0, 10));
    assert!(state.memory.is_valid());
}

#[test]
fn a_grant_of_just_the_reservation_uses_it_up() {
    let mut state = reserved_10();
    state.allocate(3, 10);
    assert_eq!(state.reserved(3), (0, 10));
    let mut state = reserved_10();
    assert_eq!(allocate_extent(&mut state.memory, 3, 10, 0, &mut state.list), Ok(0));
    assert_eq!(state.reserved(3), (0, 10));
}

#[test]
fn a_drop_or_a_revoke_puts_back_what_was_drawn() {
    // Of the blocks granted 0 to 10 are drawn.
    for (granted, drawn) in [(0, 0), (1, 1), (9, 9), (10, 10), (11, 10), (64, 10)] {
        let mut state = reserved_10();
        state.allocate(3, granted);
        assert_eq!(state.reserved(3), (10 - drawn, drawn));
        let mut dropped = state.memory.clone();
        assert_eq!(drop(&mut dropped, 3), Ok(()));
        state.precommit(3);
        assert_eq!(state.reserved(3), (10 - drawn, drawn));
        assert_eq!(revoke(&mut state.memory, 3), Ok(()));
        assert_eq!(state.reserved(3), (10, 0));
        assert_eq!(dropped, state.memory);
    }
}

#[test]
fn a_commit_leaves_it_lowered() {
    let mut state = reserved_10();
    state.allocate(3, 4);
    let due = state.begin_commit(3);
    assert_eq!(due, 5);
    for _ in 0..due {
        assert_eq!(state.reserved(3), (6, 4), "the memory changes with the last store");
        state.stores(1);
    }
    assert_eq!(state.reserved(3), (6, 0));
    state.start(3);
    state.allocate(3, 8);
    state.commit(3);
    assert_eq!(state.reserved(3), (0, 0));
}

#[test]
fn a_commit_without_stores_leaves_it() {
    let mut state = reserved_10();
    assert_eq!(state.begin_commit(3), 0);
    assert_eq!(state.reserved(3), (10, 0));
    assert!(state.memory.is_valid());
}

#[test]
fn the_next_transaction_has_drawn_nothing_yet() {
    let mut state = reserved_10();
    state.allocate(3, 4);
    state.commit(3);
    state.start(3);
    state.allocate(3, 2);
    assert_eq!(state.reserved(3), (4, 2));
    assert_eq!(drop(&mut state.memory, 3), Ok(()));
    assert_eq!(state.reserved(3), (6, 0), "what the first one drew stays used");
}

#[test]
fn calls_of_others_leave_it() {
    let mut state = reserved_10();
    state.reserve(5, 20);
    state.allocate(3, 4);
    state.start(0);
    state.allocate(0, 40);
    state.commit(0);
    state.start(0);
    state.free(0, 5);
    state.commit(0);
    state.start(0);
    assert_eq!(drop(&mut state.memory, 0), Ok(()));
    state.reserve(0, 7);
    assert_eq!(
        (state.reserved(3), state.reserved(5), state.reserved(0)),
        ((6, 4), (20, 0), (7, 0))
    );
}

#[test]
fn a_crash_wipes_them() {
    let mut state = reserved_10();
    state.reserve(5, 20);
    state.allocate(3, 4);
    assert_eq!(state.begin_commit(3), 5);
    state.stores(4);
    assert_eq!(state.crash_and_open(), 2);
    assert!(state.memory.slots.iter().all(|slot| *slot == Slot::IDLE));
    state.stores(2);
    assert!(state.memory.slots.iter().all(|slot| *slot == Slot::IDLE));
}

#[test]
fn a_grant_leaves_the_others_theirs() {
    let mut state = State::opened(100);
    state.reserve(5, 40);
    state.start(1);
    for count in [61, 64] {
        assert_refused(&state, Error::ReservedForOthers, |s| {
            allocate(&mut s.memory, 1, count, &mut s.list)
        });
        assert_refused(&state, Error::ReservedForOthers, |s| {
            allocate_extent(&mut s.memory, 1, count, 0, &mut s.list)
        });
        assert_refused(&state, Error::ReservedForOthers, |s| commit_cost(&s.memory, 1, count));
    }
    assert_accepted(&state, |s| allocate_extent(&mut s.memory, 1, 60, 0, &mut s.list));
    assert_eq!(commit_cost(&state.memory, 1, 60), Ok(14));
    state.allocate(1, 60);
    assert_eq!(commit_cost(&state.memory, 1, 0), Ok(14), "a count of 0 is no grant");
    assert_eq!(commit_cost(&state.memory, 1, 1), Err(Error::ReservedForOthers));
    state.start(5);
    state.allocate(5, 40);
    assert_eq!(state.reserved(5), (0, 40));
}

#[test]
fn its_own_reservation_does_not_stand_in_a_slots_way() {
    let mut state = State::opened(100);
    state.reserve(5, 100);
    state.start(5);
    state.start(6);
    assert_eq!(commit_cost(&state.memory, 5, 64), Ok(14));
    state.allocate(5, 64);
    assert_eq!(allocate_extent(&mut state.memory, 5, 36, 64, &mut state.list), Ok(64));
    assert_eq!(state.reserved(5), (0, 100));
    assert_eq!(commit_cost(&state.memory, 6, 1), Err(Error::TooFewAvailable));
}

#[test]
fn a_slot_without_one_may_take_what_is_left() {
    let mut state = State::opened(100);
    state.reserve(5, 99);
    state.start(0);
    state.allocate(0, 1);
    assert_eq!(state.reserved(0), (0, 0));
    assert_refused(&state, Error::ReservedForOthers, |s| {
        allocate(&mut s.memory, 0, 1, &mut s.list)
    });
    assert_eq!(drop(&mut state.memory, 0), Ok(()));
    assert_eq!((state.reserved(0), state.memory.reserved()), ((0, 0), 99));
}

#[test]
fn random_memories_read_block_by_block() {
    let mut random = Random::new(71);
    let (mut accepted, mut just, mut over) = (0, 0, 0);
    for time in 0..2000 {
        let any = 1 + random.below(4096);
        let blocks = [1, 31, 32, 33, 100, 4095, 4096].get(time % 8).copied().unwrap_or(any);
        let memory = valid_memory(&mut random, blocks);
        let available = available_by_blocks(&memory);
        for slot in 0..9 {
            let others = memory
                .slots
                .get(slot as usize)
                .map_or(0, |slot| memory.reserved() as u32 - slot.reservation);
            let most = available - others;
            let any = random.number() as u32;
            let wanted = [0, 1, most, most, most + 1, available, any, u32::MAX - others];
            let wanted = random.choose(&wanted);
            let mut after = memory.clone();
            let answer = reserve(&mut after, slot, wanted);
            assert_eq!(answer, reserve_by_blocks(&memory, slot, wanted), "{slot} {memory:?}");
            match answer {
                Ok(()) => assert_eq!(after, reserved(&memory, slot, wanted)),
                Err(_) => assert_eq!(after, memory),
            }
            accepted += u32::from(answer == Ok(()));
            just += u32::from(answer == Ok(()) && wanted == most && others > 0);
            over += u32::from(answer == Err(Error::OverReserved));
        }
    }
    println!("{accepted} {just} {over}");
    assert!(accepted >= 2000 && just >= 200 && over >= 1000);
}
