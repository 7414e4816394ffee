//! What drop and revoke do, by hand and against document 02's words (job 5): on random memories and
//! in deep states of histories.

use crate::rollbacks::{checked, rolled_back, touched_blocks, BOTH};
use crate::state::{states_of, State};
use crate::transactions::{bitmap, two_transactions};
use crate::valid_memory::valid_memory;
use reference::{
    allocate_extent, commit, drop, precommit, revoke, start, Error, Memory, Pending, Random, Slot,
    SlotState,
};

/// The same memory with the slot's transaction in this state.
fn with_state(memory: &Memory, slot: u32, state: SlotState) -> Memory {
    let mut memory = memory.clone();
    memory.slots[slot as usize].state = state;
    memory
}

/// A drop of this open slot leaves this memory, and so does a precommit and then a revoke.
fn assert_either_leaves(mut state: State, slot: u32, expected: &Memory) {
    let mut dropped = state.memory.clone();
    assert_eq!(drop(&mut dropped, slot), Ok(()));
    assert_eq!(dropped, *expected);
    state.precommit(slot);
    assert_eq!(revoke(&mut state.memory, slot), Ok(()));
    assert_eq!(state.memory, *expected);
}

#[test]
fn either_undoes_the_transactions_own_touches_alone() {
    // The other slot is open or precommitted.
    for other_is_precommitted in [false, true] {
        let mut state = two_transactions();
        if other_is_precommitted {
            state.precommit(2);
        }
        let mut expected = state.memory.clone();
        expected.com = bitmap(!2, 0b1100);
        expected.slots[1] = Slot::IDLE;
        assert_either_leaves(state, 1, &expected);
    }
}

#[test]
fn either_leaves_no_bit_from_m_on() {
    for blocks in [1, 3, 31, 32, 33, 4095, 4096] {
        let mut state = State::opened(blocks);
        state.start(6);
        state.allocate(6, blocks);
        assert_either_leaves(state, 6, &State::opened(blocks).memory);
    }
}

#[test]
fn the_blocks_can_be_had_again_and_a_new_transaction_has_no_part_in_them() {
    for is_precommitted in [false, true] {
        let mut state = two_transactions();
        if is_precommitted {
            state.precommit(1);
            assert_eq!(revoke(&mut state.memory, 1), Ok(()));
        } else {
            assert_eq!(drop(&mut state.memory, 1), Ok(()));
        }
        state.start(3);
        assert_eq!(state.allocate(3, 6), [36, 37, 38, 39, 32, 33]);
        state.free(3, 0);
        state.start(1);
        assert_eq!(state.begin_commit(1), 0, "nothing is left of what it had touched");
        state.commit(3);
        assert_eq!(state.memory.sam, bitmap(!1, 0b1111_0011));
        assert_eq!(state.disk[2..4], [!1, 0b1111_0011]);
    }
}

#[test]
fn a_refused_call_is_no_hindrance_to_the_right_one() {
    let mut state = State::busy();
    assert_eq!(revoke(&mut state.memory, 1), Err(Error::SlotNotPrecommitted));
    assert_eq!(drop(&mut state.memory, 2), Err(Error::SlotPrecommitted));
    assert_eq!(state, State::busy());
    let mut committed = state.clone();
    assert_eq!(commit(&mut committed.memory, 2), Ok(8), "its work is still there");
    assert_eq!(revoke(&mut state.memory, 2), Ok(()));
    assert_eq!(drop(&mut state.memory, 1), Ok(()));
    assert_eq!(state.memory.com, state.memory.sam);
    assert!(state.memory.slots.iter().all(|slot| *slot == Slot::IDLE));
}

#[test]
fn an_extent_is_given_back_by_either() {
    let mut state = State::opened(100);
    state.start(2);
    assert_eq!(allocate_extent(&mut state.memory, 2, 40, 50, &mut state.list), Ok(50));
    let expected = Memory { cursor: 90, ..State::opened(100).memory };
    assert_either_leaves(state, 2, &expected);
}

#[test]
fn every_transaction_rolled_back_leaves_the_volume_as_it_was_but_for_the_cursor() {
    let mut state = State::opened(100);
    state.start(0);
    state.allocate(0, 50);
    state.commit(0);
    let before = state.memory.clone();
    for slot in 0..8 {
        state.start(slot);
        state.allocate(slot, 1 + slot);
        state.free(slot, 5 * slot);
    }
    (0..8).step_by(2).for_each(|slot| state.precommit(slot));
    for slot in [3, 6, 0, 7, 1, 4, 5, 2] {
        let call = if slot % 2 == 0 { revoke } else { drop };
        assert_eq!(call(&mut state.memory, slot), Ok(()));
        assert!(state.memory.is_valid());
    }
    assert_eq!(state.memory, Memory { cursor: 86, ..before });
}

/// Drops the slot as an open one and revokes it as a precommitted one, on copies: for equal touches
/// the memories are equal. It says whether the slot and another have touched something.
fn assert_equal_memories(memory: &Memory, slot: u32) -> bool {
    let mut dropped = with_state(memory, slot, SlotState::Open);
    let mut revoked = with_state(memory, slot, SlotState::Precommitted);
    assert_eq!(drop(&mut dropped, slot), Ok(()));
    assert_eq!(revoke(&mut revoked, slot), Ok(()));
    assert_eq!(dropped, revoked);
    assert_eq!(dropped, rolled_back(memory, slot));
    assert!(dropped.is_valid());
    !touched_blocks(memory, slot).is_empty() && dropped.com != dropped.sam
}

fn active_slots(memory: &Memory) -> Vec<u32> {
    (0..8).filter(|slot| memory.slots[*slot as usize].state != SlotState::Idle).collect()
}

#[test]
fn equal_touches_leave_equal_memories() {
    let mut random = Random::new(51);
    let mut among_others = 0;
    for time in 0..2000 {
        let any = 1 + random.below(4096);
        let blocks = [1, 31, 32, 33, 4095, 4096].get(time % 8).copied().unwrap_or(any);
        let memory = Memory { pending: Pending::Nothing, ..valid_memory(&mut random, blocks) };
        for slot in active_slots(&memory) {
            among_others += u32::from(assert_equal_memories(&memory, slot));
        }
    }
    println!("{among_others}");
    assert!(among_others >= 1000);
}

#[test]
fn equal_touches_leave_equal_memories_in_deep_states_of_histories() {
    let mut among_others = 0;
    for (seed, blocks) in [(1, 33), (2, 100), (3, 0), (4, 4096)] {
        let states = states_of(seed, blocks, 3000).map(|bench| bench.memory);
        for memory in states.filter(|memory| memory.pending == Pending::Nothing) {
            let slots = active_slots(&memory);
            let deep = slots.iter().filter(|slot| assert_equal_memories(&memory, **slot));
            among_others += deep.count();
        }
    }
    println!("{among_others}");
    assert!(among_others >= 5000);
}

#[test]
fn random_memories_read_block_by_block() {
    let mut random = Random::new(52);
    let mut answers = [[0; 15]; 2];
    for time in 0..3000 {
        let any = 1 + random.below(4096);
        let blocks = [1, 31, 32, 33, 100, 4095, 4096].get(time % 8).copied().unwrap_or(any);
        let mut memory = valid_memory(&mut random, blocks);
        if random.one_in(12) {
            memory.com.words[random.below(128) as usize] ^= 1 << random.below(32);
        }
        for slot in 0..9 {
            for (operation, answers) in BOTH.into_iter().zip(&mut answers) {
                let answer = checked(&mut memory.clone(), operation, slot);
                answers[answer.err().map_or(0, Error::code) as usize] += 1;
            }
        }
    }
    println!("{answers:?}");
    let [drops, revokes] = answers;
    assert!([0, 1, 8, 10, 12, 13].iter().all(|code| drops[*code] >= 300) && drops[14] == 0);
    assert!([0, 1, 8, 10, 12, 14].iter().all(|code| revokes[*code] >= 300) && revokes[13] == 0);
}

#[test]
fn a_slot_rolled_back_can_be_started_precommitted_and_rolled_back_again() {
    let mut state = two_transactions();
    assert_eq!(drop(&mut state.memory, 1), Ok(()));
    let once = state.memory.clone();
    assert_eq!(start(&mut state.memory, 1), Ok(()));
    assert_eq!(precommit(&mut state.memory, 1), Ok(()));
    assert_eq!(revoke(&mut state.memory, 1), Ok(()));
    assert_eq!(state.memory, once);
}
