//! The counts of a status (document 02, job 1).

use crate::comparison;
use crate::counts::counts_by_blocks;
use crate::state::{assert_accepted, assert_refused, states_of, State};
use crate::valid_memory::valid_memory;
use reference::bench::Bench;
use reference::line::parse;
use reference::{
    allocate, status, Error, Ledger, Memory, Pending, Random, SlotState, Status, MAX_COUNT,
};

const EDGE_BLOCKS: [u32; 6] = [1, 31, 32, 33, 4095, 4096];

/// The counts of a valid memory, compared with those block by block.
fn checked_counts(memory: &Memory) -> Status {
    let counts = status(memory).unwrap();
    assert_eq!(counts, counts_by_blocks(memory));
    let Status { allocated, available, allocating, freeing, held, .. } = counts;
    assert_eq!(available + allocating + freeing + held, memory.blocks);
    assert_eq!(freeing + held, allocated);
    counts
}

fn has_all_kinds(counts: &Status) -> bool {
    let Status { available, allocating, freeing, held, .. } = *counts;
    [available, allocating, freeing, held].iter().all(|count| *count > 0)
}

/// The states of a history whose memory is valid.
fn valid_states(seed: u64, blocks: u32, lines: usize) -> impl Iterator<Item = Bench> {
    states_of(seed, blocks, lines).filter(|bench| bench.memory.is_valid())
}

/// 20 blocks with 11 allocated, so that 9 were called free. Two clients have taken 7 of those.
fn nursery() -> State {
    let mut state = State::opened(20);
    state.start(0);
    state.allocate(0, 11);
    state.commit(0);
    state.start(1);
    state.start(2);
    state.start(3);
    state.allocate(1, 4);
    state.allocate(2, 3);
    state
}

fn ask(count: u32) -> impl FnOnce(&mut State) -> Result<(), Error> {
    move |state| allocate(&mut state.memory, 3, count, &mut state.list)
}

#[test]
fn a_nursery_sees_what_it_can_get() {
    let state = nursery();
    let counts = checked_counts(&state.memory);
    assert_eq!(state.memory.blocks - counts.allocated, 9);
    let expected =
        Status { allocated: 11, available: 2, allocating: 7, freeing: 0, held: 11, active: 3 };
    assert_eq!(counts, expected);
    assert_refused(&state, Error::TooFewAvailable, ask(6));
    assert_refused(&state, Error::TooFewAvailable, ask(3));
    assert_accepted(&state, ask(2));
}

#[test]
fn a_block_being_freed_is_neither_available_nor_held() {
    let mut state = nursery();
    state.free(3, 10);
    let expected =
        Status { allocated: 11, available: 2, allocating: 7, freeing: 1, held: 10, active: 3 };
    assert_eq!(checked_counts(&state.memory), expected);
    assert_refused(&state, Error::TooFewAvailable, ask(3));
    state.commit(3);
    let expected =
        Status { allocated: 10, available: 3, allocating: 7, freeing: 0, held: 10, active: 2 };
    assert_eq!(checked_counts(&state.memory), expected);
    state.start(3);
    assert_accepted(&state, ask(3));
}

/// Asks the slot for each count: those above the available blocks are refused with 17, no other.
fn ask_for_each_count(memory: &Memory, slot: u32, available: u32) {
    for count in 1..=MAX_COUNT {
        let answer = allocate(&mut memory.clone(), slot, count, &mut [0; MAX_COUNT as usize]);
        let expected = if count > available { Err(Error::TooFewAvailable) } else { Ok(()) };
        assert_eq!(answer, expected, "{count} of {available}");
    }
}

#[test]
fn available_is_what_allocate_grants() {
    let mut between = 0;
    for (seed, blocks) in [(3, 1), (4, 33), (5, 64), (6, 100), (7, 300), (8, 4096)] {
        for Bench { memory, .. } in valid_states(seed, blocks, 2000) {
            let open = memory.slots.iter().position(|slot| slot.state == SlotState::Open);
            let counts = checked_counts(&memory);
            if let (Some(slot), Pending::Nothing) = (open, memory.pending) {
                ask_for_each_count(&memory, slot as u32, counts.available);
                let few = (1..MAX_COUNT).contains(&counts.available);
                between += u32::from(few && counts.allocating > 0 && counts.freeing > 0);
            }
        }
    }
    assert!(between >= 1000, "{between}");
}

#[test]
fn the_counts_of_random_memories() {
    let mut random = Random::new(11);
    let (mut with_all, mut in_work) = (0, 0);
    for time in 0..3000 {
        let any = 1 + random.below(4096);
        let blocks = EDGE_BLOCKS.get(time % 8).copied().unwrap_or(any);
        let memory = valid_memory(&mut random, blocks);
        let counts = checked_counts(&memory);
        with_all += u32::from(has_all_kinds(&counts));
        in_work += u32::from(memory.pending != Pending::Nothing);
    }
    assert!(with_all >= 500 && in_work >= 300, "{with_all} {in_work}");
}

#[test]
fn the_counts_in_deep_states_of_histories() {
    for blocks in EDGE_BLOCKS {
        let (mut deep, mut in_work) = (0, 0);
        for Bench { memory, .. } in valid_states(u64::from(blocks), blocks, 4000) {
            let counts = checked_counts(&memory);
            deep += u32::from(counts.active >= 4 && has_all_kinds(&counts));
            in_work += u32::from(memory.pending != Pending::Nothing);
        }
        println!("{blocks} blocks: {deep} {in_work}");
        assert!(deep >= 100 || blocks == 1, "{blocks} blocks");
        assert!(in_work >= 100, "{blocks} blocks");
    }
}

#[test]
fn with_nothing_pending_the_counts_are_the_ledgers() {
    let mut compared = 0;
    for seed in 0..100 {
        let (mut bench, mut ledger) = (Bench::new(), Ledger::new());
        for line in comparison::history(seed).take(300) {
            let line = parse(&line).unwrap();
            let answer = bench.call(&line);
            comparison::record(&mut ledger, &line, answer, &bench.list);
            let counts = status(&bench.memory);
            if let (Ok(counts), Pending::Nothing) = (counts, bench.memory.pending) {
                assert_eq!(counts.allocated, ledger.allocated().count());
                assert_eq!((counts.allocating, counts.freeing), ledger.touched());
                compared += u32::from(has_all_kinds(&counts));
            }
        }
    }
    assert!(compared >= 1000, "{compared}");
}
