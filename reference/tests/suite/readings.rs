//! The bench readings of document 01, P1 to P12, and the counts and blocks at their limits.

use crate::state::{assert_accepted, assert_refused, State, UNWRITTEN};
use reference::bench::Bench;
use reference::{
    allocate, commit, deallocate, open, precommit, start, store, Bitmap, Error, Pending, SlotState,
    LOG_START,
};

fn bitmap(word: u32) -> Bitmap {
    let mut bitmap = Bitmap::EMPTY;
    bitmap.words[0] = word;
    bitmap
}

/// m is 4 and SAM word 0 is 1; slot 1 took 1 block, slot 2 took 2 (document 000, figure 3).
fn figure_3() -> State {
    let mut state = State::opened(4);
    state.start(0);
    state.allocate(0, 1);
    state.commit(0);
    assert_eq!(state.memory.sam, bitmap(1));
    state.start(1);
    state.start(2);
    assert_eq!(state.allocate(1, 1), [1], "P1");
    assert_eq!(state.allocate(2, 2), [2, 3], "P2");
    state
}

#[test]
fn p1_to_p3_the_first_available_blocks_met_are_granted() {
    let state = figure_3();
    assert_eq!(state.memory.com, bitmap(15), "P3");
    assert_eq!(state.memory.sam, bitmap(1));
    assert_eq!(state.memory.slots[1].tam, bitmap(3));
    assert_eq!(state.memory.slots[2].tam, bitmap(13));
    assert_eq!(state.list[2..], vec![UNWRITTEN; 62], "later places stay");
}

#[test]
fn p4_to_p6_a_commit_and_its_stores() {
    let mut state = figure_3();
    state.disk[LOG_START..].fill(UNWRITTEN);
    assert_eq!(state.begin_commit(2), 5);
    let before = state.clone();
    let stores = [(130, 0), (131, 13), (1, 1), (2, 13), (1, 0)];
    for (done, (position, contents)) in stores.into_iter().enumerate() {
        let mut expected = state.disk.clone();
        expected[position] = contents;
        assert_eq!(state.memory.sam, bitmap(1), "SAM changes with the last store");
        assert_eq!(store(&mut state.memory, &mut state.disk), Ok(4 - done as u32));
        assert_eq!(state.disk, expected, "P4");
    }
    assert_eq!(state.memory.sam, bitmap(13), "P5");
    assert_eq!(state.memory.slots[1].tam, bitmap(15), "P6");
    assert_eq!(state.memory.slots[1].state, SlotState::Open);
    assert_eq!(state.memory.slots[2].state, SlotState::Idle);
    assert_eq!(state.memory.slots[2].tam, Bitmap::EMPTY);
    assert_eq!(state.memory.com, before.memory.com);
    assert_eq!(state.memory.pending, Pending::Nothing);
}

#[test]
fn p7_and_p8_a_crash_before_and_after_the_commit_point() {
    for (stores, sam, due) in [(0, 1, 0), (1, 1, 0), (2, 1, 0), (3, 13, 2), (4, 13, 2), (5, 13, 0)]
    {
        let mut state = figure_3();
        state.begin_commit(2);
        state.stores(stores);
        assert_eq!(state.crash_and_open(), due, "after store {stores}");
        assert_eq!(state.memory.sam, bitmap(sam), "after store {stores}");
        assert_eq!(state.memory.com, bitmap(sam), "after store {stores}");
        state.stores(due);
        assert_eq!(state.disk[2], sam);
        assert_refused(&state, Error::NothingPending, |s| store(&mut s.memory, &mut s.disk));
    }
}

#[test]
fn p9_and_p10_no_block_left_and_a_block_of_ones_own() {
    let state = figure_3();
    assert_refused(&state, Error::TooFewAvailable, |s| allocate(&mut s.memory, 1, 1, &mut s.list));
    assert_refused(&state, Error::BlockNotAllocated, |s| deallocate(&mut s.memory, 1, 1));
}

#[test]
fn p11_a_commit_that_touched_nothing_answers_0() {
    let mut state = figure_3();
    let before = state.memory.clone();
    state.start(3);
    assert_eq!(state.begin_commit(3), 0);
    assert_eq!(state.memory, before, "the slot is idle again and nothing is pending");
}

#[test]
fn p12_the_words_of_32_and_33_blocks() {
    assert_eq!(Bitmap::words_for(32), 1);
    assert_eq!(Bitmap::words_for(33), 2);
    for (blocks, answer) in [(32, Err(Error::DiskLog)), (33, Ok(3))] {
        let mut disk = State::opened(blocks).disk;
        disk[1] = 2;
        disk[LOG_START..LOG_START + 4].copy_from_slice(&[0, 1, 1, 1]);
        assert_eq!(open(&disk).answer, answer, "a log of two entries on {blocks} blocks");
    }
}

#[test]
fn the_readings_as_bench_lines() {
    let mut bench = Bench::new();
    let mut run = |line: &str| bench.run(line.as_bytes()).map_err(Error::code);
    assert_eq!(run("op=format seat=0 n=4"), Ok(0));
    assert_eq!(run("op=open seat=0 n=0"), Ok(0));
    for line in ["op=start seat=0 n=0", "op=alloc seat=0 n=1", "op=pre seat=0 n=0"] {
        assert_eq!(run(line), Ok(0));
    }
    assert_eq!(run("op=commit seat=0 n=0"), Ok(5));
    for left in [4, 3, 2, 1, 0] {
        assert_eq!(run("op=store seat=0 n=0"), Ok(left));
    }
    assert_eq!(run("op=stat seat=0 n=0"), Ok(1));
    assert_eq!(run("op=start seat=1 n=0"), Ok(0));
    assert_eq!(run("op=start seat=2 n=0"), Ok(0));
    assert_eq!(run("op=alloc seat=1 n=1"), Ok(1), "P1");
    assert_eq!(run("op=alloc seat=2 n=2"), Ok(2), "P2");
    assert_eq!(run("op=alloc seat=1 n=1"), Err(17), "P9");
    assert_eq!(run("op=free seat=1 n=1"), Err(19), "P10");
    assert_eq!(run("op=free seat=1 n=4"), Err(18), "block m");
    assert_eq!(run("op=alloc seat=1 n=0"), Err(15));
    assert_eq!(run("op=alloc seat=1 n=65"), Err(15));
    assert_eq!(run("op=alloc seat=1 n=64"), Err(17), "64 passes cause 15");
    assert_eq!(run("op=start seat=3 n=0"), Ok(0));
    assert_eq!(run("op=pre seat=3 n=0"), Ok(0));
    assert_eq!(run("op=commit seat=3 n=0"), Ok(0), "P11");
    assert_eq!(run("op=pre seat=2 n=0"), Ok(0));
    assert_eq!(run("op=commit seat=2 n=0"), Ok(5));
}

#[test]
fn the_counts_0_65_1_and_64() {
    let mut state = State::opened(200);
    state.start(7);
    for count in [0, 65] {
        assert_refused(&state, Error::Count, |s| allocate(&mut s.memory, 7, count, &mut s.list));
    }
    assert_eq!(state.allocate(7, 1), [0]);
    assert_eq!(state.allocate(7, 64), (1..=64).collect::<Vec<u32>>());
}

#[test]
fn the_last_block_and_block_m() {
    let mut state = State::opened(33);
    state.start(0);
    state.allocate(0, 33);
    state.commit(0);
    state.start(0);
    assert_refused(&state, Error::BlockNumber, |s| deallocate(&mut s.memory, 0, 33));
    assert_accepted(&state, |s| deallocate(&mut s.memory, 0, 32));
}

#[test]
fn another_slots_release_does_not_pass_as_this_ones() {
    let mut state = State::opened(40);
    state.start(0);
    state.allocate(0, 40);
    state.commit(0);
    state.start(1);
    state.start(2);
    state.free(1, 5);
    // Row 6 of table 1: for slot 2 the block has SAM 1, COM 0, TAM 1.
    let tam = state.memory.slots[2].tam;
    assert_eq!(precommit(&mut state.memory, 2), Ok(()));
    assert_eq!(state.memory.slots[2].tam, tam);
    assert_eq!(commit(&mut state.memory, 2), Ok(0));
    assert_eq!(start(&mut state.memory, 2), Ok(()));
    assert_refused(&state, Error::TooFewAvailable, |s| allocate(&mut s.memory, 2, 1, &mut s.list));
    state.commit(1);
    assert_eq!(state.allocate(2, 1), [5]);
}
