//! Each cause of refusal, for each call that it names, with all left as it was.

use crate::state::{assert_accepted, assert_refused, State, UNWRITTEN};
use reference::bench::Bench;
use reference::{
    allocate, commit, deallocate, drop, format, open, precommit, revoke, start, status, store,
    Error, Memory, BITMAP_START, BLOCKS_POSITION, LOG_LENGTH_POSITION, LOG_START,
};

/// All transaction calls are refused with this error. None of their later causes matters.
fn assert_all_refused(state: &State, error: Error, slot: u32) {
    assert_refused(state, error, |s| start(&mut s.memory, slot));
    assert_all_but_start_refused(state, error, slot);
}

fn assert_all_but_start_refused(state: &State, error: Error, slot: u32) {
    assert_refused(state, error, |s| allocate(&mut s.memory, slot, 1, &mut s.list));
    assert_refused(state, error, |s| deallocate(&mut s.memory, slot, 0));
    assert_refused(state, error, |s| precommit(&mut s.memory, slot));
    assert_refused(state, error, |s| commit(&mut s.memory, slot));
    assert_refused(state, error, |s| drop(&mut s.memory, slot));
    assert_refused(state, error, |s| revoke(&mut s.memory, slot));
}

fn assert_open_refused(disk: &[u32], error: Error) {
    let opened = open(disk);
    assert_eq!(opened.answer, Err(error));
    assert_eq!(opened.memory, Memory::ZEROS);
}

/// A disk of 40 blocks with this log.
fn disk_with_log(log_length: u32, log: &[u32]) -> Vec<u32> {
    let mut disk = State::opened(40).disk;
    disk[LOG_LENGTH_POSITION] = log_length;
    disk[LOG_START..LOG_START + log.len()].copy_from_slice(log);
    disk
}

#[test]
fn cause_1_memory_not_valid() {
    for state in State::not_valid() {
        assert_all_refused(&state, Error::InvalidMemory, 1);
        assert_refused(&state, Error::InvalidMemory, |s| store(&mut s.memory, &mut s.disk));
        assert_refused(&state, Error::InvalidMemory, |s| status(&s.memory));
    }
}

#[test]
fn cause_2_disk_not_386_words() {
    for length in [0, 1, 385, 387, 1000] {
        let mut state = State::busy();
        commit(&mut state.memory, 2).unwrap();
        state.disk.resize(length, 0);
        assert_refused(&state, Error::DiskLength, |s| format(&mut s.disk, 5));
        assert_refused(&state, Error::DiskLength, |s| store(&mut s.memory, &mut s.disk));
        assert_open_refused(&state.disk, Error::DiskLength);
    }
}

#[test]
fn cause_3_block_count_on_disk() {
    for blocks in [0, 4097, u32::MAX] {
        let mut disk = State::opened(4096).disk;
        disk[BLOCKS_POSITION] = blocks;
        assert_open_refused(&disk, Error::DiskBlockCount);
    }
    for blocks in [1, 4096] {
        assert_eq!(open(&State::opened(blocks).disk).answer, Ok(0));
    }
}

#[test]
fn cause_4_bitmap_bit_from_m_on() {
    for (blocks, word, bit) in [(1, 0, 1), (31, 0, 31), (32, 1, 0), (33, 1, 1), (4095, 127, 31)] {
        let mut disk = State::opened(blocks).disk;
        disk[BITMAP_START + word] = 1 << bit;
        assert_open_refused(&disk, Error::DiskBitmap);
        disk[BLOCKS_POSITION] = blocks + 1;
        let opened = open(&disk);
        assert_eq!(opened.answer, Ok(0), "the bit belongs to one block more");
        assert_eq!(opened.memory.sam.words[word], 1 << bit);
    }
    let mut disk = State::opened(33).disk;
    disk[BITMAP_START + 127] = 1;
    assert_open_refused(&disk, Error::DiskBitmap);
}

#[test]
fn cause_5_log() {
    assert_eq!(open(&disk_with_log(2, &[0, 7, 1, 255])).answer, Ok(3));
    assert_eq!(open(&disk_with_log(1, &[1, 255, 9, 9])).answer, Ok(2), "one entry counts");
    assert_eq!(open(&disk_with_log(0, &[9, 9, 9, 9])).answer, Ok(0), "no entry counts");
    for log_length in [3, 129, u32::MAX] {
        assert_open_refused(&disk_with_log(log_length, &[0, 0, 1, 0]), Error::DiskLog);
    }
    for log in [[0, 0, 2, 0], [0, 0, u32::MAX, 0], [1, 0, 1, 0], [1, 0, 0, 0], [0, 0, 1, 256]] {
        assert_open_refused(&disk_with_log(2, &log), Error::DiskLog);
    }
    assert_open_refused(&disk_with_log(1, &[2, 0]), Error::DiskLog);
}

#[test]
fn cause_5_takes_the_longest_log() {
    let mut disk = State::opened(4096).disk;
    disk[LOG_LENGTH_POSITION] = 128;
    for word in 0..128 {
        disk[LOG_START + 2 * word] = word as u32;
        disk[LOG_START + 2 * word + 1] = u32::MAX;
    }
    let opened = open(&disk);
    assert_eq!(opened.answer, Ok(129));
    assert_eq!(opened.memory.sam.words, [u32::MAX; 128]);
    disk[LOG_LENGTH_POSITION] = 129;
    assert_open_refused(&disk, Error::DiskLog);
}

#[test]
fn cause_6_disk_of_another_memory() {
    let at_rest = State::busy();
    let mut in_commit = State::busy();
    commit(&mut in_commit.memory, 2).unwrap();
    in_commit.stores(7);
    let mut in_recovery = in_commit.clone();
    assert_eq!(in_recovery.crash_and_open(), 3);
    in_recovery.stores(2);
    for state in [at_rest, in_commit, in_recovery] {
        for position in [BLOCKS_POSITION, LOG_LENGTH_POSITION, BITMAP_START, LOG_START - 1] {
            let mut damaged = state.clone();
            damaged.disk[position] ^= 64;
            assert_refused(&damaged, Error::DiskMismatch, |s| store(&mut s.memory, &mut s.disk));
        }
    }
}

#[test]
fn cause_7_block_count_of_a_format() {
    let mut state = State::busy();
    state.disk.fill(UNWRITTEN);
    for blocks in [0, 4097, u32::MAX] {
        assert_refused(&state, Error::BlockCount, |s| format(&mut s.disk, blocks));
    }
    for blocks in [1, 4096] {
        assert_eq!(format(&mut state.disk, blocks), Ok(()));
        assert_eq!(state.disk[BLOCKS_POSITION], blocks);
        assert_eq!(state.disk[1..], [0; 385]);
    }
}

#[test]
fn cause_8_work_pending() {
    let mut state = State::busy();
    state.precommit(1);
    assert_eq!(commit(&mut state.memory, 2), Ok(8));
    for slot in [0, 1, 2] {
        assert_all_refused(&state, Error::WorkPending, slot);
    }
    state.stores(5);
    assert_all_refused(&state, Error::WorkPending, 1);
    assert_eq!(state.crash_and_open(), 3);
    for slot in [0, 1, 2] {
        assert_all_refused(&state, Error::WorkPending, slot);
    }
    assert_accepted(&state, |s| status(&s.memory));
}

#[test]
fn cause_9_nothing_pending() {
    assert_refused(&State::busy(), Error::NothingPending, |s| store(&mut s.memory, &mut s.disk));
}

#[test]
fn cause_10_slot_above_7() {
    for slot in [8, 9, u32::MAX] {
        assert_all_refused(&State::busy(), Error::SlotNumber, slot);
    }
    assert_accepted(&State::busy(), |s| start(&mut s.memory, 7));
}

#[test]
fn cause_11_slot_not_idle() {
    for slot in [1, 2] {
        assert_refused(&State::busy(), Error::SlotNotIdle, |s| start(&mut s.memory, slot));
    }
}

#[test]
fn cause_12_slot_idle() {
    for slot in [0, 3, 7] {
        assert_all_but_start_refused(&State::busy(), Error::SlotIdle, slot);
    }
}

#[test]
fn cause_13_slot_precommitted() {
    let state = State::busy();
    assert_refused(&state, Error::SlotPrecommitted, |s| allocate(&mut s.memory, 2, 1, &mut s.list));
    assert_refused(&state, Error::SlotPrecommitted, |s| deallocate(&mut s.memory, 2, 0));
    assert_refused(&state, Error::SlotPrecommitted, |s| precommit(&mut s.memory, 2));
    assert_refused(&state, Error::SlotPrecommitted, |s| drop(&mut s.memory, 2));
    assert_accepted(&state, |s| commit(&mut s.memory, 2));
    assert_accepted(&state, |s| revoke(&mut s.memory, 2));
}

#[test]
fn cause_14_slot_not_precommitted() {
    let state = State::busy();
    assert_refused(&state, Error::SlotNotPrecommitted, |s| commit(&mut s.memory, 1));
    assert_refused(&state, Error::SlotNotPrecommitted, |s| revoke(&mut s.memory, 1));
    assert_accepted(&state, |s| precommit(&mut s.memory, 1));
    assert_accepted(&state, |s| drop(&mut s.memory, 1));
}

#[test]
fn cause_15_count_outside_1_to_64() {
    for count in [0, 65, u32::MAX] {
        let call = |s: &mut State| allocate(&mut s.memory, 1, count, &mut s.list);
        assert_refused(&State::busy(), Error::Count, call);
    }
}

#[test]
fn cause_16_list_shorter_than_the_count() {
    for (length, count) in [(0, 1), (0, 64), (1, 2), (19, 20), (63, 64)] {
        let mut state = State::busy();
        state.list.truncate(length);
        let call = |s: &mut State| allocate(&mut s.memory, 1, count, &mut s.list);
        assert_refused(&state, Error::ListLength, call);
    }
    let mut state = State::busy();
    state.list.truncate(20);
    assert_accepted(&state, |s| allocate(&mut s.memory, 1, 20, &mut s.list));
}

#[test]
fn cause_17_fewer_available_blocks_than_the_count() {
    // Of 100 blocks 70 are allocated and 5 taken; the 2 being freed aren't available.
    for count in [26, 64] {
        let call = |s: &mut State| allocate(&mut s.memory, 1, count, &mut s.list);
        assert_refused(&State::busy(), Error::TooFewAvailable, call);
    }
    let mut state = State::busy();
    assert_eq!(state.allocate(1, 25), (75..100).collect::<Vec<u32>>());
}

#[test]
fn cause_18_block_m_or_above() {
    for block in [100, 101, 4096, u32::MAX] {
        assert_refused(&State::busy(), Error::BlockNumber, |s| deallocate(&mut s.memory, 1, block));
    }
    let mut state = State::opened(4096);
    state.start(0);
    assert_refused(&state, Error::BlockNumber, |s| deallocate(&mut s.memory, 0, 4096));
}

#[test]
fn cause_19_block_not_allocated() {
    // Never taken, taken by this transaction, taken by another one.
    for block in [99, 70, 73] {
        assert_refused(&State::busy(), Error::BlockNotAllocated, |s| {
            deallocate(&mut s.memory, 1, block)
        });
    }
}

#[test]
fn cause_20_block_already_freed() {
    // Freed by this transaction and by another one.
    for block in [10, 20] {
        assert_refused(&State::busy(), Error::BlockAlreadyFreed, |s| {
            deallocate(&mut s.memory, 1, block)
        });
    }
}

#[test]
fn cause_21_line_not_in_form() {
    let state = State::busy();
    let mut bench = Bench::new();
    bench.memory = state.memory.clone();
    bench.disk.copy_from_slice(&state.disk);
    let (memory, disk, list) = (bench.memory.clone(), bench.disk, bench.list);
    let lines = [
        "",
        "op=store seat=0 n=0 ",
        "op=commit seat=000002 n=0",
        "op=commit seat=2",
        "op=roll seat=1 n=0",
        "op=roll seat=2 n=0",
    ];
    for line in lines {
        assert_eq!(bench.run(line.as_bytes()), Err(Error::MalformedLine));
        assert_eq!((&bench.memory, bench.disk, bench.list), (&memory, disk, list));
    }
}

#[test]
fn the_numbers_of_the_causes() {
    let errors = [
        Error::InvalidMemory,
        Error::DiskLength,
        Error::DiskBlockCount,
        Error::DiskBitmap,
        Error::DiskLog,
        Error::DiskMismatch,
        Error::BlockCount,
        Error::WorkPending,
        Error::NothingPending,
        Error::SlotNumber,
        Error::SlotNotIdle,
        Error::SlotIdle,
        Error::SlotPrecommitted,
        Error::SlotNotPrecommitted,
        Error::Count,
        Error::ListLength,
        Error::TooFewAvailable,
        Error::BlockNumber,
        Error::BlockNotAllocated,
        Error::BlockAlreadyFreed,
        Error::MalformedLine,
        Error::NoExtent,
    ];
    assert!(errors.map(Error::code).into_iter().eq(1..=22));
}

#[test]
fn the_bench_keeps_its_memory_at_a_refused_open_and_at_any_format() {
    let mut bench = Bench::new();
    assert_eq!(bench.run(b"op=open seat=0 n=0"), Err(Error::DiskBlockCount));
    bench.run(b"op=format seat=0 n=9").unwrap();
    assert_eq!(bench.memory, Memory::ZEROS);
    bench.run(b"op=open seat=0 n=0").unwrap();
    bench.run(b"op=start seat=4 n=0").unwrap();
    let memory = bench.memory.clone();
    assert_eq!(bench.run(b"op=format seat=0 n=0"), Err(Error::BlockCount));
    assert_eq!(bench.memory, memory);
    bench.run(b"op=format seat=0 n=8").unwrap();
    assert_eq!(bench.memory, memory);
    assert_eq!(bench.run(b"op=store seat=0 n=0"), Err(Error::DiskMismatch));
    bench.disk[BLOCKS_POSITION] = 0;
    assert_eq!(bench.run(b"op=open seat=0 n=0"), Err(Error::DiskBlockCount));
    assert_eq!(bench.memory, memory);
    assert_eq!(bench.run(b"op=cut seat=0 n=0"), Ok(0));
    assert_eq!(bench.memory, Memory::ZEROS);
}
