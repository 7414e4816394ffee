//! Where several causes hold, the first in number order wins. Each test begins with all of a
//! call's causes that can hold together and mends one after the other.

use crate::state::{assert_refused, State, UNWRITTEN};
use reference::{
    allocate, commit, deallocate, drop, format, open, precommit, revoke, start, store, Error,
    Memory, Pending, SlotState, BITMAP_START, LOG_START,
};

/// 40 blocks, all allocated. Slot 1 is open, slot 2 precommitted; each has freed a block.
fn full() -> State {
    let mut state = State::opened(40);
    state.start(0);
    state.allocate(0, 40);
    state.commit(0);
    state.start(1);
    state.free(1, 5);
    state.start(2);
    state.free(2, 39);
    state.precommit(2);
    state
}

fn pending() -> State {
    let mut state = full();
    commit(&mut state.memory, 2).unwrap();
    state
}

/// Pending work stands in this memory too, and it isn't valid.
fn invalid() -> State {
    let mut state = pending();
    state.memory.slots[7].tam.words[0] = 1;
    state
}

type SlotCall = fn(&mut State, u32) -> Result<u32, Error>;

/// The transaction calls with their later arguments out of range: start, those that an open slot
/// takes, those that a precommitted one takes.
const CALLS: [SlotCall; 7] = [
    |s, slot| start(&mut s.memory, slot).map(|()| 0),
    |s, slot| allocate(&mut s.memory, slot, 65, &mut []).map(|()| 0),
    |s, slot| deallocate(&mut s.memory, slot, 40).map(|()| 0),
    |s, slot| precommit(&mut s.memory, slot).map(|()| 0),
    |s, slot| drop(&mut s.memory, slot).map(|()| 0),
    |s, slot| commit(&mut s.memory, slot),
    |s, slot| revoke(&mut s.memory, slot).map(|()| 0),
];

#[test]
fn of_the_transaction_calls() {
    for call in CALLS {
        assert_refused(&invalid(), Error::InvalidMemory, |s| call(s, 8));
        assert_refused(&pending(), Error::WorkPending, |s| call(s, 8));
        assert_refused(&full(), Error::SlotNumber, |s| call(s, 8));
    }
    for call in &CALLS[1..] {
        assert_refused(&full(), Error::SlotIdle, |s| call(s, 0));
    }
    for call in &CALLS[1..5] {
        assert_refused(&full(), Error::SlotPrecommitted, |s| call(s, 2));
    }
    for call in &CALLS[5..] {
        assert_refused(&full(), Error::SlotNotPrecommitted, |s| call(s, 1));
    }
}

#[test]
fn of_pending_work_before_the_slots_state() {
    for call in CALLS {
        for slot in 0..3 {
            assert_refused(&pending(), Error::WorkPending, |s| call(s, slot));
        }
    }
}

#[test]
fn of_allocate() {
    let ask = |error, count, length| {
        let mut state = full();
        state.list.truncate(length);
        assert_refused(&state, error, |s| allocate(&mut s.memory, 1, count, &mut s.list));
    };
    ask(Error::Count, 65, 0);
    ask(Error::ListLength, 2, 1);
    ask(Error::TooFewAvailable, 2, 2);
}

#[test]
fn of_deallocate() {
    let ask = |error, block| {
        assert_refused(&full(), error, |s| deallocate(&mut s.memory, 1, block));
    };
    ask(Error::BlockNumber, 40);
    ask(Error::BlockAlreadyFreed, 5);
    ask(Error::BlockAlreadyFreed, 39);
    // With SAM 0 and COM 0 the block isn't allocated; that COM is 0 comes second.
    let mut state = State::opened(40);
    state.start(1);
    assert_refused(&state, Error::BlockNotAllocated, |s| deallocate(&mut s.memory, 1, 3));
}

#[test]
fn of_format() {
    let mut state = full();
    assert_refused(&state, Error::BlockCount, |s| format(&mut s.disk, 0));
    state.disk.pop();
    assert_refused(&state, Error::DiskLength, |s| format(&mut s.disk, 0));
}

#[test]
fn of_open() {
    let mut disk = full().disk;
    let refused = |disk: &[u32], error| {
        let opened = open(disk);
        assert_eq!(opened.answer, Err(error));
        assert_eq!(opened.memory, Memory::ZEROS);
    };
    disk[0] = 4097;
    disk[1] = 3;
    disk[BITMAP_START + 1] = UNWRITTEN;
    disk[LOG_START] = 2;
    refused(&disk[..385], Error::DiskLength);
    refused(&disk, Error::DiskBlockCount);
    disk[0] = 40;
    refused(&disk, Error::DiskBitmap);
    disk[BITMAP_START + 1] = 0;
    refused(&disk, Error::DiskLog);
}

#[test]
fn of_store() {
    let ask = |state: &State, error| {
        assert_refused(state, error, |s| store(&mut s.memory, &mut s.disk));
    };
    let mut state = full();
    state.memory.slots[7].state = SlotState::Open;
    state.disk[0] = 41;
    state.disk.pop();
    ask(&state, Error::InvalidMemory);
    state.memory.slots[7].state = SlotState::Idle;
    ask(&state, Error::DiskLength);
    state.disk.push(0);
    ask(&state, Error::DiskMismatch);
    state.disk[0] = 40;
    assert_eq!(state.memory.pending, Pending::Nothing);
    ask(&state, Error::NothingPending);
}
