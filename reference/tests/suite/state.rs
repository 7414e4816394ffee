//! A memory, a disk and a list to make calls on.

use reference::bench::Bench;
use reference::history::{History, Shape};
use reference::{
    allocate, commit, deallocate, format, open, precommit, reserve, start, store, Error, Memory,
    DISK_WORDS, MAX_COUNT,
};

/// 40 blocks, of which 33 are allocated. Slot 1 has taken two, slot 2 has freed three in two words.
/// 5 blocks are available.
pub const BUSY_LINES: &str = "op=format seat=0 n=40
op=open seat=0 n=0
op=start seat=0 n=0
op=alloc seat=0 n=33
op=pre seat=0 n=0
op=commit seat=0 n=0
op=store seat=0 n=0
op=store seat=0 n=0
op=store seat=0 n=0
op=store seat=0 n=0
op=store seat=0 n=0
op=store seat=0 n=0
op=store seat=0 n=0
op=store seat=0 n=0
op=start seat=1 n=0
op=alloc seat=1 n=2
op=start seat=2 n=0
op=free seat=2 n=0
op=free seat=2 n=31
op=free seat=2 n=32
";

/// What stands in the list before an allocate, so that places written can be told from others.
pub const UNWRITTEN: u32 = 0xdead_beef;

#[derive(Clone, PartialEq, Debug)]
pub struct State {
    pub memory: Memory,
    pub disk: Vec<u32>,
    pub list: Vec<u32>,
}

impl State {
    /// A fresh volume, opened.
    pub fn opened(blocks: u32) -> State {
        let mut disk = vec![UNWRITTEN; DISK_WORDS];
        assert_eq!(format(&mut disk, blocks), Ok(()));
        let opened = open(&disk);
        assert_eq!(opened.answer, Ok(0));
        State { memory: opened.memory, disk, list: vec![UNWRITTEN; MAX_COUNT as usize] }
    }

    /// A busy state with a commit of slot 2 pending.
    pub fn pending() -> State {
        let mut state = State::busy();
        assert_eq!(commit(&mut state.memory, 2), Ok(8));
        state
    }

    /// Not valid, and with work pending.
    pub fn not_valid_and_pending() -> State {
        let mut state = State::pending();
        state.memory.slots[7].tam.words[0] = 1;
        state
    }

    /// 100 blocks; 70 are allocated; slot 1 is open and has touched both kinds, slot 2 is
    /// precommitted. 25 blocks are available.
    pub fn busy() -> State {
        let mut state = State::opened(100);
        state.start(0);
        state.allocate(0, 70);
        state.commit(0);
        state.start(1);
        state.start(2);
        state.allocate(1, 3);
        state.free(1, 10);
        state.allocate(2, 2);
        state.free(2, 20);
        state.precommit(2);
        state
    }

    /// Busy states whose memory isn't valid: that of zeros, one with a bit of COM turned, one with a
    /// cursor of m, one with a block more reserved than available, and one where a slot has drawn a
    /// block more than it took.
    pub fn not_valid() -> [State; 5] {
        let mut zeros = State::busy();
        zeros.memory = Memory::ZEROS;
        let mut damaged = State::busy();
        damaged.memory.com.words[1] ^= 1;
        let mut beyond = State::busy();
        beyond.memory.cursor = 100;
        let mut reserved = State::busy();
        reserved.memory.slots[1].reservation = 20;
        reserved.memory.slots[5].reservation = 6;
        let mut drawn = State::busy();
        drawn.memory.slots[1].drawn = 4;
        [zeros, damaged, beyond, reserved, drawn]
    }

    pub fn reserve(&mut self, slot: u32, blocks: u32) {
        assert_eq!(reserve(&mut self.memory, slot, blocks), Ok(()));
    }

    /// The slot's reservation, and what its transaction has drawn from it.
    pub fn reserved(&self, slot: usize) -> (u32, u32) {
        (self.memory.slots[slot].reservation, self.memory.slots[slot].drawn)
    }

    pub fn start(&mut self, slot: u32) {
        assert_eq!(start(&mut self.memory, slot), Ok(()));
    }

    /// Allocates any number of blocks, in as many calls as it takes.
    pub fn allocate(&mut self, slot: u32, count: u32) -> Vec<u32> {
        let mut listed = Vec::new();
        while (listed.len() as u32) < count {
            let part = (count - listed.len() as u32).min(MAX_COUNT);
            assert_eq!(allocate(&mut self.memory, slot, part, &mut self.list), Ok(()));
            listed.extend_from_slice(&self.list[..part as usize]);
        }
        listed
    }

    pub fn free(&mut self, slot: u32, block: u32) {
        assert_eq!(deallocate(&mut self.memory, slot, block), Ok(()));
    }

    pub fn precommit(&mut self, slot: u32) {
        assert_eq!(precommit(&mut self.memory, slot), Ok(()));
    }

    /// Precommits and begins the commit, and gives the stores due.
    pub fn begin_commit(&mut self, slot: u32) -> u32 {
        self.precommit(slot);
        commit(&mut self.memory, slot).unwrap()
    }

    /// Precommits, commits and makes all stores.
    pub fn commit(&mut self, slot: u32) {
        let due = self.begin_commit(slot);
        self.stores(due);
    }

    /// Makes this many stores.
    pub fn stores(&mut self, count: u32) {
        for _ in 0..count {
            store(&mut self.memory, &mut self.disk).unwrap();
        }
    }

    /// Loses the memory and opens the disk anew, and gives the stores due.
    pub fn crash_and_open(&mut self) -> u32 {
        let opened = open(&self.disk);
        self.memory = opened.memory;
        opened.answer.unwrap()
    }
}

/// Makes the call on a copy of the state: it is refused with this error and leaves all as it was.
pub fn assert_refused<Answer: std::fmt::Debug>(
    state: &State,
    error: Error,
    call: impl FnOnce(&mut State) -> Result<Answer, Error>,
) {
    let mut after = state.clone();
    assert_eq!(call(&mut after).err(), Some(error));
    assert_eq!(after, *state);
}

/// Makes the call on a copy of the state: it is accepted.
pub fn assert_accepted<Answer: std::fmt::Debug>(
    state: &State,
    call: impl FnOnce(&mut State) -> Result<Answer, Error>,
) {
    assert_eq!(call(&mut state.clone()).err(), None);
}

/// The states of a history, one after each line.
pub fn states_of(seed: u64, blocks: u32, lines: usize) -> impl Iterator<Item = Bench> {
    let shape = Shape::plain(blocks);
    let mut bench = Bench::new();
    let run = move |line: Vec<u8>| {
        let _ = bench.run(&line);
        bench.clone()
    };
    History::new(seed, shape).unwrap().take(lines).map(run)
}
