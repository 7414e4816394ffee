//! Document 02's promise: if the blocks are allocated and nothing else is touched, the commit makes
//! at most as many stores as commit cost answers.

use crate::state::{states_of, State};
use crate::valid_memory::valid_memory;
use reference::bench::Bench;
use reference::{
    allocate, commit, commit_cost, deallocate, drop, precommit, revoke, start, store, Error,
    Memory, Pending, Random, SlotState, MAX_COUNT,
};

/// How many commits made as many stores as foretold, and how many made fewer. Those without a store
/// aren't counted.
#[derive(Default, Debug)]
struct Kept {
    equal: u32,
    fewer: u32,
}

impl Kept {
    fn count(&mut self, stores: u32, cost: u32) {
        assert!(stores <= cost, "{stores} stores, {cost} foretold");
        assert_eq!(stores == 0, cost == 0);
        self.equal += u32::from(stores == cost && stores > 0);
        self.fewer += u32::from(stores < cost);
    }
}

fn open_slots(memory: &Memory) -> Vec<u32> {
    (0..8).filter(|slot| memory.slots[*slot as usize].state == SlotState::Open).collect()
}

/// Counts at the limits, and some others.
fn counts(random: &mut Random, memory: &Memory) -> [u32; 6] {
    let most = memory.available().min(MAX_COUNT);
    [0, 1, 64, most, most + 1, random.below(most + 1)]
}

/// Does what each open slot's commit cost speaks of, on copies, wherever it is accepted.
fn check_memory(random: &mut Random, memory: &Memory, kept: &mut Kept) {
    for slot in open_slots(memory) {
        for count in counts(random, memory) {
            let Ok(cost) = commit_cost(memory, slot, count) else {
                continue;
            };
            let mut after = memory.clone();
            if count > 0 {
                let mut list = vec![0; count as usize];
                assert_eq!(allocate(&mut after, slot, count, &mut list), Ok(()));
            }
            assert_eq!(commit_cost(&after, slot, 0), Ok(cost));
            assert_eq!(precommit(&mut after, slot), Ok(()));
            kept.count(commit(&mut after, slot).unwrap(), cost);
        }
    }
}

/// The states of a history in which nothing is pending and a slot is open.
fn open_states(seed: u64, blocks: u32, lines: usize) -> impl Iterator<Item = Bench> {
    states_of(seed, blocks, lines).filter(|bench| {
        bench.memory.pending == Pending::Nothing && !open_slots(&bench.memory).is_empty()
    })
}

#[test]
fn in_deep_states_of_histories() {
    let mut random = Random::new(31);
    for blocks in [1, 31, 32, 33, 100, 300, 4095, 4096] {
        let mut kept = Kept::default();
        for Bench { memory, .. } in open_states(u64::from(blocks), blocks, 2500) {
            check_memory(&mut random, &memory, &mut kept);
        }
        println!("{blocks} blocks: {kept:?}");
        assert!(kept.equal >= 300, "{blocks} blocks: {kept:?}");
        assert!(kept.fewer >= 300 || blocks <= 32, "{blocks} blocks: {kept:?}");
        assert!(kept.fewer == 0 || blocks > 32, "{blocks} blocks: {kept:?}");
    }
}

#[test]
fn on_random_memories() {
    let mut random = Random::new(32);
    let mut kept = Kept::default();
    for time in 0..2000 {
        let any = 1 + random.below(4096);
        let blocks = [1, 31, 32, 33, 4095, 4096].get(time % 8).copied().unwrap_or(any);
        let memory = valid_memory(&mut random, blocks);
        check_memory(&mut random, &memory, &mut kept);
    }
    println!("{kept:?}");
    assert!(kept.equal >= 2000 && kept.fewer >= 2000, "{kept:?}");
}

/// A call of another slot, whatever its state allows, or the next store. It may be refused.
fn call_of_another(random: &mut Random, state: &mut State, own: u32) -> Result<(), Error> {
    let State { memory, disk, list } = state;
    if memory.pending != Pending::Nothing {
        return store(memory, disk).map(|_| ());
    }
    let slot = (own + 1 + random.below(7)) % 8;
    match memory.slots[slot as usize].state {
        SlotState::Idle => start(memory, slot),
        SlotState::Open if random.one_in(12) => drop(memory, slot),
        SlotState::Precommitted if random.one_in(12) => revoke(memory, slot),
        SlotState::Open => match random.below(3) {
            0 => allocate(memory, slot, 1 + random.below(8), list),
            1 => deallocate(memory, slot, random.below(memory.blocks)),
            _ => precommit(memory, slot),
        },
        SlotState::Precommitted => commit(memory, slot).map(|_| ()),
    }
}

/// Others' accepted calls among the slot's own.
struct Among {
    state: State,
    own: u32,
    accepted: u32,
}

impl Among {
    /// Some calls of others, and then as many stores as are due.
    fn let_others_call(&mut self, random: &mut Random) {
        let calls = random.below(16);
        let mut made = 0;
        while made < calls || self.state.memory.pending != Pending::Nothing {
            let answer = call_of_another(random, &mut self.state, self.own);
            self.accepted += u32::from(answer.is_ok());
            made += 1;
        }
    }

    /// The slot's own calls. It is nothing if others have taken too many blocks meanwhile.
    fn stores_of_own(&mut self, random: &mut Random, count: u32) -> Option<u32> {
        self.let_others_call(random);
        if count > 0 {
            let mut list = vec![0; count as usize];
            let answer = allocate(&mut self.state.memory, self.own, count, &mut list);
            assert!(matches!(answer, Ok(()) | Err(Error::TooFewAvailable)));
            answer.ok()?;
            self.let_others_call(random);
        }
        self.state.precommit(self.own);
        self.let_others_call(random);
        Some(commit(&mut self.state.memory, self.own).unwrap())
    }
}

#[test]
fn with_calls_of_others_in_between() {
    let mut random = Random::new(33);
    let (mut kept, mut by_others, mut after_commits, mut refused) = (Kept::default(), 0, 0, 0);
    for (seed, blocks) in [(1, 1), (2, 32), (3, 33), (4, 100), (5, 300), (6, 4096)] {
        for Bench { memory, disk, list } in open_states(seed, blocks, 2500) {
            let own = random.choose(&open_slots(&memory));
            let counts = counts(&mut random, &memory);
            let count = random.choose(&counts);
            let Ok(cost) = commit_cost(&memory, own, count) else {
                continue;
            };
            let state = State { memory, disk: disk.to_vec(), list: list.to_vec() };
            let sam = state.memory.sam;
            let mut among = Among { state, own, accepted: 0 };
            match among.stores_of_own(&mut random, count) {
                Some(stores) => {
                    kept.count(stores, cost);
                    by_others += among.accepted;
                    after_commits += u32::from(among.state.memory.sam != sam);
                }
                None => refused += 1,
            }
        }
    }
    println!("{kept:?} {by_others} {after_commits} {refused}");
    assert!(kept.equal >= 500 && kept.fewer >= 500, "{kept:?}");
    assert!(by_others >= 10_000 && after_commits >= 500 && refused >= 20);
}
