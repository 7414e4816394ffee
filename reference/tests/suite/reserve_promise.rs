//! Document 02's promise (job 7): an open slot may always allocate up to its reservation, 1 to 64
//! blocks a call into a list as long, whatever others do; pending work alone delays it.

use crate::reserve_histories::history;
use crate::reserves::reservations;
use crate::state::State;
use crate::valid_memory::valid_memory;
use reference::inspector::Inspector;
use reference::{
    allocate, allocate_extent, commit, deallocate, drop, precommit, reserve, revoke, start, store,
    Error, Memory, Pending, Random, SlotState, DISK_WORDS, MAX_COUNT,
};

/// The open slots of a valid memory with nothing pending that have a reservation.
fn reserving_slots(memory: &Memory) -> Vec<u32> {
    let is_reserving = |slot: &u32| {
        let slot = &memory.slots[*slot as usize];
        slot.state == SlotState::Open && slot.reservation > 0
    };
    let ready = memory.pending == Pending::Nothing && memory.is_valid();
    (0..8).filter(|slot| ready && is_reserving(slot)).collect()
}

/// Any count up to the reservation is granted, and so are as many calls as use it up.
fn check_slot(memory: &Memory, slot: u32) {
    let reservation = memory.slots[slot as usize].reservation;
    for count in 1..=reservation.min(MAX_COUNT) {
        let mut list = vec![0; count as usize];
        assert_eq!(allocate(&mut memory.clone(), slot, count, &mut list), Ok(()), "{memory:?}");
    }
    let mut after = memory.clone();
    let mut left = reservation;
    while left > 0 {
        let count = left.min(MAX_COUNT);
        let mut list = vec![0; count as usize];
        assert_eq!(allocate(&mut after, slot, count, &mut list), Ok(()), "{memory:?}");
        left -= count;
        assert_eq!(after.slots[slot as usize].reservation, left);
    }
}

#[test]
fn in_deep_states_of_histories() {
    for (seed, blocks) in [(31, 0), (32, 4), (33, 33), (34, 200), (35, 1000), (36, 4096)] {
        let (mut inspector, mut checked) = (Inspector::new(), 0);
        for line in history(seed, blocks, true).take(6000) {
            let before = inspector.memory.clone();
            let _ = inspector.run(&line, &mut String::new());
            if inspector.memory == before {
                continue;
            }
            for slot in reserving_slots(&inspector.memory) {
                check_slot(&inspector.memory, slot);
                checked += 1;
            }
        }
        println!("{blocks} blocks: {checked}");
        assert!(checked >= 100, "{blocks} blocks: {checked}");
    }
}

#[test]
fn on_random_memories() {
    let mut random = Random::new(72);
    let mut checked = 0;
    for time in 0..4000 {
        let any = 1 + random.below(4096);
        let blocks = [1, 31, 32, 33, 4095, 4096].get(time % 8).copied().unwrap_or(any);
        let memory = valid_memory(&mut random, blocks);
        for slot in reserving_slots(&memory) {
            check_slot(&memory, slot);
            checked += 1;
        }
    }
    println!("{checked}");
    assert!(checked >= 400, "{checked}");
}

/// A call of another slot, whatever its state allows, or the next store. It may be refused.
fn call_of_another(random: &mut Random, state: &mut State, own: u32) -> Result<(), Error> {
    let State { memory, disk, list } = state;
    if memory.pending != Pending::Nothing {
        return store(memory, disk).map(|_| ());
    }
    let slot = (own + 1 + random.below(7)) % 8;
    let count = 1 + random.below(MAX_COUNT);
    let near = random.below(memory.blocks);
    match memory.slots[slot as usize].state {
        SlotState::Idle if random.one_in(2) => {
            let (any, available) = (random.below(100), memory.available());
            let blocks = random.choose(&[0, any, available, u32::MAX]);
            reserve(memory, slot, blocks)
        }
        SlotState::Idle => start(memory, slot),
        SlotState::Open if random.one_in(10) => drop(memory, slot),
        SlotState::Precommitted if random.one_in(10) => revoke(memory, slot),
        SlotState::Open => match random.below(6) {
            0 => allocate(memory, slot, 1, list),
            1 => allocate(memory, slot, count, list),
            2 => allocate_extent(memory, slot, count, near, list).map(|_| ()),
            3 => deallocate(memory, slot, near),
            _ => precommit(memory, slot),
        },
        SlotState::Precommitted => commit(memory, slot).map(|_| ()),
    }
}

#[test]
fn whatever_others_do_in_between() {
    let mut random = Random::new(73);
    let (mut accepted, mut refused, mut granted) = (0, 0, 0);
    for _ in 0..400 {
        let blocks = random.choose(&[1, 4, 33, 64, 100, 300]);
        let mut state = State::opened(blocks);
        let own = random.below(8);
        let reservation = 1 + random.below(blocks);
        state.reserve(own, reservation);
        state.start(own);
        while state.memory.slots[own as usize].reservation > 0 {
            let before = reservations(&state.memory)[own as usize];
            for _ in 0..random.below(30) {
                match call_of_another(&mut random, &mut state, own) {
                    Ok(()) => accepted += 1,
                    Err(Error::ReservedForOthers) => refused += 1,
                    Err(_) => {}
                }
            }
            while state.memory.pending != Pending::Nothing {
                state.stores(1);
            }
            assert_eq!(reservations(&state.memory)[own as usize], before);
            check_slot(&state.memory, own);
            let count = 1 + random.below(before.0.min(MAX_COUNT));
            state.allocate(own, count);
            granted += 1;
        }
        assert_eq!(reservations(&state.memory)[own as usize], (0, reservation));
        assert_eq!(state.disk.len(), DISK_WORDS);
    }
    println!("{accepted} {refused} {granted}");
    assert!(accepted >= 5000 && refused >= 200 && granted >= 1000);
}
