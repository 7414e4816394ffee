//! Any memory, any disk, any list, any number: no call panics, a refused call leaves all as it was,
//! and an accepted one leaves a valid memory.

use crate::allocates::allocate_by_blocks;
use crate::costs::cost_by_blocks;
use crate::counts::counts_by_blocks;
use crate::extents::{extent_by_blocks, Asked};
use crate::reserves::{reserve_by_blocks, reserved};
use crate::rollbacks;
use crate::state::{State, UNWRITTEN};
use reference::bench::Bench;
use reference::history::{History, Shape};
use reference::line::Operation;
use reference::{
    allocate, allocate_extent, commit, commit_cost, deallocate, format, open, precommit, reserve,
    start, status, store, Bitmap, Error, Memory, Pending, Random, Slot, SlotState, DISK_WORDS,
};

const NUMBERS: [u32; 14] = [0, 1, 2, 3, 7, 8, 31, 64, 65, 128, 129, 4096, u32::MAX - 1, u32::MAX];

/// A call with a slot, a number and, for an extent, a near block.
type AnyCall = fn(&mut State, u32, u32, u32) -> Result<u32, Error>;

const CALLS: [AnyCall; 14] = [
    |s, _, number, _| format(&mut s.disk, number).map(|()| 0),
    |s, _, _, _| {
        let opened = open(&s.disk);
        match opened.answer {
            Ok(_) => s.memory = opened.memory,
            Err(_) => assert_eq!(opened.memory, Memory::ZEROS),
        }
        opened.answer
    },
    |s, slot, _, _| start(&mut s.memory, slot).map(|()| 0),
    |s, slot, number, _| {
        let expected = allocate_by_blocks(&s.memory, s.list.len(), slot, number);
        let answer = allocate(&mut s.memory, slot, number, &mut s.list);
        assert_eq!(answer.map(|()| s.list[..number as usize].to_vec()), expected);
        answer.map(|()| 0)
    },
    |s, slot, number, _| deallocate(&mut s.memory, slot, number).map(|()| 0),
    |s, slot, _, _| precommit(&mut s.memory, slot).map(|()| 0),
    |s, slot, _, _| commit(&mut s.memory, slot),
    |s, slot, _, _| rollbacks::checked(&mut s.memory, Operation::Drop, slot).map(|()| 0),
    |s, slot, _, _| rollbacks::checked(&mut s.memory, Operation::Revoke, slot).map(|()| 0),
    |s, _, _, _| store(&mut s.memory, &mut s.disk),
    |s, _, _, _| {
        let counts = status(&s.memory)?;
        assert_eq!(counts, counts_by_blocks(&s.memory));
        Ok(counts.active)
    },
    |s, slot, number, _| {
        let answer = commit_cost(&s.memory, slot, number);
        assert_eq!(answer, cost_by_blocks(&s.memory, slot, number));
        answer
    },
    |s, slot, count, near| {
        let expected = extent_by_blocks(&s.memory, s.list.len(), Asked { slot, count, near });
        let answer = allocate_extent(&mut s.memory, slot, count, near, &mut s.list);
        assert_eq!(answer, expected);
        answer
    },
    |s, slot, blocks, _| {
        let (before, expected) = (s.memory.clone(), reserve_by_blocks(&s.memory, slot, blocks));
        let answer = reserve(&mut s.memory, slot, blocks);
        assert_eq!(answer, expected);
        answer.map(|()| assert_eq!(s.memory, reserved(&before, slot, blocks)))?;
        Ok(0)
    },
];

fn number(random: &mut Random) -> u32 {
    if random.one_in(2) {
        random.choose(&NUMBERS)
    } else {
        random.number() as u32 >> random.below(32)
    }
}

fn bitmap(random: &mut Random) -> Bitmap {
    Bitmap { words: std::array::from_fn(|_| number(random)) }
}

fn pending(random: &mut Random) -> Pending {
    let (slot, done, due) = (number(random), number(random), number(random));
    match random.below(3) {
        0 => Pending::Nothing,
        1 => Pending::Commit { slot, done, due },
        _ => Pending::Recovery { done, due },
    }
}

/// Words without any rule.
fn any_state(random: &mut Random) -> State {
    let mut memory = Memory::opened(number(random), bitmap(random), pending(random));
    memory.cursor = number(random);
    memory.com = if random.one_in(2) { memory.sam } else { bitmap(random) };
    for slot in &mut memory.slots {
        let state = random.choose(&[SlotState::Idle, SlotState::Open, SlotState::Precommitted]);
        let tam = random.choose(&[Bitmap::EMPTY, memory.sam, memory.com]);
        let (any, any_drawn) = (number(random), number(random));
        let (reservation, drawn) = random.choose(&[(0, 0), (0, 0), (any, 0), (any, any_drawn)]);
        *slot = Slot { state, tam, reservation, drawn };
    }
    let length = random.choose(&[0, 1, 2, 130, 385, 386, 386, 386, 387]);
    let disk = (0..length).map(|_| number(random)).collect();
    let list = vec![UNWRITTEN; random.below(66) as usize];
    State { memory, disk, list }
}

/// A state of a history with a few words changed, so that calls get past their first causes.
fn damaged_state(random: &mut Random, bench: &Bench) -> State {
    let mut disk = bench.disk.to_vec();
    let mut memory = bench.memory.clone();
    for _ in 0..random.below(3) {
        disk[random.choose(&[0, 1, 1, 2, 3, 4, 130, 131, 132, 133, 385])] = number(random);
    }
    let available = memory.available();
    let slot = &mut memory.slots[random.below(8) as usize];
    match random.below(16) {
        0 => slot.reservation = number(random),
        1..=4 => slot.reservation = available.saturating_sub(random.below(8)),
        5 => slot.drawn = number(random),
        _ => {}
    }
    match random.below(12) {
        0 => memory.pending = pending(random),
        1 => memory.blocks = number(random),
        2 => memory.sam.words[random.below(128) as usize] = number(random),
        3 => memory.com.words[random.below(128) as usize] = number(random),
        4 => disk.truncate(random.below(DISK_WORDS as u32) as usize),
        5 => memory.cursor = number(random),
        6 | 7 => memory.cursor = random.below(memory.blocks),
        8 => memory.cursor = memory.blocks.saturating_sub(1),
        _ => {}
    }
    State { memory, disk, list: vec![UNWRITTEN; random.below(66) as usize] }
}

/// Makes every call and counts the answers, accepted ones as 0.
fn make_every_call(random: &mut Random, state: &State, answers: &mut [u32; 25]) {
    for (index, call) in CALLS.iter().enumerate() {
        let slot = if random.one_in(8) { number(random) } else { random.below(8) };
        let mut after = state.clone();
        let answer = call(&mut after, slot, number(random), number(random));
        match answer {
            Err(_) => assert_eq!(after, *state),
            Ok(_) if index == 0 => assert_eq!(after.memory, state.memory),
            Ok(_) => assert!(after.memory.is_valid()),
        }
        answers[answer.err().map_or(0, Error::code) as usize] += 1;
    }
}

#[test]
fn calls_on_anything() {
    let mut random = Random::new(6);
    let mut answers = [0; 25];
    for _ in 0..5000 {
        let state = any_state(&mut random);
        make_every_call(&mut random, &state, &mut answers);
    }
    for code in [0, 1, 2, 3, 4, 7] {
        assert!(answers[code] > 0, "cause {code}");
    }
}

#[test]
fn calls_on_damaged_states() {
    let mut random = Random::new(7);
    let mut answers = [0; 25];
    for seed in 0..200 {
        let shape = Shape { reformats: true, ..Shape::plain(0) };
        let mut bench = Bench::new();
        for line in History::new(seed, shape).unwrap().take(100) {
            let _ = bench.run(&line);
            let state = damaged_state(&mut random, &bench);
            make_every_call(&mut random, &state, &mut answers);
        }
    }
    println!("{answers:?}");
    for (code, count) in answers.iter().enumerate().filter(|(code, _)| *code != 21) {
        assert!(*count > 20, "cause {code}");
    }
}
