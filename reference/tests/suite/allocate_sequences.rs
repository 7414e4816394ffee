//! The random sequences make allocates of every kind: each is checked against the words of document
//! 02, and those that go round, end at the last block or carry on behind something are counted.

use crate::allocate_observer::{assert_none_left_out, assert_turned, SeenAllocates};
use crate::allocates::{allocate_by_blocks, granted};
use crate::extent_histories::{history, HISTORIES};
use crate::valid_memory::valid_memory;
use reference::damage::Damage;
use reference::extents::Extents;
use reference::inspector::Inspector;
use reference::{allocate, Error, Random};

const LINES: usize = 12_000;

/// Runs lines and checks each allocate, and the cursor after each line.
fn observe(lines: impl Iterator<Item = Vec<u8>>) -> SeenAllocates {
    let mut seen = SeenAllocates::default();
    observe_too(&mut seen, lines);
    seen
}

/// The same, counted together with what was seen in other sequences.
fn observe_too(seen: &mut SeenAllocates, lines: impl Iterator<Item = Vec<u8>>) {
    let mut inspector = Inspector::new();
    seen.forget_the_past();
    for line in lines {
        let before = inspector.clone();
        let answer = inspector.run(&line, &mut String::new());
        seen.note(&line, &before, &inspector, answer);
    }
}

#[test]
fn allocates_of_histories_go_round_and_carry_on() {
    let mut to_the_end = 0;
    for (seed, blocks) in HISTORIES {
        for extents in [false, true] {
            let seen = observe(history(seed, blocks, false, extents).take(LINES));
            println!("seed {seed}, {blocks} blocks, extents {extents}: {seen:?}");
            assert!(seen.answers[0] >= 400 && seen.not_lowest >= 150, "{seen:?}");
            assert!(seen.went_round >= 10 && seen.not_rising >= 10, "{seen:?}");
            assert!(seen.behind_rollbacks >= 10, "{seen:?}");
            assert!(seen.behind_extents >= if extents { 150 } else { 0 }, "{seen:?}");
            to_the_end += seen.to_the_end;
        }
    }
    assert!(to_the_end >= 100, "{to_the_end}");
}

#[test]
fn allocates_of_small_volumes_go_round_often() {
    for (seed, blocks) in [(11, 1), (12, 4), (13, 31), (14, 32), (15, 33)] {
        let seen = observe(history(seed, blocks, false, false).take(LINES));
        println!("seed {seed}, {blocks} blocks: {seen:?}");
        assert!(seen.to_the_end >= 50 && seen.from_the_last >= 20, "{seen:?}");
        assert!(blocks == 1 || seen.went_round >= 100 && seen.not_rising >= 30, "{seen:?}");
        assert!(seen.behind_rollbacks >= 50, "{seen:?}");
    }
}

#[test]
fn allocates_of_damaging_sequences_begin_anywhere() {
    let mut seen = SeenAllocates::default();
    (0..8).for_each(|seed| observe_too(&mut seen, Damage::new(seed).take(4000)));
    println!("{seen:?}");
    assert!(seen.put >= 8 * 20 && seen.from_the_last >= 8 * 10, "{seen:?}");
    assert!(seen.went_round >= 8 * 10 && seen.to_the_end >= 8 * 3, "{seen:?}");
    let seen = observe(Damage::new(9).take(60_000));
    println!("{seen:?}");
    assert!(seen.put >= 350 && seen.from_the_last >= 200 && seen.went_round >= 200, "{seen:?}");
    assert!(seen.not_rising >= 120 && seen.to_the_end >= 100, "{seen:?}");
    assert!(seen.behind_extents >= 70 && seen.behind_rollbacks >= 40, "{seen:?}");
}

#[test]
fn allocates_of_sequences_of_extents_carry_on_behind_these() {
    let mut seen = SeenAllocates::default();
    (1..=4).for_each(|seed| observe_too(&mut seen, Extents::new(seed).take(10_000)));
    println!("{seen:?}");
    assert!(seen.answers[0] >= 4 * 180 && seen.behind_extents >= 4 * 130, "{seen:?}");
    assert!(seen.went_round >= 4 * 35 && seen.from_the_last >= 4 * 10, "{seen:?}");
    assert!(seen.put >= 4 * 30, "{seen:?}");
}

#[test]
fn random_memories_read_block_by_block() {
    let mut random = Random::new(61);
    let (mut accepted, mut round, mut to_the_end, mut refused) = (0, 0, 0, 0);
    for time in 0..5000 {
        let any = 1 + random.below(4096);
        let blocks = [1, 31, 32, 33, 100, 4095, 4096].get(time % 8).copied().unwrap_or(any);
        let memory = valid_memory(&mut random, blocks);
        for slot in 0..9 {
            let most = memory.available().min(64);
            let count = random.choose(&[1, 2, 3, 9, most, most, most + 1, 64, 65]);
            let (mut after, mut list) = (memory.clone(), [7; 64]);
            let answer = allocate(&mut after, slot, count, &mut list);
            let expected = allocate_by_blocks(&memory, 64, slot, count);
            let listed = answer.map(|()| list[..count as usize].to_vec());
            assert_eq!(listed, expected, "{slot} {count} {memory:?}");
            if let Ok(listed) = listed {
                assert_eq!(after, granted(&memory, slot, &listed));
                assert!(list[listed.len()..].iter().all(|place| *place == 7));
                assert_turned(&memory, &listed);
                assert_none_left_out(&memory, &listed);
                accepted += 1;
                round += u32::from(listed[listed.len() - 1] < memory.cursor);
                to_the_end += u32::from(after.cursor == 0);
            } else {
                assert_eq!((&after, list), (&memory, [7; 64]));
                refused += u32::from(answer == Err(Error::TooFewAvailable));
            }
        }
    }
    println!("{accepted} {round} {to_the_end} {refused}");
    assert!(accepted >= 1500 && round >= 500 && to_the_end >= 100 && refused >= 300);
}
