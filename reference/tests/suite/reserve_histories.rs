//! The histories with reserve lines and the sequences of extents: reservations are checked after every
//! line, and what they lead to is counted.

use crate::allocate_observer::SeenAllocates;
use crate::extent_histories::HISTORIES;
use crate::extent_observer::SeenExtents;
use crate::extents::Asked;
use crate::reserve_observer::SeenReserves;
use reference::extents::Extents;
use reference::history::{with_cost, History, Shape};
use reference::inspector::Inspector;
use reference::line::{self, Operation};
use reference::test_line::{parse, TestLine};
use reference::Error;

const LINES: usize = 10_000;

/// A history with reserve lines, and with extent and `cost` lines or not.
pub fn history(seed: u64, blocks: u32, more: bool) -> Box<dyn Iterator<Item = Vec<u8>>> {
    let shape = Shape { reformats: true, extents: more, reserves: true, ..Shape::plain(blocks) };
    let lines = History::new(seed, shape).unwrap().take(LINES);
    if more {
        Box::new(with_cost(seed, lines))
    } else {
        Box::new(lines)
    }
}

/// Runs lines and checks the reservations after each. Allocates and extents are checked too.
fn observe(lines: impl Iterator<Item = Vec<u8>>) -> SeenReserves {
    let (mut inspector, mut seen) = (Inspector::new(), SeenReserves::default());
    let (mut allocates, mut extents) = (SeenAllocates::default(), SeenExtents::default());
    for line in lines {
        let before = inspector.clone();
        let answer = inspector.run(&line, &mut String::new());
        seen.note(&line, (&before, &inspector), answer, false);
        allocates.note(&line, &before, &inspector, answer);
        if let Some(TestLine::Extent { slot, count, near }) = parse(&line) {
            extents.count(&before, &inspector, Asked { slot, count, near }, answer, false);
        }
    }
    seen
}

#[test]
fn reservations_are_set_and_used_in_every_way() {
    let mut all = SeenReserves::default();
    for (seed, blocks) in HISTORIES {
        let seen = observe(history(seed, blocks, true));
        println!("seed {seed}, {blocks} blocks: {seen:?}");
        assert!(seen.answers[0] >= 300 && seen.answers[23] >= 150, "{seen:?}");
        assert!(seen.refused_24.iter().all(|times| *times >= 40), "{seen:?}");
        assert!(seen.grants.iter().sum::<u32>() >= 50, "{seen:?}");
        add(&mut all, &seen);
    }
    println!("{all:?}");
    assert!([0, 1, 8, 10, 11, 23].iter().all(|code| all.answers[*code] >= 50), "{all:?}");
    assert!(all.raised >= 300 && all.lowered >= 300 && all.given_up >= 300, "{all:?}");
    assert!(all.just_fitting >= 300 && all.one_more >= 200 && all.wrapping >= 100, "{all:?}");
    assert!(all.beside_others >= 500 && all.beside_drawn >= 300, "{all:?}");
    assert!(all.one_beyond >= 200 && all.to_the_limit >= 200, "{all:?}");
    assert!(all.grants.iter().all(|times| *times >= 150), "{all:?}");
    assert!(all.drawn_dropped >= 60 && all.drawn_revoked >= 60, "{all:?}");
    assert!(all.drawn_committed >= 150 && all.partly_drawn >= 150, "{all:?}");
    assert!(all.wiped >= 100, "{all:?}");
}

fn add(all: &mut SeenReserves, seen: &SeenReserves) {
    all.answers.iter_mut().zip(seen.answers).for_each(|(all, times)| *all += times);
    all.grants.iter_mut().zip(seen.grants).for_each(|(all, times)| *all += times);
    for (all, times) in [
        (&mut all.raised, seen.raised),
        (&mut all.lowered, seen.lowered),
        (&mut all.given_up, seen.given_up),
        (&mut all.just_fitting, seen.just_fitting),
        (&mut all.one_more, seen.one_more),
        (&mut all.wrapping, seen.wrapping),
        (&mut all.beside_others, seen.beside_others),
        (&mut all.beside_drawn, seen.beside_drawn),
        (&mut all.one_beyond, seen.one_beyond),
        (&mut all.to_the_limit, seen.to_the_limit),
        (&mut all.drawn_dropped, seen.drawn_dropped),
        (&mut all.drawn_revoked, seen.drawn_revoked),
        (&mut all.drawn_committed, seen.drawn_committed),
        (&mut all.partly_drawn, seen.partly_drawn),
        (&mut all.wiped, seen.wiped),
    ] {
        *all += times;
    }
}

#[test]
fn without_extents_and_costs_too() {
    for (seed, blocks) in [(21, 0), (22, 1), (23, 4), (24, 64), (25, 4096)] {
        let seen = observe(history(seed, blocks, false));
        println!("seed {seed}, {blocks} blocks: {seen:?}");
        assert!(seen.answers[0] >= 150 && seen.answers[23] >= 100, "{seen:?}");
        assert!(seen.refused_24[0] >= 50 && seen.refused_24[1..] == [0, 0], "{seen:?}");
    }
}

#[test]
fn sequences_of_extents_meet_reservations() {
    let mut all = SeenReserves::default();
    for seed in 1..=4 {
        let seen = observe(Extents::new(seed).take(LINES));
        println!("seed {seed}: {seen:?}");
        assert!(seen.refused_24[1] >= 100 && seen.to_the_limit >= 10, "{seen:?}");
        add(&mut all, &seen);
    }
    assert!(all.answers[0] >= 200 && all.answers[23] >= 20 && all.one_beyond >= 200, "{all:?}");
    assert!(all.grants.iter().sum::<u32>() >= 40 && all.drawn_dropped >= 4, "{all:?}");
}

#[test]
fn the_first_line_formats_and_many_lines_are_reserves() {
    for (seed, blocks) in HISTORIES {
        let lines: Vec<Vec<u8>> = history(seed, blocks, false).collect();
        assert_eq!(line::parse(&lines[0]).unwrap().operation, Operation::Format);
        let is_reserve = |line: &&Vec<u8>| matches!(parse(line), Some(TestLine::Reserve { .. }));
        let reserves = lines.iter().filter(is_reserve).count();
        assert!(reserves > LINES / 20 && reserves < LINES / 4, "{reserves} in seed {seed}");
    }
}

#[test]
fn commits_go_on_and_slots_are_many() {
    for (seed, blocks) in HISTORIES {
        let (mut inspector, mut commits, mut deep) = (Inspector::new(), 0, 0);
        for line in history(seed, blocks, true) {
            let answer = inspector.run(&line, &mut String::new());
            let is_commit =
                line::parse(&line).is_some_and(|line| line.operation == Operation::Commit);
            commits += u32::from(is_commit && answer.is_ok());
            let reserving = inspector.memory.active_slots().filter(|slot| slot.reservation > 0);
            deep += u32::from(reserving.count() >= 2);
        }
        println!("seed {seed}: {commits} commits, {deep} states");
        assert!(commits >= 100 && deep >= 200, "seed {seed}: {commits} {deep}");
    }
}

#[test]
fn without_reservations_24_never_comes() {
    for (seed, blocks) in HISTORIES {
        let shape = Shape { reformats: true, extents: true, ..Shape::plain(blocks) };
        let mut inspector = Inspector::new();
        for line in with_cost(seed, History::new(seed, shape).unwrap().take(LINES)) {
            let answer = inspector.run(&line, &mut String::new());
            assert_ne!(answer, Err(Error::ReservedForOthers));
            assert_eq!(inspector.memory.reserved(), 0);
        }
    }
}
