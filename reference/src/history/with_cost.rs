//! Histories for `inspect`, with `cost` lines among the other lines.

use crate::calls::MAX_COUNT;
use crate::inspector::Inspector;
use crate::line::{self, Line, Operation};
use crate::memory::{Memory, Pending, SlotState};
use crate::random::Random;
use crate::test_line::{self, TestLine};
use std::iter::once;

/// The choice has random numbers of its own. Their seed is this one xor the history's.
const OWN_SEED: u64 = 0x636f_7374;
/// One in this many allocates and extents has no line of its cost before it.
const UNFORETOLD_ALLOCATE_IN: u32 = 4;
/// One in this many precommits has no line of its commit's cost before it.
const UNFORETOLD_PRECOMMIT_IN: u32 = 3;
/// One in this many other lines has a line of any cost before it.
const ELSEWHERE_IN: u32 = 6;
/// The same while work is pending.
const IN_WORK_IN: u32 = 20;
const WRONG_SLOTS: [u32; 6] = [8, 9, 100, 256, 65_536, u32::MAX];
const EDGE_COUNTS: [u32; 4] = [1, 63, 64, 65];

/// Puts a `cost` line before most allocates and extents, with their count, before many precommits,
/// with the count 0, and before some other lines, but not before the first. The lines themselves
/// stay as they are.
pub fn with_cost(seed: u64, lines: impl Iterator<Item = Vec<u8>>) -> impl Iterator<Item = Vec<u8>> {
    let mut random = Random::new(seed ^ OWN_SEED);
    let mut inspector = Inspector::new();
    lines.enumerate().flat_map(move |(index, line)| {
        let cost = cost_before(&mut random, &inspector.memory, &line).filter(|_| index > 0);
        let _ = inspector.run(&line, &mut String::new());
        cost.into_iter().chain(once(line))
    })
}

/// The `cost` line before this one, if there is to be one.
fn cost_before(random: &mut Random, memory: &Memory, line: &[u8]) -> Option<Vec<u8>> {
    let (slot, count) = match (line::parse(line), test_line::parse(line)) {
        (Some(Line { operation: Operation::Allocate, slot, number: count }), _)
        | (_, Some(TestLine::Extent { slot, count, .. })) => {
            (!random.one_in(UNFORETOLD_ALLOCATE_IN)).then_some((slot, count))?
        }
        (Some(Line { operation: Operation::Precommit, slot, .. }), _) => {
            (!random.one_in(UNFORETOLD_PRECOMMIT_IN)).then_some((slot, 0))?
        }
        _ => any_cost(random, memory)?,
    };
    Some(format!("cost {slot} {count}").into_bytes())
}

/// Now and then a slot and a count, seldom while work is pending.
fn any_cost(random: &mut Random, memory: &Memory) -> Option<(u32, u32)> {
    let times = match memory.pending {
        Pending::Nothing => ELSEWHERE_IN,
        Pending::Commit { .. } | Pending::Recovery { .. } => IN_WORK_IN,
    };
    random.one_in(times).then(|| (any_slot(random, memory), any_count(random, memory)))
}

/// A slot that is often open, and now and then none at all.
fn any_slot(random: &mut Random, memory: &Memory) -> u32 {
    let is_open = |slot: &u32| memory.slots[*slot as usize].state == SlotState::Open;
    let open: Vec<u32> = (0..Memory::SLOTS as u32).filter(is_open).collect();
    match random.below(10) {
        0 => random.choose(&WRONG_SLOTS),
        1..=5 if !open.is_empty() => random.choose(&open),
        _ => random.below(Memory::SLOTS as u32),
    }
}

/// A count at an edge or near the number of available blocks, or any.
fn any_count(random: &mut Random, memory: &Memory) -> u32 {
    let available = memory.available();
    match random.below(9) {
        0 | 1 => 0,
        2 => random.choose(&EDGE_COUNTS),
        3 => available.saturating_sub(1),
        4 => available,
        5 => available + 1,
        6 => random.below(MAX_COUNT + 1),
        7 => u32::MAX - random.below(MAX_COUNT),
        _ => random.number() as u32 >> random.below(u32::BITS),
    }
}
