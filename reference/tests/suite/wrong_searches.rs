//! Allocators that search wrongly (document 02, job 6): the comparison beside the ledger notices each.

use crate::comparison::{right_extent, Step};
use crate::extents::Asked;
use crate::wrong_turns::{faults, faults_of_extents};
use reference::bench::Bench;
use reference::line::{Line, Operation};
use reference::Error;

const OTHER_BLOCKS: [&str; 1] = ["an allocate lists other blocks"];
const ELSEWHERE: [&str; 1] = ["the next search begins elsewhere"];

/// The lowest available blocks, as before job 6.
fn from_block_0(bench: &mut Bench, line: &Line) -> Result<u32, Error> {
    if line.operation == Operation::Allocate && bench.memory.is_valid() {
        let cursor = bench.memory.cursor;
        bench.memory.cursor = 0;
        return bench.call(line).inspect_err(|_| bench.memory.cursor = cursor);
    }
    bench.call(line)
}

/// The numbers listed rising, though the search went round.
fn listed_rising(bench: &mut Bench, line: &Line) -> Result<u32, Error> {
    let answer = bench.call(line);
    if line.operation == Operation::Allocate && answer.is_ok() {
        bench.list[..line.number as usize].sort_unstable();
    }
    answer
}

/// The lowest block as the value, though it wasn't the first one met.
fn lowest_as_value(bench: &mut Bench, line: &Line) -> Result<u32, Error> {
    let answer = bench.call(line);
    match line.operation {
        Operation::Allocate => answer.map(|_| lowest(&bench.list[..line.number as usize])),
        _ => answer,
    }
}

fn lowest(listed: &[u32]) -> u32 {
    listed.iter().copied().min().unwrap_or(0)
}

/// A cursor of m after the last block.
fn not_back_to_0(bench: &mut Bench, line: &Line) -> Result<u32, Error> {
    let answer = bench.call(line);
    if line.operation == Operation::Allocate && answer.is_ok() && bench.memory.cursor == 0 {
        bench.memory.cursor = bench.memory.blocks;
    }
    answer
}

/// The cursor at the last block granted, and not behind it.
fn at_the_last_granted(bench: &mut Bench, line: &Line) -> Result<u32, Error> {
    let answer = bench.call(line);
    if line.operation == Operation::Allocate && answer.is_ok() {
        bench.memory.cursor = bench.list[line.number as usize - 1];
    }
    answer
}

/// The cursor moved back to the first block given back by one of the two calls.
fn moved_back(bench: &mut Bench, line: &Line, operation: Operation) -> Result<u32, Error> {
    let com = bench.memory.com;
    let answer = bench.call(line);
    if line.operation == operation && answer.is_ok() {
        let is_back = |block: &u32| com.has(*block) && !bench.memory.com.has(*block);
        let first = (0..bench.memory.blocks).find(is_back);
        bench.memory.cursor = first.unwrap_or(bench.memory.cursor);
    }
    answer
}

fn moved_back_by_a_drop(bench: &mut Bench, line: &Line) -> Result<u32, Error> {
    moved_back(bench, line, Operation::Drop)
}

fn moved_back_by_a_revoke(bench: &mut Bench, line: &Line) -> Result<u32, Error> {
    moved_back(bench, line, Operation::Revoke)
}

/// The cursor kept over an open, where the volume has that block.
fn kept_over_an_open(bench: &mut Bench, line: &Line) -> Result<u32, Error> {
    let cursor = bench.memory.cursor;
    let answer = bench.call(line);
    if line.operation == Operation::Open && answer.is_ok() && cursor < bench.memory.blocks {
        bench.memory.cursor = cursor;
    }
    answer
}

/// An extent that leaves the cursor where it was.
fn not_moved_by_an_extent(bench: &mut Bench, asked: Asked) -> Result<u32, Error> {
    let cursor = bench.memory.cursor;
    let answer = right_extent(bench, asked);
    bench.memory.cursor = cursor;
    answer
}

/// A refused allocate that moves the cursor all the same.
fn moved_by_a_refusal(bench: &mut Bench, line: &Line) -> Result<u32, Error> {
    let answer = bench.call(line);
    if line.operation == Operation::Allocate && answer == Err(Error::TooFewAvailable) {
        bench.memory.cursor = (bench.memory.cursor + 1) % bench.memory.blocks;
    }
    answer
}

#[test]
fn the_comparison_notices_other_blocks_another_order_and_another_value() {
    for step in [from_block_0 as Step, listed_rising, lowest_as_value] {
        assert_eq!(faults(step), OTHER_BLOCKS);
    }
}

#[test]
fn the_comparison_notices_a_cursor_elsewhere() {
    assert_eq!(faults(not_back_to_0), ["the memory isn't valid"]);
    for step in [
        at_the_last_granted as Step,
        moved_back_by_a_drop,
        moved_back_by_a_revoke,
        kept_over_an_open,
        moved_by_a_refusal,
    ] {
        assert_eq!(faults(step), ELSEWHERE);
    }
    assert_eq!(faults_of_extents(not_moved_by_an_extent), ELSEWHERE);
}
