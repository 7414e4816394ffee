//! The wrong turns of document 01, some of extents and some of drop and revoke: the comparison with
//! the ledger notices an allocator that takes one. Each is the right allocator with one thing done
//! otherwise.

use crate::comparison::{
    fault_in_history, fault_of_steps, history_with_extents, right_extent, ExtentStep, Step, Steps,
};
use crate::extents::{nearest_start, put, Asked};
use reference::bench::Bench;
use reference::line::{Line, Operation};
use reference::{majority, Bitmap, Error, Pending, SlotState, LOG_LENGTH_POSITION, LOG_START};

/// The faults found in 100 histories, each once.
pub fn faults(step: Step) -> Vec<&'static str> {
    let mut faults: Vec<_> =
        (0..100).filter_map(|seed| fault_in_history(seed, 300, step)).collect();
    faults.sort_unstable();
    faults.dedup();
    faults
}

/// The same in histories with extent lines.
pub fn faults_of_extents(step: ExtentStep) -> Vec<&'static str> {
    let steps = Steps { extent: step, ..Steps::RIGHT };
    let fault = |seed| fault_of_steps(history_with_extents(seed).take(300), steps);
    let mut faults: Vec<_> = (0..100).filter_map(fault).collect();
    faults.sort_unstable();
    faults.dedup();
    faults
}

/// The commit formula used for rollback, as printed, in one of the two calls.
fn as_printed(bench: &mut Bench, line: &Line, operation: Operation) -> Result<u32, Error> {
    let before = bench.memory.clone();
    let answer = bench.call(line);
    if line.operation == operation && answer.is_ok() {
        let tam = &before.slots[line.slot as usize].tam;
        bench.memory.com = Bitmap::combine(&before.com, &before.sam, tam, majority);
    }
    answer
}

fn drop_as_printed(bench: &mut Bench, line: &Line) -> Result<u32, Error> {
    as_printed(bench, line, Operation::Drop)
}

fn revoke_as_printed(bench: &mut Bench, line: &Line) -> Result<u32, Error> {
    as_printed(bench, line, Operation::Revoke)
}

/// A drop that takes a precommitted slot too, as rollback did.
fn drop_of_precommitted(bench: &mut Bench, line: &Line) -> Result<u32, Error> {
    match (line.operation, bench.call(line)) {
        (Operation::Drop, Err(Error::SlotPrecommitted)) => {
            bench.call(&Line { operation: Operation::Revoke, ..*line })
        }
        (_, answer) => answer,
    }
}

/// A revoke that takes an open slot too.
fn revoke_of_open(bench: &mut Bench, line: &Line) -> Result<u32, Error> {
    match (line.operation, bench.call(line)) {
        (Operation::Revoke, Err(Error::SlotNotPrecommitted)) => {
            bench.call(&Line { operation: Operation::Drop, ..*line })
        }
        (_, answer) => answer,
    }
}

/// 13 and 14 exchanged between drop and revoke.
fn codes_exchanged(bench: &mut Bench, line: &Line) -> Result<u32, Error> {
    match (line.operation, bench.call(line)) {
        (Operation::Drop, Err(Error::SlotPrecommitted)) => Err(Error::SlotNotPrecommitted),
        (Operation::Revoke, Err(Error::SlotNotPrecommitted)) => Err(Error::SlotPrecommitted),
        (_, answer) => answer,
    }
}

/// A revoke that undoes the precommit alone and leaves the slot open.
fn revoke_to_open(bench: &mut Bench, line: &Line) -> Result<u32, Error> {
    let before = bench.memory.clone();
    let answer = bench.call(line);
    if line.operation == Operation::Revoke && answer.is_ok() {
        bench.memory = before;
        bench.memory.slots[line.slot as usize].state = SlotState::Open;
    }
    answer
}

/// A drop that answers 13 and rolls the precommitted slot back all the same.
fn refused_drop_done(bench: &mut Bench, line: &Line) -> Result<u32, Error> {
    let answer = bench.call(line);
    if line.operation == Operation::Drop && answer == Err(Error::SlotPrecommitted) {
        bench.call(&Line { operation: Operation::Revoke, ..*line })?;
    }
    answer
}

/// Other transactions' bitmaps left old at a commit.
fn other_tams_left_old(bench: &mut Bench, line: &Line) -> Result<u32, Error> {
    let before = bench.memory.slots;
    let answer = bench.call(line);
    if line.operation == Operation::Store {
        let active = |slot: usize| bench.memory.slots[slot].state != SlotState::Idle;
        let active: Vec<usize> = (0..8).filter(|slot| active(*slot)).collect();
        active.into_iter().for_each(|slot| bench.memory.slots[slot].tam = before[slot].tam);
    }
    answer
}

/// The commit point written before the last log entry: the two stores change places.
fn early_commit_point(bench: &mut Bench, line: &Line) -> Result<u32, Error> {
    let Pending::Commit { slot, done, due } = bench.memory.pending else {
        return bench.call(line);
    };
    let changed = (due - 2) / 3;
    let last_log_word = LOG_START + 2 * changed as usize - 1;
    let contents = bench.disk[last_log_word];
    if line.operation == Operation::Store && done == 2 * changed {
        let memory = &bench.memory;
        let tam = &memory.slots[slot as usize].tam;
        let word = bench.disk[last_log_word - 1] as usize;
        let words = [&memory.sam, &memory.com, tam].map(|bitmap| bitmap.words[word]);
        bench.disk[last_log_word] = majority(words[0], words[1], words[2]);
        bench.disk[LOG_LENGTH_POSITION] = 0;
    }
    let answer = bench.call(line);
    if line.operation == Operation::Store && done == 2 * changed - 1 {
        bench.disk[last_log_word] = contents;
        bench.disk[LOG_LENGTH_POSITION] = changed;
    }
    answer
}

/// A block granted whose release isn't committed.
fn release_granted_early(bench: &mut Bench, line: &Line) -> Result<u32, Error> {
    let being_freed = |block: &u32| bench.memory.sam.has(*block) && !bench.memory.com.has(*block);
    let block = (0..bench.memory.blocks).find(being_freed);
    let answer = bench.call(line);
    if let (Operation::Allocate, Ok(first), Some(block)) = (line.operation, answer, block) {
        let (word, bit) = (block as usize / 32, 1 << (block % 32));
        bench.memory.com.clear(first);
        bench.memory.com.words[word] |= bit;
        let tam = &mut bench.memory.slots[line.slot as usize].tam;
        tam.clear(first);
        tam.words[word] |= bit;
        bench.list[0] = block;
    }
    answer
}

/// A commit that is in force only with its last store: the log is never replayed.
fn log_not_replayed(bench: &mut Bench, line: &Line) -> Result<u32, Error> {
    if matches!(line.operation, Operation::Crash | Operation::Open) {
        bench.disk[LOG_LENGTH_POSITION] = 0;
    }
    bench.call(line)
}

/// An extent over blocks whose release isn't committed.
fn extent_over_releases(bench: &mut Bench, asked: Asked) -> Result<u32, Error> {
    let answer = right_extent(bench, asked);
    let mut memory = bench.memory.clone();
    memory.sam = Bitmap::EMPTY;
    match (answer, nearest_start(&memory, asked.count.max(1), asked.near)) {
        (Err(Error::NoExtent), Some(start)) => {
            for place in 0..asked.count {
                put(&mut bench.memory.com, start + place);
                put(&mut bench.memory.slots[asked.slot as usize].tam, start + place);
                bench.list[place as usize] = start + place;
            }
            Ok(start)
        }
        _ => answer,
    }
}

/// An extent that isn't in the transaction's bitmap.
fn extent_not_in_tam(bench: &mut Bench, asked: Asked) -> Result<u32, Error> {
    let before = bench.memory.slots;
    let answer = right_extent(bench, asked);
    bench.memory.slots = before;
    answer
}

/// An extent of which another block is listed than the first.
fn extent_listed_wrongly(bench: &mut Bench, asked: Asked) -> Result<u32, Error> {
    let answer = right_extent(bench, asked)?;
    bench.list[0] = answer.checked_sub(1).unwrap_or(4095);
    Ok(answer)
}

#[test]
fn the_right_allocator_has_no_fault() {
    assert!(faults(Bench::call).is_empty());
    assert!(faults_of_extents(right_extent).is_empty());
}

#[test]
fn the_comparison_notices_an_extent_over_releases() {
    assert!(faults_of_extents(extent_over_releases).contains(&"a block has two holders"));
}

#[test]
fn the_comparison_notices_an_extent_not_in_tam() {
    assert_eq!(faults_of_extents(extent_not_in_tam), ["the memory isn't valid"]);
}

#[test]
fn the_comparison_notices_an_extent_listed_wrongly() {
    let faults = faults_of_extents(extent_listed_wrongly);
    assert!(
        faults.contains(&"an open gives another SAM")
            && faults.contains(&"a block has two holders")
    );
}

#[test]
fn the_comparison_notices_the_printed_formula_for_rollback() {
    assert_eq!(faults(drop_as_printed), ["the memory isn't valid"]);
    assert_eq!(faults(revoke_as_printed), ["the memory isn't valid"]);
}

#[test]
fn the_comparison_notices_a_drop_or_a_revoke_of_a_slot_that_the_other_serves() {
    assert_eq!(faults(drop_of_precommitted), ["a drop or a revoke has another answer"]);
    assert_eq!(faults(revoke_of_open), ["a drop or a revoke has another answer"]);
}

#[test]
fn the_comparison_notices_13_and_14_exchanged() {
    assert_eq!(faults(codes_exchanged), ["a drop or a revoke has another answer"]);
}

#[test]
fn the_comparison_notices_a_revoke_that_leaves_the_slot_open() {
    assert!(faults(revoke_to_open).contains(&"an open gives another SAM"));
}

#[test]
fn the_comparison_notices_a_refused_drop_that_is_done_all_the_same() {
    assert!(faults(refused_drop_done).contains(&"a block has two holders"));
}

#[test]
fn the_comparison_notices_tams_left_old() {
    assert_eq!(faults(other_tams_left_old), ["the memory isn't valid"]);
}

#[test]
fn the_comparison_notices_an_early_commit_point() {
    assert!(faults(early_commit_point).contains(&"an open gives another SAM"));
}

#[test]
fn the_comparison_notices_a_release_granted_early() {
    assert_eq!(faults(release_granted_early), ["a block has two holders"]);
}

#[test]
fn the_comparison_notices_a_log_not_replayed() {
    assert!(faults(log_not_replayed).contains(&"an open gives another SAM"));
}
