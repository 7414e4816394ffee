//! The comparison of an allocator with the ledger, after every call of a history.

use crate::allocates::{allocate_by_blocks, cursor_after};
use crate::costs::cost_by_blocks;
use crate::extents::{extent_by_blocks, Asked};
use crate::reserves::{reservations, reservations_after, reserve_by_blocks};
use crate::rollbacks::answer_by_words;
use reference::bench::Bench;
use reference::history::{with_cost, History, Shape};
use reference::line::{parse, Line, Operation};
use reference::test_line::{self, TestLine};
use reference::{
    allocate_extent, commit_cost, open, reserve, store, Call, Error, Ledger, Memory, BITMAP_START,
    LOG_START,
};

/// How an allocator takes a line in form.
pub type Step = fn(&mut Bench, &Line) -> Result<u32, Error>;
/// How it takes an extent.
pub type ExtentStep = fn(&mut Bench, Asked) -> Result<u32, Error>;
/// How it takes a slot and a number: a commit cost or a reserve.
pub type SlotStep = fn(&mut Bench, u32, u32) -> Result<u32, Error>;

/// How an allocator takes each kind of call.
#[derive(Clone, Copy)]
pub struct Steps {
    pub call: Step,
    pub extent: ExtentStep,
    pub cost: SlotStep,
    pub reserve: SlotStep,
}

impl Steps {
    /// The right allocator's.
    pub const RIGHT: Steps = Steps {
        call: Bench::call,
        extent: right_extent,
        cost: |bench, slot, count| commit_cost(&bench.memory, slot, count),
        reserve: right_reserve,
    };
}

/// A history that stays within the premises of demand 3.
pub fn history(seed: u64) -> History {
    let shape = Shape::plain(0);
    History::new(seed, shape).unwrap()
}

/// The same with extent lines.
pub fn history_with_extents(seed: u64) -> History {
    let shape = Shape { extents: true, ..Shape::plain(0) };
    History::new(seed, shape).unwrap()
}

/// The same with reserve lines and `cost` lines too.
pub fn history_with_reserves(seed: u64, lines: usize) -> impl Iterator<Item = Vec<u8>> {
    let shape = Shape { extents: true, reserves: true, ..Shape::plain(0) };
    with_cost(seed, History::new(seed, shape).unwrap().take(lines))
}

/// What the comparison finds wrong in the first lines of a history, if anything.
pub fn fault_in_history(seed: u64, lines: usize, step: Step) -> Option<&'static str> {
    fault_in_lines(history(seed).take(lines), step)
}

/// What it finds wrong in bench lines in form and in `cost`, `extent` and `reserve` lines.
pub fn fault_in_lines(lines: impl Iterator<Item = Vec<u8>>, step: Step) -> Option<&'static str> {
    fault_of_steps(lines, Steps { call: step, ..Steps::RIGHT })
}

/// The same with an allocator that takes each kind of call in its own way.
pub fn fault_of_steps(
    mut lines: impl Iterator<Item = Vec<u8>>,
    steps: Steps,
) -> Option<&'static str> {
    let mut bench = Bench::new();
    let mut ledger = Ledger::new();
    lines.find_map(|line| {
        let before = bench.memory.clone();
        let (answer, wrong_answer) = take_line(&mut bench, &mut ledger, &line, steps);
        fault(&bench, &ledger)
            .or_else(|| invalid_memory(&bench))
            .or(wrong_answer)
            .or_else(|| wrong_refusal(&before, &line, answer))
            .or_else(|| wrong_reservations(&before, &bench.memory, &line, answer))
    })
}

/// Takes a line and enters it in the ledger. Commit costs and reserves are calls too, of which the
/// ledger is told nothing. It gives the answer, and what is wrong with it.
fn take_line(
    bench: &mut Bench,
    ledger: &mut Ledger,
    line: &[u8],
    steps: Steps,
) -> (Result<u32, Error>, Option<&'static str>) {
    let before = bench.memory.clone();
    match test_line::parse(line) {
        Some(TestLine::Cost { slot, count }) => ((steps.cost)(bench, slot, count), None),
        Some(TestLine::Reserve { slot, blocks }) => ((steps.reserve)(bench, slot, blocks), None),
        Some(TestLine::Extent { slot, count, near }) => {
            let answer = (steps.extent)(bench, Asked { slot, count, near });
            let listed = if answer.is_ok() { &bench.list[..count as usize] } else { &[] };
            let call = Call::extent(slot, answer.is_ok(), listed);
            ledger.record(&call);
            (answer, wrong_cursor(&before, &bench.memory, &call))
        }
        _ => {
            let line = parse(line).unwrap();
            let answer = (steps.call)(bench, &line);
            record(ledger, &line, answer, &bench.list);
            let wrong = wrong_rollback(&before, &line, answer)
                .or_else(|| wrong_search(&before, bench, &line, answer));
            (answer, wrong)
        }
    }
}

pub fn right_extent(bench: &mut Bench, asked: Asked) -> Result<u32, Error> {
    let Asked { slot, count, near } = asked;
    allocate_extent(&mut bench.memory, slot, count, near, &mut bench.list)
}

pub fn right_reserve(bench: &mut Bench, slot: u32, blocks: u32) -> Result<u32, Error> {
    reserve(&mut bench.memory, slot, blocks).map(|()| 0)
}

/// Enters a line in form with its answer and, for an allocate, the list that it was lent.
pub fn record(ledger: &mut Ledger, line: &Line, answer: Result<u32, Error>, list: &[u32]) {
    ledger.record(&call_of(line, answer, list));
}

/// What the ledger is told of it.
pub fn call_of<'a>(line: &Line, answer: Result<u32, Error>, list: &'a [u32]) -> Call<'a> {
    let lists = line.operation == Operation::Allocate && answer.is_ok();
    Call {
        operation: line.operation,
        slot: line.slot,
        block: line.number,
        accepted: answer.is_ok(),
        listed: if lists { &list[..line.number as usize] } else { &[] },
    }
}

/// Demand 3 after one call: it opens a copy of the disk and makes the stores due.
fn fault(bench: &Bench, ledger: &Ledger) -> Option<&'static str> {
    if !ledger.has_single_holders() {
        return Some("a block has two holders");
    }
    let mut opened = open(&bench.disk);
    let Ok(due) = opened.answer else {
        return Some("an open is refused");
    };
    if !ledger.allocated().equals_words(&opened.memory.sam.words) {
        return Some("an open gives another SAM");
    }
    let mut disk = bench.disk;
    if (0..due).rev().any(|left| store(&mut opened.memory, &mut disk) != Ok(left)) {
        return Some("a store of the recovery is refused");
    }
    if !ledger.allocated().equals_words(&disk[BITMAP_START..LOG_START]) {
        return Some("the recovery leaves another bitmap on the disk");
    }
    match store(&mut opened.memory, &mut disk) {
        Err(Error::NothingPending) => None,
        _ => Some("the recovery has another number of stores"),
    }
}

/// An invalid memory refuses every call and so hides from the ledger. Only a crash may leave one.
fn invalid_memory(bench: &Bench) -> Option<&'static str> {
    let expected = bench.memory == Memory::ZEROS || bench.memory.is_valid();
    (!expected).then_some("the memory isn't valid")
}

/// For the ledger either of drop and revoke is a rollback, so it doesn't see one of a slot that the
/// other serves, or another number of a refusal.
fn wrong_rollback(
    before: &Memory,
    line: &Line,
    answer: Result<u32, Error>,
) -> Option<&'static str> {
    match line.operation {
        Operation::Drop | Operation::Revoke => {
            let expected = answer_by_words(before, line.operation, line.slot).map(|()| 0);
            (answer != expected).then_some("a drop or a revoke has another answer")
        }
        _ => None,
    }
}

/// The ledger doesn't ask which blocks an allocate grants, in which order, and where the next search
/// begins.
fn wrong_search(
    before: &Memory,
    bench: &Bench,
    line: &Line,
    answer: Result<u32, Error>,
) -> Option<&'static str> {
    let call = call_of(line, answer, &bench.list);
    let expected = match line.operation {
        Operation::Allocate => {
            allocate_by_blocks(before, bench.list.len(), line.slot, line.number).ok()
        }
        _ => None,
    };
    match expected {
        Some(listed) if listed != call.listed || answer != Ok(listed[0]) => {
            Some("an allocate lists other blocks")
        }
        _ => wrong_cursor(before, &bench.memory, &call),
    }
}

fn wrong_cursor(before: &Memory, after: &Memory, call: &Call) -> Option<&'static str> {
    (after.cursor != cursor_after(before, call)).then_some("the next search begins elsewhere")
}

/// A grant, a commit cost or a reserve that is refused is refused with the number that the documents
/// give it. The ledger takes any refusal.
fn wrong_refusal(before: &Memory, line: &[u8], answer: Result<u32, Error>) -> Option<&'static str> {
    let error = answer.err()?;
    let places = Bench::new().list.len();
    let expected = match (parse(line), test_line::parse(line)) {
        (Some(Line { operation: Operation::Allocate, slot, number }), _) => {
            allocate_by_blocks(before, places, slot, number).err()
        }
        (_, Some(TestLine::Extent { slot, count, near })) => {
            extent_by_blocks(before, places, Asked { slot, count, near }).err()
        }
        (_, Some(TestLine::Cost { slot, count })) => cost_by_blocks(before, slot, count).err(),
        (_, Some(TestLine::Reserve { slot, blocks })) => {
            reserve_by_blocks(before, slot, blocks).err()
        }
        _ => return None,
    };
    (expected != Some(error)).then_some("a call has another refusal")
}

/// The ledger knows nothing of reservations.
fn wrong_reservations(
    before: &Memory,
    after: &Memory,
    line: &[u8],
    answer: Result<u32, Error>,
) -> Option<&'static str> {
    let expected = match answer {
        Ok(value) => reservations_after(before, line, value),
        Err(_) => reservations(before),
    };
    (reservations(after) != expected).then_some("a slot has another reservation or has drawn more")
}
