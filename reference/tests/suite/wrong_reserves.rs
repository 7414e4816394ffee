//! Allocators that keep reservations wrongly (document 02, job 7): the comparison beside the ledger
//! notices each. Each is the right allocator with one thing done otherwise.

use crate::comparison::{
    fault_of_steps, history_with_reserves, right_extent, right_reserve, Steps,
};
use crate::extents::Asked;
use crate::reserves::taken_by_blocks;
use reference::bench::Bench;
use reference::line::{Line, Operation};
use reference::{commit_cost, Error, Memory, Pending};

const ANOTHER_REFUSAL: &str = "a call has another refusal";
const OTHER_RESERVATIONS: &str = "a slot has another reservation or has drawn more";
const OTHER_BLOCKS: &str = "an allocate lists other blocks";
const NOT_VALID: &str = "the memory isn't valid";

/// The faults found in 100 histories, each once.
fn faults(steps: Steps) -> Vec<&'static str> {
    let fault = |seed| fault_of_steps(history_with_reserves(seed, 300), steps);
    let mut faults: Vec<_> = (0..100).filter_map(fault).collect();
    faults.sort_unstable();
    faults.dedup();
    faults
}

/// Whether a grant of so many would leave less than all reservations, the slot's own too.
fn leaves_too_little_with_own(memory: &Memory, count: u32) -> bool {
    let left = memory.available().saturating_sub(count);
    memory.is_valid() && u64::from(left) < memory.reserved()
}

/// The slot's own reservation counted among the others' in 24.
fn own_counted(bench: &mut Bench, line: &Line) -> Result<u32, Error> {
    let before = bench.clone();
    let answer = bench.call(line);
    let refused = leaves_too_little_with_own(&before.memory, line.number);
    if line.operation == Operation::Allocate && answer.is_ok() && refused {
        *bench = before;
        return Err(Error::ReservedForOthers);
    }
    answer
}

fn own_counted_by_an_extent(bench: &mut Bench, asked: Asked) -> Result<u32, Error> {
    let before = bench.clone();
    let answer = right_extent(bench, asked);
    if answer.is_ok() && leaves_too_little_with_own(&before.memory, asked.count) {
        *bench = before;
        return Err(Error::ReservedForOthers);
    }
    answer
}

fn own_counted_by_a_cost(bench: &mut Bench, slot: u32, count: u32) -> Result<u32, Error> {
    let answer = commit_cost(&bench.memory, slot, count)?;
    let refused = leaves_too_little_with_own(&bench.memory, count);
    (!refused).then_some(answer).ok_or(Error::ReservedForOthers)
}

/// The reservations of others don't count: the call is made without them.
fn without_others<Answer>(
    bench: &mut Bench,
    slot: u32,
    call: impl FnOnce(&mut Bench) -> Answer,
) -> Answer {
    let before = bench.memory.slots;
    let others = (0..8).filter(|other| *other != slot as usize);
    others.clone().for_each(|other| bench.memory.slots[other].reservation = 0);
    let answer = call(bench);
    others.for_each(|other| bench.memory.slots[other].reservation = before[other].reservation);
    answer
}

fn no_24(bench: &mut Bench, line: &Line) -> Result<u32, Error> {
    match line.operation {
        Operation::Allocate => without_others(bench, line.slot, |bench| bench.call(line)),
        _ => bench.call(line),
    }
}

fn no_24_of_extents(bench: &mut Bench, asked: Asked) -> Result<u32, Error> {
    without_others(bench, asked.slot, |bench| right_extent(bench, asked))
}

/// 24 before 17: where too few blocks are available for the grant, too few are left for others.
fn early_24(bench: &mut Bench, line: &Line) -> Result<u32, Error> {
    match bench.call(line) {
        Err(Error::TooFewAvailable) if others_have(&bench.memory, line.slot) => {
            Err(Error::ReservedForOthers)
        }
        answer => answer,
    }
}

/// 24 before 22.
fn early_24_of_extents(bench: &mut Bench, asked: Asked) -> Result<u32, Error> {
    match right_extent(bench, asked) {
        Err(Error::NoExtent) if others_have(&bench.memory, asked.slot) => {
            Err(Error::ReservedForOthers)
        }
        answer => answer,
    }
}

fn early_24_of_costs(bench: &mut Bench, slot: u32, count: u32) -> Result<u32, Error> {
    match commit_cost(&bench.memory, slot, count) {
        Err(Error::TooFewAvailable) if others_have(&bench.memory, slot) => {
            Err(Error::ReservedForOthers)
        }
        answer => answer,
    }
}

fn others_have(memory: &Memory, slot: u32) -> bool {
    memory.reserved_by_others(slot as usize) > 0
}

/// After an accepted call of this kind the slot's reservation is what this makes of the memory
/// before.
fn with_reservation(
    bench: &mut Bench,
    line: &Line,
    operation: Operation,
    reservation: impl Fn(&Memory, u32) -> u32,
) -> Result<u32, Error> {
    let before = bench.memory.clone();
    let answer = bench.call(line);
    if line.operation == operation && answer.is_ok() {
        let slot = &mut bench.memory.slots[line.slot as usize];
        slot.reservation = reservation(&before, line.slot);
    }
    answer
}

fn reservation_of(memory: &Memory, slot: u32) -> u32 {
    memory.slots[slot as usize].reservation
}

/// A drop, or a revoke, that forgets to put back what was drawn.
fn drop_puts_nothing_back(bench: &mut Bench, line: &Line) -> Result<u32, Error> {
    with_reservation(bench, line, Operation::Drop, reservation_of)
}

fn revoke_puts_nothing_back(bench: &mut Bench, line: &Line) -> Result<u32, Error> {
    with_reservation(bench, line, Operation::Revoke, reservation_of)
}

/// All that was taken put back, and not what was drawn alone.
fn drop_puts_all_back(bench: &mut Bench, line: &Line) -> Result<u32, Error> {
    with_reservation(bench, line, Operation::Drop, all_back)
}

fn revoke_puts_all_back(bench: &mut Bench, line: &Line) -> Result<u32, Error> {
    with_reservation(bench, line, Operation::Revoke, all_back)
}

fn all_back(memory: &Memory, slot: u32) -> u32 {
    reservation_of(memory, slot) + taken_by_blocks(memory, slot)
}

/// The whole count drawn by a grant that is larger than what was left of the reservation.
fn whole_count_drawn(bench: &mut Bench, line: &Line) -> Result<u32, Error> {
    let before = bench.memory.clone();
    let answer = bench.call(line);
    if line.operation == Operation::Allocate && answer.is_ok() {
        let slot = line.slot as usize;
        bench.memory.slots[slot].drawn = before.slots[slot].drawn + line.number;
    }
    answer
}

/// A grant that draws nothing.
fn nothing_drawn(bench: &mut Bench, line: &Line) -> Result<u32, Error> {
    with_reservation(bench, line, Operation::Allocate, reservation_of)
}

fn nothing_drawn_by_an_extent(bench: &mut Bench, asked: Asked) -> Result<u32, Error> {
    let before = bench.memory.slots.map(|slot| (slot.reservation, slot.drawn));
    let answer = right_extent(bench, asked);
    for (slot, (reservation, drawn)) in bench.memory.slots.iter_mut().zip(before) {
        (slot.reservation, slot.drawn) = (reservation, drawn);
    }
    answer
}

/// A start that takes the reservation away.
fn start_without(bench: &mut Bench, line: &Line) -> Result<u32, Error> {
    with_reservation(bench, line, Operation::Start, |_, _| 0)
}

/// What the slot of a commit has after its last store.
fn after_commit(
    bench: &mut Bench,
    line: &Line,
    change: impl Fn(&mut (u32, u32), (u32, u32)),
) -> Result<u32, Error> {
    let before = bench.memory.clone();
    let answer = bench.call(line);
    if let (Operation::Store, Pending::Commit { slot, .. }, Ok(0)) =
        (line.operation, before.pending, answer)
    {
        let former = &before.slots[slot as usize];
        let slot = &mut bench.memory.slots[slot as usize];
        let mut numbers = (slot.reservation, slot.drawn);
        change(&mut numbers, (former.reservation, former.drawn));
        (slot.reservation, slot.drawn) = numbers;
    }
    answer
}

/// What was drawn is kept after the commit.
fn drawn_kept_after_a_commit(bench: &mut Bench, line: &Line) -> Result<u32, Error> {
    after_commit(bench, line, |numbers, (_, drawn)| numbers.1 = drawn)
}

/// What was drawn is put back by the commit.
fn put_back_by_a_commit(bench: &mut Bench, line: &Line) -> Result<u32, Error> {
    after_commit(bench, line, |numbers, (reservation, drawn)| numbers.0 = reservation + drawn)
}

/// The reservation ends with the commit.
fn used_up_by_a_commit(bench: &mut Bench, line: &Line) -> Result<u32, Error> {
    after_commit(bench, line, |numbers, _| numbers.0 = 0)
}

/// Reservations kept over an open.
fn kept_over_an_open(bench: &mut Bench, line: &Line) -> Result<u32, Error> {
    let before = bench.memory.clone();
    let answer = bench.call(line);
    if line.operation == Operation::Open && answer.is_ok() {
        let kept = before.slots.map(|slot| slot.reservation);
        let slots = bench.memory.slots.iter_mut();
        slots.zip(kept).for_each(|(slot, reservation)| slot.reservation = reservation);
    }
    answer
}

/// A sum that wraps at 2^32.
fn wrapping_sum(bench: &mut Bench, slot: u32, blocks: u32) -> Result<u32, Error> {
    let answer = right_reserve(bench, slot, blocks);
    let memory = &mut bench.memory;
    if answer == Err(Error::OverReserved) {
        let others = memory.reserved_by_others(slot as usize) as u32;
        if others.wrapping_add(blocks) <= memory.available() {
            memory.slots[slot as usize].reservation = blocks;
            return Ok(0);
        }
    }
    answer
}

/// A reservation that is added to the old one.
fn added(bench: &mut Bench, slot: u32, blocks: u32) -> Result<u32, Error> {
    let old = bench.memory.slots.get(slot as usize).map_or(0, |slot| slot.reservation);
    right_reserve(bench, slot, blocks.saturating_add(old))
}

/// A sum without the old reservation's place: the slot's own counts as another's.
fn own_counted_by_a_reserve(bench: &mut Bench, slot: u32, blocks: u32) -> Result<u32, Error> {
    let before = bench.memory.clone();
    let answer = right_reserve(bench, slot, blocks);
    let sum = before.reserved() + u64::from(blocks);
    if answer.is_ok() && sum > u64::from(before.available()) {
        bench.memory = before;
        return Err(Error::OverReserved);
    }
    answer
}

/// A refused reserve that is done all the same, as far as it goes.
fn refused_and_done(bench: &mut Bench, slot: u32, blocks: u32) -> Result<u32, Error> {
    let answer = right_reserve(bench, slot, blocks);
    if answer == Err(Error::OverReserved) {
        let memory = &mut bench.memory;
        let left = u64::from(memory.available()) - memory.reserved_by_others(slot as usize);
        memory.slots[slot as usize].reservation = left as u32;
    }
    answer
}

#[test]
fn the_right_allocator_has_no_fault() {
    assert!(faults(Steps::RIGHT).is_empty());
}

#[test]
fn the_comparison_notices_an_own_reservation_counted_among_the_others() {
    assert_eq!(faults(Steps { call: own_counted, ..Steps::RIGHT }), [OTHER_BLOCKS]);
    let steps = Steps { extent: own_counted_by_an_extent, ..Steps::RIGHT };
    assert_eq!(faults(steps), [ANOTHER_REFUSAL]);
    assert_eq!(faults(Steps { cost: own_counted_by_a_cost, ..Steps::RIGHT }), [ANOTHER_REFUSAL]);
    let steps = Steps { reserve: own_counted_by_a_reserve, ..Steps::RIGHT };
    assert_eq!(faults(steps), [ANOTHER_REFUSAL]);
}

#[test]
fn the_comparison_notices_grants_of_what_is_reserved_for_others() {
    assert_eq!(faults(Steps { call: no_24, ..Steps::RIGHT }), [NOT_VALID]);
    assert_eq!(faults(Steps { extent: no_24_of_extents, ..Steps::RIGHT }), [NOT_VALID]);
}

#[test]
fn the_comparison_notices_24_before_17_and_before_22() {
    assert_eq!(faults(Steps { call: early_24, ..Steps::RIGHT }), [ANOTHER_REFUSAL]);
    assert_eq!(faults(Steps { extent: early_24_of_extents, ..Steps::RIGHT }), [ANOTHER_REFUSAL]);
    assert_eq!(faults(Steps { cost: early_24_of_costs, ..Steps::RIGHT }), [ANOTHER_REFUSAL]);
}

#[test]
fn the_comparison_notices_a_rollback_that_puts_back_nothing_or_too_much() {
    for call in [drop_puts_nothing_back, revoke_puts_nothing_back] {
        assert_eq!(faults(Steps { call, ..Steps::RIGHT }), [OTHER_RESERVATIONS]);
    }
    for call in [drop_puts_all_back, revoke_puts_all_back] {
        let faults = faults(Steps { call, ..Steps::RIGHT });
        assert!(faults.contains(&OTHER_RESERVATIONS), "{faults:?}");
    }
}

#[test]
fn the_comparison_notices_grants_that_draw_wrongly() {
    assert_eq!(faults(Steps { call: whole_count_drawn, ..Steps::RIGHT }), [OTHER_RESERVATIONS]);
    for steps in [
        Steps { call: nothing_drawn, ..Steps::RIGHT },
        Steps { extent: nothing_drawn_by_an_extent, ..Steps::RIGHT },
    ] {
        let faults = faults(steps);
        assert!(faults.contains(&OTHER_RESERVATIONS), "{faults:?}");
    }
}

#[test]
fn the_comparison_notices_what_a_commit_does_wrongly() {
    let steps = |call| Steps { call, ..Steps::RIGHT };
    assert_eq!(faults(steps(drawn_kept_after_a_commit)), [NOT_VALID]);
    let put_back = faults(steps(put_back_by_a_commit));
    assert!(put_back.contains(&OTHER_RESERVATIONS), "{put_back:?}");
    assert_eq!(faults(steps(used_up_by_a_commit)), [OTHER_RESERVATIONS]);
}

#[test]
fn the_comparison_notices_reservations_lost_or_kept() {
    assert_eq!(faults(Steps { call: start_without, ..Steps::RIGHT }), [OTHER_RESERVATIONS]);
    let kept = faults(Steps { call: kept_over_an_open, ..Steps::RIGHT });
    assert!(kept.contains(&OTHER_RESERVATIONS), "{kept:?}");
}

#[test]
fn the_comparison_notices_a_reserve_that_sums_or_sets_wrongly() {
    assert_eq!(faults(Steps { reserve: wrapping_sum, ..Steps::RIGHT }), [NOT_VALID]);
    let added = faults(Steps { reserve: added, ..Steps::RIGHT });
    assert!(added.contains(&OTHER_RESERVATIONS), "{added:?}");
    let steps = Steps { reserve: refused_and_done, ..Steps::RIGHT };
    assert_eq!(faults(steps), [OTHER_RESERVATIONS]);
}
