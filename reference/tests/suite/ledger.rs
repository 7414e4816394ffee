//! Demand 3: the ledger beside the allocator, compared after every call of random histories.

use crate::comparison::{
    fault_in_history, fault_in_lines, history_with_extents, history_with_reserves,
};
use reference::bench::Bench;
use reference::line::Operation;
use reference::{BlockSet, Call, Ledger};

pub const HISTORIES: u64 = 1000;
pub const LINES: usize = 300;

#[test]
fn the_ledger_holds_after_every_call_of_1000_histories() {
    for seed in 0..HISTORIES {
        let fault = fault_in_history(seed, LINES, Bench::call);
        assert_eq!(fault, None, "seed {seed}");
    }
}

#[test]
fn the_ledger_holds_in_long_histories() {
    for seed in 0..4 {
        let fault = fault_in_history(HISTORIES + seed, 10_000, Bench::call);
        assert_eq!(fault, None, "seed {}", HISTORIES + seed);
    }
}

#[test]
fn the_ledger_holds_with_extents_entered_as_allocates() {
    for (seed, lines) in (0..300).map(|seed| (seed, LINES)).chain([(300, 10_000), (301, 10_000)]) {
        let fault = fault_in_lines(history_with_extents(seed).take(lines), Bench::call);
        assert_eq!(fault, None, "seed {seed}");
    }
}

#[test]
fn the_ledger_holds_with_reserves_entered_as_nothing() {
    for (seed, lines) in (0..300).map(|seed| (seed, LINES)).chain([(300, 10_000), (301, 10_000)]) {
        let fault = fault_in_lines(history_with_reserves(seed, lines), Bench::call);
        assert_eq!(fault, None, "seed {seed}");
    }
}

#[test]
fn the_ledger_enters_an_extent_as_an_allocate() {
    let mut ledger = Ledger::new();
    ledger.record(&Call::extent(3, true, &[62, 63, 64]));
    ledger.record(&Call::extent(3, false, &[]));
    assert_eq!(ledger.touched(), (3, 0));
    ledger.record(&call(Operation::Commit, 3, 0, &[]));
    (0..4).for_each(|_| ledger.record(&call(Operation::Store, 0, 0, &[])));
    assert_eq!(*ledger.allocated(), BlockSet::EMPTY);
    ledger.record(&call(Operation::Store, 0, 0, &[]));
    assert!(ledger.allocated().equals_words(&words(&[62, 63, 64])));
    ledger.record(&Call::extent(4, true, &[65, 66]));
    assert!(ledger.has_single_holders());
    ledger.record(&Call::extent(5, true, &[63]));
    assert!(!ledger.has_single_holders());
}

fn call(operation: Operation, slot: u32, block: u32, listed: &[u32]) -> Call<'_> {
    Call { operation, slot, block, accepted: true, listed }
}

fn words(blocks: &[u32]) -> [u32; 128] {
    let mut words = [0; 128];
    blocks.iter().for_each(|block| words[*block as usize / 32] |= 1 << (block % 32));
    words
}

#[test]
fn the_ledger_takes_a_commit_at_its_commit_point() {
    let mut ledger = Ledger::new();
    ledger.record(&call(Operation::Start, 3, 0, &[]));
    ledger.record(&call(Operation::Allocate, 3, 0, &[0, 1, 64]));
    ledger.record(&call(Operation::Allocate, 4, 0, &[2]));
    ledger.record(&call(Operation::Commit, 3, 0, &[]));
    for _ in 0..4 {
        ledger.record(&call(Operation::Store, 0, 0, &[]));
        assert!(ledger.allocated().equals_words(&words(&[])));
    }
    for _ in 0..10 {
        ledger.record(&call(Operation::Store, 0, 0, &[]));
        assert!(ledger.allocated().equals_words(&words(&[0, 1, 64])));
        assert!(!ledger.allocated().equals_words(&words(&[0, 1, 63])));
    }
    ledger.record(&call(Operation::Deallocate, 5, 64, &[]));
    ledger.record(&call(Operation::Commit, 5, 0, &[]));
    for _ in 0..3 {
        ledger.record(&call(Operation::Store, 0, 0, &[]));
    }
    assert!(ledger.allocated().equals_words(&words(&[0, 1])));
}

#[test]
fn the_ledger_forgets_at_a_drop_a_revoke_a_crash_and_an_open() {
    for operation in [Operation::Drop, Operation::Revoke, Operation::Crash, Operation::Open] {
        let mut ledger = Ledger::new();
        ledger.record(&call(Operation::Allocate, 3, 0, &[7]));
        ledger.record(&call(operation, 3, 0, &[]));
        ledger.record(&call(Operation::Commit, 3, 0, &[]));
        (0..5).for_each(|_| ledger.record(&call(Operation::Store, 0, 0, &[])));
        assert_eq!(*ledger.allocated(), BlockSet::EMPTY, "{operation:?}");
    }
}

#[test]
fn a_drop_or_a_revoke_empties_both_sets_of_its_slot_alone() {
    for operation in [Operation::Drop, Operation::Revoke] {
        let mut ledger = Ledger::new();
        ledger.record(&call(Operation::Allocate, 3, 0, &[7, 8]));
        ledger.record(&call(Operation::Deallocate, 3, 40, &[]));
        ledger.record(&call(Operation::Allocate, 4, 0, &[9, 10, 11]));
        ledger.record(&call(Operation::Deallocate, 4, 41, &[]));
        ledger.record(&call(Operation::Precommit, 3, 0, &[]));
        assert_eq!(ledger.touched(), (5, 2));
        ledger.record(&Call { accepted: false, ..call(operation, 3, 0, &[]) });
        assert_eq!(ledger.touched(), (5, 2), "{operation:?} refused");
        ledger.record(&call(operation, 3, 0, &[]));
        assert_eq!(ledger.touched(), (3, 1), "{operation:?}");
        ledger.record(&call(operation, 4, 0, &[]));
        assert_eq!(ledger.touched(), (0, 0), "{operation:?}");
    }
}

#[test]
fn the_ledger_ignores_refused_calls() {
    let mut ledger = Ledger::new();
    ledger.record(&call(Operation::Allocate, 3, 0, &[7]));
    ledger.record(&Call { accepted: false, ..call(Operation::Crash, 3, 0, &[]) });
    ledger.record(&call(Operation::Commit, 3, 0, &[]));
    ledger.record(&Call { accepted: false, ..call(Operation::Store, 0, 0, &[]) });
    (0..2).for_each(|_| ledger.record(&call(Operation::Store, 0, 0, &[])));
    assert_eq!(*ledger.allocated(), BlockSet::EMPTY);
    ledger.record(&call(Operation::Store, 0, 0, &[]));
    assert!(ledger.allocated().contains(7));
}

#[test]
fn the_ledger_sees_two_holders() {
    let mut ledger = Ledger::new();
    ledger.record(&call(Operation::Allocate, 0, 0, &[3, 4]));
    assert!(ledger.has_single_holders());
    ledger.record(&call(Operation::Allocate, 7, 0, &[4]));
    assert!(!ledger.has_single_holders());
    ledger.record(&call(Operation::Drop, 7, 0, &[]));
    assert!(ledger.has_single_holders());
    ledger.record(&call(Operation::Allocate, 7, 0, &[3]));
    assert!(!ledger.has_single_holders());
    ledger.record(&call(Operation::Revoke, 7, 0, &[]));
    assert!(ledger.has_single_holders());
    ledger.record(&call(Operation::Commit, 0, 0, &[]));
    (0..3).for_each(|_| ledger.record(&call(Operation::Store, 0, 0, &[])));
    ledger.record(&call(Operation::Allocate, 1, 0, &[3]));
    assert!(!ledger.has_single_holders());
}
