//! The histories with `cost` lines: their other lines are those of the same history without, and
//! many chains keep document 02's promise.

use crate::chains::Chains;
use crate::comparison;
use reference::bench::Bench;
use reference::history::{with_cost, with_status, History, Shape};
use reference::inspector::Inspector;
use reference::line::{self, Operation};
use reference::test_line::{self, TestLine};
use reference::{program, Error};

const LINES: usize = 10_000;
/// Seeds and block counts.
const HISTORIES: [(u64, u32); 7] =
    [(1, 0), (2, 0), (3, 0), (4, 33), (5, 200), (6, 1000), (8, 4096)];

fn plain(seed: u64, blocks: u32, malformed: bool) -> Vec<Vec<u8>> {
    let shape = Shape { malformed, reformats: true, ..Shape::plain(blocks) };
    History::new(seed, shape).unwrap().take(LINES).collect()
}

fn with_costs(seed: u64, lines: &[Vec<u8>]) -> Vec<Vec<u8>> {
    with_cost(seed, lines.iter().cloned()).collect()
}

fn cost_of(line: &[u8]) -> Option<(u32, u32)> {
    match test_line::parse(line) {
        Some(TestLine::Cost { slot, count }) => Some((slot, count)),
        _ => None,
    }
}

fn inspect(lines: &[Vec<u8>]) -> Vec<String> {
    let mut output = Vec::new();
    program::inspect(lines.join(&b'\n').as_slice(), &mut output).unwrap();
    String::from_utf8(output).unwrap().lines().map(String::from).collect()
}

/// The printed line, an answer line without the call's number.
fn answer(line: &str) -> &str {
    match line.split_once(' ') {
        Some((call, answer)) if call.starts_with("call=") => answer,
        _ => line,
    }
}

#[test]
fn the_other_lines_are_those_of_the_same_history_without() {
    for (seed, blocks) in HISTORIES {
        for malformed in [false, true] {
            let plain = plain(seed, blocks, malformed);
            let status: Vec<Vec<u8>> = with_status(seed, plain.iter().cloned()).collect();
            for without in [plain, status] {
                let mut lines = with_costs(seed, &without);
                let all = lines.len();
                lines.retain(|line| cost_of(line).is_none());
                assert!(lines == without, "seed {seed}");
                let costs = all - lines.len();
                assert!(costs > LINES / 8 && costs < LINES / 2, "{costs} in seed {seed}");
            }
        }
    }
}

#[test]
fn cost_lines_change_no_other_answer() {
    for (seed, blocks) in HISTORIES {
        let plain: Vec<Vec<u8>> =
            with_status(seed, plain(seed, blocks, true).into_iter()).collect();
        let lines = with_costs(seed, &plain);
        let mut costs = lines.iter().map(|line| cost_of(line).is_some());
        let output = inspect(&lines);
        let is_other = |line: &&String| !line.starts_with("call=") || !costs.next().unwrap();
        let others: Vec<&str> = output.iter().filter(is_other).map(|line| answer(line)).collect();
        let expected = inspect(&plain);
        assert!(expected.iter().map(|line| answer(line)).eq(others), "seed {seed}");
    }
}

/// How many of the bench lines of this operation have a line of their cost right before them.
fn foretold(lines: &[Vec<u8>], wanted: Operation) -> (u32, u32) {
    let (mut foretold, mut all) = (0, 0);
    for pair in lines.windows(2) {
        match line::parse(&pair[1]) {
            Some(line) if line.operation == wanted => {
                let count = if wanted == Operation::Allocate { line.number } else { 0 };
                all += 1;
                foretold += u32::from(cost_of(&pair[0]) == Some((line.slot, count)));
            }
            _ => {}
        }
    }
    (foretold, all)
}

#[test]
fn most_allocates_and_many_precommits_have_their_cost_before_them() {
    for (seed, blocks) in HISTORIES {
        let lines = with_costs(seed, &plain(seed, blocks, false));
        let (allocates, all_allocates) = foretold(&lines, Operation::Allocate);
        let (precommits, all_precommits) = foretold(&lines, Operation::Precommit);
        println!("seed {seed}: {allocates} of {all_allocates}, {precommits} of {all_precommits}");
        assert!(allocates * 3 > all_allocates * 2 && allocates * 6 < all_allocates * 5);
        assert!(precommits * 2 > all_precommits && precommits * 6 < all_precommits * 5);
    }
}

#[test]
fn the_promise_is_kept_in_many_chains() {
    for (seed, blocks) in HISTORIES {
        let (mut inspector, mut chains) = (Inspector::new(), Chains::default());
        for line in with_costs(seed, &plain(seed, blocks, false)) {
            if let Ok(value) = inspector.run(&line, &mut String::new()) {
                chains.note(&line, value);
            }
        }
        let Chains { equal, fewer, without_store, .. } = chains;
        println!("seed {seed}: equal {equal:?}, fewer {fewer:?}, without a store {without_store}");
        assert!(equal.iter().sum::<u32>() >= 20, "seed {seed}: {equal:?}");
        assert!(fewer.iter().sum::<u32>() >= 20, "seed {seed}: {fewer:?}");
        assert!(equal.iter().chain(&fewer).all(|times| *times >= 5) && without_store > 0);
    }
}

#[test]
fn cost_lines_get_each_of_their_answers() {
    for (seed, blocks) in HISTORIES {
        let mut inspector = Inspector::new();
        let mut answers = [0; 25];
        for line in with_costs(seed, &plain(seed, blocks, false)) {
            let answer = inspector.run(&line, &mut String::new());
            if cost_of(&line).is_some() {
                answers[answer.err().map_or(0, Error::code) as usize] += 1;
            }
        }
        println!("seed {seed}: {answers:?}");
        let reached = |code: &usize| answers[*code] >= 5;
        assert!([0, 1, 8, 10, 12, 13, 15, 17].iter().all(reached), "seed {seed}: {answers:?}");
    }
}

#[test]
fn the_ledger_holds_with_commit_costs_entered_as_nothing() {
    for seed in 0..100 {
        let lines = with_cost(seed, comparison::history(seed).take(300));
        assert_eq!(comparison::fault_in_lines(lines, Bench::call), None, "seed {seed}");
    }
}
