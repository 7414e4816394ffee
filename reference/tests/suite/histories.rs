//! The random histories reach deep states, refused calls of every kind, and lines not in form.

use crate::comparison;
use crate::ledger::{HISTORIES, LINES};
use reference::bench::Bench;
use reference::history::{History, Shape};
use reference::line::{parse, Line, Operation, MAX_LINE_BYTES};
use reference::{Error, Pending, Random, SlotState};

/// How often a deep state was reached.
#[derive(Default, Debug)]
struct Depth {
    commits: u32,
    /// Of those, with 10 words changed or more.
    wide_commits: u32,
    crashes_in_commits: u32,
    opens_in_commits: u32,
    crashes_in_recoveries: u32,
    finished_recoveries: u32,
    /// Blocks granted anew whose release was committed while another slot, still active, was open.
    retaken: u32,
    all_slots_active: u32,
    refused: [u32; 25],
}

/// A bench that counts what it sees.
struct Observer {
    bench: Bench,
    depth: Depth,
    calls: u32,
    started_at: [u32; 8],
    released_at: Vec<Option<u32>>,
}

impl Observer {
    fn new() -> Observer {
        Observer {
            bench: Bench::new(),
            depth: Depth::default(),
            calls: 0,
            started_at: [0; 8],
            released_at: vec![None; 4096],
        }
    }

    fn run(&mut self, line: &[u8]) {
        self.calls += 1;
        let pending = self.bench.memory.pending;
        let sam = self.bench.memory.sam;
        match (parse(line), self.bench.run(line)) {
            (Some(line), Ok(value)) => {
                self.count_work(&line, pending, value);
                self.count_retaken(&line);
                if pending != self.bench.memory.pending && line.operation == Operation::Store {
                    let released =
                        |block: &u32| sam.has(*block) && !self.bench.memory.sam.has(*block);
                    let released: Vec<u32> = (0..4096).filter(released).collect();
                    let call = Some(self.calls);
                    released.into_iter().for_each(|block| self.released_at[block as usize] = call);
                }
            }
            (_, Err(error)) => self.depth.refused[error.code() as usize] += 1,
            (None, Ok(_)) => panic!("a line not in form was accepted"),
        }
        let active = self.bench.memory.active_slots().count();
        self.depth.all_slots_active += u32::from(active == 8);
    }

    fn count_work(&mut self, line: &Line, pending: Pending, value: u32) {
        let depth = &mut self.depth;
        let ended = u32::from(line.operation == Operation::Store && value == 0);
        match (pending, line.operation) {
            (Pending::Commit { due, .. }, Operation::Store) => {
                depth.commits += ended;
                depth.wide_commits += if due >= 32 { ended } else { 0 };
            }
            (Pending::Commit { done: 1.., .. }, Operation::Crash) => depth.crashes_in_commits += 1,
            (Pending::Commit { done: 1.., .. }, Operation::Open) => depth.opens_in_commits += 1,
            (Pending::Recovery { .. }, Operation::Store) => depth.finished_recoveries += ended,
            (Pending::Recovery { done: 1.., .. }, Operation::Crash | Operation::Open) => {
                depth.crashes_in_recoveries += 1
            }
            _ => {}
        }
    }

    fn count_retaken(&mut self, line: &Line) {
        match line.operation {
            Operation::Start => self.started_at[line.slot as usize] = self.calls,
            Operation::Crash | Operation::Open | Operation::Format => self.released_at.fill(None),
            Operation::Allocate => {
                let oldest = self.oldest_start_of_another(line.slot as usize);
                let listed = &self.bench.list[..line.number as usize];
                let released = listed.iter().filter_map(|block| self.released_at[*block as usize]);
                self.depth.retaken += released.filter(|release| oldest < *release).count() as u32;
            }
            _ => {}
        }
    }

    fn oldest_start_of_another(&self, own: usize) -> u32 {
        let active =
            |slot: &usize| *slot != own && self.bench.memory.slots[*slot].state != SlotState::Idle;
        (0..8).filter(active).map(|slot| self.started_at[slot]).min().unwrap_or(u32::MAX)
    }
}

#[test]
fn the_histories_of_the_ledger_test_are_deep() {
    let mut depth = Depth::default();
    for seed in 0..HISTORIES {
        let mut observer = Observer { depth, ..Observer::new() };
        comparison::history(seed).take(LINES).for_each(|line| observer.run(&line));
        depth = observer.depth;
    }
    println!("{depth:?}");
    assert!(depth.commits >= 8000);
    assert!(depth.wide_commits >= 150);
    assert!(depth.crashes_in_commits >= 1000);
    assert!(depth.opens_in_commits >= 500);
    assert!(depth.crashes_in_recoveries >= 250);
    assert!(depth.finished_recoveries >= 500);
    assert!(depth.retaken >= 5000);
    assert!(depth.all_slots_active >= 10_000);
    for code in [1, 7, 8, 9, 10, 11, 12, 13, 14, 15, 17, 18, 19, 20] {
        assert!(depth.refused[code] >= 50, "cause {code}");
    }
    // Without a second format the disk never is another memory's.
    for code in [2, 3, 4, 5, 6, 16, 21] {
        assert_eq!(depth.refused[code], 0, "cause {code}");
    }
}

#[test]
fn a_history_of_60_000_lines_goes_on_committing() {
    for (seed, blocks, commits, wide) in [(4, 4096, 1000, 100), (2, 33, 1500, 0), (3, 0, 1000, 20)]
    {
        let shape = Shape { malformed: true, reformats: true, ..Shape::plain(blocks) };
        let mut observer = Observer::new();
        History::new(seed, shape).unwrap().take(60_000).for_each(|line| observer.run(&line));
        let depth = observer.depth;
        println!("{depth:?}");
        assert!(depth.commits >= commits);
        assert!(depth.wide_commits >= wide);
        assert!(depth.crashes_in_recoveries >= 10);
        for code in [1, 6, 7, 8, 9, 10, 11, 12, 13, 14, 15, 17, 18, 19, 20, 21] {
            assert!(depth.refused[code] >= 1, "cause {code}");
        }
        let refused: u32 = depth.refused[..21].iter().sum();
        assert!(refused < 6000, "most calls in form are accepted");
    }
}

#[test]
fn malformed_lines_are_of_many_kinds() {
    let shape = Shape { malformed: true, reformats: true, ..Shape::plain(0) };
    let lines: Vec<Vec<u8>> = History::new(4, shape).unwrap().take(20_000).collect();
    let malformed: Vec<&Vec<u8>> = lines.iter().filter(|line| parse(line).is_none()).collect();
    let count = |kind: &dyn Fn(&[u8]) -> bool| malformed.iter().filter(|line| kind(line)).count();
    assert!(malformed.len() > 1000 && malformed.len() < 3000);
    for length in [0, MAX_LINE_BYTES, MAX_LINE_BYTES + 1] {
        assert!(count(&|line| line.len() == length) > 10, "{length} bytes");
    }
    assert!(count(&|line| line.len() > 1000) > 10);
    assert!(count(&|line| line.is_ascii()) < malformed.len() - 50);
    assert!(count(&|line| line.starts_with(b"OP=")) > 50);
    assert!(count(&|line| line.ends_with(b"\r")) > 5);
    assert!(count(&|line| line.windows(2).any(|pair| pair == b"  ")) > 20);
    assert!(count(&|line| line.ends_with(b"=")) > 5);
    assert!(lines.iter().all(|line| !line.contains(&b'\n')));
}

#[test]
fn the_first_line_formats_and_only_with_leave_is_there_another_format() {
    let formats = |reformats: bool| {
        let shape = Shape { reformats, ..Shape::plain(77) };
        let mut bench = Bench::new();
        let accepted = |line: Vec<u8>| {
            let is_format = parse(&line).map(|line| line.operation) == Some(Operation::Format);
            let answer: Result<u32, Error> = bench.run(&line);
            is_format && answer.is_ok()
        };
        History::new(5, shape).unwrap().take(30_000).map(accepted).collect::<Vec<bool>>()
    };
    let (without, with) = (formats(false), formats(true));
    assert!(without[0] && with[0]);
    assert!(!without[1..].contains(&true));
    assert!(with[1..].contains(&true));
}

#[test]
fn random_block_counts_reach_the_edges() {
    let blocks = |seed| {
        let shape = Shape::plain(0);
        let first = History::new(seed, shape).unwrap().next().unwrap();
        parse(&first).unwrap().number
    };
    let blocks: Vec<u32> = (0..HISTORIES).map(blocks).collect();
    for edge in [1, 31, 32, 33, 4095, 4096] {
        assert!(blocks.contains(&edge), "{edge}");
    }
    assert!(blocks.iter().all(|blocks| (1..=4096).contains(blocks)));
}

#[test]
fn the_random_numbers_are_those_of_splitmix64() {
    let mut random = Random::new(0);
    let numbers = [random.number(), random.number(), random.number()];
    assert_eq!(numbers, [0xe220_a839_7b1d_cdaf, 0x6e78_9e6a_a1b9_65f4, 0x06c4_5d18_8009_454f]);
}
