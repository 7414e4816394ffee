//! The histories with `status` lines: their bench lines are those of the plain ones.

use reference::history::{with_status, History, Shape};
use reference::program;

const LINES: usize = 6000;
const BLOCKS: [u32; 4] = [0, 33, 200, 4096];

fn plain(seed: u64, blocks: u32, malformed: bool) -> Vec<Vec<u8>> {
    let shape = Shape { malformed, reformats: true, ..Shape::plain(blocks) };
    History::new(seed, shape).unwrap().take(LINES).collect()
}

fn with_statuses(seed: u64, blocks: u32, malformed: bool) -> Vec<Vec<u8>> {
    with_status(seed, plain(seed, blocks, malformed).into_iter()).collect()
}

fn inspect(lines: &[Vec<u8>]) -> Vec<String> {
    let mut output = Vec::new();
    program::inspect(lines.join(&b'\n').as_slice(), &mut output).unwrap();
    String::from_utf8(output).unwrap().lines().map(String::from).collect()
}

/// The answer line without the call's number.
fn answer(line: &str) -> &str {
    line.split_once(' ').unwrap().1
}

/// The numbers of a line that `status` prints.
fn counts(line: &str) -> Vec<u32> {
    let number = |field: &str| field.split_once('=').unwrap().1.parse().unwrap();
    line.split(' ').map(number).collect()
}

#[test]
fn the_bench_lines_are_those_of_the_plain_history() {
    for (seed, blocks) in (1..).zip(BLOCKS) {
        for malformed in [false, true] {
            let mut lines = with_statuses(seed, blocks, malformed);
            let all = lines.len();
            assert!(lines.windows(2).all(|pair| pair[0] != b"status" || pair[1] != b"status"));
            lines.retain(|line| line != b"status");
            assert!(lines == plain(seed, blocks, malformed), "seed {seed}");
            let statuses = all - lines.len();
            assert!(statuses > LINES * 3 / 10 && statuses < LINES * 4 / 10, "{statuses}");
        }
    }
}

#[test]
fn status_lines_change_no_other_answer() {
    for (seed, blocks) in (1..).zip(BLOCKS) {
        let lines = with_statuses(seed, blocks, true);
        let output = inspect(&lines);
        let answers = output.iter().filter(|line| line.starts_with("call="));
        let of_bench_lines = answers
            .zip(&lines)
            .filter(|(_, line)| *line != b"status")
            .map(|(line, _)| answer(line));
        let plain = inspect(&plain(seed, blocks, true));
        assert!(of_bench_lines.eq(plain.iter().map(|line| answer(line))), "seed {seed}");
    }
}

#[test]
fn status_lines_see_all_kinds_of_blocks_in_many_slots() {
    for (seed, blocks) in (1..).zip(BLOCKS) {
        let output = inspect(&with_statuses(seed, blocks, false));
        let printed = output.iter().filter(|line| line.starts_with("allocated="));
        let printed: Vec<Vec<u32>> = printed.map(|line| counts(line)).collect();
        let all_kinds = |counts: &&Vec<u32>| counts.iter().all(|count| *count > 0);
        let with_all = printed.iter().filter(all_kinds).count();
        let deep = printed.iter().filter(all_kinds).filter(|counts| counts[5] >= 4).count();
        println!("seed {seed}: {with_all} and {deep} of {}", printed.len());
        assert!(with_all >= 200 && deep >= 100, "seed {seed}");
        assert!(printed.len() < output.len() - LINES, "some are refused in seed {seed}");
    }
}
