//! The histories with extent lines: what the extents meet in deep states, and that histories without
//! the option are those of stored checksums.

use crate::chains::Chains;
use crate::extent_observer::SeenExtents;
use crate::extents::Asked;
use reference::history::{with_cost, with_status, History, Shape};
use reference::inspector::Inspector;
use reference::line::{self, Operation};
use reference::test_line::{parse, TestLine};
use reference::Pending;

const LINES: usize = 10_000;
/// Seeds and block counts.
pub const HISTORIES: [(u64, u32); 7] =
    [(1, 0), (2, 0), (3, 0), (4, 33), (5, 200), (7, 1000), (10, 4096)];

pub fn history(
    seed: u64,
    blocks: u32,
    malformed: bool,
    extents: bool,
) -> impl Iterator<Item = Vec<u8>> {
    History::new(seed, Shape { malformed, reformats: true, extents, ..Shape::plain(blocks) })
        .unwrap()
}

fn asked(line: &[u8]) -> Option<Asked> {
    match parse(line) {
        Some(TestLine::Extent { slot, count, near }) => Some(Asked { slot, count, near }),
        _ => None,
    }
}

/// A checksum (FNV-1a) of the lines, each with its byte 10.
fn checksum(lines: impl Iterator<Item = Vec<u8>>) -> u64 {
    let bytes = lines.flat_map(|mut line| {
        line.push(b'\n');
        line
    });
    bytes.fold(0xcbf2_9ce4_8422_2325, |sum, byte| {
        (sum ^ u64::from(byte)).wrapping_mul(0x0100_0000_01b3)
    })
}

#[test]
fn without_the_option_they_are_those_of_the_checksums() {
    let plain = |seed, blocks, malformed| history(seed, blocks, malformed, false).take(3000);
    assert_eq!(checksum(plain(1, 0, false)), 0xbaa3_b2dd_7fdb_7ddc);
    assert_eq!(checksum(plain(2, 0, true)), 0x5c10_10db_5ebe_aa80);
    assert_eq!(checksum(with_status(3, plain(3, 33, false))), 0xe73e_5ee4_abc0_5327);
    assert_eq!(checksum(with_cost(4, plain(4, 0, false))), 0xc8b6_8a27_8b18_05f8);
    let both = with_cost(5, with_status(5, plain(5, 4096, true)));
    assert_eq!(checksum(both), 0x9b31_ae3d_26af_d2c3);
}

#[test]
fn the_first_line_formats_and_many_lines_are_extents() {
    for (seed, blocks) in HISTORIES {
        let lines: Vec<Vec<u8>> = history(seed, blocks, true, true).take(LINES).collect();
        assert_eq!(line::parse(&lines[0]).unwrap().operation, Operation::Format);
        let extents = lines.iter().filter(|line| asked(line).is_some()).count();
        assert!(extents > LINES / 20 && extents < LINES / 3, "{extents} in seed {seed}");
    }
}

/// Runs a history and checks and counts its extents. It gives also the commits that ended, and those
/// extents that were accepted with four slots or more active.
fn observe(seed: u64, blocks: u32) -> (SeenExtents, u32, u32) {
    let (mut inspector, mut seen) = (Inspector::new(), SeenExtents::default());
    let (mut commits, mut deep) = (0, 0);
    for line in history(seed, blocks, false, true).take(LINES) {
        let before = inspector.clone();
        let answer = inspector.run(&line, &mut String::new());
        if let Some(asked) = asked(&line) {
            seen.count(&before, &inspector, asked, answer, false);
            let active = before.memory.active_slots().count();
            deep += u32::from(answer.is_ok() && active >= 4);
        }
        let in_commit = matches!(before.memory.pending, Pending::Commit { .. });
        let stored = line::parse(&line).is_some_and(|line| line.operation == Operation::Store);
        commits += u32::from(in_commit && stored && answer == Ok(0));
    }
    (seen, commits, deep)
}

#[test]
fn extents_meet_all_their_answers_in_deep_states() {
    let mut all = SeenExtents::default();
    for (seed, blocks) in HISTORIES {
        let (seen, commits, deep) = observe(seed, blocks);
        println!("seed {seed}: {commits} {deep} {seen:?}");
        assert!(seen.answers[0] >= 200 && seen.answers[22] >= 80, "seed {seed}: {seen:?}");
        assert!(commits >= 100 && deep >= 80, "seed {seed}: {commits} {deep}");
        all.answers.iter_mut().zip(seen.answers).for_each(|(all, times)| *all += times);
        all.at_near += seen.at_near;
        all.below += seen.below;
        all.above += seen.above;
        all.ties += seen.ties;
        all.scattered += seen.scattered;
    }
    println!("{all:?}");
    let reached = |code: &usize| all.answers[*code] >= 20;
    assert!([0, 1, 8, 10, 12, 13, 15, 18, 22].iter().all(reached), "{:?}", all.answers);
    // The list is always long enough.
    assert_eq!(all.answers[16], 0);
    assert!(all.at_near >= 200 && all.below >= 1000 && all.above >= 1000);
    assert!(all.ties >= 200 && all.scattered >= 300);
}

#[test]
fn the_kinds_of_counts_and_near_blocks() {
    let mut inspector = Inspector::new();
    let (mut counts, mut nears) = ([0; 66], [0; 4]);
    for line in history(8, 300, false, true).take(LINES) {
        if let Some(Asked { count, near, .. }) = asked(&line) {
            counts[count.min(65) as usize] += 1;
            let last = inspector.memory.blocks.saturating_sub(1);
            let kind = [near == 0, near == last, near < last];
            nears[kind.iter().position(|is| *is).unwrap_or(3)] += 1;
        }
        let _ = inspector.run(&line, &mut String::new());
    }
    println!("{counts:?} {nears:?}");
    assert!(counts[0] >= 10 && counts[65] >= 10 && counts[64] >= 10);
    assert!(counts[1..5].iter().all(|times| *times >= 50));
    assert!(counts[5..65].iter().filter(|times| **times > 0).count() >= 50);
    assert!(nears.iter().all(|times| *times >= 30));
}

#[test]
fn status_and_cost_lines_can_be_added() {
    for (seed, blocks) in HISTORIES {
        let without: Vec<Vec<u8>> = history(seed, blocks, true, true).take(LINES).collect();
        let status = with_status(seed, without.iter().cloned());
        let mut lines: Vec<Vec<u8>> = with_cost(seed, status).collect();
        let extents = |lines: &[Vec<u8>], is_foretold: &dyn Fn(&[u8], Asked) -> bool| {
            let pairs = lines.windows(2).filter_map(|pair| Some((&pair[0], asked(&pair[1])?)));
            pairs.filter(|(before, asked)| is_foretold(before, *asked)).count()
        };
        let all = extents(&lines, &|_, _| true);
        let foretold = extents(&lines, &|before, Asked { slot, count, .. }| {
            parse(before) == Some(TestLine::Cost { slot, count })
        });
        assert!(foretold * 3 > all * 2 && foretold * 6 < all * 5, "{foretold} of {all}");
        lines.retain(|line| !matches!(parse(line), Some(TestLine::Cost { .. } | TestLine::Status)));
        assert!(lines == without, "seed {seed}");
    }
}

#[test]
fn what_is_foretold_holds_for_extents_too() {
    let mut with_extents = 0;
    for (seed, blocks) in HISTORIES {
        let (mut inspector, mut chains) = (Inspector::new(), Chains::default());
        for line in with_cost(seed, history(seed, blocks, false, true).take(LINES)) {
            if let Ok(value) = inspector.run(&line, &mut String::new()) {
                chains.note(&line, value);
            }
        }
        println!("seed {seed}: {} with extents", chains.with_extents);
        with_extents += chains.with_extents;
    }
    assert!(with_extents >= 100, "{with_extents}");
}
