//! The sequences of extent lines: many extents of every kind, on volumes of many sizes.

use crate::extent_observer::SeenExtents;
use crate::extents::Asked;
use reference::extents::Extents;
use reference::inspector::Inspector;
use reference::test_line::{parse, TestLine};
use reference::{Error, Memory};
use std::collections::BTreeSet;

const LINES: usize = 10_000;
const FAVOURED_BLOCKS: [u32; 16] =
    [1, 2, 31, 32, 33, 63, 64, 65, 95, 96, 97, 127, 128, 129, 4095, 4096];

/// What was seen in a sequence.
#[derive(Default, Debug)]
struct Seen {
    extents: SeenExtents,
    shows: u32,
    /// The block counts of the volumes, and the counts of the accepted extents.
    blocks: BTreeSet<u32>,
    counts: BTreeSet<u32>,
    /// The extents on a volume of 4,095 or 4,096 blocks that are accepted.
    on_large: u32,
}

/// Runs a sequence from this state on and checks each extent.
fn observe(seed: u64, mut inspector: Inspector) -> Seen {
    let mut seen = Seen::default();
    for line in Extents::new(seed).take(LINES) {
        let before = inspector.clone();
        let answer = inspector.run(&line, &mut String::new());
        assert_ne!(answer, Err(Error::MalformedLine), "{}", line.escape_ascii());
        match parse(&line) {
            Some(TestLine::Extent { slot, count, near }) => {
                let asked = Asked { slot, count, near };
                seen.extents.count(&before, &inspector, asked, answer, false);
                if answer.is_ok() {
                    seen.counts.insert(count);
                    seen.on_large += u32::from(before.memory.blocks >= 4095);
                }
            }
            Some(TestLine::Blocks { blocks }) => drop(seen.blocks.insert(blocks)),
            Some(TestLine::Show) => seen.shows += 1,
            _ => {}
        }
    }
    seen
}

#[test]
fn extents_of_every_kind_come_up_often() {
    let all: Vec<Seen> = (1..=4).map(|seed| observe(seed, Inspector::new())).collect();
    all.iter().for_each(|seen| println!("{seen:?}"));
    let often = |least: u32, count: fn(&SeenExtents) -> u32| {
        let times: u32 = all.iter().map(|seen| count(&seen.extents)).sum();
        assert!(times >= 4 * least, "{times}, {least} each");
    };
    often(6500, |extents| extents.answers.iter().sum());
    often(2500, |extents| extents.answers[0]);
    often(2000, |extents| extents.answers[22]);
    often(200, |extents| extents.answers[24]);
    often(1000, |extents| extents.below);
    often(500, |extents| extents.above);
    often(500, |extents| extents.at_near);
    often(300, |extents| extents.ties);
    often(500, |extents| extents.scattered);
    often(80, |extents| extents.from_0);
    often(80, |extents| extents.to_the_end);
    often(200, |extents| extents.in_two_words);
    often(20, |extents| extents.in_three_words);
    often(20, |extents| extents.longest);
    often(10, |extents| extents.short_lists);
    often(1000, |extents| extents.busy);
    for seen in all {
        assert!(seen.on_large >= 50 && seen.shows >= 50 && seen.shows <= 300);
    }
}

#[test]
fn the_other_answers_are_few() {
    let mut all = [0; 25];
    for seed in 1..=4 {
        let answers = observe(seed, Inspector::new()).extents.answers;
        for code in [10, 12, 15, 16, 18] {
            assert!(answers[code] <= 300, "seed {seed}: {answers:?}");
            all[code] += answers[code];
        }
        let others: u32 = (1..25)
            .filter(|code| ![10, 12, 13, 15, 16, 18, 22, 24].contains(code))
            .map(|code| answers[code])
            .sum();
        assert_eq!(others, 0, "seed {seed}: {answers:?}");
    }
    assert!([10, 12, 15, 16, 18].iter().all(|code| all[*code] >= 4 * 5), "{all:?}");
}

#[test]
fn the_volumes_are_of_all_favoured_sizes_and_others() {
    let mut blocks = BTreeSet::new();
    let mut counts = BTreeSet::new();
    for seed in 1..=6 {
        let seen = observe(seed, Inspector::new());
        blocks.extend(seen.blocks);
        counts.extend(seen.counts);
    }
    assert!(FAVOURED_BLOCKS.iter().all(|favoured| blocks.contains(favoured)), "{blocks:?}");
    assert!(blocks.iter().filter(|blocks| (200..=1000).contains(*blocks)).count() >= 20);
    assert!((1..=64).all(|count| counts.contains(&count)), "{counts:?}");
}

#[test]
fn a_sequence_may_follow_any_lines() {
    let mut inspector = Inspector::new();
    for line in "blocks 9\nsam 0 3\ncom 7 1\nstate 2 2\npending 1 9 9 9\nlist 3\nlength 7".lines() {
        assert_eq!(inspector.run(line.as_bytes(), &mut String::new()), Ok(0));
    }
    assert_ne!(inspector.memory, Memory::ZEROS);
    let (plain, behind) = (observe(5, Inspector::new()), observe(5, inspector));
    assert_eq!(behind.extents.answers, plain.extents.answers);
}
