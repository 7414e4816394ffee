//! The random sequences make drops and revokes of every kind: accepted ones, and each on a slot that
//! the other serves, many of them while other slots have touched something.

use crate::extent_histories::{history, HISTORIES};
use crate::rollback_observer::{SeenCalls, SeenRollbacks};
use reference::damage::Damage;
use reference::extents::Extents;
use reference::inspector::Inspector;
use reference::line::parse;

const LINES: usize = 12_000;

/// Runs lines and checks each drop and each revoke.
fn observe(lines: impl Iterator<Item = Vec<u8>>) -> SeenRollbacks {
    let mut seen = SeenRollbacks::default();
    observe_too(&mut seen, lines);
    seen
}

/// The same, counted together with what was seen in other sequences.
fn observe_too(seen: &mut SeenRollbacks, lines: impl Iterator<Item = Vec<u8>>) {
    let mut inspector = Inspector::new();
    for bytes in lines {
        let before = inspector.memory.clone();
        let answer = inspector.run(&bytes, &mut String::new());
        if let Some(line) = parse(&bytes) {
            seen.count(&before, &inspector.memory, &line, answer);
        }
    }
}

/// At least so many are accepted, and refused for the slot's state, and of either so many among
/// others' touches.
fn assert_often(seen: &SeenCalls, own_cause: usize, accepted: [u32; 2], wrong: [u32; 2]) {
    assert!(seen.answers[0] >= accepted[0] && seen.among_others >= accepted[1], "{seen:?}");
    assert!(seen.answers[own_cause] >= wrong[0], "{seen:?}");
    assert!(seen.wrong_among_others >= wrong[1], "{seen:?}");
}

#[test]
fn histories_make_both_calls_right_and_wrong() {
    let mut answers = [[0; 15]; 2];
    for (seed, blocks) in HISTORIES {
        for extents in [false, true] {
            let seen = observe(history(seed, blocks, false, extents).take(LINES));
            println!("seed {seed}, {blocks} blocks, extents {extents}: {seen:?}");
            assert_often(&seen.drops, 13, [70, 50], [30, 20]);
            assert_often(&seen.revokes, 14, [60, 40], [30, 20]);
            for (all, calls) in answers.iter_mut().zip([seen.drops, seen.revokes]) {
                all.iter_mut().zip(calls.answers).for_each(|(all, times)| *all += times);
            }
        }
    }
    println!("{answers:?}");
    assert!(answers.iter().all(|calls| calls[0] >= 1400), "100 of each in a history");
    assert!(answers.iter().all(|calls| [1, 8, 10, 12].iter().all(|code| calls[*code] >= 5)));
}

#[test]
fn damaging_sequences_make_both_calls_right_and_wrong() {
    let mut seen = SeenRollbacks::default();
    (0..8).for_each(|seed| observe_too(&mut seen, Damage::new(seed).take(4000)));
    println!("{seen:?}");
    assert_often(&seen.drops, 13, [8 * 5, 8 * 3], [8 * 5, 8 * 3]);
    assert_often(&seen.revokes, 14, [8 * 5, 8 * 3], [8 * 5, 8 * 3]);
    let seen = observe(Damage::new(9).take(60_000));
    println!("{seen:?}");
    assert_often(&seen.drops, 13, [140, 90], [100, 80]);
    assert_often(&seen.revokes, 14, [140, 90], [100, 80]);
}

#[test]
fn sequences_of_extents_make_both_calls_right_and_wrong() {
    let mut seen = SeenRollbacks::default();
    (1..=4).for_each(|seed| observe_too(&mut seen, Extents::new(seed).take(10_000)));
    println!("{seen:?}");
    assert_often(&seen.drops, 13, [4 * 250, 4 * 180], [4 * 40, 4 * 30]);
    assert_often(&seen.revokes, 14, [4 * 120, 4 * 90], [4 * 80, 4 * 50]);
    for calls in [&seen.drops, &seen.revokes] {
        assert!([1, 8, 10, 12].iter().all(|code| calls.answers[*code] == 0), "{calls:?}");
    }
}

#[test]
fn the_old_word_and_near_ones_come_up_among_lines_not_in_form() {
    let count = |lines: &[Vec<u8>], word: &str| {
        let begin = format!("op={word} seat=");
        lines.iter().filter(|line| line.starts_with(begin.as_bytes())).count()
    };
    let near = |lines: &[Vec<u8>]| {
        ["dro", "drops", "Drop", "revok", "revoked"].map(|word| count(lines, word))
    };
    let lines: Vec<Vec<u8>> = history(4, 0, true, false).take(LINES).collect();
    println!("{} {:?}", count(&lines, "roll"), near(&lines));
    assert!(count(&lines, "roll") >= 10 && near(&lines).iter().all(|times| *times >= 2));
    let lines: Vec<Vec<u8>> = Damage::new(9).take(60_000).collect();
    println!("{} {:?}", count(&lines, "roll"), near(&lines));
    assert!(count(&lines, "roll") >= 10 && near(&lines).iter().sum::<usize>() >= 10);
}
