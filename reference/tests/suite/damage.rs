//! The damaging sequences reach each cause for each call that it names, and in many ways.

use crate::damage_observer::{observe, Seen};
use crate::reserve_observer::SeenReserves;
use reference::line::Operation;

/// Document 01's table with drop and revoke in rollback's place (document 02, job 5): the calls of
/// bench lines that each of the causes 1 to 24 names.
const CALLS: [&str; 24] = [
    "start alloc free pre commit drop revoke store stat",
    "format open store",
    "open",
    "open",
    "open",
    "store",
    "format",
    "start alloc free pre commit drop revoke",
    "store",
    "start alloc free pre commit drop revoke",
    "start",
    "alloc free pre commit drop revoke",
    "alloc free pre drop",
    "commit revoke",
    "alloc",
    "alloc",
    "alloc",
    "free",
    "free",
    "free",
    "",
    "",
    "",
    "alloc",
];

/// The causes of commit cost.
const COST_CAUSES: [usize; 8] = [1, 8, 10, 12, 13, 15, 17, 24];

/// The causes of allocate extent.
const EXTENT_CAUSES: [usize; 10] = [1, 8, 10, 12, 13, 15, 16, 18, 22, 24];

/// The causes of reserve.
const RESERVE_CAUSES: [usize; 5] = [1, 8, 10, 11, 23];

/// How often each call got each answer in some sequences.
#[derive(Default)]
struct Answers {
    refused: [[u32; Operation::ALL.len()]; 25],
    costs: [u32; 25],
    extents: [u32; 25],
    reserves: [u32; 25],
    not_in_form: u32,
}

impl Answers {
    fn add(&mut self, seen: &Seen) {
        let add = |all: &mut [u32], times: &[u32]| {
            all.iter_mut().zip(times).for_each(|(all, times)| *all += times);
        };
        self.refused.iter_mut().zip(&seen.refused).for_each(|(all, times)| add(all, times));
        add(&mut self.costs, &seen.costs.answers);
        add(&mut self.extents, &seen.extents.answers);
        add(&mut self.reserves, &seen.reserves.answers);
        self.not_in_form += seen.not_in_form + seen.out_of_range;
    }

    /// Every call that a cause names is refused for it this often, an extent and a reserve too,
    /// commit cost twice as often, and no other call.
    fn assert_reached(&self, least: u32) {
        for (code, calls) in (1..).zip(CALLS) {
            for operation in Operation::ALL {
                let times = self.refused[code][operation as usize];
                let named = calls.split(' ').any(|word| word == operation.word());
                let right = if named { times >= least } else { times == 0 };
                assert!(right, "{} gets {code} {times} times", operation.word());
            }
        }
        assert!(self.not_in_form >= least, "cause 21");
        for (call, answers, causes, least) in [
            ("cost", self.costs, COST_CAUSES.as_slice(), 2 * least),
            ("extent", self.extents, &EXTENT_CAUSES, least),
            ("reserve", self.reserves, &RESERVE_CAUSES, least),
        ] {
            println!("{call}: {answers:?}");
            for (code, times) in answers.into_iter().enumerate().skip(1) {
                let right = if causes.contains(&code) { times >= least } else { times == 0 };
                assert!(right, "{call} gets {code} {times} times");
            }
        }
    }
}

#[test]
fn every_cause_is_reached_for_every_call_that_it_names() {
    let mut all = Answers::default();
    for seed in 1..9 {
        let seen = observe(seed, 3000);
        let mut alone = Answers::default();
        alone.add(&seen);
        alone.assert_reached(1);
        all.add(&seen);
    }
    all.assert_reached(8 * 4);
    let mut long = Answers::default();
    long.add(&observe(19, 60_000));
    long.assert_reached(75);
}

/// Three long sequences, and what was counted in all of them.
struct Long(Vec<Seen>);

impl Long {
    const SEQUENCES: u32 = 3;

    fn observe() -> Long {
        Long((18..18 + u64::from(Long::SEQUENCES)).map(|seed| observe(seed, 60_000)).collect())
    }

    /// These counts together are at least so many for each sequence.
    fn assert_often<const COUNTS: usize>(
        &self,
        least: u32,
        counts: impl Fn(&Seen) -> [u32; COUNTS],
    ) {
        let mut all = [0; COUNTS];
        for seen in &self.0 {
            all.iter_mut().zip(counts(seen)).for_each(|(all, times)| *all += times);
        }
        assert!(all.iter().all(|times| *times >= Long::SEQUENCES * least), "{all:?}, {least} each");
    }
}

#[test]
fn the_damage_is_of_many_kinds() {
    let long = Long::observe();
    long.assert_often(200, |seen| [seen.not_in_form]);
    long.assert_often(100, |seen| [seen.out_of_range]);
    long.assert_often(6000, |seen| [seen.shows]);
    long.assert_often(200, |seen| [seen.finished_commits, seen.finished_recoveries]);
    long.assert_often(1000, |seen| [seen.busy]);
    long.assert_often(50, |seen| [seen.several_touches, seen.outer_bits]);
    long.assert_often(20, |Seen { cursors: [m, above], .. }| [m[0], m[1], above[0], above[1]]);
    long.assert_often(20, |seen| [seen.cursors_not_in_form]);
    long.assert_often(20, |seen| seen.log_faults);
    long.assert_often(75, |seen| seen.mismatches);
    long.assert_often(200, |seen| [seen.loose_stores]);
    long.assert_often(10, |seen| [seen.loose_outer_bits]);
    long.assert_often(20, |seen| [seen.empty_lists]);
    let seen = &long.0[0];
    assert!([0, 1, 385, 387, 400].iter().all(|length| seen.lengths.contains(length)));
    let [in_commits, in_recoveries] = &seen.mismatches_at;
    assert!(in_commits.iter().filter(|done| **done > 100).count() >= 10);
    assert!((0..5).all(|done| in_commits.contains(&done) && in_recoveries.contains(&done)));
    assert!(in_recoveries.iter().any(|done| *done > 10));
}

#[test]
fn reservations_are_damaged_and_used_in_many_ways() {
    let long = Long::observe();
    long.0.iter().for_each(|seen| println!("{:?} {:?} {:?}", seen.sums, seen.drawn, seen.reserves));
    for kind in 0..3 {
        long.assert_often(13, |seen| seen.sums[kind]);
    }
    for kind in 0..2 {
        long.assert_often(7, |seen| seen.drawn[kind]);
    }
    let often = |least: u32, count: fn(&SeenReserves) -> u32| {
        long.assert_often(least, |seen| [count(&seen.reserves)]);
    };
    often(350, |seen| seen.answers[0]);
    often(250, |seen| seen.answers[23]);
    often(100, |seen| seen.several_causes);
    often(8, |seen| seen.raised);
    often(8, |seen| seen.lowered);
    often(15, |seen| seen.given_up);
    often(80, |seen| seen.just_fitting);
    often(60, |seen| seen.one_more);
    often(8, |seen| seen.wrapping);
    often(60, |seen| seen.beside_others);
    often(40, |seen| seen.beside_drawn);
    often(80, |seen| seen.altered);
    often(100, |seen| seen.one_beyond);
    often(40, |seen| seen.to_the_limit);
    often(8, |seen| seen.drawn_dropped);
    often(8, |seen| seen.drawn_revoked);
    often(12, |seen| seen.drawn_committed);
    often(20, |seen| seen.partly_drawn);
    often(150, |seen| seen.wiped);
    often(60, |seen| seen.not_in_form);
    long.assert_often(100, |seen| seen.reserves.refused_24);
    long.assert_often(20, |seen| seen.reserves.grants);
}

#[test]
fn status_lines_stand_in_states_of_many_kinds() {
    let seen: Vec<_> = (0..8).map(|seed| observe(seed, 3000).statuses).collect();
    println!("{seen:?}");
    assert!(seen.iter().map(|seen| seen.accepted).sum::<u32>() >= 8 * 150);
    assert!(seen.iter().map(|seen| seen.refused).sum::<u32>() >= 8 * 30);
    assert!(seen.iter().map(|seen| seen.with_all).sum::<u32>() >= 8 * 20);
    assert!(seen.iter().map(|seen| seen.altered_with_all).sum::<u32>() >= 8 * 4);
    let seen = observe(18, 60_000).statuses;
    println!("{seen:?}");
    assert!(seen.accepted >= 3000 && seen.refused >= 800 && seen.not_in_form >= 30);
    assert!(seen.with.iter().all(|times| *times >= 900));
    assert!(seen.with_all >= 350 && seen.busy >= 300);
    assert!(seen.altered >= 300 && seen.altered_with_all >= 100);
    assert!(seen.in_work >= 700);
}

#[test]
fn cost_lines_stand_in_states_of_many_kinds() {
    let seen: Vec<_> = (0..8).map(|seed| observe(seed, 3000).costs).collect();
    println!("{seen:?}");
    assert!(seen.iter().map(|seen| seen.answers[0]).sum::<u32>() >= 8 * 20);
    assert!(seen.iter().map(|seen| seen.altered).sum::<u32>() >= 8 * 5);
    assert!(seen.iter().map(|seen| seen.busy).sum::<u32>() >= 8 * 10);
    assert!(seen.iter().map(|seen| seen.several_causes).sum::<u32>() >= 8 * 30);
    let seen = observe(18, 60_000).costs;
    println!("{seen:?}");
    assert!(seen.answers[0] >= 500 && seen.several_causes >= 800 && seen.not_in_form >= 100);
    assert!(seen.by_touched.iter().all(|times| *times >= 20));
    assert!(seen.busy >= 350 && seen.altered >= 150);
    assert!(seen.short_lists >= 25 && seen.foreign_disks >= 150);
}

#[test]
fn six_sequences_of_4000_lines_reach_each_cause_of_an_extent_dozens_of_times() {
    let mut answers = [0; 25];
    for seed in 1..=6 {
        let seen = observe(seed, 4000).extents.answers;
        answers.iter_mut().zip(seen).for_each(|(all, times)| *all += times);
    }
    println!("{answers:?}");
    assert!(EXTENT_CAUSES.iter().all(|code| answers[*code] >= 36), "{answers:?}");
    assert!(answers[0] >= 100, "{answers:?}");
}

#[test]
fn extent_lines_stand_in_states_of_many_kinds() {
    let seen: Vec<_> = (0..8).map(|seed| observe(seed, 3000).extents).collect();
    println!("{seen:?}");
    assert!(seen.iter().map(|seen| seen.answers[0]).sum::<u32>() >= 8 * 10);
    assert!(seen.iter().map(|seen| seen.altered).sum::<u32>() >= 8);
    assert!(seen.iter().map(|seen| seen.several_causes).sum::<u32>() >= 8 * 20);
    let seen = observe(18, 60_000).extents;
    println!("{seen:?}");
    assert!(seen.answers[0] >= 350 && seen.several_causes >= 700 && seen.not_in_form >= 80);
    assert!(seen.at_near >= 100 && seen.below >= 100 && seen.above >= 80 && seen.ties >= 30);
    assert!(seen.from_0 >= 20 && seen.to_the_end >= 50);
    assert!(seen.in_two_words >= 50 && seen.in_three_words >= 15 && seen.longest >= 15);
    assert!(seen.busy >= 150 && seen.altered >= 60 && seen.foreign_disks >= 80);
    assert!(seen.short_lists >= 40 && seen.scattered >= 40);
}
