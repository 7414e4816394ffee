//! Cause 6: every word of the disk damaged in turn, at every store of a commit and of a recovery.

use crate::state::{assert_refused, State, UNWRITTEN};
use reference::{
    store, Error, Pending, Random, BITMAP_START, DISK_WORDS, LOG_LENGTH_POSITION, LOG_START,
};

const BLOCKS: u32 = 300;
/// The words of 300 blocks that the commit below changes. Word 9 has bits from m on.
const CHANGED: [usize; 4] = [1, 4, 5, 9];

/// A volume of 300 blocks, all allocated, with a commit begun that frees a block of each word.
fn before_stores() -> State {
    let mut state = State::opened(BLOCKS);
    state.start(0);
    state.allocate(0, BLOCKS);
    state.commit(0);
    state.start(3);
    CHANGED.iter().for_each(|word| state.free(3, 32 * *word as u32 + 3));
    state.disk[LOG_START..].fill(UNWRITTEN);
    assert_eq!(state.begin_commit(3), 14);
    state
}

/// A recovery of that commit with no store done.
fn before_recovery() -> State {
    let mut state = before_stores();
    state.stores(9);
    assert_eq!(state.crash_and_open(), 5);
    state
}

/// Flips the bit and makes the next store: it is refused if the bit counts, and otherwise writes
/// what it would have written.
fn assert_damage(state: &State, position: usize, bit: u32, counts: bool) {
    let mut damaged = state.clone();
    damaged.disk[position] ^= 1 << bit;
    if counts {
        assert_refused(&damaged, Error::DiskMismatch, |s| store(&mut s.memory, &mut s.disk));
        return;
    }
    let (mut whole, mut expected) = (state.clone(), damaged.clone());
    whole.stores(1);
    damaged.stores(1);
    let written = (0..DISK_WORDS).find(|word| whole.disk[*word] != state.disk[*word]);
    let written = written.unwrap_or(position);
    expected.disk[written] = whole.disk[written];
    assert_eq!(damaged.disk, expected.disk, "position {position}, bit {bit}");
    assert_eq!(damaged.memory, whole.memory);
}

#[test]
fn every_word_at_every_store_of_a_commit() {
    let mut random = Random::new(2);
    let mut state = before_stores();
    for done in 0..14 {
        let log_written = LOG_START + (done as usize).min(8);
        for position in 0..DISK_WORDS {
            let bit = random.below(32);
            assert_damage(&state, position, bit, position < log_written);
        }
        state.stores(1);
    }
    assert_eq!(state.memory.pending, Pending::Nothing);
}

#[test]
fn every_word_at_every_store_of_a_recovery() {
    let mut random = Random::new(3);
    let mut state = before_recovery();
    for done in 0..5 {
        let to_be_rewritten = &CHANGED[done.min(4)..];
        for position in 0..DISK_WORDS {
            let bit = random.choose(&[0, 3, 11, 12, 31]);
            let word = position.wrapping_sub(BITMAP_START);
            let below_m = word < 128 && 32 * word + (bit as usize) < BLOCKS as usize;
            let is_free = position >= LOG_START + 8 || (to_be_rewritten.contains(&word) && below_m);
            assert_damage(&state, position, bit, !is_free);
        }
        state.stores(1);
    }
    assert_eq!(state.memory.pending, Pending::Nothing);
}

#[test]
fn every_word_at_rest() {
    let mut state = before_recovery();
    state.stores(5);
    for position in 0..DISK_WORDS {
        let mut damaged = state.clone();
        damaged.disk[position] ^= 1 << 5;
        let error = if position < LOG_START { Error::DiskMismatch } else { Error::NothingPending };
        assert_refused(&damaged, error, |s| store(&mut s.memory, &mut s.disk));
    }
}

#[test]
fn a_log_that_agrees_with_sam_must_pass_cause_5_too() {
    let sound = before_recovery();
    let entries = |pairs: [(u32, u32); 4]| {
        let mut state = sound.clone();
        let words = pairs.iter().flat_map(|(word, contents)| [*word, *contents]);
        words.zip(&mut state.disk[LOG_START..]).for_each(|(word, place)| *place = word);
        state
    };
    let sam = &sound.memory.sam.words;
    let [first, second, third, fourth] = CHANGED.map(|word| (word as u32, sam[word]));
    assert_eq!(entries([first, second, third, fourth]), sound);
    assert_eq!(sam[10..], [0; 118]);
    let unsound = [
        [first, third, second, fourth],
        [first, second, third, third],
        [first, second, third, (10, 0)],
        [first, second, third, (127, 0)],
        [first, second, third, (128, 0)],
        [first, second, third, (u32::MAX, 0)],
    ];
    for pairs in unsound {
        let call = |s: &mut State| store(&mut s.memory, &mut s.disk);
        assert_refused(&entries(pairs), Error::DiskMismatch, call);
    }
}

#[test]
fn a_recovery_has_the_log_length_of_its_memory() {
    for log_length in [0, 3, 5, 10, 11, 128, 129, u32::MAX] {
        let mut state = before_recovery();
        state.disk[LOG_LENGTH_POSITION] = log_length;
        assert_refused(&state, Error::DiskMismatch, |s| store(&mut s.memory, &mut s.disk));
    }
    for due in [2, 4, 6, 11] {
        let mut state = before_recovery();
        state.memory.pending = Pending::Recovery { done: 0, due };
        assert!(state.memory.is_valid());
        assert_refused(&state, Error::DiskMismatch, |s| store(&mut s.memory, &mut s.disk));
    }
}

#[test]
fn a_commit_has_its_memorys_number_of_stores_done() {
    let mut state = before_stores();
    state.stores(6);
    for done in [7, 8, 9, 10, 13] {
        let mut other = state.clone();
        other.memory.pending = Pending::Commit { slot: 3, done, due: 14 };
        assert!(other.memory.is_valid());
        assert_refused(&other, Error::DiskMismatch, |s| store(&mut s.memory, &mut s.disk));
    }
    // With fewer done, the log words written beyond them are free.
    state.memory.pending = Pending::Commit { slot: 3, done: 2, due: 14 };
    assert_eq!(store(&mut state.memory, &mut state.disk), Ok(11));
}
