//! What a damaging sequence does: it is run, checked and counted.

use crate::cost_observer::SeenCosts;
use crate::extent_observer::SeenExtents;
use crate::extents::Asked;
use crate::reserve_observer::SeenReserves;
use crate::reserves::{available_by_blocks, taken_by_blocks};
use crate::status_observer::{check_status, SeenStatuses};
use reference::damage::Damage;
use reference::inspector::Inspector;
use reference::line::{self, Operation};
use reference::test_line::{self, TestLine};
use reference::{
    Bitmap, Error, Memory, Pending, Slot, SlotState, BITMAP_START, LOG_LENGTH_POSITION, LOG_START,
};
use std::collections::BTreeSet;

/// What was seen in a sequence.
#[derive(Default, Debug)]
pub struct Seen {
    /// By the error's code and the operation.
    pub refused: [[u32; Operation::ALL.len()]; 25],
    pub not_in_form: u32,
    /// Of those, almost a cursor line.
    pub cursors_not_in_form: u32,
    pub out_of_range: u32,
    pub shows: u32,
    pub finished_commits: u32,
    pub finished_recoveries: u32,
    /// Refused calls on a valid memory with two or more active slots.
    pub busy: u32,
    /// Refused with cause 1: with nothing wrong but that several slots touch a block, where a test
    /// of the parity would miss it, and with nothing wrong but bits from m on.
    pub several_touches: u32,
    pub outer_bits: u32,
    /// Refused with cause 1 with nothing wrong but the cursor: m, above m; with nothing pending, with
    /// work pending.
    pub cursors: [[u32; 2]; 2],
    /// The lengths of disks refused with cause 2.
    pub lengths: BTreeSet<usize>,
    /// Refused with cause 5: by the log's length, by a number out of range, equal numbers, falling
    /// numbers, a bit from m on.
    pub log_faults: [u32; 5],
    /// Refused with cause 6: with nothing pending, in a commit, in a recovery.
    pub mismatches: [u32; 3],
    /// The stores done at those, in a commit and in a recovery.
    pub mismatches_at: [BTreeSet<u32>; 2],
    /// Of those in a recovery, with a bit from m on in a word still to be rewritten.
    pub loose_outer_bits: u32,
    /// Stores of a recovery accepted while a word still to be rewritten has other bits.
    pub loose_stores: u32,
    /// Refused with cause 16: an empty list.
    pub empty_lists: u32,
    pub statuses: SeenStatuses,
    pub costs: SeenCosts,
    pub extents: SeenExtents,
    pub reserves: SeenReserves,
    /// Refused with cause 1 with nothing wrong but the sum of the reservations: one block too many,
    /// more, and of these with a sum that wraps at 2^32 to one that could be had; with nothing
    /// pending, with work pending.
    pub sums: [[u32; 2]; 3],
    /// Refused with cause 1 with nothing wrong but what an idle slot has drawn, and what an active
    /// one has, one block too many.
    pub drawn: [[u32; 2]; 2],
}

/// Runs a sequence and checks that refused lines leave all as it was.
pub fn observe(seed: u64, lines: usize) -> Seen {
    let mut seen = Seen::default();
    let mut inspector = Inspector::new();
    let mut memory_after_call = Memory::ZEROS;
    for line in Damage::new(seed).take(lines) {
        let before = inspector.clone();
        let mut more = String::new();
        let answer = inspector.run(&line, &mut more);
        let altered = before.memory != memory_after_call;
        seen.reserves.note(&line, (&before, &inspector), answer, altered);
        match (line::parse(&line), answer) {
            (Some(line), Ok(value)) => {
                seen.count_accepted(&before, &inspector, line.operation, value);
                memory_after_call = inspector.memory.clone();
            }
            (Some(line), Err(error)) => {
                let memory = match line.operation {
                    Operation::Open => Memory::ZEROS,
                    _ => before.memory.clone(),
                };
                assert_eq!(inspector, Inspector { memory, ..before.clone() });
                seen.refused[error.code() as usize][line.operation as usize] += 1;
                seen.count_refused(&before, error);
            }
            (None, answer) => {
                seen.count_test_line(&line, &before, &inspector, (answer, &more), altered);
                let parsed = test_line::parse(&line);
                if matches!(parsed, Some(TestLine::Extent { .. } | TestLine::Reserve { .. })) {
                    memory_after_call = inspector.memory.clone();
                }
            }
        }
    }
    seen
}

impl Seen {
    /// Counts a line that isn't a bench line, with its answer and what it printed behind it. Test
    /// lines have altered the memory since the last call or not.
    fn count_test_line(
        &mut self,
        line: &[u8],
        before: &Inspector,
        after: &Inspector,
        (answer, more): (Result<u32, Error>, &str),
        altered: bool,
    ) {
        match test_line::parse(line) {
            Some(TestLine::Status) => {
                assert_eq!(after, before);
                check_status(&before.memory, answer, more);
                self.statuses.count(&before.memory, altered);
            }
            Some(TestLine::Cost { slot, count }) => {
                assert_eq!((after, more), (before, ""));
                self.costs.count(before, (slot, count), answer, altered);
            }
            Some(TestLine::Extent { slot, count, near }) => {
                assert_eq!(more, "");
                self.extents.count(before, after, Asked { slot, count, near }, answer, altered);
            }
            // The observer of reservations looks at it.
            Some(TestLine::Reserve { .. }) => assert_eq!(more, ""),
            other => {
                assert!(answer == Ok(0) || answer == Err(Error::MalformedLine));
                assert!(answer.is_ok() || after == before);
                match other {
                    Some(TestLine::Show) => self.shows += 1,
                    Some(_) => self.out_of_range += u32::from(answer.is_err()),
                    None => self.count_not_in_form(line),
                }
            }
        }
    }

    fn count_not_in_form(&mut self, line: &[u8]) {
        self.not_in_form += 1;
        let text = line.to_ascii_lowercase();
        let almost = |word: &[u8]| u32::from(text.trim_ascii().starts_with(word));
        self.statuses.not_in_form += almost(b"statu");
        self.costs.not_in_form += almost(b"cost");
        self.extents.not_in_form += almost(b"extent");
        self.cursors_not_in_form += almost(b"cursor");
        self.reserves.not_in_form += almost(b"reserv") + almost(b"drawn") + almost(b"op=reserve");
    }

    fn count_accepted(
        &mut self,
        before: &Inspector,
        after: &Inspector,
        operation: Operation,
        value: u32,
    ) {
        let may_be_invalid = matches!(operation, Operation::Format | Operation::Crash);
        assert!(may_be_invalid || after.memory.is_valid());
        match before.memory.pending {
            _ if operation != Operation::Store => {}
            Pending::Commit { .. } => self.finished_commits += u32::from(value == 0),
            Pending::Recovery { done, .. } => {
                self.finished_recoveries += u32::from(value == 0);
                let mut loose = loose_words(before, done + 1);
                self.loose_stores += u32::from(loose.any(|(_, found, logged)| found != logged));
            }
            Pending::Nothing => panic!("a store with nothing pending is accepted"),
        }
    }

    fn count_refused(&mut self, state: &Inspector, error: Error) {
        let memory = &state.memory;
        self.busy += u32::from(memory.is_valid() && memory.active_slots().count() > 1);
        match error {
            Error::InvalidMemory => self.count_invalid(memory),
            Error::DiskLength => drop(self.lengths.insert(state.disk.len())),
            Error::DiskLog => self.log_faults[log_fault(&state.disk)] += 1,
            Error::DiskMismatch => self.count_mismatch(state),
            Error::ListLength => self.empty_lists += u32::from(state.places == 0),
            _ => {}
        }
    }

    /// Counts a memory in which nothing is wrong but reservations or what is drawn.
    fn count_reservations(&mut self, memory: &Memory) {
        let mut without = memory.clone();
        for slot in &mut without.slots {
            (slot.reservation, slot.drawn) = (0, 0);
        }
        if !without.is_valid() {
            return;
        }
        let in_work = usize::from(memory.pending != Pending::Nothing);
        let (reserved, available) = (memory.reserved(), u64::from(available_by_blocks(memory)));
        let is_over =
            |slot: &u32| memory.slots[*slot as usize].drawn > taken_by_blocks(memory, *slot);
        match (0..8).find(is_over) {
            None if reserved > available => {
                self.sums[usize::from(reserved > available + 1)][in_work] += 1;
                self.sums[2][in_work] += u32::from(reserved % (1 << 32) <= available);
            }
            Some(slot) if reserved <= available => {
                let Slot { state, drawn, .. } = memory.slots[slot as usize];
                let one_more = drawn == taken_by_blocks(memory, slot) + 1;
                let active = usize::from(state != SlotState::Idle);
                self.drawn[active][in_work] += u32::from(one_more);
            }
            _ => {}
        }
    }

    fn count_invalid(&mut self, memory: &Memory) {
        self.count_reservations(memory);
        if memory.cursor >= memory.blocks {
            let otherwise_valid = Memory { cursor: 0, ..memory.clone() }.is_valid();
            let above = usize::from(memory.cursor > memory.blocks);
            let in_work = usize::from(memory.pending != Pending::Nothing);
            self.cursors[above][in_work] += u32::from(otherwise_valid);
            return;
        }
        let odd_touches = |word: usize| {
            let sam = memory.sam.words[word];
            memory.active_slots().fold(0, |touched, slot| touched ^ slot.tam.words[word] ^ sam)
        };
        let differences = |word: usize| memory.sam.words[word] ^ memory.com.words[word];
        let right_parity = (0..128).all(|word| odd_touches(word) == differences(word));
        let in_range = (1..=4096).contains(&memory.blocks);
        let mut idle = memory.slots.iter().filter(|slot| slot.state == SlotState::Idle);
        let idle_are_empty = idle.all(|slot| slot.tam == Bitmap::EMPTY);
        let rest = in_range && idle_are_empty && memory.pending == Pending::Nothing;
        if right_parity && rest && reservations_fit(memory) {
            let outer = |block| memory.sam.has(block) || memory.com.has(block);
            let has_outer_bits = (memory.blocks..4096).any(outer);
            self.outer_bits += u32::from(has_outer_bits);
            self.several_touches += u32::from(!has_outer_bits);
        }
    }

    fn count_mismatch(&mut self, state: &Inspector) {
        match state.memory.pending {
            Pending::Nothing => self.mismatches[0] += 1,
            Pending::Commit { done, .. } => {
                self.mismatches[1] += 1;
                self.mismatches_at[0].insert(done);
            }
            Pending::Recovery { done, .. } => {
                self.mismatches[2] += 1;
                self.mismatches_at[1].insert(done);
                let is_outer = |(word, found, _)| !fits(state.memory.blocks, word, found);
                self.loose_outer_bits += u32::from(loose_words(state, done).any(is_outer));
            }
        }
    }
}

/// The log entries from this one on: the word's number, what stands in the bitmap and in the log.
fn loose_words(state: &Inspector, done: u32) -> impl Iterator<Item = (u32, u32, u32)> + '_ {
    let found = |word: u32| state.disk.get(BITMAP_START + word as usize).copied().unwrap_or(0);
    let entries = entries(&state.disk).skip(done as usize);
    entries.filter(|(word, _)| *word < 128).map(move |(word, logged)| (word, found(word), logged))
}

/// The log's first fault, in the order of `log_faults`.
fn log_fault(disk: &[u32]) -> usize {
    let words = disk[0].div_ceil(32);
    if disk[LOG_LENGTH_POSITION] > words {
        return 0;
    }
    let mut last = None;
    for (word, contents) in entries(disk) {
        match last {
            _ if word >= words => return 1,
            Some(last) if last == word => return 2,
            Some(last) if last > word => return 3,
            _ if !fits(disk[0], word, contents) => return 4,
            _ => last = Some(word),
        }
    }
    panic!("a log without a fault is refused");
}

fn entries(disk: &[u32]) -> impl Iterator<Item = (u32, u32)> + '_ {
    let log_length = disk[LOG_LENGTH_POSITION] as usize;
    disk[LOG_START..].chunks(2).map(|pair| (pair[0], pair[1])).take(log_length)
}

/// Whether this bitmap word has no bit from m on.
fn fits(blocks: u32, word: u32, contents: u32) -> bool {
    let below = blocks.saturating_sub(32 * word).min(32);
    u64::from(contents) >> below == 0
}

/// Whether nothing is wrong with the reservations and what is drawn from them.
fn reservations_fit(memory: &Memory) -> bool {
    let has_taken = |slot: u32| memory.slots[slot as usize].drawn <= taken_by_blocks(memory, slot);
    memory.reserved() <= u64::from(available_by_blocks(memory)) && (0..8).all(has_taken)
}
