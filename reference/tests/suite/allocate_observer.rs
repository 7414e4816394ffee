//! What the allocates of a sequence for `inspect` do: they are checked and counted. Other lines are
//! looked at for the cursor alone.

use crate::allocates::{allocate_by_blocks, cursor_after, granted, is_available};
use crate::comparison::call_of;
use reference::inspector::Inspector;
use reference::line::{self, Line, Operation};
use reference::test_line::{self, TestLine};
use reference::{Error, Memory};
use std::collections::BTreeSet;

/// The block granted last, as long as the cursor stands behind it.
#[derive(Clone, Copy, Debug)]
struct Grant {
    block: u32,
    in_extent: bool,
    is_rolled_back: bool,
}

/// What was seen of allocates.
#[derive(Default, Debug)]
pub struct SeenAllocates {
    /// By the answer's number, accepted ones as 0.
    pub answers: [u32; 25],
    /// Accepted with the last block below the cursor.
    pub went_round: u32,
    /// Of those, with the first one from the cursor on, so that the list isn't rising.
    pub not_rising: u32,
    /// Accepted with block m - 1 the last one.
    pub to_the_end: u32,
    /// Accepted with the cursor at m - 1.
    pub from_the_last: u32,
    /// Accepted though a lower block than the first one was available.
    pub not_lowest: u32,
    /// Accepted with an extent as the last grant before.
    pub behind_extents: u32,
    /// Accepted with the last grant before dropped or revoked since.
    pub behind_rollbacks: u32,
    /// Accepted with the cursor where a test line has put it.
    pub put: u32,
    last: Option<Grant>,
    is_put: bool,
}

impl SeenAllocates {
    /// Another sequence begins.
    pub fn forget_the_past(&mut self) {
        (self.last, self.is_put) = (None, false);
    }

    /// Checks and counts a line that was run.
    pub fn note(
        &mut self,
        bytes: &[u8],
        before: &Inspector,
        after: &Inspector,
        answer: Result<u32, Error>,
    ) {
        match (line::parse(bytes), test_line::parse(bytes)) {
            (Some(line), _) if line.operation == Operation::Allocate => {
                self.count(before, after, &line, answer);
            }
            (Some(line), _) => self.note_call(&before.memory, after, &line, answer),
            (_, Some(TestLine::Extent { count, .. })) if answer.is_ok() => {
                self.note_grant(after.list[count as usize - 1], true);
            }
            (_, Some(TestLine::Cursor { block })) => {
                assert_eq!(after.memory, Memory { cursor: block, ..before.memory.clone() });
                (self.last, self.is_put) = (None, true);
            }
            _ => assert_eq!(after.memory.cursor, before.memory.cursor),
        }
    }

    /// The cursor after a call that grants nothing. A refused open leaves the memory of zeros.
    fn note_call(
        &mut self,
        before: &Memory,
        after: &Inspector,
        line: &Line,
        answer: Result<u32, Error>,
    ) {
        let opens = line.operation == Operation::Open;
        let expected =
            if opens { 0 } else { cursor_after(before, &call_of(line, answer, &after.list)) };
        assert_eq!(after.memory.cursor, expected, "{line:?}");
        if opens || line.operation == Operation::Crash {
            (self.last, self.is_put) = (None, false);
        }
        let rolls_back = matches!(line.operation, Operation::Drop | Operation::Revoke);
        if let (Some(last), true, true) = (&mut self.last, rolls_back, answer.is_ok()) {
            let tam = &before.slots[line.slot as usize].tam;
            last.is_rolled_back |= tam.has(last.block) && !before.sam.has(last.block);
        }
    }

    fn note_grant(&mut self, block: u32, in_extent: bool) {
        self.last = Some(Grant { block, in_extent, is_rolled_back: false });
        self.is_put = false;
    }

    /// Checks an allocate's answer and effect against the documents, and counts it.
    fn count(
        &mut self,
        before: &Inspector,
        after: &Inspector,
        line: &Line,
        answer: Result<u32, Error>,
    ) {
        let memory = &before.memory;
        let expected = allocate_by_blocks(memory, before.places, line.slot, line.number);
        self.answers[answer.err().map_or(0, Error::code) as usize] += 1;
        let mut state = before.clone();
        if let Ok(listed) = &expected {
            state.memory = granted(memory, line.slot, listed);
            state.list[..listed.len()].copy_from_slice(listed);
            assert_turned(memory, listed);
            assert_none_left_out(memory, listed);
            self.count_place(memory, listed);
            self.count_past();
            self.note_grant(listed[listed.len() - 1], false);
        }
        assert_eq!(answer, expected.map(|listed| listed[0]), "{line:?}");
        assert_eq!(*after, state, "{line:?}");
    }

    fn count_place(&mut self, memory: &Memory, listed: &[u32]) {
        let (first, last) = (listed[0], listed[listed.len() - 1]);
        self.went_round += u32::from(last < memory.cursor);
        self.not_rising += u32::from(last < first);
        self.to_the_end += u32::from(last == memory.blocks - 1);
        self.from_the_last += u32::from(memory.cursor == memory.blocks - 1);
        self.not_lowest += u32::from((0..first).any(|block| is_available(memory, block)));
    }

    fn count_past(&mut self) {
        self.behind_extents += u32::from(self.last.is_some_and(|last| last.in_extent));
        self.behind_rollbacks += u32::from(self.last.is_some_and(|last| last.is_rolled_back));
        self.put += u32::from(self.is_put);
    }
}

/// The numbers listed are the rising list of the available blocks, turned so that it begins at the
/// cursor, and cut off after the count.
pub fn assert_turned(memory: &Memory, listed: &[u32]) {
    let mut blocks: Vec<u32> =
        (0..memory.blocks).filter(|block| is_available(memory, *block)).collect();
    let below_cursor = blocks.iter().filter(|block| **block < memory.cursor).count();
    blocks.rotate_left(below_cursor);
    assert_eq!(*listed, blocks[..listed.len()]);
}

/// No number is listed twice, each was an available block's, and from the cursor to the last one,
/// going round, no available block is left out.
pub fn assert_none_left_out(memory: &Memory, listed: &[u32]) {
    let numbers: BTreeSet<u32> = listed.iter().copied().collect();
    assert_eq!(numbers.len(), listed.len());
    assert!(numbers.iter().all(|block| *block < memory.blocks && is_available(memory, *block)));
    let steps = |block: u32| (block + memory.blocks - memory.cursor) % memory.blocks;
    let last = steps(listed[listed.len() - 1]);
    let is_passed = |block: &u32| is_available(memory, *block) && steps(*block) <= last;
    assert!((0..memory.blocks).filter(is_passed).all(|block| numbers.contains(&block)));
}
