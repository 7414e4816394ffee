//! The test lines that lead from one state to another.

use crate::codes::{pending_codes, slot_state_code};
use crate::memory::{Memory, Slot};
use crate::test_line::TestLine;

/// The test lines that make one disk into another.
pub fn disk_lines(from: &[u32], to: &[u32]) -> Vec<TestLine> {
    let mut from = from.to_vec();
    let mut lines = Vec::new();
    if from.len() != to.len() {
        lines.push(TestLine::Length { words: to.len() as u32 });
        from.resize(to.len(), 0);
    }
    lines.extend(differences(&from, to).map(|(index, word)| TestLine::Disk { index, word }));
    lines
}

/// The test lines that make one memory into another.
pub fn memory_lines(from: &Memory, to: &Memory) -> Vec<TestLine> {
    let mut lines = Vec::new();
    if from.blocks != to.blocks {
        lines.push(TestLine::Blocks { blocks: to.blocks });
    }
    if from.cursor != to.cursor {
        lines.push(TestLine::Cursor { block: to.cursor });
    }
    let sam = differences(&from.sam.words, &to.sam.words);
    lines.extend(sam.map(|(index, word)| TestLine::Sam { index, word }));
    let com = differences(&from.com.words, &to.com.words);
    lines.extend(com.map(|(index, word)| TestLine::Com { index, word }));
    for (slot, (from, to)) in from.slots.iter().zip(&to.slots).enumerate() {
        lines.extend(slot_lines(slot as u32, from, to));
    }
    if from.pending != to.pending {
        lines.push(TestLine::Pending { codes: pending_codes(to.pending) });
    }
    lines
}

fn slot_lines(slot: u32, from: &Slot, to: &Slot) -> Vec<TestLine> {
    let tam = differences(&from.tam.words, &to.tam.words);
    let mut lines: Vec<TestLine> =
        tam.map(|(index, word)| TestLine::Tam { slot, index, word }).collect();
    if from.state != to.state {
        lines.push(TestLine::State { slot, code: slot_state_code(to.state) });
    }
    if from.reservation != to.reservation {
        lines.push(TestLine::Reservation { slot, blocks: to.reservation });
    }
    if from.drawn != to.drawn {
        lines.push(TestLine::Drawn { slot, blocks: to.drawn });
    }
    lines
}

/// The words of `to` that `from` has otherwise, with their indexes. Both are of one length.
fn differences<'a>(from: &'a [u32], to: &'a [u32]) -> impl Iterator<Item = (u32, u32)> + 'a {
    let words = from.iter().zip(to).enumerate();
    words.filter(|(_, (from, to))| from != to).map(|(index, (_, to))| (index as u32, *to))
}
