//! The choice of the next call by the state that the allocator is in.

use super::{History, Phase, Plan};
use crate::bitmap::Bitmap;
use crate::calls::MAX_COUNT;
use crate::line::{Line, Operation};
use crate::memory::{Memory, Pending, SlotState};

/// Block counts near which words and limits end.
const EDGE_BLOCKS: [u32; 20] =
    [1, 2, 31, 32, 33, 63, 64, 65, 95, 96, 97, 127, 128, 129, 1000, 4063, 4064, 4065, 4095, 4096];
const STRAY_IN: u32 = 25;
const CRASH_IN: u32 = 600;
const OPEN_IN: u32 = 900;
const STATUS_IN: u32 = 40;
const REFORMAT_IN: u32 = 4000;
const NEW_PHASE_IN: u32 = 200;
const UNTOUCHED_IN: u32 = 20;
/// One in this many transactions is short, whatever the phase, so that many can be rolled back.
const SHORT_IN: u32 = 4;
const MOST_SHORT_TOUCHES: u32 = 2;
/// One in this many transactions is dropped when it has made its touches.
const DROP_IN: u32 = 10;
const SHORT_DROP_IN: u32 = 3;
/// One in this many precommitted transactions is revoked.
const REVOKE_IN: u32 = 8;
const SHORT_REVOKE_IN: u32 = 2;
/// A block soon to be granted anew is this many words ahead of the cursor, or fewer.
const WORDS_AHEAD: u32 = 4;
/// One in this many allocates that can reach the end of the volume ends there.
const TO_THE_END_IN: u32 = 6;
/// So many touches are frees where too few blocks are available for reservations.
const SCARCE_FREE_PERCENT: u32 = 70;
/// One in this many lines of an open slot is a revoke, and of a precommitted one a drop.
const WRONG_REVOKE_IN: u32 = 100;
const WRONG_DROP_IN: u32 = 8;

const STRAY_OPERATIONS: [Operation; 13] = [
    Operation::Format,
    Operation::Start,
    Operation::Allocate,
    Operation::Allocate,
    Operation::Deallocate,
    Operation::Deallocate,
    Operation::Deallocate,
    Operation::Precommit,
    Operation::Commit,
    Operation::Drop,
    Operation::Revoke,
    Operation::Store,
    Operation::Status,
];

fn line(operation: Operation, slot: u32, number: u32) -> Line {
    Line { operation, slot, number }
}

impl History {
    pub(crate) fn choose(&mut self) -> Line {
        let reformat = self.shape.reformats && self.random.one_in(REFORMAT_IN);
        if reformat || !self.formatted {
            self.choose_format()
        } else if self.random.one_in(STRAY_IN) {
            self.choose_stray()
        } else if self.disk_is_foreign && self.random.one_in(2) {
            self.random.choose(&[line(Operation::Store, 0, 0), line(Operation::Open, 0, 0)])
        } else if self.bench.memory == Memory::ZEROS {
            self.choose_after_crash()
        } else {
            match self.bench.memory.pending {
                Pending::Nothing => self.choose_at_rest(),
                Pending::Commit { done, .. } | Pending::Recovery { done, .. } => {
                    self.choose_in_pending_work(done)
                }
            }
        }
    }

    fn choose_format(&mut self) -> Line {
        let blocks = match self.shape.blocks {
            0 if self.random.one_in(2) => self.random.choose(&EDGE_BLOCKS),
            0 => 1 + self.random.below(Bitmap::MAX_BLOCKS),
            blocks => blocks,
        };
        line(Operation::Format, 0, blocks)
    }

    /// Any call at any time, often out of range. It never ends the memory's life, so that long
    /// commits get through.
    fn choose_stray(&mut self) -> Line {
        let operation = self.random.choose(&STRAY_OPERATIONS);
        let slot = match self.random.below(6) {
            0 => self.random.choose(&[8, 9, 100, 65_536, 99_999]),
            1 => self.random.below(Memory::SLOTS as u32),
            _ => self.random.below(self.phase.slots),
        };
        let number = match operation {
            Operation::Format => self.random.choose(&[0, 4097, 4128, 65_537, 99_999]),
            Operation::Allocate => self.random.choose(&[0, 1, 2, 63, 64, 65, 66, 99_999]),
            Operation::Deallocate => self.choose_stray_block(),
            _ => 0,
        };
        line(operation, slot, number)
    }

    fn choose_stray_block(&mut self) -> u32 {
        let Memory { blocks, sam, com, .. } = &self.bench.memory;
        let (blocks, being_freed) = (*blocks, and_words(sam, &complement(com)));
        match self.random.below(4) {
            0 => self.random.choose(&[blocks, blocks + 1, 4095, 4096, 65_536, 99_999]),
            1 | 2 => self.choose_block(&being_freed).unwrap_or(0),
            _ => self.random.below(blocks),
        }
    }

    fn choose_after_crash(&mut self) -> Line {
        match self.random.below(12) {
            0 => self.choose_stray(),
            1 => line(Operation::Crash, 0, 0),
            _ => line(Operation::Open, 0, 0),
        }
    }

    fn choose_in_pending_work(&mut self, done: u32) -> Line {
        if done < self.interrupt_at {
            line(Operation::Store, 0, 0)
        } else if self.random.one_in(3) {
            line(Operation::Open, 0, 0)
        } else {
            line(Operation::Crash, 0, 0)
        }
    }

    fn choose_at_rest(&mut self) -> Line {
        if self.random.one_in(NEW_PHASE_IN) {
            self.phase = Phase::random(&mut self.random);
        }
        if self.random.one_in(CRASH_IN) {
            line(Operation::Crash, 0, 0)
        } else if self.random.one_in(OPEN_IN) {
            line(Operation::Open, 0, 0)
        } else if self.random.one_in(STATUS_IN) {
            line(Operation::Status, 0, 0)
        } else {
            self.choose_in_transaction()
        }
    }

    fn choose_in_transaction(&mut self) -> Line {
        let slot = self.random.below(self.phase.slots);
        let Plan { touches_left, is_short } = self.plans[slot as usize];
        let (drop_in, revoke_in) =
            if is_short { (SHORT_DROP_IN, SHORT_REVOKE_IN) } else { (DROP_IN, REVOKE_IN) };
        let operation = match self.bench.memory.slots[slot as usize].state {
            SlotState::Idle => {
                self.plans[slot as usize] = self.choose_plan();
                Operation::Start
            }
            SlotState::Open if self.random.one_in(WRONG_REVOKE_IN) => Operation::Revoke,
            SlotState::Open if touches_left > 0 => {
                self.plans[slot as usize].touches_left -= 1;
                return self.choose_touch(slot);
            }
            SlotState::Open if self.random.one_in(drop_in) => Operation::Drop,
            SlotState::Open => Operation::Precommit,
            SlotState::Precommitted if self.random.one_in(WRONG_DROP_IN) => Operation::Drop,
            SlotState::Precommitted if self.random.one_in(revoke_in) => Operation::Revoke,
            SlotState::Precommitted => Operation::Commit,
        };
        line(operation, slot, 0)
    }

    fn choose_plan(&mut self) -> Plan {
        let is_short = self.random.one_in(SHORT_IN);
        let most = if is_short { MOST_SHORT_TOUCHES } else { self.phase.most_touches };
        let touches_left = match self.random.below(UNTOUCHED_IN) {
            0 => 0,
            _ => 1 + self.random.below(most),
        };
        Plan { touches_left, is_short }
    }

    /// An allocate or a deallocate, whichever the phase wants and the volume has blocks for.
    fn choose_touch(&mut self, slot: u32) -> Line {
        let Memory { sam, com, .. } = self.bench.memory;
        let available = self.available_to(slot);
        let free_percent =
            if self.is_scarce() { SCARCE_FREE_PERCENT } else { self.phase.free_percent };
        let wants_free = self.random.below(100) < free_percent;
        let block = self.choose_block(&and_words(&sam, &com));
        match block {
            Some(block) if wants_free || available == 0 => line(Operation::Deallocate, slot, block),
            _ if available == 0 => line(Operation::Precommit, slot, 0),
            _ => line(Operation::Allocate, slot, self.choose_count(slot, available)),
        }
    }

    /// Mostly not more blocks than are available. Where the end of the volume is near, it is often
    /// just reached, or passed by one block.
    fn choose_count(&mut self, slot: u32, available: u32) -> u32 {
        if let Some(count) = self.count_at_a_limit(slot) {
            return count;
        }
        let count = 1 + self.random.below(self.most_of_grant());
        let to_the_end = to_the_end(&self.bench.memory);
        if to_the_end <= MAX_COUNT && self.random.one_in(TO_THE_END_IN) {
            return self.random.choose(&[to_the_end.max(1), (to_the_end + 1).min(available)]);
        }
        let beyond = self.random.one_in(8);
        if beyond {
            count
        } else {
            count.min(available)
        }
    }

    /// A block among those with a 1, if there is one: often one not far ahead of the cursor, which is
    /// soon granted anew.
    fn choose_block(&mut self, words: &[u32; Bitmap::WORDS]) -> Option<u32> {
        let Memory { blocks, cursor, .. } = self.bench.memory;
        let first = if self.random.one_in(2) {
            cursor / Bitmap::WORD_BITS + 1 + self.random.below(WORDS_AHEAD)
        } else {
            self.random.below(Bitmap::words_for(blocks))
        };
        let first = first as usize % Bitmap::WORDS;
        let order = (first..Bitmap::WORDS).chain(0..first);
        let word = order.into_iter().find(|word| words[*word] != 0)?;
        let turn = self.random.below(Bitmap::WORD_BITS);
        let bit = words[word].rotate_right(turn).trailing_zeros() + turn;
        Some(word as u32 * Bitmap::WORD_BITS + bit % Bitmap::WORD_BITS)
    }
}

/// The available blocks from the cursor to the end of the volume, or just more than can be allocated
/// in one call.
fn to_the_end(memory: &Memory) -> u32 {
    let from_cursor = memory.cursor..memory.blocks;
    let most = MAX_COUNT as usize + 1;
    from_cursor.filter(|block| memory.is_available(*block)).take(most).count() as u32
}

fn and_words(one: &Bitmap, other: &Bitmap) -> [u32; Bitmap::WORDS] {
    std::array::from_fn(|word| one.words[word] & other.words[word])
}

fn complement(bitmap: &Bitmap) -> Bitmap {
    Bitmap { words: bitmap.words.map(|word| !word) }
}
