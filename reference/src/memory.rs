//! The allocator's memory: the bitmaps, the transaction slots and the pending work.

use crate::bitmap::{majority, Bitmap};

/// The state of a transaction slot, document 01's seat.
#[derive(Clone, Copy, PartialEq, Eq, Debug)]
pub enum SlotState {
    Idle,
    Open,
    Precommitted,
}

/// A transaction slot with its bitmap, TAM, its reservation, document 02's claim (job 7), and what
/// its transaction has drawn from that.
#[derive(Clone, Copy, PartialEq, Eq, Debug)]
pub struct Slot {
    pub state: SlotState,
    pub tam: Bitmap,
    pub reservation: u32,
    pub drawn: u32,
}

impl Slot {
    pub const IDLE: Slot = Slot::unreserved(SlotState::Idle, Bitmap::EMPTY);

    /// A slot without a reservation, whose transaction has drawn nothing.
    pub const fn unreserved(state: SlotState, tam: Bitmap) -> Slot {
        Slot { state, tam, reservation: 0, drawn: 0 }
    }

    /// Lowers the reservation by the blocks granted, not below 0. What it was lowered by is drawn.
    pub fn draw(&mut self, granted: u32) {
        let drawn = granted.min(self.reservation);
        self.reservation -= drawn;
        self.drawn += drawn;
    }

    /// Makes the slot of a committed transaction idle. What this one has drawn stays used.
    pub fn end_committed(&mut self) {
        *self = Slot { reservation: self.reservation, ..Slot::IDLE };
    }

    /// Makes the slot of a transaction rolled back idle. What this one has drawn is put back.
    pub fn end_rolled_back(&mut self) {
        *self = Slot { reservation: self.reservation + self.drawn, ..Slot::IDLE };
    }
}

/// The pending work, document 01's store work in hand, with its stores done and due.
#[derive(Clone, Copy, PartialEq, Eq, Debug)]
pub enum Pending {
    Nothing,
    Commit { slot: u32, done: u32, due: u32 },
    Recovery { done: u32, due: u32 },
}

/// What the allocator keeps between calls. `blocks` is m, `cursor` the block to be searched first
/// (document 02, job 6).
#[derive(Clone, PartialEq, Eq, Debug)]
pub struct Memory {
    pub blocks: u32,
    pub cursor: u32,
    pub sam: Bitmap,
    pub com: Bitmap,
    pub slots: [Slot; Memory::SLOTS],
    pub pending: Pending,
}

impl Memory {
    pub const SLOTS: usize = 8;

    /// The memory of zeros, which a crash leaves. Its m is 0, so it isn't valid.
    pub const ZEROS: Memory = Memory::opened(0, Bitmap::EMPTY, Pending::Nothing);

    /// The memory that an open gives: all slots idle and without reservations, COM equal to
    /// SAM, the search from block 0 on.
    pub const fn opened(blocks: u32, sam: Bitmap, pending: Pending) -> Memory {
        Memory { blocks, cursor: 0, sam, com: sam, slots: [Slot::IDLE; Memory::SLOTS], pending }
    }

    /// The next search carries on after this block, the last one granted: from the next one on, or
    /// from block 0 after the last of the volume.
    pub fn carry_on_after(&mut self, granted: u32) {
        let next = granted + 1;
        self.cursor = if next == self.blocks { 0 } else { next };
    }

    /// The slots that aren't idle.
    pub fn active_slots(&self) -> impl Iterator<Item = &Slot> {
        self.slots.iter().filter(|slot| slot.state != SlotState::Idle)
    }

    /// The blocks of one word with SAM 0 and COM 0, document 01's grantable ones.
    pub fn available_in(&self, word: usize) -> u32 {
        let used = self.sam.words[word] | self.com.words[word];
        !used & Bitmap::volume_bits(self.blocks, word)
    }

    /// Whether this block, which is below 4,096, has SAM 0 and COM 0. It isn't compared with m.
    pub fn is_available(&self, block: u32) -> bool {
        !self.sam.has(block) && !self.com.has(block)
    }

    /// The number of available blocks. Any words and numbers may stand in the memory.
    pub fn available(&self) -> u32 {
        (0..Bitmap::WORDS).map(|word| self.available_in(word).count_ones()).sum()
    }

    /// The same where no bitmap has a bit from m on.
    pub fn available_where_bitmaps_fit(&self) -> u32 {
        let words = self.sam.words.iter().zip(&self.com.words);
        let used: u32 = words.map(|(sam, com)| (sam | com).count_ones()).sum();
        self.blocks - used
    }

    /// What all reservations add up to. A damaged memory may hold eight of the largest.
    pub fn reserved(&self) -> u64 {
        self.slots.iter().map(|slot| u64::from(slot.reservation)).sum()
    }

    /// What the reservations of all slots but this one add up to.
    pub fn reserved_by_others(&self, index: usize) -> u64 {
        self.reserved() - u64::from(self.slots[index].reservation)
    }

    /// The number of blocks that this transaction took: TAM 1 and SAM 0.
    pub fn taken_blocks(&self, tam: &Bitmap) -> u32 {
        let words = tam.words.iter().zip(&self.sam.words);
        words.map(|(tam, sam)| (tam & !sam).count_ones()).sum()
    }

    /// t, the number of blocks that this transaction has touched: where TAM differs from SAM.
    pub fn touched_blocks(&self, tam: &Bitmap) -> u32 {
        let words = tam.words.iter().zip(&self.sam.words);
        words.map(|(tam, sam)| (tam ^ sam).count_ones()).sum()
    }

    /// SAM as the commit of this transaction leaves it (table 3 of document 000).
    pub fn sam_after_commit(&self, tam: &Bitmap) -> Bitmap {
        Bitmap::combine(&self.sam, &self.com, tam, majority)
    }

    /// d, the number of SAM words that the commit of this transaction changes.
    pub fn changed_words(&self, tam: &Bitmap) -> u32 {
        let after = self.sam_after_commit(tam);
        let words = after.words.iter().zip(&self.sam.words);
        words.map(|(after, before)| u32::from(after != before)).sum()
    }
}
