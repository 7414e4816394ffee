//! The ledger (document 01, "The ledger"): what must be allocated, kept from calls and answers.

use crate::block_set::BlockSet;
use crate::line::Operation;
use crate::memory::Memory;

/// What the ledger is told of a call. `listed` are the numbers that an accepted allocate lists.
pub struct Call<'a> {
    pub operation: Operation,
    pub slot: u32,
    pub block: u32,
    pub accepted: bool,
    pub listed: &'a [u32],
}

impl<'a> Call<'a> {
    /// An extent is entered as an allocate of the numbers that it lists (document 02, job 4).
    pub fn extent(slot: u32, accepted: bool, listed: &'a [u32]) -> Call<'a> {
        Call { operation: Operation::Allocate, slot, block: 0, accepted, listed }
    }
}

/// A commit whose stores are being counted up to its commit point.
struct CommitUnderCount {
    slot: usize,
    stores: u32,
}

/// The ledger of one volume since its format. It never looks into memory or disk.
pub struct Ledger {
    /// A, the blocks of the transactions whose commit point was stored.
    allocated: BlockSet,
    taken: [BlockSet; Memory::SLOTS],
    freed: [BlockSet; Memory::SLOTS],
    under_count: Option<CommitUnderCount>,
}

impl Ledger {
    /// The ledger right after an accepted format.
    pub fn new() -> Ledger {
        Ledger {
            allocated: BlockSet::EMPTY,
            taken: [BlockSet::EMPTY; Memory::SLOTS],
            freed: [BlockSet::EMPTY; Memory::SLOTS],
            under_count: None,
        }
    }

    /// Enters a call. By the premises of demand 3 no second format is accepted.
    pub fn record(&mut self, call: &Call) {
        if !call.accepted {
            return;
        }
        let slot = call.slot as usize;
        match call.operation {
            Operation::Format | Operation::Start | Operation::Precommit | Operation::Status => {}
            Operation::Allocate => {
                call.listed.iter().for_each(|block| self.taken[slot].insert(*block))
            }
            Operation::Deallocate => self.freed[slot].insert(call.block),
            // Either is a rollback (document 02, job 5).
            Operation::Drop | Operation::Revoke => self.forget(slot),
            Operation::Commit => {
                if self.changed_words(slot) != 0 {
                    self.under_count = Some(CommitUnderCount { slot, stores: 0 });
                }
            }
            Operation::Store => self.record_store(),
            Operation::Crash | Operation::Open => {
                (0..Memory::SLOTS).for_each(|slot| self.forget(slot));
                self.under_count = None;
            }
        }
    }

    pub fn allocated(&self) -> &BlockSet {
        &self.allocated
    }

    /// The number of blocks that the slots took, and that they freed.
    pub fn touched(&self) -> (u32, u32) {
        let count = |sets: &[BlockSet]| sets.iter().map(BlockSet::count).sum();
        (count(&self.taken), count(&self.freed))
    }

    /// Whether no block has two holders. Holders are A and each slot that took the block.
    pub fn has_single_holders(&self) -> bool {
        let mut held = self.allocated.clone();
        self.taken.iter().all(|taken| {
            let alone = !held.meets(taken);
            held.insert_all(taken);
            alone
        })
    }

    fn record_store(&mut self) {
        let Some(CommitUnderCount { slot, stores }) = self.under_count.take() else {
            return;
        };
        let stores = stores + 1;
        if stores == 2 * self.changed_words(slot) + 1 {
            self.allocated.remove_all(&self.freed[slot]);
            self.allocated.insert_all(&self.taken[slot]);
            self.forget(slot);
        } else {
            self.under_count = Some(CommitUnderCount { slot, stores });
        }
    }

    /// d, counted from the ledger's own sets.
    fn changed_words(&self, slot: usize) -> u32 {
        BlockSet::words_of_either(&self.taken[slot], &self.freed[slot])
    }

    fn forget(&mut self, slot: usize) {
        self.taken[slot].clear();
        self.freed[slot].clear();
    }
}

impl Default for Ledger {
    fn default() -> Ledger {
        Ledger::new()
    }
}
