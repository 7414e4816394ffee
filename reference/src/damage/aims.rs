//! What is aimed at: each cause for each call that document 01's table names with it or that
//! document 02 gives it, and calls of transactions, statuses, commit costs, extents and reserves that
//! are accepted.

use super::Damage;
use crate::error::Error;
use crate::line::Operation;

/// A call that is to be refused with this error, or to be accepted.
#[derive(Clone, Copy, PartialEq, Eq, Debug)]
pub struct Aim {
    pub error: Option<Error>,
    pub call: Call,
}

/// A call that a bench line makes, or one that has a test line alone.
#[derive(Clone, Copy, PartialEq, Eq, Debug)]
pub enum Call {
    Bench(Operation),
    Cost,
    Extent,
    Reserve,
}

/// The transaction calls: start, those that an open slot takes, those that a precommitted one takes.
const TRANSACTION_CALLS: [Operation; 7] = [
    Operation::Start,
    Operation::Allocate,
    Operation::Deallocate,
    Operation::Precommit,
    Operation::Drop,
    Operation::Commit,
    Operation::Revoke,
];
const ALL_BUT_START: &[Operation] = TRANSACTION_CALLS.split_at(1).1;
const OF_OPEN_SLOTS: &[Operation] = ALL_BUT_START.split_at(4).0;
const OF_PRECOMMITTED_SLOTS: &[Operation] = ALL_BUT_START.split_at(4).1;

/// The calls of each cause, and how often each is aimed at in a round: more often if there are many
/// ways to the cause, or two lines for the call.
const CAUSES: [(Error, &[Operation], usize); 23] = [
    (Error::InvalidMemory, &TRANSACTION_CALLS, 1),
    (Error::InvalidMemory, &[Operation::Store], 1),
    (Error::InvalidMemory, &[Operation::Status], 2),
    (Error::DiskLength, &[Operation::Format, Operation::Open, Operation::Store], 1),
    (Error::DiskBlockCount, &[Operation::Open], 1),
    (Error::DiskBitmap, &[Operation::Open], 2),
    (Error::DiskLog, &[Operation::Open], 3),
    (Error::DiskMismatch, &[Operation::Store], 5),
    (Error::BlockCount, &[Operation::Format], 1),
    (Error::WorkPending, &TRANSACTION_CALLS, 1),
    (Error::NothingPending, &[Operation::Store], 1),
    (Error::SlotNumber, &TRANSACTION_CALLS, 1),
    (Error::SlotNotIdle, &[Operation::Start], 1),
    (Error::SlotIdle, ALL_BUT_START, 1),
    (Error::SlotPrecommitted, OF_OPEN_SLOTS, 1),
    (Error::SlotNotPrecommitted, OF_PRECOMMITTED_SLOTS, 1),
    (Error::Count, &[Operation::Allocate], 2),
    (Error::ListLength, &[Operation::Allocate], 1),
    (Error::TooFewAvailable, &[Operation::Allocate], 1),
    (Error::BlockNumber, &[Operation::Deallocate], 1),
    (Error::BlockNotAllocated, &[Operation::Deallocate], 1),
    (Error::BlockAlreadyFreed, &[Operation::Deallocate], 1),
    (Error::ReservedForOthers, &[Operation::Allocate], 1),
];

/// The causes of commit cost, allocate's but for the list's length, and how often each is to be
/// reached in a round. Most are met beside transaction calls.
const COST_CAUSES: [(Error, usize); 8] = [
    (Error::InvalidMemory, 2),
    (Error::WorkPending, 2),
    (Error::SlotNumber, 2),
    (Error::SlotIdle, 2),
    (Error::SlotPrecommitted, 2),
    (Error::Count, 2),
    (Error::TooFewAvailable, 2),
    (Error::ReservedForOthers, 2),
];
const ACCEPTED_COSTS: usize = 2;

/// The causes of allocate extent, in the same way.
const EXTENT_CAUSES: [(Error, usize); 10] = [
    (Error::InvalidMemory, 1),
    (Error::WorkPending, 1),
    (Error::SlotNumber, 1),
    (Error::SlotIdle, 1),
    (Error::SlotPrecommitted, 1),
    (Error::Count, 1),
    (Error::ListLength, 1),
    (Error::BlockNumber, 1),
    (Error::NoExtent, 2),
    (Error::ReservedForOthers, 1),
];
const ACCEPTED_EXTENTS: usize = 3;

/// The causes of reserve, in the same way.
const RESERVE_CAUSES: [(Error, usize); 5] = [
    (Error::InvalidMemory, 1),
    (Error::WorkPending, 1),
    (Error::SlotNumber, 1),
    (Error::SlotNotIdle, 1),
    (Error::OverReserved, 2),
];
const ACCEPTED_RESERVES: usize = 2;

impl Aim {
    /// The aims of one round.
    pub fn all() -> Vec<Aim> {
        let mut aims = aims_of(None, &TRANSACTION_CALLS, 1);
        aims.extend(aims_of(None, &[Operation::Status], 2));
        for (error, operations, times) in CAUSES {
            aims.extend(aims_of(Some(error), operations, times));
        }
        aims.extend(aims_at(Call::Cost, ACCEPTED_COSTS, &COST_CAUSES));
        aims.extend(aims_at(Call::Extent, ACCEPTED_EXTENTS, &EXTENT_CAUSES));
        aims.extend(aims_at(Call::Reserve, ACCEPTED_RESERVES, &RESERVE_CAUSES));
        aims
    }

    /// Whether work is to be pending at the call.
    pub fn needs_work(&self) -> bool {
        matches!(self.error, Some(Error::WorkPending | Error::DiskMismatch))
    }

    /// Whether the call is a transaction's, commit cost, an extent or a reserve, which don't look at
    /// the disk.
    pub fn is_of_a_transaction(&self) -> bool {
        match self.call {
            Call::Bench(operation) => TRANSACTION_CALLS.contains(&operation),
            Call::Cost | Call::Extent | Call::Reserve => true,
        }
    }
}

/// This call, accepted so many times and refused for each of its causes as often as is said.
fn aims_at(call: Call, accepted: usize, causes: &[(Error, usize)]) -> Vec<Aim> {
    let mut aims = vec![Aim { error: None, call }; accepted];
    for (error, times) in causes {
        aims.extend(vec![Aim { error: Some(*error), call }; *times]);
    }
    aims
}

/// These operations, each this many times.
fn aims_of(error: Option<Error>, operations: &[Operation], times: usize) -> Vec<Aim> {
    let aim = |operation: &Operation| Aim { error, call: Call::Bench(*operation) };
    operations.iter().map(aim).collect::<Vec<Aim>>().repeat(times)
}

impl Damage {
    /// One of the aims still to be reached in this round. While work is pending it is often one
    /// that needs that, at rest one that doesn't.
    pub(super) fn choose_aim(&mut self) -> Aim {
        if self.aims.is_empty() {
            self.aims = Aim::all();
        }
        let in_work = self.stores_left() > 0;
        let fits = |aim: &Aim| aim.needs_work() == in_work;
        let fitting: Vec<Aim> = self.aims.iter().copied().filter(fits).collect();
        let aim = if !fitting.is_empty() && self.random.one_in(2) {
            self.random.choose(&fitting)
        } else {
            self.random.choose(&self.aims)
        };
        self.with_company(aim)
    }

    /// A commit cost, an extent or a reserve is made beside a transaction call that is to be refused
    /// with the same error, if there still is one, for that takes fewer lines.
    fn with_company(&self, aim: Aim) -> Aim {
        let company = match aim.call {
            Call::Cost | Call::Extent | Call::Reserve if aim.error.is_some() => {
                self.lacking_transaction_call(aim.error)
            }
            _ => None,
        };
        company.map_or(aim, |operation| Aim { call: Call::Bench(operation), ..aim })
    }

    /// A transaction call that is still to be refused with this error.
    pub(super) fn lacking_transaction_call(&self, error: Option<Error>) -> Option<Operation> {
        let lacks =
            |operation: &Operation| self.lacks(Aim { error, call: Call::Bench(*operation) });
        TRANSACTION_CALLS.into_iter().find(lacks)
    }

    /// Whether an aim is still to be reached in this round.
    pub(super) fn lacks(&self, aim: Aim) -> bool {
        self.aims.contains(&aim)
    }

    /// Takes out an aim that was reached, if it was still to be.
    pub(super) fn strike_off(&mut self, reached: Aim) {
        if let Some(index) = self.aims.iter().position(|aim| *aim == reached) {
            self.aims.swap_remove(index);
        }
    }
}
