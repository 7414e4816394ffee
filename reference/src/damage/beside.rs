//! Calls beside a transaction call that is aimed at. They mostly meet the same cause, and so their
//! own aims are reached with few lines.

use super::aims::{Aim, Call};
use super::Damage;
use crate::error::Error;
use crate::line::Operation;
use crate::memory::Memory;

const COST_IN: u32 = 3;
const EXTENT_IN: u32 = 12;
const RESERVE_IN: u32 = 12;
const ANOTHER_IN: u32 = 2;

/// A call that was made, with its numbers and its answer.
#[derive(Clone, Copy)]
pub struct Made {
    pub call: Call,
    pub slot: u32,
    pub number: u32,
    pub error: Option<Error>,
}

impl Damage {
    /// Calls in the same scene, each if its aim at the same error is still to be reached. A commit
    /// cost, an extent and a reserve have the slot of the call that was made, and are put otherwise
    /// too.
    pub(super) fn call_beside(&mut self, made: Made) {
        let error = made.error;
        let lacks_cost = error.is_some() && self.lacks(Aim { error, call: Call::Cost });
        if lacks_cost || self.random.one_in(COST_IN) {
            let beside = self.cost_beside(made);
            if beside.is_some() {
                self.strike_off(Aim { error: beside, call: Call::Cost });
            }
        }
        if self.lacks(Aim { error, call: Call::Extent }) || self.random.one_in(EXTENT_IN) {
            let beside = self.extent_beside(made);
            self.strike_off(Aim { error: beside, call: Call::Extent });
        }
        let lacks_reserve = error.is_some() && self.lacks(Aim { error, call: Call::Reserve });
        if lacks_reserve || self.random.one_in(RESERVE_IN) {
            let (slot, blocks) = (self.slot_beside(made.slot), self.any_reservation());
            let beside = self.reserve(slot, blocks);
            self.strike_off(Aim { error: beside, call: Call::Reserve });
        }
        let is_followed = match error {
            Some(Error::InvalidMemory | Error::WorkPending) => self.random.one_in(ANOTHER_IN),
            Some(
                Error::SlotNumber
                | Error::SlotIdle
                | Error::SlotPrecommitted
                | Error::SlotNotPrecommitted,
            ) => true,
            _ => false,
        };
        if is_followed {
            self.another_beside(made);
        }
    }

    /// Another transaction call, of a slot with which it meets the same error.
    fn another_beside(&mut self, made: Made) {
        let Some(operation) = self.lacking_transaction_call(made.error) else {
            return;
        };
        let (any_slot, number) = self.any_arguments(operation);
        let slot = match made.error {
            Some(Error::InvalidMemory | Error::WorkPending) => any_slot,
            Some(Error::SlotNumber) => self.wrong_slot(),
            _ => made.slot,
        };
        let error = self.call(operation, slot, number);
        self.strike_off(Aim { error, call: Call::Bench(operation) });
    }

    fn cost_beside(&mut self, made: Made) -> Option<Error> {
        let slot = self.slot_beside(made.slot);
        let count = match (made.call, made.error) {
            (_, Some(Error::Count)) => self.wrong_cost_count(),
            (Call::Bench(Operation::Allocate), _) => made.number,
            _ => self.any_cost_count(),
        };
        self.cost(slot, count)
    }

    /// After an accepted call the extent is mostly accepted too. A block that is to be freed is its
    /// near one.
    fn extent_beside(&mut self, made: Made) -> Option<Error> {
        let slot = self.slot_beside(made.slot);
        let any = self.any_extent_count();
        match (made.call, made.error) {
            (_, None) => {
                let count = self.right_extent_count(slot).unwrap_or(any);
                let near = self.near_in_volume(count);
                self.extent(slot, count, near)
            }
            (_, Some(Error::Count)) => {
                let count = self.wrong_extent_count();
                self.any_extent(slot, count)
            }
            (Call::Bench(Operation::Allocate), _) => self.any_extent(slot, made.number),
            (Call::Bench(Operation::Deallocate), _) => self.extent(slot, any, made.number),
            _ => self.any_extent(slot, any),
        }
    }

    /// The same slot, or if it is above 7 any such number, up to the largest.
    fn slot_beside(&mut self, slot: u32) -> u32 {
        if slot < Memory::SLOTS as u32 {
            slot
        } else {
            self.large_wrong_slot()
        }
    }
}
