//! What has to be brought about before a call is accepted, or refused for a wanted cause.

use super::aims::{Aim, Call};
use super::Damage;
use crate::error::Error;
use crate::line::Operation;
use crate::memory::{Memory, SlotState};

const CRASH_IN: u32 = 10;
const UNMOVED_CURSOR_IN: u32 = 4;
const FOREIGN_DISK_IN: u32 = 6;
const MISMATCH_AT_REST_IN: u32 = 3;

impl Damage {
    /// Brings it about, from a sound state, and gives the call's slot and number. It is nothing if
    /// that can't be done from here, and now and then the call is accepted all the same.
    pub(super) fn prepare(&mut self, aim: Aim) -> Option<(u32, u32)> {
        let arguments = match (aim.call, aim.error) {
            (Call::Cost, error) => self.prepare_cost(error)?,
            (Call::Extent, error) => self.prepare_extent(error)?,
            (Call::Reserve, error) => self.prepare_reserve(error)?,
            (Call::Bench(operation), None) => self.prepare_acceptance(operation)?,
            (Call::Bench(operation), Some(error)) => self.prepare_refusal(error, operation)?,
        };
        if aim.is_of_a_transaction() && self.random.one_in(FOREIGN_DISK_IN) {
            self.damage_unread_disk();
        }
        Some(arguments)
    }

    /// For a transaction call, or for a status.
    fn prepare_acceptance(&mut self, operation: Operation) -> Option<(u32, u32)> {
        match operation {
            Operation::Start => Some((self.slot_in(SlotState::Idle)?, 0)),
            Operation::Allocate => {
                let slot = self.slot_in(SlotState::Open)?;
                let count = self.right_count(slot)?;
                if !self.random.one_in(UNMOVED_CURSOR_IN) {
                    self.move_the_cursor();
                }
                Some((slot, count))
            }
            Operation::Deallocate => {
                Some((self.slot_in(SlotState::Open)?, self.block_with(true, true)?))
            }
            Operation::Commit => Some((self.slot_in(SlotState::Precommitted)?, 0)),
            Operation::Drop => Some((self.touched_slot_in(SlotState::Open)?, 0)),
            Operation::Revoke => Some((self.touched_slot_in(SlotState::Precommitted)?, 0)),
            Operation::Status => {
                self.make_other_memory()?;
                Some(self.any_arguments(operation))
            }
            _ => Some((self.slot_in(SlotState::Open)?, 0)),
        }
    }

    pub(super) fn prepare_refusal(
        &mut self,
        error: Error,
        operation: Operation,
    ) -> Option<(u32, u32)> {
        match error {
            Error::InvalidMemory
            | Error::DiskLength
            | Error::DiskBlockCount
            | Error::DiskBitmap
            | Error::DiskLog
            | Error::DiskMismatch => {
                self.prepare_damage(error, operation)?;
                Some(self.any_arguments(operation))
            }
            Error::BlockCount => Some((self.any_slot(), self.wrong_block_count())),
            Error::WorkPending => {
                self.come_to_work()?;
                Some(self.any_arguments(operation))
            }
            Error::NothingPending => {
                self.come_to_rest()?;
                Some(self.any_arguments(operation))
            }
            Error::SlotNumber => {
                self.come_to_rest()?;
                Some((self.wrong_slot(), self.any_arguments(operation).1))
            }
            _ => {
                let slot = self.prepare_slot(error)?;
                Some((slot, self.prepare_number(error, operation, slot)?))
            }
        }
    }

    fn prepare_damage(&mut self, error: Error, operation: Operation) -> Option<()> {
        match error {
            Error::InvalidMemory if self.random.one_in(CRASH_IN) => {
                self.call(Operation::Crash, 0, 0);
            }
            Error::InvalidMemory => self.damage_memory(),
            Error::DiskLength => {
                if operation == Operation::Store && self.state.memory == Memory::ZEROS {
                    self.call(Operation::Open, 0, 0);
                }
                self.change_length();
            }
            Error::DiskBlockCount => self.spoil_block_count(),
            Error::DiskBitmap => self.spoil_bitmap(),
            Error::DiskLog => {
                let fault = self.any_fault();
                self.write_log(fault);
            }
            _ => {
                if !self.random.one_in(MISMATCH_AT_REST_IN) {
                    self.come_to_work()?;
                }
                self.spoil_agreement();
            }
        }
        Some(())
    }

    /// A slot in the state in which the call gets as far as this cause. Where a precommitted or an
    /// open slot is itself the cause, it mostly has touched something.
    fn prepare_slot(&mut self, error: Error) -> Option<u32> {
        match error {
            Error::SlotNotIdle => {
                let state = self.random.choose(&[SlotState::Open, SlotState::Precommitted]);
                self.slot_in(state)
            }
            Error::SlotIdle => self.slot_in(SlotState::Idle),
            Error::SlotPrecommitted => self.touched_slot_in(SlotState::Precommitted),
            Error::SlotNotPrecommitted => self.touched_slot_in(SlotState::Open),
            _ => self.slot_in(SlotState::Open),
        }
    }

    fn prepare_number(&mut self, error: Error, operation: Operation, slot: u32) -> Option<u32> {
        match error {
            Error::Count => Some(self.wrong_count()),
            Error::ListLength => Some(self.shorten_list()),
            Error::TooFewAvailable => self.leave_few_available(slot),
            Error::ReservedForOthers => self.leave_to_others(slot, self.available()),
            Error::BlockNumber => Some(self.wrong_block()),
            Error::BlockNotAllocated => {
                let com = self.random.one_in(2);
                self.block_with(false, com).or_else(|| self.block_with(false, !com))
            }
            Error::BlockAlreadyFreed => self.block_with(true, false).or_else(|| {
                let block = self.block_with(true, true)?;
                self.call(Operation::Deallocate, slot, block);
                Some(block)
            }),
            _ => Some(self.any_arguments(operation).1),
        }
    }

    /// Damages the disk under a call that doesn't look at it.
    fn damage_unread_disk(&mut self) {
        if self.random.one_in(3) {
            self.change_length();
        } else {
            self.change_word();
        }
    }
}
