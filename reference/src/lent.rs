//! What a program lends its calls, and the call that a bench line in form asks for.

use crate::calls::{
    allocate, commit, deallocate, drop, format, open, precommit, revoke, start, status, store,
};
use crate::error::Error;
use crate::line::{Line, Operation};
use crate::memory::Memory;

/// What a call works on.
pub struct Lent<'a> {
    pub memory: &'a mut Memory,
    pub disk: &'a mut [u32],
    pub list: &'a mut [u32],
}

impl Lent<'_> {
    /// Makes the call and gives the value to be printed. A refused open keeps the memory.
    pub fn call(self, line: &Line) -> Result<u32, Error> {
        let Lent { memory, disk, list } = self;
        let Line { operation, slot, number } = *line;
        match operation {
            Operation::Format => format(disk, number).map(|()| 0),
            Operation::Open => open_keeping(memory, disk),
            Operation::Start => start(memory, slot).map(|()| 0),
            Operation::Allocate => allocate(memory, slot, number, list).map(|()| list[0]),
            Operation::Deallocate => deallocate(memory, slot, number).map(|()| 0),
            Operation::Precommit => precommit(memory, slot).map(|()| 0),
            Operation::Commit => commit(memory, slot),
            Operation::Drop => drop(memory, slot).map(|()| 0),
            Operation::Revoke => revoke(memory, slot).map(|()| 0),
            Operation::Store => store(memory, disk),
            Operation::Status => status(memory).map(|status| status.allocated),
            Operation::Crash => {
                *memory = Memory::ZEROS;
                Ok(0)
            }
        }
    }
}

fn open_keeping(memory: &mut Memory, disk: &[u32]) -> Result<u32, Error> {
    let opened = open(disk);
    if opened.answer.is_ok() {
        *memory = opened.memory;
    }
    opened.answer
}
