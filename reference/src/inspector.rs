//! The inspector: what its calls are lent, and what each bench line and test line does to it.

use crate::calls::{allocate_extent, commit_cost, open, reserve, status, MAX_COUNT};
use crate::codes::{pending_of, slot_state_of};
use crate::disk::DISK_WORDS;
use crate::error::Error;
use crate::lent::Lent;
use crate::line::{self, Line, Operation};
use crate::memory::{Memory, Slot};
use crate::test_line::{self, TestLine};

/// The longest disk that a test line makes.
pub const MAX_DISK_WORDS: usize = 400;
pub const LIST_PLACES: usize = MAX_COUNT as usize;

/// The inspector's state between two lines.
#[derive(Clone, PartialEq, Eq, Debug)]
pub struct Inspector {
    pub memory: Memory,
    pub disk: Vec<u32>,
    pub list: [u32; LIST_PLACES],
    /// How many places of the list are lent to a call, from the first on.
    pub places: usize,
}

impl Inspector {
    pub fn new() -> Inspector {
        Inspector {
            memory: Memory::ZEROS,
            disk: vec![0; DISK_WORDS],
            list: [0; LIST_PLACES],
            places: LIST_PLACES,
        }
    }

    /// Runs a line, given without its byte 10, and gives the value to be printed. What the line
    /// prints behind its answer line is added to `more`.
    pub fn run(&mut self, line: &[u8], more: &mut String) -> Result<u32, Error> {
        if let Some(line) = line::parse(line) {
            return self.call(&line);
        }
        let line = test_line::parse(line).ok_or(Error::MalformedLine)?;
        self.alter(&line).ok_or(Error::MalformedLine)?;
        self.answer(&line, more)
    }

    /// Makes the call that a bench line in form asks for. The memory that an open gives takes the
    /// place of the old one, when refused too.
    fn call(&mut self, line: &Line) -> Result<u32, Error> {
        if line.operation == Operation::Open {
            let opened = open(&self.disk);
            self.memory = opened.memory;
            return opened.answer;
        }
        let Inspector { memory, disk, list, places } = self;
        Lent { memory, disk, list: &mut list[..*places] }.call(line)
    }

    /// Does what a test line in form says. Out of range it alters nothing and gives nothing.
    fn alter(&mut self, line: &TestLine) -> Option<()> {
        let memory = &mut self.memory;
        match *line {
            TestLine::Disk { index, word } => *self.disk.get_mut(index as usize)? = word,
            TestLine::Length { words } => {
                self.disk.resize(at_most(words, MAX_DISK_WORDS)?, 0);
            }
            TestLine::Blocks { blocks } => memory.blocks = blocks,
            TestLine::Cursor { block } => memory.cursor = block,
            TestLine::Sam { index, word } => *memory.sam.words.get_mut(index as usize)? = word,
            TestLine::Com { index, word } => *memory.com.words.get_mut(index as usize)? = word,
            TestLine::Tam { slot, index, word } => {
                *slot_of(memory, slot)?.tam.words.get_mut(index as usize)? = word;
            }
            TestLine::State { slot, code } => slot_of(memory, slot)?.state = slot_state_of(code)?,
            TestLine::Reservation { slot, blocks } => slot_of(memory, slot)?.reservation = blocks,
            TestLine::Drawn { slot, blocks } => slot_of(memory, slot)?.drawn = blocks,
            TestLine::Pending { codes } => memory.pending = pending_of(codes)?,
            TestLine::List { places } => self.places = at_most(places, LIST_PLACES)?,
            TestLine::Show
            | TestLine::Status
            | TestLine::Cost { .. }
            | TestLine::Extent { .. }
            | TestLine::Reserve { .. } => {}
        }
        Some(())
    }

    /// Makes the call that the test line asks for, if any, prints what it is to be told, and gives
    /// its value.
    fn answer(&mut self, line: &TestLine, more: &mut String) -> Result<u32, Error> {
        match *line {
            TestLine::Show => {
                more.push_str(&self.to_string());
                Ok(0)
            }
            TestLine::Status => {
                let status = status(&self.memory)?;
                more.push_str(&status.to_string());
                Ok(status.allocated)
            }
            TestLine::Cost { slot, count } => commit_cost(&self.memory, slot, count),
            TestLine::Extent { slot, count, near } => {
                let list = &mut self.list[..self.places];
                allocate_extent(&mut self.memory, slot, count, near, list)
            }
            TestLine::Reserve { slot, blocks } => {
                reserve(&mut self.memory, slot, blocks).map(|()| 0)
            }
            _ => Ok(0),
        }
    }
}

impl Default for Inspector {
    fn default() -> Inspector {
        Inspector::new()
    }
}

fn slot_of(memory: &mut Memory, slot: u32) -> Option<&mut Slot> {
    memory.slots.get_mut(slot as usize)
}

fn at_most(number: u32, limit: usize) -> Option<usize> {
    let number = number as usize;
    (number <= limit).then_some(number)
}
