//! The bench: a memory and a disk, and what each bench line does to them.

use crate::calls::MAX_COUNT;
use crate::disk::DISK_WORDS;
use crate::error::Error;
use crate::lent::Lent;
use crate::line::{parse, Line};
use crate::memory::Memory;

/// The bench's state between two lines.
#[derive(Clone)]
pub struct Bench {
    pub memory: Memory,
    pub disk: [u32; DISK_WORDS],
    /// The list lent to each allocate.
    pub list: [u32; MAX_COUNT as usize],
}

impl Bench {
    pub fn new() -> Bench {
        Bench { memory: Memory::ZEROS, disk: [0; DISK_WORDS], list: [0; MAX_COUNT as usize] }
    }

    /// Runs a line, given without its byte 10, and gives the value to be printed.
    pub fn run(&mut self, line: &[u8]) -> Result<u32, Error> {
        let line = parse(line).ok_or(Error::MalformedLine)?;
        self.call(&line)
    }

    /// Makes the call that a line in form asks for.
    pub fn call(&mut self, line: &Line) -> Result<u32, Error> {
        let Bench { memory, disk, list } = self;
        Lent { memory, disk, list }.call(line)
    }
}

impl Default for Bench {
    fn default() -> Bench {
        Bench::new()
    }
}
