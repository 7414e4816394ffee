//! The program `timing`: the calls of a script in turn, as a client makes them (docs/SPEED.md).

use crate::calls::{
    allocate, allocate_extent, commit, commit_cost, deallocate, drop, format, open, precommit,
    reserve, revoke, start, status, store, Status, MAX_COUNT,
};
use crate::disk::DISK_WORDS;
use crate::error::Error;
use crate::memory::Memory;
use std::hint::black_box;
use std::io::{self, Read, Write};

/// The bytes that are read. Those that a shorter input leaves are 0.
pub const SCRIPT_BYTES: usize = 65_536;
const HEAD_BYTES: usize = 12;
const STEP_BYTES: usize = 6;
const MAX_STEPS: usize = (SCRIPT_BYTES - HEAD_BYTES) / STEP_BYTES;

/// Reads a script, makes its steps and writes the checksum of all answers.
pub fn run(input: impl Read, mut output: impl Write) -> io::Result<()> {
    let mut script = Vec::with_capacity(SCRIPT_BYTES);
    input.take(SCRIPT_BYTES as u64).read_to_end(&mut script)?;
    script.resize(SCRIPT_BYTES, 0);
    writeln!(output, "{}", make_steps(&script))
}

/// What the calls are lent, and the checksum of what they answered.
struct Client {
    memory: Memory,
    disk: [u32; DISK_WORDS],
    list: [u32; MAX_COUNT as usize],
    sum: u64,
}

struct Step {
    op: u8,
    slot: u32,
    n: u32,
    near: u32,
}

/// Makes as many steps as the script's head says. Behind the last one it goes on with the first one
/// behind the set-up.
fn make_steps(script: &[u8]) -> u64 {
    let setup = (four(script, 0) as usize).min(MAX_STEPS - 1);
    let steps = (four(script, 4) as usize).min(MAX_STEPS);
    let mut client = Client {
        memory: Memory::ZEROS,
        disk: [0; DISK_WORDS],
        list: [0; MAX_COUNT as usize],
        sum: 0,
    };
    let mut step = 0;
    for _ in 0..four(script, 8) {
        client.make(&Step::read(&script[HEAD_BYTES + STEP_BYTES * step..]));
        step += 1;
        if step >= steps {
            step = setup;
        }
    }
    client.sum
}

impl Step {
    fn read(bytes: &[u8]) -> Step {
        Step { op: bytes[0], slot: bytes[1].into(), n: pair(bytes, 2), near: pair(bytes, 4) }
    }
}

impl Client {
    /// Makes the step's call, and adds the answer's number and value and the last place of a list
    /// of n to the checksum. The memory counts as used, so that no call is left out.
    #[inline(always)]
    fn make(&mut self, step: &Step) {
        let (number, value) = match self.call(step) {
            Ok(value) => (0, value),
            Err(error) => (error.code(), 0),
        };
        self.mix(number);
        self.mix(value);
        self.mix(self.list[((step.n + MAX_COUNT - 1) % MAX_COUNT) as usize]);
        black_box(&self.memory);
    }

    #[inline(always)]
    fn call(&mut self, &Step { op, slot, n, near }: &Step) -> Result<u32, Error> {
        let Client { memory, disk, list, .. } = self;
        match op {
            1 => format(disk, n).map(|()| 0),
            2 => {
                let opened = open(disk);
                *memory = opened.memory;
                opened.answer
            }
            3 => start(memory, slot).map(|()| 0),
            4 => allocate(memory, slot, n, list).map(|()| list[0]),
            5 => allocate_extent(memory, slot, n, near, list),
            6 => deallocate(memory, slot, n).map(|()| 0),
            7 => precommit(memory, slot).map(|()| 0),
            8 => commit(memory, slot),
            9 => drop(memory, slot).map(|()| 0),
            10 => revoke(memory, slot).map(|()| 0),
            11 => store(memory, disk),
            12 => status(memory).map(|counts| self.mix_counts(&counts)),
            13 => commit_cost(memory, slot, n),
            14 => reserve(memory, slot, n).map(|()| 0),
            _ => Ok(0),
        }
    }

    /// Adds all counts but the last to the checksum, and gives the last.
    fn mix_counts(&mut self, counts: &Status) -> u32 {
        let Status { allocated, available, allocating, freeing, held, active } = *counts;
        for count in [allocated, available, allocating, freeing, held] {
            self.mix(count);
        }
        active
    }

    fn mix(&mut self, number: u32) {
        self.sum = 1_000_003 * (self.sum % (1 << 32)) + u64::from(number);
    }
}

/// The number that two bytes are, the lower one first.
fn pair(bytes: &[u8], at: usize) -> u32 {
    u32::from(bytes[at]) + 256 * u32::from(bytes[at + 1])
}

/// The number that four bytes are.
fn four(bytes: &[u8], at: usize) -> u32 {
    pair(bytes, at) + 65_536 * pair(bytes, at + 2)
}
