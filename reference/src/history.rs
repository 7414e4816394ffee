//! Random histories of bench lines. The maker runs the allocator beside it and looks at its state,
//! so that it reaches deep ones.

mod choice;
mod extents;
pub(crate) mod malformed;
mod reserves;
pub(crate) mod text;
mod with_cost;
mod with_status;

use crate::bench::Bench;
use crate::bitmap::Bitmap;
use crate::error::Error;
use crate::line::{Line, Operation};
use crate::memory::Memory;
use crate::random::Random;

pub use with_cost::with_cost;
pub use with_status::with_status;

const MALFORMED_IN: u32 = 12;

/// What kind of history is wanted.
pub struct Shape {
    /// The block count of each format, or 0 for a random one.
    pub blocks: u32,
    /// Whether lines not in form stand among the others.
    pub malformed: bool,
    /// Whether the volume may be formatted anew. The bench keeps its memory then, and this is the
    /// one way for a bench line to reach cause 6. Demand 3 is premised on no such format.
    pub reformats: bool,
    /// Whether extent lines, for `inspect`, stand among the bench lines.
    pub extents: bool,
    /// Whether reserve lines, for `inspect`, stand among them.
    pub reserves: bool,
}

impl Shape {
    /// Bench lines in form alone, of one volume.
    pub fn plain(blocks: u32) -> Shape {
        Shape { blocks, malformed: false, reformats: false, extents: false, reserves: false }
    }
}

/// What the transactions do for a while.
struct Phase {
    slots: u32,
    free_percent: u32,
    most_touches: u32,
    most_blocks: u32,
    /// One in this many commits and recoveries is interrupted.
    interrupted_in: u32,
}

/// What the transaction of a slot is still to do.
#[derive(Clone, Copy, Default)]
struct Plan {
    touches_left: u32,
    /// It touches little and is often rolled back.
    is_short: bool,
}

/// An endless history. Its first line formats the volume.
pub struct History {
    random: Random,
    shape: Shape,
    bench: Bench,
    phase: Phase,
    formatted: bool,
    /// The disk was formatted under the memory.
    disk_is_foreign: bool,
    plans: [Plan; Memory::SLOTS],
    /// The number of stores done at which the pending work is interrupted.
    interrupt_at: u32,
}

impl History {
    /// The history of this seed and shape, unless the block count is out of range.
    pub fn new(seed: u64, shape: Shape) -> Option<History> {
        (shape.blocks <= Bitmap::MAX_BLOCKS).then(|| History::from_start(seed, shape))
    }

    /// A history that goes on from states that others bring about.
    pub(crate) fn to_be_resumed(seed: u64) -> History {
        let shape = Shape::plain(0);
        History::from_start(seed, shape)
    }

    fn from_start(seed: u64, shape: Shape) -> History {
        let mut random = Random::new(seed);
        History {
            phase: Phase::random(&mut random),
            random,
            shape,
            bench: Bench::new(),
            formatted: false,
            disk_is_foreign: false,
            plans: [Plan::default(); Memory::SLOTS],
            interrupt_at: 0,
        }
    }

    /// Goes on from another state than the one the history has come to. The disk is 386 words.
    pub(crate) fn resume(&mut self, memory: &Memory, disk: &[u32]) {
        self.bench.memory = memory.clone();
        self.bench.disk.copy_from_slice(disk);
        self.formatted = true;
        self.disk_is_foreign = false;
    }

    /// Takes note of what the answer means for the lines to come.
    fn note(&mut self, line: &Line, answer: Result<u32, Error>) {
        match (line.operation, answer) {
            (Operation::Format, Ok(_)) => {
                self.disk_is_foreign = self.formatted;
                self.formatted = true;
            }
            (Operation::Open, Ok(due)) => {
                self.disk_is_foreign = false;
                self.plan_interruption(due);
            }
            (Operation::Commit, Ok(due)) => self.plan_interruption(due),
            _ => {}
        }
    }

    fn plan_interruption(&mut self, due: u32) {
        let interrupted = self.random.one_in(self.phase.interrupted_in);
        self.interrupt_at = if interrupted { self.random.below(due) } else { due };
    }
}

impl Iterator for History {
    type Item = Vec<u8>;

    fn next(&mut self) -> Option<Vec<u8>> {
        if let Some(line) = self.next_extent().or_else(|| self.next_reserve()) {
            return Some(line);
        }
        let line = self.choose();
        let malformed = self.shape.malformed && self.formatted && self.random.one_in(MALFORMED_IN);
        let bytes = if malformed {
            malformed::bytes(&mut self.random, &line)
        } else {
            text::bytes(&mut self.random, &line)
        };
        let answer = self.bench.run(&bytes);
        if !malformed {
            self.note(&line, answer);
        }
        Some(bytes)
    }
}

impl Phase {
    fn random(random: &mut Random) -> Phase {
        Phase {
            slots: 1 + random.below(Memory::SLOTS as u32),
            free_percent: random.choose(&[5, 20, 35, 50, 65, 90]),
            most_touches: random.choose(&[2, 6, 20, 60, 300]),
            most_blocks: random.choose(&[1, 4, 16, 64]),
            interrupted_in: random.choose(&[2, 4, 12, 60]),
        }
    }
}
