//! Random sequences of extent lines for `inspect`: many extents on each of many volumes, which test
//! lines make. The maker runs the inspector beside it and looks at its state.

mod calls;
mod reserves;
mod textures;
mod volumes;

use crate::inspector::Inspector;
use crate::line::Operation;
use crate::random::Random;
use crate::ranges::available_ranges;
use crate::test_line::TestLine;
use std::collections::VecDeque;
use std::ops::Range;

/// An endless sequence. It may follow any other lines.
pub struct Extents {
    random: Random,
    /// The state after all planned lines, but for the disk, which no line of these reads.
    state: Inspector,
    /// The extents still to be asked for on this volume.
    extents_left: u32,
    /// A count for which this volume has extents at chosen places, or just none.
    usual_count: u32,
    /// The block counts of the volumes still to be made in this round.
    sizes: Vec<u32>,
    planned: VecDeque<Vec<u8>>,
}

impl Extents {
    pub fn new(seed: u64) -> Extents {
        Extents {
            random: Random::new(seed),
            state: Inspector::new(),
            extents_left: 0,
            usual_count: 1,
            sizes: Vec::new(),
            planned: VecDeque::new(),
        }
    }

    fn plan(&mut self) {
        if self.extents_left == 0 {
            self.make_volume();
        } else {
            self.make_a_call();
        }
    }

    fn alter(&mut self, line: TestLine) {
        let (word, numbers) = line.fields();
        let numbers: String = numbers.iter().map(|number| format!(" {number}")).collect();
        self.put(format!("{word}{numbers}"));
    }

    fn call(&mut self, operation: Operation, slot: u32, number: u32) {
        self.put(format!("op={} seat={slot} n={number}", operation.word()));
    }

    /// Adds a line to the plan and runs it.
    fn put(&mut self, line: String) {
        let _ = self.state.run(line.as_bytes(), &mut String::new());
        self.planned.push_back(line.into_bytes());
    }

    fn ranges(&self) -> Vec<Range<u32>> {
        available_ranges(&self.state.memory)
    }
}

impl Iterator for Extents {
    type Item = Vec<u8>;

    fn next(&mut self) -> Option<Vec<u8>> {
        while self.planned.is_empty() {
            self.plan();
        }
        self.planned.pop_front()
    }
}
