//! Chains: a `cost` line whose slot then makes the calls that it speaks of and no other, an extent
//! counted as an allocate. The lines of other slots, stores and statuses may stand in between, but
//! no crash and no open.

use reference::line::{self, Line, Operation};
use reference::test_line::{self, TestLine};
use std::mem::take;

/// A chain that has begun, with the count and the answer of its `cost` line.
#[derive(Debug)]
struct Begun {
    count: u32,
    cost: u32,
    /// The blocks still to be allocated.
    left: u32,
    /// Whether they were allocated in an extent.
    extent: bool,
}

/// The chains that ended with a commit that has stores: with as many as foretold, and with fewer.
/// The first number is of those with blocks to be allocated, the second of those with none.
#[derive(Default, Debug)]
pub struct Chains {
    begun: [Vec<Begun>; 8],
    pub equal: [u32; 2],
    pub fewer: [u32; 2],
    /// Those that touched nothing.
    pub without_store: u32,
    /// Those whose blocks lie in an extent.
    pub with_extents: u32,
}

impl Chains {
    /// Takes note of a line that was accepted, with its value.
    pub fn note(&mut self, line: &[u8], value: u32) {
        match (test_line::parse(line), line::parse(line)) {
            (Some(TestLine::Cost { slot, count }), _) => {
                self.begun[slot as usize].push(Begun {
                    count,
                    cost: value,
                    left: count,
                    extent: false,
                });
            }
            (Some(TestLine::Extent { slot, count, .. }), _) => {
                self.note_taken(slot as usize, count, true);
            }
            (_, Some(line)) => self.note_call(&line, value),
            _ => {}
        }
    }

    /// Takes note of so many blocks allocated, in an extent or not.
    fn note_taken(&mut self, slot: usize, count: u32, extent: bool) {
        self.begun[slot].retain(|begun| begun.left == count);
        for begun in &mut self.begun[slot] {
            begun.left = 0;
            begun.extent = extent;
        }
    }

    fn note_call(&mut self, line: &Line, value: u32) {
        let slot = line.slot as usize;
        match line.operation {
            Operation::Crash | Operation::Open => self.begun.iter_mut().for_each(Vec::clear),
            Operation::Start | Operation::Deallocate | Operation::Drop | Operation::Revoke => {
                self.begun[slot].clear()
            }
            Operation::Allocate => self.note_taken(slot, line.number, false),
            Operation::Precommit => self.begun[slot].retain(|begun| begun.left == 0),
            Operation::Commit => {
                let begun = take(&mut self.begun[slot]);
                begun.iter().for_each(|begun| self.end(begun, value));
            }
            Operation::Format | Operation::Store | Operation::Status => {}
        }
    }

    fn end(&mut self, begun: &Begun, stores: u32) {
        assert!(stores <= begun.cost, "{stores} stores, {} foretold", begun.cost);
        let kind = usize::from(begun.count == 0);
        self.with_extents += u32::from(begun.extent);
        match stores {
            0 => self.without_store += 1,
            _ if stores == begun.cost => self.equal[kind] += 1,
            _ => self.fewer[kind] += 1,
        }
    }
}
