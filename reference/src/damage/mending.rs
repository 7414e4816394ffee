//! The way back to a sound state.

use super::Damage;
use crate::calls::{open, store};
use crate::error::Error;
use crate::inspector::Inspector;
use crate::line::Operation;
use crate::memory::Memory;
use crate::repair::{disk_lines, memory_lines};
use crate::test_line::TestLine;

/// More differences than these aren't mended word by word.
const MOST_DISK_LINES: usize = 40;
pub(super) const MOST_MEMORY_LINES: usize = 12;
const GIVE_UP_IN: u32 = 40;
const OPEN_IN: u32 = 5;
const SHOW_IN: u32 = 12;
const STATUS_IN: u32 = 10;

/// Whether the history can go on from this state: the memory is valid and the disk is its own, or
/// the memory is lost and the disk can be opened.
pub fn is_sound(state: &Inspector) -> bool {
    if state.memory == Memory::ZEROS {
        return open(&state.disk).answer.is_ok();
    }
    let (mut memory, mut disk) = (state.memory.clone(), state.disk.clone());
    !matches!(
        store(&mut memory, &mut disk),
        Err(Error::InvalidMemory | Error::DiskLength | Error::DiskMismatch)
    )
}

impl Damage {
    /// Goes back to the last sound state, or opens its disk, or makes a new volume.
    pub(super) fn mend(&mut self) {
        if self.sound.is_none() {
            self.put_strays();
        }
        if self.random.one_in(GIVE_UP_IN) {
            self.make_volume();
        } else if self.random.one_in(OPEN_IN) {
            self.mend_words(0);
        } else {
            self.mend_words(MOST_MEMORY_LINES);
        }
        self.show_one_in(SHOW_IN);
    }

    /// Goes back to the last sound state word by word. Where the memory has more differences than
    /// these, the disk is opened instead; where the disk has too many, a new volume is made.
    pub(super) fn mend_words(&mut self, most_memory_lines: usize) {
        let Some(sound) = &self.sound else {
            return self.make_volume();
        };
        let disk = disk_lines(&self.state.disk, &sound.disk);
        let memory = memory_lines(&self.state.memory, &sound.memory);
        if disk.len() > MOST_DISK_LINES {
            return self.make_volume();
        }
        self.alter_all(disk);
        if memory.len() > most_memory_lines {
            self.call(Operation::Open, 0, 0);
        } else {
            self.alter_all(memory);
        }
    }

    fn alter_all(&mut self, lines: Vec<TestLine>) {
        for line in lines {
            self.alter(line);
            self.show_one_in(SHOW_IN);
            self.status_one_in(STATUS_IN);
        }
    }
}
