//! New volumes.

use super::Damage;
use crate::bitmap::Bitmap;
use crate::disk::DISK_WORDS;
use crate::line::Operation;
use crate::test_line::TestLine;

/// Block counts of small volumes, at the edges of words.
const SMALL_VOLUMES: [u32; 13] = [1, 2, 31, 32, 33, 63, 64, 65, 96, 97, 127, 128, 129];
const LARGE_VOLUMES: [u32; 6] = [1000, 2048, 4064, 4065, 4095, 4096];
const SOMEWHAT_LARGER: u32 = 200;
const STRAYS_IN: u32 = 3;
const SHOW_IN: u32 = 3;
const STATUS_IN: u32 = 3;

impl Damage {
    /// Makes a new volume, mostly a small one.
    pub(super) fn make_volume(&mut self) {
        let blocks = match self.random.below(8) {
            0..=3 => self.random.choose(&SMALL_VOLUMES),
            4 | 5 => 1 + self.random.below(SOMEWHAT_LARGER),
            6 => self.random.choose(&LARGE_VOLUMES),
            _ => 1 + self.random.below(Bitmap::MAX_BLOCKS),
        };
        self.make_volume_of(blocks);
    }

    /// Formats a volume of this many blocks and opens it.
    pub(super) fn make_volume_of(&mut self, blocks: u32) {
        if self.state.disk.len() != DISK_WORDS {
            self.alter(TestLine::Length { words: DISK_WORDS as u32 });
        }
        self.call(Operation::Format, 0, blocks);
        self.show_one_in(SHOW_IN);
        if self.random.one_in(STRAYS_IN) {
            self.put_strays();
        }
        self.call(Operation::Open, 0, 0);
        self.show_one_in(SHOW_IN);
        self.status_one_in(STATUS_IN);
    }
}
