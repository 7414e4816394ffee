//! Lines that get 21: bench lines and test lines not in form, and test lines out of range.

use super::{text, Damage};
use crate::history::malformed::{
    self, padded, with_changed_byte, with_inserted_byte, with_other_space, without_byte,
};
use crate::inspector::{LIST_PLACES, MAX_DISK_WORDS};
use crate::line::Line;
use crate::test_line::TestLine;

const MOST_LINES: u32 = 3;
const WRONG_LINES: [&str; 72] = [
    "show ",
    " show",
    "show 0",
    "Show",
    "status ",
    " status",
    "status 0",
    "Status",
    "statu",
    "status\r",
    "cost",
    "cost ",
    "cost 0",
    "cost 0 ",
    "cost 0 1 ",
    " cost 0 1",
    "cost  0 1",
    "cost 0  1",
    "cost 0 1 2",
    "Cost 0 1",
    "cost 00000000000 1",
    "cost 0 00000000001",
    "cost 0 4294967296",
    "op=cost seat=0 n=1",
    "extent",
    "extent 0 1",
    "extent 0 1 ",
    "extent 0 1 2 ",
    " extent 0 1 2",
    "extent  0 1 2",
    "extent 0 1  2",
    "extent 0 1 2 3",
    "Extent 0 1 2",
    "extents 0 1 2",
    "extent 0 1 00000000002",
    "extent 0 1 4294967296",
    "op=extent seat=0 n=1",
    "op=roll seat=0 n=0",
    "op=roll seat=1 n=0",
    "op=roll seat=7 n=0",
    "op=drops seat=0 n=0",
    "op=revok seat=0 n=0",
    "drop 0",
    "revoke 0",
    "disk 2",
    "disk 2 4294967296",
    "disk 00000000002 5",
    "sam 0 -1",
    "com 0 +1",
    "sam 0 0x1",
    "tam 0 0",
    "state 0",
    "pending 0 0 0",
    "list",
    "blocks",
    "cursor",
    "cursor 0 ",
    "cursor 0 0",
    "Cursor 0",
    "cursor 4294967296",
    "op=cursor seat=0 n=0",
    "reserve",
    "reserve 0",
    "reserve 0 ",
    "reserve 0 1 2",
    "Reserve 0 1",
    "reserve 0 4294967296",
    "op=reserve seat=0 n=1",
    "reservation 0",
    "reservation 0 4294967296",
    "drawn 0 4294967296",
    "seat 0 1",
];

impl Damage {
    /// A few lines that get 21. Some with a byte changed may be in form all the same.
    pub(super) fn put_malformed(&mut self) {
        for _ in 0..=self.random.below(MOST_LINES) {
            let bytes = match self.random.below(5) {
                0 => self.malformed_bench_line(),
                1 | 2 => self.random.choose(&WRONG_LINES).as_bytes().to_vec(),
                3 => {
                    let line = self.line_out_of_range();
                    text::bytes(&mut self.random, &line)
                }
                _ => self.deformed_test_line(),
            };
            self.put(bytes);
            self.show_one_in(3);
        }
    }

    fn malformed_bench_line(&mut self) -> Vec<u8> {
        let operation = self.any_operation();
        let (slot, number) = self.any_arguments(operation);
        malformed::bytes(&mut self.random, &Line { operation, slot, number })
    }

    fn line_out_of_range(&mut self) -> TestLine {
        let past = self.random.choose(&[0, 0, 1, u32::MAX - MAX_DISK_WORDS as u32]);
        let (slot, index, word) = (self.random.below(8), self.random.below(128), self.any_word());
        match self.random.below(12) {
            0 => TestLine::Disk { index: self.state.disk.len() as u32 + past, word },
            1 => TestLine::Length { words: MAX_DISK_WORDS as u32 + 1 + past / 2 },
            2 => TestLine::Sam { index: 128 + past, word },
            3 => TestLine::Com { index: 128 + past, word },
            4 => TestLine::Tam { slot: 8 + past, index, word },
            5 => TestLine::Tam { slot, index: 128 + past, word },
            6 => TestLine::State { slot: 8 + past, code: self.random.below(3) },
            7 => TestLine::State { slot, code: 3 + past },
            8 => TestLine::Pending { codes: [3 + past, slot, index, word] },
            9 => TestLine::Reservation { slot: 8 + past, blocks: index },
            10 => TestLine::Drawn { slot: 8 + past, blocks: index },
            _ => TestLine::List { places: LIST_PLACES as u32 + 1 + past },
        }
    }

    fn deformed_test_line(&mut self) -> Vec<u8> {
        let (slot, index, word) = (self.random.below(8), self.random.below(128), self.any_word());
        let line = self.random.choose(&[
            TestLine::Disk { index, word },
            TestLine::Length { words: 386 },
            TestLine::Cursor { block: index },
            TestLine::Sam { index, word },
            TestLine::Tam { slot, index, word },
            TestLine::State { slot, code: 1 },
            TestLine::Pending { codes: [1, slot, 0, index] },
            TestLine::Cost { slot, count: index },
            TestLine::Extent { slot, count: 1, near: index },
            TestLine::Reserve { slot, blocks: index },
            TestLine::Reservation { slot, blocks: index },
        ]);
        let bytes = text::bytes(&mut self.random, &line);
        let random = &mut self.random;
        match random.below(5) {
            0 => padded(random, bytes),
            1 => with_other_space(random, bytes),
            2 => without_byte(random, bytes),
            3 => with_inserted_byte(random, bytes),
            _ => with_changed_byte(random, bytes),
        }
    }
}
