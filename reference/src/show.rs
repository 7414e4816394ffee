//! What `show` prints: the inspector's whole state, words that are 0 left out of bitmaps and disk.

use crate::codes::{pending_codes, slot_state_code};
use crate::inspector::Inspector;
use crate::memory::Slot;
use std::fmt::{self, Display, Formatter};

impl Display for Inspector {
    fn fmt(&self, output: &mut Formatter) -> fmt::Result {
        let memory = &self.memory;
        let [kind, slot, done, due] = pending_codes(memory.pending);
        writeln!(output, "blocks={}", memory.blocks)?;
        writeln!(output, "cursor={}", memory.cursor)?;
        writeln!(output, "pending={kind} {slot} {done} {due}")?;
        writeln!(output, "sam{}", Words(&memory.sam.words))?;
        writeln!(output, "com{}", Words(&memory.com.words))?;
        for (index, slot) in memory.slots.iter().enumerate() {
            let Slot { state, tam, reservation, drawn } = slot;
            write!(output, "slot {index} state={} ", slot_state_code(*state))?;
            writeln!(output, "reservation={reservation} drawn={drawn}{}", Words(&tam.words))?;
        }
        writeln!(output, "disk length={}{}", self.disk.len(), Words(&self.disk))?;
        write!(output, "list length={}", self.places)?;
        let list = &self.list[..self.places];
        list.iter().try_for_each(|block| write!(output, " {block}"))?;
        writeln!(output)
    }
}

/// The words that aren't 0, each with its index and after a space.
struct Words<'a>(&'a [u32]);

impl Display for Words<'_> {
    fn fmt(&self, output: &mut Formatter) -> fmt::Result {
        let mut others = self.0.iter().enumerate().filter(|(_, word)| **word != 0);
        others.try_for_each(|(index, word)| write!(output, " {index}:{word}"))
    }
}
