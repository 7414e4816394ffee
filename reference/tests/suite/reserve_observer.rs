//! What happens to reservations in a sequence for `inspect`: it is checked after every line, and
//! counted.

use crate::reserves::{
    available_by_blocks, reservations, reservations_after, reserve_by_blocks, reserved,
    reserved_by_others, taken_by_blocks,
};
use reference::inspector::Inspector;
use reference::line::{self, Line, Operation};
use reference::test_line::{self, TestLine};
use reference::{Error, Memory, Pending, SlotState};

/// What was seen.
#[derive(Default, Debug)]
pub struct SeenReserves {
    /// Reserves by the answer's number, accepted ones as 0.
    pub answers: [u32; 25],
    /// Accepted in the place of another one that isn't 0: larger, smaller, with 0.
    pub raised: u32,
    pub lowered: u32,
    pub given_up: u32,
    /// Accepted with just what was left, and refused with one more.
    pub just_fitting: u32,
    pub one_more: u32,
    /// Accepted beside other slots' reservations, and while some slot has drawn.
    pub beside_others: u32,
    pub beside_drawn: u32,
    /// Refused with 23 though the sum, wrapped at 2^32, could be had.
    pub wrapping: u32,
    /// Refused where a later cause of reserve holds too.
    pub several_causes: u32,
    /// On a memory that test lines have changed since the last call, accepted or refused with 23.
    pub altered: u32,
    /// Refused with 24: allocates, extents, commit costs, and of all of these just one block beyond.
    pub refused_24: [u32; 3],
    pub one_beyond: u32,
    /// Accepted grants to a slot with a reservation: below it, just it, above it.
    pub grants: [u32; 3],
    /// Accepted grants that leave just what is reserved for others.
    pub to_the_limit: u32,
    /// Drops, revokes and commits that ended of transactions that have drawn, and of these those
    /// that took more than they had drawn.
    pub drawn_dropped: u32,
    pub drawn_revoked: u32,
    pub drawn_committed: u32,
    pub partly_drawn: u32,
    /// Crashes and opens that wiped a reservation.
    pub wiped: u32,
    /// Almost one of the three test lines, but not in form.
    pub not_in_form: u32,
}

impl SeenReserves {
    /// Checks and counts a line that was run. Test lines have altered the memory since the last call
    /// or not.
    pub fn note(
        &mut self,
        bytes: &[u8],
        (before, after): (&Inspector, &Inspector),
        answer: Result<u32, Error>,
        altered: bool,
    ) {
        let opens = line::parse(bytes).is_some_and(|line| line.operation == Operation::Open);
        let expected = match answer {
            Ok(value) => reservations_after(&before.memory, bytes, value),
            Err(_) if opens => [(0, 0); 8],
            Err(_) => reservations(&before.memory),
        };
        assert_eq!(reservations(&after.memory), expected, "{}", bytes.escape_ascii());
        match (line::parse(bytes), test_line::parse(bytes)) {
            (Some(line), _) => self.note_call(&before.memory, &line, answer),
            (_, Some(TestLine::Reserve { slot, blocks })) => {
                self.count(before, after, (slot, blocks), answer);
                let reached_23 = matches!(answer, Ok(_) | Err(Error::OverReserved));
                self.altered += u32::from(altered && reached_23);
            }
            (_, Some(TestLine::Extent { slot, count, .. })) => {
                self.count_grant(&before.memory, 1, (slot, count), answer);
            }
            (_, Some(TestLine::Cost { slot, count })) => {
                self.count_refused_grant(&before.memory, 2, (slot, count), answer);
            }
            _ => {}
        }
    }

    fn note_call(&mut self, before: &Memory, line: &Line, answer: Result<u32, Error>) {
        if line.operation == Operation::Allocate {
            self.count_grant(before, 0, (line.slot, line.number), answer);
        }
        let Ok(value) = answer else {
            return;
        };
        let drawn_by = |slot: u32| {
            let drawn = before.slots[slot as usize].drawn;
            (u32::from(drawn > 0), u32::from(drawn > 0 && drawn < taken_by_blocks(before, slot)))
        };
        let (counted, (drawn, partly)) = match (line.operation, before.pending) {
            (Operation::Drop, _) => (&mut self.drawn_dropped, drawn_by(line.slot)),
            (Operation::Revoke, _) => (&mut self.drawn_revoked, drawn_by(line.slot)),
            (Operation::Store, Pending::Commit { slot, .. }) if value == 0 => {
                (&mut self.drawn_committed, drawn_by(slot))
            }
            (Operation::Crash | Operation::Open, _) => {
                self.wiped += u32::from(before.reserved() > 0);
                return;
            }
            _ => return,
        };
        *counted += drawn;
        self.partly_drawn += partly;
    }

    /// Checks a reserve's answer and effect against document 02, and counts it.
    fn count(
        &mut self,
        before: &Inspector,
        after: &Inspector,
        (slot, blocks): (u32, u32),
        answer: Result<u32, Error>,
    ) {
        let expected = reserve_by_blocks(&before.memory, slot, blocks);
        assert_eq!(answer, expected.map(|()| 0), "reserve {slot} {blocks}");
        let mut state = before.clone();
        if answer.is_ok() {
            state.memory = reserved(&before.memory, slot, blocks);
            assert!(state.memory.is_valid());
        }
        assert_eq!(*after, state, "reserve {slot} {blocks}");
        self.answers[answer.err().map_or(0, Error::code) as usize] += 1;
        match answer {
            Ok(_) => self.count_accepted(&before.memory, slot, blocks),
            Err(error) => self.count_refused(&before.memory, (slot, blocks), error),
        }
    }

    fn count_accepted(&mut self, memory: &Memory, slot: u32, blocks: u32) {
        let others = reserved_by_others(memory, slot);
        let old = memory.slots[slot as usize].reservation;
        self.raised += u32::from(old > 0 && blocks > old);
        self.lowered += u32::from(blocks > 0 && blocks < old);
        self.given_up += u32::from(blocks == 0 && old > 0);
        let left = u128::from(available_by_blocks(memory)) - others;
        self.just_fitting += u32::from(blocks > 0 && u128::from(blocks) == left);
        self.beside_others += u32::from(blocks > 0 && others > 0);
        self.beside_drawn += u32::from(memory.slots.iter().any(|slot| slot.drawn > 0));
    }

    fn count_refused(&mut self, memory: &Memory, (slot, blocks): (u32, u32), error: Error) {
        let available = available_below(memory);
        if error == Error::OverReserved {
            let sum = reserved_by_others(memory, slot) + u128::from(blocks);
            self.one_more += u32::from(sum == available + 1);
            self.wrapping += u32::from(sum % (1 << 32) <= available);
        }
        let is_active = |slot: u32| {
            memory.slots.get(slot as usize).is_some_and(|slot| slot.state != SlotState::Idle)
        };
        let later = error < Error::SlotNumber && slot > 7
            || error < Error::SlotNotIdle && is_active(slot)
            || error < Error::OverReserved && u128::from(blocks) > available;
        self.several_causes += u32::from(later);
    }

    /// Counts a grant: allocates are kind 0, extents 1.
    fn count_grant(
        &mut self,
        memory: &Memory,
        kind: usize,
        (slot, count): (u32, u32),
        answer: Result<u32, Error>,
    ) {
        self.count_refused_grant(memory, kind, (slot, count), answer);
        if answer.is_err() {
            return;
        }
        let own = memory.slots[slot as usize].reservation;
        if own > 0 {
            self.grants[usize::from(count >= own) + usize::from(count > own)] += 1;
        }
        let others = reserved_by_others(memory, slot);
        let left = u128::from(available_by_blocks(memory) - count);
        self.to_the_limit += u32::from(others > 0 && left == others);
    }

    /// The same of those refused with 24, and of commit costs, kind 2.
    fn count_refused_grant(
        &mut self,
        memory: &Memory,
        kind: usize,
        (slot, count): (u32, u32),
        answer: Result<u32, Error>,
    ) {
        if answer == Err(Error::ReservedForOthers) {
            self.refused_24[kind] += 1;
            let left = u128::from(available_by_blocks(memory) - count);
            self.one_beyond += u32::from(left + 1 == reserved_by_others(memory, slot));
        }
    }
}

/// The available blocks of any memory.
fn available_below(memory: &Memory) -> u128 {
    u128::from(memory.available())
}
