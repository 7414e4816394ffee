//! The numbers that test lines and `show` have for a slot's state and for the pending work.

use crate::memory::{Pending, SlotState};

pub fn slot_state_code(state: SlotState) -> u32 {
    match state {
        SlotState::Idle => 0,
        SlotState::Open => 1,
        SlotState::Precommitted => 2,
    }
}

/// The state with this code, if there is one.
pub fn slot_state_of(code: u32) -> Option<SlotState> {
    match code {
        0 => Some(SlotState::Idle),
        1 => Some(SlotState::Open),
        2 => Some(SlotState::Precommitted),
        _ => None,
    }
}

/// Kind, slot, stores done and stores due. Numbers that the kind doesn't have are 0.
pub fn pending_codes(pending: Pending) -> [u32; 4] {
    match pending {
        Pending::Nothing => [0, 0, 0, 0],
        Pending::Commit { slot, done, due } => [1, slot, done, due],
        Pending::Recovery { done, due } => [2, 0, done, due],
    }
}

/// The pending work with these codes, if there is one. Numbers that the kind doesn't have are
/// ignored.
pub fn pending_of(codes: [u32; 4]) -> Option<Pending> {
    match codes {
        [0, ..] => Some(Pending::Nothing),
        [1, slot, done, due] => Some(Pending::Commit { slot, done, due }),
        [2, _, done, due] => Some(Pending::Recovery { done, due }),
        _ => None,
    }
}
