//! Random sequences of bench lines and test lines. The maker runs the inspector beside it and looks
//! at its state: it aims at each cause for each call, damages what the call is lent where it must,
//! and mends the damage, so that the history goes on.

mod aims;
mod arguments;
mod beside;
mod costs;
mod counts;
mod disk_damage;
mod extents;
mod log_damage;
mod malformed;
mod memory_damage;
mod mending;
mod other_memory;
mod pending_damage;
mod reserve_damage;
mod reserves;
mod scenes;
mod text;
mod volumes;
mod wide;
mod work;

use crate::error::Error;
use crate::history::{self, History};
use crate::inspector::Inspector;
use crate::line::{Line, Operation};
use crate::memory::Pending;
use crate::random::Random;
use crate::test_line::TestLine;
use aims::{Aim, Call};
use beside::Made;
use mending::is_sound;
use std::collections::VecDeque;

const NEW_VOLUME_IN: u32 = 80;
const WIDE_WORK_IN: u32 = 800;
const MALFORMED_IN: u32 = 15;
const STEPS_IN: u32 = 4;
const MOST_STEPS: u32 = 4;
/// One in this many steps of pending work isn't a store.
const INTERRUPTED_IN: u32 = 10;
const STRAYS_IN: u32 = 6;
const MOST_STRAYS: u32 = 3;
const SHORT_LIST_IN: u32 = 4;
const SHOW_AFTER_STEP_IN: u32 = 12;
const UNSHOWN_CALL_IN: u32 = 3;
const SHOW_STRAY_IN: u32 = 4;
const SHOW_DAMAGE_IN: u32 = 10;
const STATUS_AFTER_CALL_IN: u32 = 6;
const STATUS_OF_DAMAGE_IN: u32 = 4;
const COST_AFTER_CALL_IN: u32 = 12;
const EXTENT_AFTER_CALL_IN: u32 = 16;
const RESERVE_AFTER_CALL_IN: u32 = 12;
/// One in this many calls of status is a test line, the others are bench lines.
const STATUS_LINE_IN: u32 = 6;

/// An endless sequence.
pub struct Damage {
    random: Random,
    /// The state after all planned lines.
    state: Inspector,
    /// The last sound state, to which damage is mended.
    sound: Option<Inspector>,
    /// What the transactions do between damages.
    history: History,
    /// The aims still to be reached in this round.
    aims: Vec<Aim>,
    planned: VecDeque<Vec<u8>>,
}

impl Damage {
    pub fn new(seed: u64) -> Damage {
        let mut random = Random::new(seed);
        Damage {
            history: History::to_be_resumed(random.number()),
            random,
            state: Inspector::new(),
            sound: None,
            aims: Aim::all(),
            planned: VecDeque::new(),
        }
    }

    /// Plans some lines, or none if what was tried can't be done in this state.
    fn plan(&mut self) {
        if !is_sound(&self.state) {
            self.mend();
        } else if self.random.one_in(NEW_VOLUME_IN) {
            self.make_volume();
        } else if self.random.one_in(WIDE_WORK_IN) {
            self.do_wide_work();
        } else if self.random.one_in(MALFORMED_IN) {
            self.put_malformed();
        } else if self.random.one_in(STEPS_IN) {
            self.take_steps();
        } else {
            self.pursue_aim();
        }
    }

    /// Goes on with the history for a while, mostly with the whole list.
    fn take_steps(&mut self) {
        if !self.random.one_in(SHORT_LIST_IN) {
            self.lengthen_list();
        }
        for _ in 0..=self.random.below(MOST_STEPS) {
            let at_rest = self.state.memory.pending == Pending::Nothing;
            if !is_sound(&self.state) {
                break;
            } else if at_rest || self.random.one_in(INTERRUPTED_IN) {
                self.history.resume(&self.state.memory, &self.state.disk);
                let line = self.history.choose();
                self.put_line(&line);
            } else {
                self.call(Operation::Store, 0, 0);
            }
            self.show_one_in(SHOW_AFTER_STEP_IN);
            self.status_one_in(STATUS_AFTER_CALL_IN);
            self.cost_one_in(COST_AFTER_CALL_IN);
            self.extent_one_in(EXTENT_AFTER_CALL_IN);
            self.reserve_one_in(RESERVE_AFTER_CALL_IN);
        }
    }

    /// Tries for one of the aims that are still to be reached.
    fn pursue_aim(&mut self) {
        let aim = self.choose_aim();
        let Some((slot, number)) = self.prepare(aim) else {
            return;
        };
        self.show_one_in(SHOW_DAMAGE_IN);
        self.status_one_in(STATUS_OF_DAMAGE_IN);
        let error = match aim.call {
            Call::Bench(operation) => self.call(operation, slot, number),
            Call::Cost => self.cost(slot, number),
            Call::Extent => {
                let near = self.near_for(aim.error, number);
                self.extent(slot, number, near)
            }
            Call::Reserve => self.reserve(slot, number),
        };
        if error == aim.error {
            self.strike_off(aim);
        }
        if aim.is_of_a_transaction() {
            self.call_beside(Made { call: aim.call, slot, number, error });
        }
        self.show_mostly();
        self.status_one_in(STATUS_AFTER_CALL_IN);
        if self.random.one_in(STRAYS_IN) {
            self.put_strays();
        }
    }

    /// A few calls in whatever state this is.
    fn put_strays(&mut self) {
        for _ in 0..=self.random.below(MOST_STRAYS) {
            let operation = self.any_operation();
            let (slot, number) = self.any_arguments(operation);
            self.call(operation, slot, number);
            self.show_one_in(SHOW_STRAY_IN);
            self.status_one_in(STATUS_AFTER_CALL_IN);
            self.cost_one_in(COST_AFTER_CALL_IN);
            self.extent_one_in(EXTENT_AFTER_CALL_IN);
            self.reserve_one_in(RESERVE_AFTER_CALL_IN);
        }
    }

    fn show_mostly(&mut self) {
        if !self.random.one_in(UNSHOWN_CALL_IN) {
            self.alter(TestLine::Show);
        }
    }

    fn show_one_in(&mut self, times: u32) {
        if self.random.one_in(times) {
            self.alter(TestLine::Show);
        }
    }

    fn status_one_in(&mut self, times: u32) {
        if self.random.one_in(times) {
            self.alter(TestLine::Status);
        }
    }

    fn call(&mut self, operation: Operation, slot: u32, number: u32) -> Option<Error> {
        self.put_line(&Line { operation, slot, number })
    }

    /// Adds the bench line, or now and then the test line of the same call.
    fn put_line(&mut self, line: &Line) -> Option<Error> {
        let is_status = line.operation == Operation::Status;
        let bytes = if is_status && self.random.one_in(STATUS_LINE_IN) {
            text::bytes(&mut self.random, &TestLine::Status)
        } else {
            history::text::bytes(&mut self.random, line)
        };
        self.put(bytes)
    }

    fn alter(&mut self, line: TestLine) {
        self.put_test_line(&line);
    }

    fn put_test_line(&mut self, line: &TestLine) -> Option<Error> {
        let bytes = text::bytes(&mut self.random, line);
        self.put(bytes)
    }

    /// Adds a line to the plan and runs it. It gives the error if the line is refused.
    fn put(&mut self, bytes: Vec<u8>) -> Option<Error> {
        let answer = self.state.run(&bytes, &mut String::new());
        self.planned.push_back(bytes);
        if is_sound(&self.state) {
            self.sound = Some(self.state.clone());
        }
        answer.err()
    }
}

impl Iterator for Damage {
    type Item = Vec<u8>;

    fn next(&mut self) -> Option<Vec<u8>> {
        while self.planned.is_empty() {
            self.plan();
        }
        self.planned.pop_front()
    }
}
