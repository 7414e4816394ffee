//! A call written as a bench line in form, now and then with leading zeros or with numbers in the
//! fields that the call ignores.

use crate::line::{Line, Operation, MAX_DIGITS};
use crate::random::Random;

const ODD_IN: u32 = 10;
const ANY_NUMBER: u32 = 100_000;

pub fn bytes(random: &mut Random, line: &Line) -> Vec<u8> {
    let slot = field(random, line.slot, uses_slot(line.operation));
    let number = field(random, line.number, uses_number(line.operation));
    format!("op={} seat={slot} n={number}", line.operation.word()).into_bytes()
}

fn field(random: &mut Random, value: u32, is_used: bool) -> String {
    let value = if !is_used && random.one_in(ODD_IN) { random.below(ANY_NUMBER) } else { value };
    let width = if random.one_in(ODD_IN) { 1 + random.below(MAX_DIGITS as u32) } else { 1 };
    format!("{value:0width$}", width = width as usize)
}

fn uses_slot(operation: Operation) -> bool {
    !matches!(
        operation,
        Operation::Format
            | Operation::Open
            | Operation::Store
            | Operation::Status
            | Operation::Crash
    )
}

fn uses_number(operation: Operation) -> bool {
    matches!(operation, Operation::Format | Operation::Allocate | Operation::Deallocate)
}
