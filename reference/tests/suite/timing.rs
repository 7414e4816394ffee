//! The program `timing`: which steps it makes, and that its checksum holds every answer.

use reference::timing::{self, SCRIPT_BYTES};

const FORMAT: u8 = 1;
const OPEN: u8 = 2;
const START: u8 = 3;
const ALLOCATE: u8 = 4;
const DEALLOCATE: u8 = 6;
const DROP: u8 = 9;
const STATUS: u8 = 12;
const COST: u8 = 13;

type Step = (u8, u8, u16, u16);

fn step_bytes(&(op, slot, n, near): &Step) -> Vec<u8> {
    [vec![op, slot], n.to_le_bytes().to_vec(), near.to_le_bytes().to_vec()].concat()
}

fn script(setup: u32, steps: &[Step], made: u32) -> Vec<u8> {
    let head = [setup, steps.len() as u32, made].map(u32::to_le_bytes).concat();
    [head, steps.iter().flat_map(step_bytes).collect()].concat()
}

fn printed(script: &[u8]) -> String {
    let mut output = Vec::new();
    timing::run(script, &mut output).unwrap();
    String::from_utf8(output).unwrap()
}

/// What is printed of these numbers: of each step the answer's number, its value, and a place of
/// the list.
fn checksum(numbers: &[u64]) -> String {
    let sum = numbers.iter().fold(0, |sum, number| 1_000_003 * (sum % (1 << 32)) + number);
    format!("{sum}\n")
}

/// The answers of a volume of 40 blocks, formatted, opened and started.
const READY: [u64; 9] = [0; 9];
const READY_STEPS: [Step; 3] = [(FORMAT, 0, 40, 0), (OPEN, 0, 0, 0), (START, 1, 0, 0)];

fn after_ready(steps: &[Step]) -> Vec<Step> {
    [&READY_STEPS, steps].concat()
}

#[test]
fn no_script_makes_no_step() {
    assert_eq!(printed(b""), "0\n");
    assert_eq!(printed(&script(0, &[(STATUS, 0, 0, 0)], 0)), "0\n");
}

#[test]
fn each_answer_is_in_the_checksum() {
    let steps = after_ready(&[(ALLOCATE, 1, 3, 0), (COST, 1, 3, 0), (STATUS, 0, 0, 0)]);
    let granted = [0, 0, 2];
    let cost = [0, 8, 2];
    let status = [0, 37, 3, 0, 0, 0, 1, 0];
    let expected = [&READY[..], &granted, &cost, &status].concat();
    assert_eq!(printed(&script(0, &steps, 6)), checksum(&expected));
}

#[test]
fn refusals_are_in_the_checksum() {
    let steps = [(STATUS, 0, 0, 0), (START, 9, 0, 0), (FORMAT, 0, 4097, 0)];
    assert_eq!(printed(&script(0, &steps, 3)), checksum(&[1, 0, 0, 1, 0, 0, 7, 0, 0]));
}

#[test]
fn behind_the_last_step_the_first_one_behind_the_set_up() {
    let steps = after_ready(&[(ALLOCATE, 1, 1, 0), (DEALLOCATE, 1, 39, 0)]);
    let mut expected = READY.to_vec();
    for block in 0..4 {
        expected.extend([0, block, block, 19, 0, 0]);
    }
    assert_eq!(printed(&script(3, &steps, 11)), checksum(&expected));
}

#[test]
fn a_step_without_a_call() {
    for op in [0, 15, 255] {
        assert_eq!(printed(&script(0, &[(op, 3, 7, 7)], 5)), checksum(&[0; 15]));
    }
}

#[test]
fn numbers_that_are_too_large() {
    let steps =
        after_ready(&[(DROP, 255, 0, 0), (ALLOCATE, 1, 65535, 0), (DEALLOCATE, 1, 65535, 0)]);
    let refused = [10, 0, 0, 15, 0, 0, 18, 0, 0];
    assert_eq!(printed(&script(0, &steps, 6)), checksum(&[&READY[..], &refused].concat()));
    // All steps that the bytes hold, and no more: the 10,920th is the last.
    let mut bytes = script(u32::MAX, &[], 0);
    bytes[4..12].copy_from_slice(&[255, 255, 255, 255, 0xA9, 0x2A, 0, 0]);
    bytes.resize(SCRIPT_BYTES + 100, START);
    assert_eq!(printed(&bytes), checksum(&[[1, 0, 0]; 10_921].concat()));
}
