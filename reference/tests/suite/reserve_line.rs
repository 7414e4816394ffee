//! The test lines `reserve`, `reservation` and `drawn`: their answer lines, what they alter, and how
//! `show` prints it.

use crate::reserves::{reserve_by_blocks, reserved};
use crate::state::BUSY_LINES;
use reference::damage::Damage;
use reference::inspector::Inspector;
use reference::{program, Error};

/// After the busy lines: slot 4 is precommitted. 5 blocks are available.
const MORE: &str = "op=start seat=4 n=0
op=pre seat=4 n=0
";
const NEXT_CALL: usize = 23;

const NOT_IN_FORM: [&str; 30] = [
    "reserve",
    "reserve ",
    "reserve 3",
    "reserve 3 ",
    "reserve 3 1 ",
    "reserve 3 1 0",
    " reserve 3 1",
    "reserve  3 1",
    "reserve 3  1",
    "reserve\t3 1",
    "reserve 3 1\r",
    "Reserve 3 1",
    "RESERVE 3 1",
    "reserves 3 1",
    "reserv 3 1",
    "reserve=3 1",
    "reserve 3 4294967296",
    "reserve 4294967296 1",
    "reserve 3 00000000001",
    "reserve -3 1",
    "reserve 3 +1",
    "op=reserve seat=3 n=1",
    "reservation 3",
    "reservation 8 1",
    "reservation 4294967295 1",
    "reservation 3 4294967296",
    "op=reservation seat=3 n=1",
    "drawn 3",
    "drawn 8 1",
    "op=drawn seat=3 n=1",
];

fn inspect(input: &str) -> String {
    let mut output = Vec::new();
    program::inspect(input.as_bytes(), &mut output).unwrap();
    String::from_utf8(output).unwrap()
}

/// What the lines behind the busy state print.
fn after_busy(lines: &str) -> String {
    let output = inspect(&format!("{BUSY_LINES}{MORE}{lines}"));
    let start = output.find(&format!("call={NEXT_CALL} ")).unwrap();
    output[start..].to_string()
}

/// Whether the line behind the busy state prints just this answer, with the value 0.
fn assert_prints(line: &str, answer: u32) {
    let expected = format!("call={NEXT_CALL} answer={answer} value=0\n");
    assert_eq!(after_busy(&format!("{line}\n")), expected, "{line}");
}

/// The slots' lines that a `show` behind these lines prints.
fn slots_after(lines: &str) -> Vec<String> {
    let output = after_busy(&format!("{lines}\nshow\n"));
    output.lines().filter(|line| line.starts_with("slot ")).map(str::to_string).collect()
}

#[test]
fn what_it_prints() {
    for line in ["reserve 3 5", "reserve 0 0", "reserve 7 1", "reserve 0000000003 0000000005"] {
        assert_prints(line, 0);
    }
    for line in ["reservation 3 5", "reservation 1 4294967295", "drawn 0 4294967295", "drawn 7 0"] {
        assert_prints(line, 0);
    }
}

#[test]
fn what_it_prints_when_refused() {
    assert_eq!(inspect("reserve 0 0"), "call=1 answer=1 value=0\n");
    for (line, answer) in [
        ("reserve 8 1", 10),
        ("reserve 4294967295 4294967295", 10),
        ("reserve 1 0", 11),
        ("reserve 1 6", 11),
        ("reserve 4 6", 11),
        ("reserve 3 6", 23),
        ("reserve 3 4294967295", 23),
    ] {
        assert_prints(line, answer);
    }
    let pending = after_busy("op=pre seat=2 n=0\nop=commit seat=2 n=0\nreserve 8 6\n");
    assert!(pending.ends_with("call=24 answer=0 value=8\ncall=25 answer=8 value=0\n"));
    let invalid = after_busy("reservation 3 6\nreserve 3 0\nreservation 3 0\nreserve 3 0\n");
    let expected = "call=24 answer=1 value=0\ncall=25 answer=0 value=0\ncall=26 answer=0 value=0\n";
    assert!(invalid.ends_with(expected), "{invalid}");
}

#[test]
fn lines_not_in_form_or_out_of_range_get_21() {
    for line in NOT_IN_FORM {
        assert_prints(line, 21);
    }
    assert_prints(&format!("reserve 3 1{}", " ".repeat(54)), 21);
}

#[test]
fn what_show_prints() {
    let before = slots_after("?");
    assert_eq!(before[0], "slot 0 state=0 reservation=0 drawn=0");
    assert_eq!(before[1], "slot 1 state=1 reservation=0 drawn=0 0:4294967295 1:7");
    let after = slots_after("reserve 3 4\nreserve 0 1\nreservation 1 4294967295\ndrawn 1 17");
    assert_eq!(after[0], "slot 0 state=0 reservation=1 drawn=0");
    assert_eq!(after[1], "slot 1 state=1 reservation=4294967295 drawn=17 0:4294967295 1:7");
    assert_eq!(after[3], "slot 3 state=0 reservation=4 drawn=0");
    assert_eq!(after[4..], before[4..]);
}

#[test]
fn what_bench_lines_leave_of_it() {
    let lines = "reserve 3 4\nop=start seat=3 n=0\nop=alloc seat=3 n=3";
    assert_eq!(slots_after(lines)[3], "slot 3 state=1 reservation=1 drawn=3 0:4294967295 1:57");
    let dropped = format!("{lines}\nop=drop seat=3 n=0");
    assert_eq!(slots_after(&dropped)[3], "slot 3 state=0 reservation=4 drawn=0");
    let refused = format!("{lines}\nop=alloc seat=1 n=2\ncost 1 2\nextent 1 2 0\ncost 1 0\n");
    let expected = "call=26 answer=24 value=0\ncall=27 answer=24 value=0\n\
        call=28 answer=24 value=0\ncall=29 answer=0 value=8\n";
    assert!(after_busy(&refused).ends_with(expected), "{}", after_busy(&refused));
    let crashed = format!("{lines}\nop=cut seat=0 n=0");
    assert_eq!(slots_after(&crashed)[3], "slot 3 state=0 reservation=0 drawn=0");
}

#[test]
fn the_bench_program_does_not_know_them() {
    let mut output = Vec::new();
    let lines = "reserve 3 5\nop=reserve seat=3 n=5\nreservation 3 5\ndrawn 1 2\n";
    let last = "op=alloc seat=1 n=5\n";
    program::run(format!("{BUSY_LINES}{MORE}{lines}{last}").as_bytes(), &mut output).unwrap();
    let refused: String = (23..27).map(|call| format!("call={call} answer=21 value=0\n")).collect();
    let expected = format!("{refused}call=27 answer=0 value=35\n");
    assert!(output.ends_with(expected.as_bytes()));
}

#[test]
fn it_answers_by_document_02_in_any_state() {
    let mut inspector = Inspector::new();
    let mut answers = [0; 25];
    for line in Damage::new(16).take(6000) {
        let _ = inspector.run(&line, &mut String::new());
        let available = inspector.memory.available();
        for slot in [0, 1, 2, 3, 4, 5, 6, 7, 8, u32::MAX] {
            for blocks in [0, 1, available, available + 1, u32::MAX] {
                let (mut after, mut more) = (inspector.clone(), String::new());
                let answer = after.run(format!("reserve {slot} {blocks}").as_bytes(), &mut more);
                let expected = reserve_by_blocks(&inspector.memory, slot, blocks);
                assert_eq!((answer, more.as_str()), (expected.map(|()| 0), ""));
                let mut state = inspector.clone();
                if answer.is_ok() {
                    state.memory = reserved(&inspector.memory, slot, blocks);
                }
                assert_eq!(after, state);
                answers[answer.err().map_or(0, Error::code) as usize] += 1;
            }
        }
    }
    println!("{answers:?}");
    for (code, times) in answers.into_iter().enumerate() {
        let named = [0, 1, 8, 10, 11, 23].contains(&code);
        assert!(if named { times >= 100 } else { times == 0 }, "{code}: {times}");
    }
}
