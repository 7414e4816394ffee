//! The test line `cost`: its answer line, and that it prints and alters nothing more.

use crate::costs::cost_by_blocks;
use crate::state::BUSY_LINES;
use reference::damage::Damage;
use reference::inspector::Inspector;
use reference::{program, Error};

/// After the busy lines: slot 3 has touched nothing, slot 4 is precommitted.
const MORE: &str = "op=start seat=3 n=0
op=start seat=4 n=0
op=pre seat=4 n=0
";
const NEXT_CALL: usize = 24;

const NOT_IN_FORM: [&str; 24] = [
    "cost",
    "cost ",
    "cost 1",
    "cost 1 ",
    "cost 1 0 ",
    "cost 1 0 0",
    " cost 1 0",
    "cost  1 0",
    "cost 1  0",
    "cost\t1 0",
    "cost 1\t0",
    "cost 1 0\r",
    "Cost 1 0",
    "COST 1 0",
    "costs 1 0",
    "cos 1 0",
    "cost=1 0",
    "cost 1 4294967296",
    "cost 4294967296 0",
    "cost 1 00000000000",
    "cost 00000000001 0",
    "cost -1 0",
    "cost 1 +0",
    "op=cost seat=1 n=0",
];

fn inspect(input: &str) -> String {
    let mut output = Vec::new();
    program::inspect(input.as_bytes(), &mut output).unwrap();
    String::from_utf8(output).unwrap()
}

/// Whether the line behind the busy state prints just this answer and this value.
fn assert_prints(line: &str, answer: u32, value: u32) {
    let output = inspect(&format!("{BUSY_LINES}{MORE}{line}\n"));
    let start = output.find(&format!("call={NEXT_CALL} ")).unwrap();
    let expected = format!("call={NEXT_CALL} answer={answer} value={value}\n");
    assert_eq!(output[start..], expected, "{line}");
}

#[test]
fn what_it_prints() {
    for (line, value) in [
        ("cost 1 0", 8),
        ("cost 1 5", 8),
        ("cost 2 0", 8),
        ("cost 3 0", 0),
        ("cost 3 1", 5),
        ("cost 3 2", 8),
        ("cost 3 5", 8),
        ("cost 0000000003 0000000001", 5),
    ] {
        assert_prints(line, 0, value);
    }
}

#[test]
fn what_it_prints_when_refused() {
    assert_eq!(inspect("cost 0 0"), "call=1 answer=1 value=0\n");
    for (line, answer) in [
        ("cost 8 0", 10),
        ("cost 4294967295 4294967295", 10),
        ("cost 0 0", 12),
        ("cost 5 65", 12),
        ("cost 4 0", 13),
        ("cost 4 65", 13),
        ("cost 3 65", 15),
        ("cost 3 4294967295", 15),
        ("cost 3 6", 17),
        ("cost 3 64", 17),
    ] {
        assert_prints(line, answer, 0);
    }
    let output =
        inspect(&format!("{BUSY_LINES}{MORE}op=pre seat=2 n=0\nop=commit seat=2 n=0\ncost 3 0\n"));
    assert!(output.ends_with("call=25 answer=0 value=8\ncall=26 answer=8 value=0\n"));
}

#[test]
fn lines_not_in_form_get_21() {
    for line in NOT_IN_FORM {
        assert_prints(line, 21, 0);
    }
    assert_prints(&format!("cost 1 0{}", " ".repeat(57)), 21, 0);
}

#[test]
fn it_needs_no_list_and_no_disk() {
    let output = inspect(&format!("{BUSY_LINES}{MORE}list 0\nlength 0\ncost 3 5\nshow\n"));
    assert!(output
        .contains("call=26 answer=0 value=8\ncall=27 answer=0 value=0\nblocks=40\ncursor=35\n"));
    assert!(output.ends_with("disk length=0\nlist length=0\n"));
}

#[test]
fn the_bench_program_does_not_know_it() {
    let mut output = Vec::new();
    let lines = "cost 1 0\nop=cost seat=1 n=0\nop=cost seat=1 n=64\n";
    program::run(format!("{BUSY_LINES}{MORE}{lines}").as_bytes(), &mut output).unwrap();
    let expected =
        "call=24 answer=21 value=0\ncall=25 answer=21 value=0\ncall=26 answer=21 value=0\n";
    assert!(output.ends_with(expected.as_bytes()));
}

#[test]
fn it_answers_by_document_02_and_alters_nothing_in_any_state() {
    let mut inspector = Inspector::new();
    let mut answers = [0; 25];
    for line in Damage::new(13).take(6000) {
        let _ = inspector.run(&line, &mut String::new());
        let near = inspector.memory.available();
        for slot in [0, 1, 2, 3, 4, 5, 6, 7, 8, u32::MAX] {
            for count in [0, 1, near, near + 1, 64, 65, u32::MAX] {
                let (mut after, mut more) = (inspector.clone(), String::new());
                let answer = after.run(format!("cost {slot} {count}").as_bytes(), &mut more);
                assert_eq!(
                    (answer, more.as_str()),
                    (cost_by_blocks(&inspector.memory, slot, count), "")
                );
                assert_eq!(after, inspector);
                answers[answer.err().map_or(0, Error::code) as usize] += 1;
            }
        }
    }
    println!("{answers:?}");
    assert!([0, 1, 8, 10, 12, 13, 15, 17, 24].iter().all(|code| answers[*code] >= 1000));
    assert_eq!(answers[2..8].iter().chain(&answers[18..24]).sum::<u32>(), 0);
}
