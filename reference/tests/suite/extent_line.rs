//! The test line `extent`: its answer line, what it leaves in the list, and that it prints no more.

use crate::extents::{assert_granted, extent_by_blocks, Asked};
use crate::state::BUSY_LINES;
use reference::damage::Damage;
use reference::inspector::Inspector;
use reference::{program, Error};

/// After the busy lines: slot 3 has touched nothing, slot 4 is precommitted. Blocks 35 to 39 are
/// available.
const MORE: &str = "op=start seat=3 n=0
op=start seat=4 n=0
op=pre seat=4 n=0
";
const NEXT_CALL: usize = 24;

const NOT_IN_FORM: [&str; 26] = [
    "extent",
    "extent ",
    "extent 1",
    "extent 1 1",
    "extent 1 1 ",
    "extent 1 1 0 ",
    "extent 1 1 0 0",
    " extent 1 1 0",
    "extent  1 1 0",
    "extent 1  1 0",
    "extent 1 1  0",
    "extent\t1 1 0",
    "extent 1 1\t0",
    "extent 1 1 0\r",
    "Extent 1 1 0",
    "EXTENT 1 1 0",
    "extents 1 1 0",
    "exten 1 1 0",
    "extent=1 1 0",
    "extent 1 1 4294967296",
    "extent 4294967296 1 0",
    "extent 1 1 00000000000",
    "extent 00000000001 1 0",
    "extent -1 1 0",
    "extent 1 +1 0",
    "op=extent seat=1 n=1",
];

fn inspect(input: &str) -> String {
    let mut output = Vec::new();
    program::inspect(input.as_bytes(), &mut output).unwrap();
    String::from_utf8(output).unwrap()
}

/// What the lines behind the busy state print.
fn after_busy(lines: &str) -> String {
    let output = inspect(&format!("{BUSY_LINES}{MORE}{lines}"));
    let start = output.find(&format!("call={NEXT_CALL} ")).unwrap();
    output[start..].to_string()
}

/// Whether the line behind the busy state prints just this answer and this value.
fn assert_prints(line: &str, answer: u32, value: u32) {
    let expected = format!("call={NEXT_CALL} answer={answer} value={value}\n");
    assert_eq!(after_busy(&format!("{line}\n")), expected, "{line}");
}

#[test]
fn what_it_prints() {
    for (line, value) in [
        ("extent 1 1 0", 35),
        ("extent 1 5 39", 35),
        ("extent 2 1 37", 37),
        ("extent 3 2 38", 38),
        ("extent 3 2 39", 38),
        ("extent 0000000003 0000000002 0000000039", 38),
    ] {
        assert_prints(line, 0, value);
    }
}

#[test]
fn what_it_prints_when_refused() {
    assert_eq!(inspect("extent 0 1 0"), "call=1 answer=1 value=0\n");
    for (line, answer) in [
        ("extent 8 1 0", 10),
        ("extent 4294967295 4294967295 4294967295", 10),
        ("extent 0 1 0", 12),
        ("extent 5 65 40", 12),
        ("extent 4 1 0", 13),
        ("extent 3 0 0", 15),
        ("extent 3 65 40", 15),
        ("extent 3 4294967295 0", 15),
        ("extent 3 1 40", 18),
        ("extent 3 64 4294967295", 18),
        ("extent 3 6 0", 22),
        ("extent 3 64 39", 22),
    ] {
        assert_prints(line, answer, 0);
    }
    let pending = after_busy("op=pre seat=2 n=0\nop=commit seat=2 n=0\nextent 3 1 0\n");
    assert!(pending.ends_with("call=25 answer=0 value=8\ncall=26 answer=8 value=0\n"));
    let short_list = after_busy("list 1\nextent 3 2 0\nextent 3 1 0\n");
    assert!(short_list.ends_with("call=25 answer=16 value=0\ncall=26 answer=0 value=35\n"));
}

#[test]
fn lines_not_in_form_get_21() {
    for line in NOT_IN_FORM {
        assert_prints(line, 21, 0);
    }
    assert_prints(&format!("extent 1 1 0{}", " ".repeat(53)), 21, 0);
}

#[test]
fn the_list_keeps_what_it_wrote() {
    let list = |lines: &str| {
        let output = after_busy(&format!("{lines}\nshow\n"));
        output.lines().last().unwrap().to_string()
    };
    let former = list("list 5");
    assert_eq!(former, "list length=5 33 34 2 3 4");
    assert_eq!(list("list 5\nextent 3 3 36"), "list length=5 36 37 38 3 4");
    assert_eq!(list("list 5\nextent 3 3 36\nextent 1 1 0"), "list length=5 35 37 38 3 4");
    assert_eq!(list("list 5\nextent 3 3 40"), former);
    assert_eq!(list("list 3\nextent 3 3 36\nlist 5"), "list length=5 36 37 38 3 4");
    assert_eq!(list("list 2\nextent 3 3 36\nlist 5"), former);
}

#[test]
fn what_it_alters() {
    let output = after_busy("length 0\nextent 3 3 36\nshow\n");
    let expected = "blocks=40
cursor=39
pending=0 0 0 0
sam 0:4294967295 1:1
com 0:2147483646 1:118
slot 0 state=0 reservation=0 drawn=0
slot 1 state=1 reservation=0 drawn=0 0:4294967295 1:7
slot 2 state=1 reservation=0 drawn=0 0:2147483646
slot 3 state=1 reservation=0 drawn=0 0:4294967295 1:113
slot 4 state=2 reservation=0 drawn=0 0:4294967295 1:1
";
    let (_, shown) = output.split_once("call=26 answer=0 value=0\n").unwrap();
    assert!(shown.starts_with(expected), "{shown}");
    assert!(shown.contains("\ndisk length=0\nlist length=64 36 37 38 3 4 "), "{shown}");
}

#[test]
fn the_bench_program_does_not_know_it() {
    let mut output = Vec::new();
    let lines = "extent 1 1 0\nop=extent seat=1 n=1\nop=alloc seat=1 n=1\n";
    program::run(format!("{BUSY_LINES}{MORE}{lines}").as_bytes(), &mut output).unwrap();
    let expected =
        "call=24 answer=21 value=0\ncall=25 answer=21 value=0\ncall=26 answer=0 value=35\n";
    assert!(output.ends_with(expected.as_bytes()));
}

#[test]
fn it_answers_by_document_02_in_any_state() {
    let mut inspector = Inspector::new();
    let mut answers = [0; 25];
    for (index, line) in Damage::new(14).take(6000).enumerate() {
        let _ = inspector.run(&line, &mut String::new());
        let blocks = inspector.memory.blocks.min(5000);
        let near = index as u32 * 7919 % (blocks + 1);
        for slot in [0, 1, 2, 3, 4, 5, 6, 7, 8, u32::MAX] {
            for count in [0, 1, 3, 64, 65] {
                let asked = Asked { slot, count, near };
                let (mut after, mut more) = (inspector.clone(), String::new());
                let answer =
                    after.run(format!("extent {slot} {count} {near}").as_bytes(), &mut more);
                assert_eq!(answer, extent_by_blocks(&inspector.memory, inspector.places, asked));
                assert_eq!(more, "");
                match answer {
                    Ok(start) => assert_granted(&inspector, &after, asked, start),
                    Err(_) => assert_eq!(after, inspector),
                }
                answers[answer.err().map_or(0, Error::code) as usize] += 1;
            }
        }
    }
    println!("{answers:?}");
    assert!([0, 1, 8, 10, 12, 13, 15, 16, 18, 22, 24].iter().all(|code| answers[*code] >= 100));
    let others = [2, 3, 4, 5, 6, 7, 9, 11, 14, 17, 19, 20, 21, 23];
    assert!(others.iter().all(|code| answers[*code] == 0));
}
