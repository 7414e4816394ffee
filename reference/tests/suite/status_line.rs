//! The test line `status`: its answer line, what it prints behind it, and that it alters nothing.

use crate::counts::printed;
use crate::state::BUSY_LINES;
use reference::damage::Damage;
use reference::inspector::Inspector;
use reference::{program, status, Error};

fn inspect(input: &str) -> String {
    let mut output = Vec::new();
    program::inspect(input.as_bytes(), &mut output).unwrap();
    String::from_utf8(output).unwrap()
}

/// What the lines behind the busy state print.
fn after_busy(lines: &str) -> String {
    let output = inspect(&format!("{BUSY_LINES}{lines}"));
    let start = output.find("call=21 ").unwrap();
    output[start..].to_string()
}

#[test]
fn what_it_prints() {
    let expected = "call=21 answer=0 value=33
allocated=33 available=5 allocating=2 freeing=3 held=30 active=2
";
    assert_eq!(after_busy("status\n"), expected);
    assert_eq!(after_busy("status"), expected);
}

#[test]
fn what_it_prints_when_refused() {
    assert_eq!(inspect("status\n"), "call=1 answer=1 value=0\n");
    let lines = "state 1 0\nstatus\nstate 1 1\nstatus\nop=cut seat=0 n=0\nstatus\n";
    let expected = "call=21 answer=0 value=0
call=22 answer=1 value=0
call=23 answer=0 value=0
call=24 answer=0 value=33
allocated=33 available=5 allocating=2 freeing=3 held=30 active=2
call=25 answer=0 value=0
call=26 answer=1 value=0
";
    assert_eq!(after_busy(lines), expected);
}

#[test]
fn lines_not_in_form_print_nothing_more() {
    for line in ["status ", " status", "status 0", "Status", "status\r", "stat", "statuses"] {
        assert_eq!(after_busy(&format!("{line}\n")), "call=21 answer=21 value=0\n", "{line}");
    }
    let long = format!("status{}", " ".repeat(59));
    assert_eq!(after_busy(&format!("{long}\n")), "call=21 answer=21 value=0\n");
}

#[test]
fn a_memory_changed_by_test_lines_is_counted_as_it_is() {
    let lines = "blocks 4096\nsam 127 2147483649\ntam 1 127 1\ntam 2 127 3221225473\n";
    let lines = format!("{lines}com 127 1073741825\nstatus\nlength 0\nlist 0\nstatus\n");
    let output = after_busy(&lines);
    let expected = "allocated=35 available=4058 allocating=3 freeing=4 held=31 active=2";
    let counts: Vec<&str> = output.lines().filter(|line| line.starts_with("alloc")).collect();
    assert_eq!(counts, [expected; 2]);
}

#[test]
fn the_bench_program_does_not_know_it() {
    let mut output = Vec::new();
    program::run(&b"op=format seat=0 n=4\nop=open seat=0 n=0\nstatus\n"[..], &mut output).unwrap();
    assert!(output.ends_with(b"call=3 answer=21 value=0\n"));
}

/// Runs a line on a copy, which stays as it was, and gives the answer and what else is printed.
fn run(inspector: &Inspector, line: &str) -> (Result<u32, Error>, String) {
    let (mut after, mut more) = (inspector.clone(), String::new());
    let answer = after.run(line.as_bytes(), &mut more);
    assert_eq!(after, *inspector);
    (answer, more)
}

#[test]
fn it_answers_as_the_bench_line_does_in_any_state() {
    let mut inspector = Inspector::new();
    let (mut accepted, mut refused) = (0, 0);
    for line in Damage::new(12).take(20_000) {
        let _ = inspector.run(&line, &mut String::new());
        let (answer, more) = run(&inspector, "status");
        assert_eq!(run(&inspector, "op=stat seat=0 n=0"), (answer, String::new()));
        match status(&inspector.memory) {
            Ok(counts) => assert_eq!(more, printed(&counts)),
            Err(error) => assert_eq!((answer, more.as_str()), (Err(error), "")),
        }
        accepted += u32::from(answer.is_ok());
        refused += u32::from(answer.is_err());
    }
    assert!(accepted >= 10_000 && refused >= 1000, "{accepted} {refused}");
}
