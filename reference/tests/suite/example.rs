//! The example of document 01, through the built program.

use std::io::Write;
use std::process::{Command, Output, Stdio};

const INPUT: &str = "op=format seat=0 n=4
op=open seat=0 n=0
op=start seat=1 n=0
op=alloc seat=1 n=2
op=pre seat=1 n=0
op=commit seat=1 n=0
op=store seat=0 n=0
op=store seat=0 n=0
op=store seat=0 n=0
op=cut seat=0 n=0
op=stat seat=0 n=0
op=open seat=0 n=0
";

const OUTPUT: &str = "call=1 answer=0 value=0
call=2 answer=0 value=0
call=3 answer=0 value=0
call=4 answer=0 value=0
call=5 answer=0 value=0
call=6 answer=0 value=5
call=7 answer=0 value=4
call=8 answer=0 value=3
call=9 answer=0 value=2
call=10 answer=0 value=0
call=11 answer=1 value=0
call=12 answer=0 value=2
";

fn run_program(arguments: &[&str], input: &str) -> Output {
    let mut program = Command::new(env!("CARGO_BIN_EXE_reference"))
        .args(arguments)
        .stdin(Stdio::piped())
        .stdout(Stdio::piped())
        .stderr(Stdio::piped())
        .spawn()
        .unwrap();
    program.stdin.take().unwrap().write_all(input.as_bytes()).unwrap();
    program.wait_with_output().unwrap()
}

#[test]
fn the_example_of_document_01() {
    let output = run_program(&["bench"], INPUT);
    assert!(output.status.success());
    assert_eq!(String::from_utf8(output.stdout).unwrap(), OUTPUT);
}

#[test]
fn the_program_prints_a_history_that_depends_on_its_arguments_alone() {
    let print = |arguments: &[&str]| {
        let output = run_program(arguments, "");
        assert!(output.status.success());
        output.stdout
    };
    let history = print(&["history", "5", "400", "33"]);
    assert!(history.starts_with(b"op=format seat="));
    assert_eq!(history.iter().filter(|byte| **byte == b'\n').count(), 400);
    assert_eq!(history, print(&["history", "5", "400", "33"]));
    assert_ne!(history, print(&["history", "6", "400", "33"]));
    assert_ne!(history, print(&["history", "5", "400", "33", "--malformed"]));
    let damage = print(&["damage", "5", "400"]);
    assert_eq!(damage.iter().filter(|byte| **byte == b'\n').count(), 400);
    assert_eq!(damage, print(&["damage", "5", "400"]));
    assert_ne!(damage, print(&["damage", "6", "400"]));
    let extents = print(&["extents", "5", "400"]);
    assert_eq!(extents.iter().filter(|byte| **byte == b'\n').count(), 400);
    assert_eq!(extents, print(&["extents", "5", "400"]));
    assert_ne!(extents, print(&["extents", "6", "400"]));
}

#[test]
fn the_options_of_a_history_stand_in_any_order() {
    let print = |options: &[&str]| {
        let arguments = [&["history", "5", "400", "33"], options].concat();
        let output = run_program(&arguments, "");
        assert!(output.status.success());
        String::from_utf8_lossy(&output.stdout).into_owned()
    };
    let without_status = |history: String| history.replace("\nstatus\n", "\n");
    let (plain, malformed) = (print(&[]), print(&["--malformed"]));
    let (status, both) = (print(&["--status"]), print(&["--status", "--malformed"]));
    assert!(status.matches("\nstatus\n").count() > 100);
    assert_eq!(without_status(status), plain);
    assert_eq!(both, print(&["--malformed", "--status"]));
    assert_eq!(without_status(both.clone()), malformed);
    let without_cost = |history: String| {
        let others = history.split_inclusive('\n').filter(|line| !line.starts_with("cost "));
        others.collect::<String>()
    };
    let cost = print(&["--cost"]);
    assert!(cost.matches("\ncost ").count() > 50);
    assert_eq!(without_cost(cost), plain);
    assert_eq!(without_cost(print(&["--malformed", "--cost"])), malformed);
    let all = print(&["--cost", "--malformed", "--status"]);
    assert_eq!(all, print(&["--status", "--malformed", "--cost"]));
    assert_eq!(all, print(&["--malformed", "--cost", "--status"]));
    assert_eq!(without_cost(all), both);
    let extent = print(&["--extent"]);
    assert!(extent.matches("\nextent ").count() > 20);
    assert_eq!(extent.lines().count(), 400);
    assert_eq!(without_cost(print(&["--extent", "--cost"])), extent);
    let all = print(&["--cost", "--extent", "--malformed", "--status"]);
    assert_eq!(all, print(&["--extent", "--status", "--malformed", "--cost"]));
    assert_eq!(without_status(without_cost(all)), print(&["--malformed", "--extent"]));
}

#[test]
fn the_program_inspects() {
    let output =
        run_program(&["inspect"], &format!("{INPUT}list 1\nshow\nop=stat seat=0 n=0\ncost 0 0"));
    assert!(output.status.success());
    let output = String::from_utf8(output.stdout).unwrap();
    let shown = "call=13 answer=0 value=0
call=14 answer=0 value=0
blocks=4
cursor=0
pending=2 0 0 2
sam 0:3
com 0:3
slot 0 state=0 reservation=0 drawn=0
slot 1 state=0 reservation=0 drawn=0
slot 2 state=0 reservation=0 drawn=0
slot 3 state=0 reservation=0 drawn=0
slot 4 state=0 reservation=0 drawn=0
slot 5 state=0 reservation=0 drawn=0
slot 6 state=0 reservation=0 drawn=0
slot 7 state=0 reservation=0 drawn=0
disk length=386 0:4 1:1 131:3
list length=1 0
call=15 answer=0 value=2
call=16 answer=8 value=0
";
    assert_eq!(output, format!("{OUTPUT}{shown}"));
}

#[test]
fn the_program_refuses_other_arguments() {
    let cases: [&[&str]; 19] = [
        &[],
        &["benches"],
        &["history", "1", "2"],
        &["history", "1", "2", "4097"],
        &["history", "1", "2", "-1"],
        &["history", "1", "2", "3", "--deformed"],
        &["history", "1", "2", "3", "--status", "--status"],
        &["history", "1", "2", "3", "--cost", "--status", "--cost"],
        &["history", "1", "2", "3", "--cost", "--costs"],
        &["history", "1", "2", "--status"],
        &["history", "1", "2", "--cost"],
        &["history", "1", "2", "3", "--extent", "--extent"],
        &["history", "1", "2", "3", "--extents"],
        &["inspect", "1"],
        &["sweep", "1"],
        &["damage", "1"],
        &["damage", "1", "x"],
        &["extents", "1"],
        &["extents", "1", "x"],
    ];
    for arguments in cases {
        let output = run_program(arguments, "");
        assert!(!output.status.success(), "{arguments:?}");
        assert!(output.stdout.is_empty(), "{arguments:?}");
        assert!(output.stderr.starts_with(b"usage: "), "{arguments:?}");
    }
}
