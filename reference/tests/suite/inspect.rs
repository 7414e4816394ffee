//! The test program `inspect` and what its `show` prints.

use reference::history::{History, Shape};
use reference::program;

const ZEROS: &str = "blocks=0
cursor=0
pending=0 0 0 0
sam
com
slot 0 state=0 reservation=0 drawn=0
slot 1 state=0 reservation=0 drawn=0
slot 2 state=0 reservation=0 drawn=0
slot 3 state=0 reservation=0 drawn=0
slot 4 state=0 reservation=0 drawn=0
slot 5 state=0 reservation=0 drawn=0
slot 6 state=0 reservation=0 drawn=0
slot 7 state=0 reservation=0 drawn=0
";

fn inspect(input: &str) -> String {
    let mut output = Vec::new();
    program::inspect(input.as_bytes(), &mut output).unwrap();
    String::from_utf8(output).unwrap()
}

/// What the last line, a `show`, prints after its answer line.
fn shown(input: &str) -> String {
    let output = inspect(&format!("{input}\nshow\n"));
    let calls = input.lines().count() + 1;
    let answer = format!("call={calls} answer=0 value=0\n");
    output.split_once(&answer).unwrap().1.to_string()
}

/// The values of the answers, or of a refused line its error's code with a minus.
fn answers(input: &str) -> Vec<i32> {
    let output = inspect(input);
    let lines = output.lines().filter_map(|line| line.split_once(" answer="));
    let answer = |text: &str| {
        let (answer, value) = text.split_once(" value=").unwrap();
        let (answer, value): (i32, i32) = (answer.parse().unwrap(), value.parse().unwrap());
        if answer == 0 {
            value
        } else {
            -answer
        }
    };
    lines.map(|(_, text)| answer(text)).collect()
}

/// 40 blocks, of which slot 1 took the first 33 and has begun to commit them.
const PENDING: &str = "op=format seat=0 n=40
op=open seat=0 n=0
op=start seat=1 n=0
op=alloc seat=1 n=33
op=pre seat=1 n=0
op=commit seat=1 n=0
op=store seat=0 n=0
op=store seat=0 n=0";

#[test]
fn the_state_at_first() {
    let list = " 0".repeat(64);
    let expected = format!("{ZEROS}disk length=386\nlist length=64{list}\n");
    assert_eq!(shown("?"), expected);
    assert_eq!(inspect("show"), format!("call=1 answer=0 value=0\n{expected}"));
}

#[test]
fn the_state_with_pending_work() {
    let list: String = (0..33).map(|block| format!(" {block}")).collect();
    let expected = format!(
        "blocks=40
cursor=33
pending=1 1 2 8
sam
com 0:4294967295 1:1
slot 0 state=0 reservation=0 drawn=0
slot 1 state=2 reservation=0 drawn=0 0:4294967295 1:1
slot 2 state=0 reservation=0 drawn=0
slot 3 state=0 reservation=0 drawn=0
slot 4 state=0 reservation=0 drawn=0
slot 5 state=0 reservation=0 drawn=0
slot 6 state=0 reservation=0 drawn=0
slot 7 state=0 reservation=0 drawn=0
disk length=386 0:40 131:4294967295
list length=64{list}{}
",
        " 0".repeat(31)
    );
    assert_eq!(shown(PENDING), expected);
}

#[test]
fn pending_work_is_shown_by_its_kind() {
    let pending = |line: &str| shown(line).lines().nth(2).unwrap().to_string();
    assert_eq!(pending("pending 0 1 2 3"), "pending=0 0 0 0");
    assert_eq!(pending("pending 1 9 8 4294967295"), "pending=1 9 8 4294967295");
    assert_eq!(pending("pending 2 9 8 7"), "pending=2 0 8 7");
}

#[test]
fn the_cursor_is_shown_whatever_it_is() {
    let cursor = |lines: &str| shown(lines).lines().nth(1).unwrap().to_string();
    assert_eq!(cursor("cursor 4294967295"), "cursor=4294967295");
    assert_eq!(cursor("blocks 7\ncursor 7\ncursor 0000000006"), "cursor=6");
    assert_eq!(cursor(&format!("{PENDING}\ncursor 40")), "cursor=40");
    assert_eq!(cursor(&format!("{PENDING}\nop=cut seat=0 n=0")), "cursor=0");
    assert_eq!(cursor(&format!("{PENDING}\nop=open seat=0 n=0")), "cursor=0");
}

#[test]
fn the_value_of_an_allocate_is_the_first_block_met() {
    let lines = "op=format seat=0 n=10\nop=open seat=0 n=0\nop=start seat=0 n=0\ncursor 8
op=alloc seat=0 n=4\nop=alloc seat=0 n=1\ncursor 10\nop=alloc seat=0 n=1\nop=stat seat=0 n=0
cost 0 1\nextent 0 1 4\nop=store seat=0 n=0\ncursor 9\nop=alloc seat=0 n=5";
    let expected = [0, 0, 0, 0, 8, 2, 0, -1, -1, -1, -1, -1, 0, 3];
    assert_eq!(answers(lines), expected);
    let last = shown(lines).lines().last().unwrap().to_string();
    assert!(last.starts_with("list length=64 3 4 5 6 7 0 "), "{last}");
}

#[test]
fn a_refused_open_leaves_a_memory_of_zeros() {
    let disk = "disk length=386 0:40 1:1 130:2\n";
    let input = format!("{PENDING}\ndisk 131 0\ndisk 130 2\ndisk 1 1\nop=open seat=0 n=0");
    assert_eq!(answers(&input).last(), Some(&-5));
    let shown = shown(&input);
    assert!(shown.starts_with(&format!("{ZEROS}{disk}list length=64 0 1 2 ")), "{shown}");
}

#[test]
fn the_list_keeps_what_an_allocate_wrote() {
    let list = |lines: &str| {
        let shown = shown(&format!("{PENDING}\n{lines}"));
        shown.lines().last().unwrap().to_string()
    };
    let all: String = (0..33).map(|block| format!(" {block}")).collect();
    let all = format!("list length=64{all}{}", " 0".repeat(31));
    assert_eq!(list("list 0"), "list length=0");
    assert_eq!(list("list 3"), "list length=3 0 1 2");
    assert_eq!(list("list 3\nlist 64"), all);
    assert_eq!(list("op=cut seat=0 n=0\nop=open seat=0 n=0"), all);
    let refused =
        "op=cut seat=0 n=0\nop=open seat=0 n=0\nop=start seat=0 n=0\nop=alloc seat=0 n=41";
    assert_eq!(list(refused), all);
    let smaller = "pending 0 0 0 0\nop=start seat=0 n=0\nlist 2\nop=alloc seat=0 n=1";
    assert_eq!(list(smaller), "list length=2 33 1");
}

#[test]
fn a_shorter_list_and_its_values() {
    let input = "op=format seat=0 n=40\nop=open seat=0 n=0\nop=start seat=0 n=0\nlist 2
op=alloc seat=0 n=3\nop=alloc seat=0 n=2\nop=alloc seat=0 n=1\nlist 0\nop=alloc seat=0 n=1
op=alloc seat=0 n=0\nlist 65\nop=alloc seat=0 n=1\nlist 1\nop=alloc seat=0 n=1";
    assert_eq!(answers(input), [0, 0, 0, 0, -16, 0, 2, 0, -16, -15, -21, -16, 0, 3]);
}

#[test]
fn test_lines_reach_what_bench_lines_do_not() {
    let open = "op=open seat=0 n=0";
    let store = "op=store seat=0 n=0";
    let format = "op=format seat=0 n=40";
    let last = |lines: &str| *answers(lines).last().unwrap();
    assert_eq!(last(&format!("length 385\n{format}")), -2);
    assert_eq!(last(&format!("{format}\nlength 387\n{open}")), -2);
    assert_eq!(last(&format!("{format}\n{open}\nlength 0\n{store}")), -2);
    assert_eq!(last(&format!("{format}\ndisk 0 4097\n{open}")), -3);
    assert_eq!(last(&format!("{format}\ndisk 3 256\n{open}")), -4);
    assert_eq!(last(&format!("{format}\ndisk 3 255\n{open}")), 0);
    assert_eq!(last(&format!("{format}\ndisk 1 3\n{open}")), -5);
    assert_eq!(last(&format!("{PENDING}\ndisk 131 7\n{store}")), -6);
    assert_eq!(last(&format!("{PENDING}\ndisk 132 7\n{store}")), 5);
    assert_eq!(last(&format!("{PENDING}\nstate 1 1\n{store}")), -1);
    assert_eq!(last(&format!("{format}\n{open}\npending 2 0 0 2\n{store}")), -6);
}

#[test]
fn the_lines_of_the_program() {
    let long = format!("show{}", " ".repeat(61));
    let input = format!("{long}\n\nlength 0\ndisk 0 0\nop=stat seat=0 n=0");
    assert_eq!(answers(&input), [-21, -21, 0, -21, -1]);
    let many = "length 386\n".repeat(60_001);
    assert_eq!(answers(&many).len(), 60_000);
}

#[test]
fn bench_lines_have_the_bench_programs_answers() {
    for (seed, blocks) in [(1, 0), (2, 33), (3, 4096)] {
        let shape = Shape { malformed: true, reformats: true, ..Shape::plain(blocks) };
        let lines: Vec<Vec<u8>> = History::new(seed, shape).unwrap().take(5000).collect();
        let input = lines.join(&b'\n');
        let (mut expected, mut output) = (Vec::new(), Vec::new());
        program::run(input.as_slice(), &mut expected).unwrap();
        program::inspect(input.as_slice(), &mut output).unwrap();
        assert!(output == expected, "seed {seed}");
    }
}
