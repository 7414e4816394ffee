//! The bench program's reading of its input.

use reference::program;
use std::io::{self, Read};

const FORMAT: &str = "op=format seat=0 n=4";
const OPEN: &str = "op=open seat=0 n=0";

/// Input that comes in pieces of at most this many bytes.
struct Pieces<'a> {
    input: &'a [u8],
    bytes: usize,
}

impl Read for Pieces<'_> {
    fn read(&mut self, buffer: &mut [u8]) -> io::Result<usize> {
        let bytes = self.bytes.min(buffer.len());
        (&mut self.input).take(bytes as u64).read(buffer)
    }
}

/// The answer codes, with the numbering of the calls checked.
fn answers(input: &[u8]) -> Vec<u32> {
    let mut output = Vec::new();
    program::run(input, &mut output).unwrap();
    let output = String::from_utf8(output).unwrap();
    assert!(output.is_empty() || output.ends_with('\n'));
    let read = |(index, line): (usize, &str)| {
        let rest = line.strip_prefix(&format!("call={} answer=", index + 1)).unwrap();
        rest.split_once(" value=").unwrap().0.parse().unwrap()
    };
    output.lines().enumerate().map(read).collect()
}

#[test]
fn no_input_has_no_line() {
    assert_eq!(answers(b""), []);
}

#[test]
fn the_last_line_with_and_without_byte_10() {
    assert_eq!(answers(format!("{FORMAT}\n{OPEN}").as_bytes()), [0, 0]);
    assert_eq!(answers(format!("{FORMAT}\n{OPEN}\n").as_bytes()), [0, 0]);
    assert_eq!(answers(format!("{FORMAT}\n{OPEN}\n\n").as_bytes()), [0, 0, 21]);
    assert_eq!(answers(format!("{FORMAT}\n{OPEN}\n ").as_bytes()), [0, 0, 21]);
}

#[test]
fn empty_lines_are_lines() {
    assert_eq!(answers(b"\n"), [21]);
    assert_eq!(answers(format!("\n\n{FORMAT}\n\n{OPEN}").as_bytes()), [21, 21, 0, 21, 0]);
}

#[test]
fn refused_lines_are_numbered_and_have_the_value_0() {
    let input = format!("{OPEN}\nop=format seat=9 n=40\n?\n{OPEN}\nop=start seat=8 n=1\n");
    let mut output = Vec::new();
    program::run(input.as_bytes(), &mut output).unwrap();
    let expected = "call=1 answer=3 value=0
call=2 answer=0 value=0
call=3 answer=21 value=0
call=4 answer=0 value=0
call=5 answer=10 value=0
";
    assert_eq!(String::from_utf8(output).unwrap(), expected);
}

#[test]
fn the_values_of_answers() {
    let input = "op=format seat=0 n=99
op=open seat=0 n=0
op=start seat=0 n=0
op=alloc seat=0 n=5
op=alloc seat=0 n=60
op=pre seat=0 n=0
op=commit seat=0 n=0
op=stat seat=0 n=0
";
    let stores = "op=store seat=0 n=0\n".repeat(11);
    let rest = "op=stat seat=0 n=0
op=start seat=1 n=9
op=free seat=1 n=64
op=drop seat=1 n=7
op=start seat=1 n=0
op=pre seat=1 n=0
op=revoke seat=1 n=7
";
    let mut output = Vec::new();
    program::run(format!("{input}{stores}{rest}").as_bytes(), &mut output).unwrap();
    let output = String::from_utf8(output).unwrap();
    let values: Vec<&str> =
        output.lines().map(|line| line.split_once("value=").unwrap().1).collect();
    let expected = "0 0 0 0 5 0 11 0 10 9 8 7 6 5 4 3 2 1 0 65 0 0 0 0 0 0";
    assert_eq!(values.join(" "), expected);
    assert!(output.lines().all(|line| line.contains(" answer=0 ")));
}

#[test]
fn drop_and_revoke_stand_in_the_place_of_roll() {
    let answered = |lines: &[&str]| {
        let call = |line: &&str| format!("op={line} n=0\n");
        let lines: String = lines.iter().map(call).collect();
        answers(format!("{FORMAT}\n{OPEN}\n{lines}").as_bytes())[2..].to_vec()
    };
    let open = ["start seat=3", "roll seat=3", "revoke seat=3", "drop seat=3", "drop seat=3"];
    assert_eq!(answered(&open), [0, 21, 14, 0, 12]);
    let precommitted =
        ["start seat=3", "pre seat=3", "roll seat=3", "drop seat=3", "revoke seat=3"];
    assert_eq!(answered(&precommitted), [0, 0, 21, 13, 0]);
    assert_eq!(answered(&["drop seat=3", "revoke seat=3"]), [12, 12]);
    assert_eq!(answered(&["drop seat=8", "revoke seat=8", "roll seat=8"]), [10, 10, 21]);
    assert_eq!(answered(&["cut seat=0", "drop seat=8", "revoke seat=3"]), [0, 1, 1]);
}

#[test]
fn lines_of_64_bytes_and_longer_ones() {
    for length in [63, 64, 65, 66, 1000, 65_535, 65_536, 65_537, 1_000_000] {
        for filling in ["x", " ", "0"] {
            let padding = filling.repeat(length - FORMAT.len());
            let input = format!("{FORMAT}{padding}\n{FORMAT}\n{OPEN}");
            assert_eq!(answers(input.as_bytes()), [21, 0, 0], "{length} bytes of {filling:?}");
            let last = format!("{FORMAT}\n{OPEN}{}", filling.repeat(length - OPEN.len()));
            assert_eq!(answers(last.as_bytes()), [0, 21], "{length} bytes of {filling:?}");
        }
    }
}

#[test]
fn a_longer_line_is_one_line_even_if_its_end_is_in_form() {
    let input = format!("{}{FORMAT}\n{OPEN}\n", " ".repeat(65));
    assert_eq!(answers(input.as_bytes()), [21, 3]);
}

#[test]
fn lines_past_60_000_are_not_read() {
    let mut input = format!("{FORMAT}\n{OPEN}\n").into_bytes();
    input.extend(b"op=stat seat=0 n=0\n".repeat(59_997));
    let mut expected = vec![0; 59_999];
    assert_eq!(answers(&input), expected);
    expected.push(21);
    input.extend(b"?");
    assert_eq!(answers(&input), expected);
    input.extend(b"\n");
    assert_eq!(answers(&input), expected);
    input.extend(b"op=stat seat=0 n=0\nop=stat seat=0 n=0");
    assert_eq!(answers(&input), expected);
}

#[test]
fn input_in_small_pieces_gives_the_same() {
    let long = "y".repeat(200);
    let input = format!("{FORMAT}\n{OPEN}\n\n{long}\nop=start seat=0 n=0\nop=alloc seat=0 n=4");
    let mut expected = Vec::new();
    program::run(input.as_bytes(), &mut expected).unwrap();
    for bytes in [1, 2, 3, 7, 64] {
        let mut output = Vec::new();
        program::run(Pieces { input: input.as_bytes(), bytes }, &mut output).unwrap();
        assert_eq!(output, expected);
    }
    assert_eq!(answers(input.as_bytes()), [0, 0, 21, 21, 0, 0]);
}

#[test]
fn an_input_error_ends_the_program() {
    struct Broken;
    impl Read for Broken {
        fn read(&mut self, _: &mut [u8]) -> io::Result<usize> {
            Err(io::Error::other("broken"))
        }
    }
    assert!(program::run(Broken, Vec::new()).is_err());
}
