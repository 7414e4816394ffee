//! The form and the range of test lines, and what each alters (docs/TEST-LINES.md).

use reference::inspector::Inspector;
use reference::test_line::{parse, TestLine};
use reference::{Error, Memory, Pending, SlotState};

const IN_FORM: [(&str, TestLine); 33] = [
    ("disk 0 0", TestLine::Disk { index: 0, word: 0 }),
    ("disk 385 4294967295", TestLine::Disk { index: 385, word: u32::MAX }),
    ("disk 0000000007 0000000009", TestLine::Disk { index: 7, word: 9 }),
    ("disk 4294967295 1", TestLine::Disk { index: u32::MAX, word: 1 }),
    ("length 387", TestLine::Length { words: 387 }),
    ("blocks 4096", TestLine::Blocks { blocks: 4096 }),
    ("cursor 0", TestLine::Cursor { block: 0 }),
    ("cursor 4294967295", TestLine::Cursor { block: u32::MAX }),
    ("cursor 0000004096", TestLine::Cursor { block: 4096 }),
    ("sam 127 1", TestLine::Sam { index: 127, word: 1 }),
    ("com 128 2", TestLine::Com { index: 128, word: 2 }),
    ("tam 7 8 9", TestLine::Tam { slot: 7, index: 8, word: 9 }),
    ("state 3 2", TestLine::State { slot: 3, code: 2 }),
    ("reservation 7 8", TestLine::Reservation { slot: 7, blocks: 8 }),
    ("reservation 8 4294967295", TestLine::Reservation { slot: 8, blocks: u32::MAX }),
    ("reservation 0000000001 0000000000", TestLine::Reservation { slot: 1, blocks: 0 }),
    ("drawn 7 8", TestLine::Drawn { slot: 7, blocks: 8 }),
    ("drawn 8 4294967295", TestLine::Drawn { slot: 8, blocks: u32::MAX }),
    ("drawn 0000000001 0000000000", TestLine::Drawn { slot: 1, blocks: 0 }),
    ("pending 1 2 3 4", TestLine::Pending { codes: [1, 2, 3, 4] }),
    ("pending 0 0 0 0", TestLine::Pending { codes: [0; 4] }),
    ("list 64", TestLine::List { places: 64 }),
    ("cost 7 64", TestLine::Cost { slot: 7, count: 64 }),
    ("cost 4294967295 4294967295", TestLine::Cost { slot: u32::MAX, count: u32::MAX }),
    ("cost 0000000003 0000000000", TestLine::Cost { slot: 3, count: 0 }),
    ("extent 7 64 4095", TestLine::Extent { slot: 7, count: 64, near: 4095 }),
    (
        "extent 4294967295 4294967295 4294967295",
        TestLine::Extent { slot: u32::MAX, count: u32::MAX, near: u32::MAX },
    ),
    ("extent 0000000003 0000000000 01", TestLine::Extent { slot: 3, count: 0, near: 1 }),
    ("reserve 7 4096", TestLine::Reserve { slot: 7, blocks: 4096 }),
    ("reserve 4294967295 4294967295", TestLine::Reserve { slot: u32::MAX, blocks: u32::MAX }),
    ("reserve 0000000003 0000000000", TestLine::Reserve { slot: 3, blocks: 0 }),
    ("show", TestLine::Show),
    ("status", TestLine::Status),
];

const NOT_IN_FORM: [&[u8]; 100] = [
    b"",
    b" ",
    b"show ",
    b" show",
    b"show 0",
    b"shows",
    b"sho",
    b"Show",
    b"show\r",
    b"status ",
    b"status  ",
    b" status",
    b"status 0",
    b"status 0 0",
    b"statuss",
    b"statu",
    b"stat",
    b"Status",
    b"STATUS",
    b"status\r",
    b"status\t",
    b"status=",
    b"op=status seat=0 n=0",
    b"cost",
    b"cost 0",
    b"cost 0 ",
    b"cost 0 0 ",
    b"cost 0 0 0",
    b"cost  0 0",
    b"cost 0 4294967296",
    b"op=cost seat=0 n=0",
    b"extent",
    b"extent 0 1",
    b"extent 0 1 ",
    b"extent 0 1 2 ",
    b"extent 0 1 2 3",
    b"extent 0 1 4294967296",
    b"op=extent seat=0 n=0",
    b"disk",
    b"disk ",
    b"disk 1",
    b"disk 1 ",
    b"disk 1 2 ",
    b"disk 1 2 3",
    b" disk 1 2",
    b"disk  1 2",
    b"disk 1  2",
    b"disk\t1 2",
    b"disk 1\t2",
    b"disk1 2",
    b"DISK 1 2",
    b"disk 1 4294967296",
    b"disk 4294967296 1",
    b"disk 9999999999 1",
    b"disk 00000000001 1",
    b"disk 1 00000000000",
    b"disk -1 2",
    b"disk +1 2",
    b"disk 1 2x",
    b"disk 1 0x2",
    b"disk 1,2",
    b"disk \xd9\xa1 2",
    b"length",
    b"cursor",
    b"cursor ",
    b"cursor 1 ",
    b" cursor 1",
    b"cursor  1",
    b"cursor 1 2",
    b"Cursor 1",
    b"cursors 1",
    b"curso 1",
    b"cursor=1",
    b"cursor -1",
    b"cursor 4294967296",
    b"op=cursor seat=0 n=1",
    b"reserve",
    b"reserve 1",
    b"reserve 1 ",
    b"reserve 1 2 ",
    b"reserve 1 2 3",
    b"reserve 1 4294967296",
    b"op=reserve seat=1 n=2",
    b"reservation",
    b"reservation 1",
    b"reservation 1 2 3",
    b"reservation 1 4294967296",
    b"reservations 1 2",
    b"reserved 1 2",
    b"drawn",
    b"drawn 1",
    b"drawn 1 2 3",
    b"drawn 1 4294967296",
    b"draw 1 2",
    b"tam 1 2",
    b"state 1",
    b"pending 1 2 3",
    b"pending 1 2 3 4 5",
    b"slot 1 2",
    b"disk=1 2",
];

/// Runs a line that prints nothing behind its answer line.
fn answer(inspector: &mut Inspector, line: &[u8]) -> Result<u32, Error> {
    let mut more = String::new();
    let answer = inspector.run(line, &mut more);
    assert_eq!(more, "", "{}", line.escape_ascii());
    answer
}

fn run(lines: &str) -> Inspector {
    let mut inspector = Inspector::new();
    for line in lines.lines() {
        assert_eq!(answer(&mut inspector, line.as_bytes()), Ok(0), "{line}");
    }
    inspector
}

#[test]
fn lines_in_form() {
    for (text, line) in IN_FORM {
        assert_eq!(parse(text.as_bytes()), Some(line), "{text}");
    }
}

#[test]
fn the_fields_of_a_line_are_those_it_is_read_from() {
    for (text, line) in IN_FORM {
        let (word, numbers) = line.fields();
        let numbers: String = numbers.iter().map(|number| format!(" {number}")).collect();
        assert_eq!(parse(format!("{word}{numbers}").as_bytes()), Some(line), "{text}");
    }
}

#[test]
fn lines_not_in_form() {
    for line in NOT_IN_FORM {
        assert_eq!(parse(line), None, "{}", line.escape_ascii());
        let mut inspector = Inspector::new();
        let refused = Err(Error::MalformedLine);
        assert_eq!(answer(&mut inspector, line), refused, "{}", line.escape_ascii());
        assert_eq!(inspector, Inspector::new());
    }
}

#[test]
fn lines_in_range_and_out_of_range() {
    let pairs = [
        ("disk 385 1", "disk 386 1"),
        ("length 400", "length 401"),
        ("blocks 4294967295", "disk 4294967295 1"),
        ("cursor 4294967295", "cursor 4294967296"),
        ("sam 127 1", "sam 128 1"),
        ("com 127 1", "com 128 1"),
        ("tam 7 127 1", "tam 8 127 1"),
        ("tam 0 127 1", "tam 0 128 1"),
        ("state 7 2", "state 8 2"),
        ("state 0 2", "state 0 3"),
        ("reservation 7 4294967295", "reservation 8 1"),
        ("drawn 7 4294967295", "drawn 8 1"),
        ("pending 2 9 9 9", "pending 3 9 9 9"),
        ("list 63", "list 65"),
    ];
    for (inside, outside) in pairs {
        assert_ne!(run(inside), Inspector::new(), "{inside}");
        let mut inspector = Inspector::new();
        let refused = Err(Error::MalformedLine);
        assert_eq!(answer(&mut inspector, outside.as_bytes()), refused, "{outside}");
        assert_eq!(inspector, Inspector::new(), "{outside}");
    }
}

#[test]
fn the_range_of_a_disk_word_is_the_disks_length() {
    run("length 400\ndisk 399 7\nlength 1\ndisk 0 7");
    for lines in ["length 400\ndisk 400 7", "length 1\ndisk 1 7", "length 0\ndisk 0 7"] {
        let mut inspector = Inspector::new();
        let answers = lines.lines().map(|line| answer(&mut inspector, line.as_bytes()));
        let answers: Vec<_> = answers.collect();
        assert_eq!(answers, [Ok(0), Err(Error::MalformedLine)], "{lines}");
    }
}

#[test]
fn what_test_lines_alter() {
    let inspector = run("disk 3 30\nblocks 40\ncursor 41\nsam 1 11\ncom 2 12\ntam 4 5 13\nlist 0
reservation 0 14\nreservation 7 15\ndrawn 7 4294967295\ndrawn 6 16");
    let mut memory = Memory { blocks: 40, cursor: 41, ..Memory::ZEROS };
    memory.sam.words[1] = 11;
    memory.com.words[2] = 12;
    memory.slots[4].tam.words[5] = 13;
    memory.slots[0].reservation = 14;
    memory.slots[7].reservation = 15;
    memory.slots[7].drawn = u32::MAX;
    memory.slots[6].drawn = 16;
    let mut expected = Inspector { memory, places: 0, ..Inspector::new() };
    expected.disk[3] = 30;
    assert_eq!(inspector, expected);
}

#[test]
fn states_and_pending_work() {
    let state = |line| run(line).memory.slots[6].state;
    assert_eq!(state("state 6 1"), SlotState::Open);
    assert_eq!(state("state 6 2"), SlotState::Precommitted);
    assert_eq!(state("state 6 2\nstate 6 0"), SlotState::Idle);
    let pending = |line| run(line).memory.pending;
    let commit = Pending::Commit { slot: 99, done: 7, due: 5 };
    assert_eq!(pending("pending 1 99 7 5"), commit);
    assert_eq!(pending("pending 2 99 7 5"), Pending::Recovery { done: 7, due: 5 });
    assert_eq!(pending("pending 1 99 7 5\npending 0 1 2 3"), Pending::Nothing);
}

#[test]
fn words_that_a_length_adds_are_0() {
    assert_eq!(run("length 387").disk, [0; 387]);
    assert_eq!(run("disk 384 5\ndisk 385 6\nlength 385\nlength 386").disk[384..], [5, 0]);
    assert_eq!(run("disk 0 5\nlength 0").disk, []);
    assert_eq!(run("disk 0 5\nlength 0\nlength 386"), Inspector::new());
}
