//! The form of bench lines.

use reference::line::{parse, Line, Operation};

const NOT_IN_FORM: [&[u8]; 60] = [
    b"",
    b" ",
    b"op=open",
    b"op=open ",
    b"op=open seat=0",
    b"op=open seat=0 ",
    b"op=open seat=0 n",
    b"op=open seat=0 n=",
    b"op=open seat= n=0",
    b"op=open seat=0n=0",
    b"op=openseat=0 n=0",
    b"op=open  seat=0 n=0",
    b"op=open seat=0  n=0",
    b"op= open seat=0 n=0",
    b"op=open seat= 0 n=0",
    b"op=open seat=0 n= 0",
    b" op=open seat=0 n=0",
    b"op=open seat=0 n=0 ",
    b"op=open seat=0 n=0\r",
    b"op=open seat=0 n=0\t",
    b"op=open seat=0 n=0\0",
    b"op=open seat=0 n=0x",
    b"op=open seat=0 n=0 n=0",
    b"op=open\tseat=0 n=0",
    b"op=open seat=0\tn=0",
    b"op=open seat=0 n=000000",
    b"op=open seat=000000 n=0",
    b"op=open seat=123456 n=0",
    b"op=open seat=-1 n=0",
    b"op=open seat=0 n=+1",
    b"op=open seat=1.0 n=0",
    b"op=open seat=a n=0",
    b"op=open seat=\xd9\xa1 n=0",
    b"op=open n=0 seat=0",
    b"seat=0 n=0 op=open",
    b"op= seat=0 n=0",
    b"op seat=0 n=0",
    b"OP=open seat=0 n=0",
    b"op=Open seat=0 n=0",
    b"op=ope seat=0 n=0",
    b"op=opens seat=0 n=0",
    b"op=allocate seat=0 n=0",
    b"op=cut1 seat=0 n=0",
    b"op=roll seat=0 n=0",
    b"op=rollback seat=0 n=0",
    b"op=dro seat=0 n=0",
    b"op=drops seat=0 n=0",
    b"op=Drop seat=0 n=0",
    b"op=revok seat=0 n=0",
    b"op=revoked seat=0 n=0",
    b"op=REVOKE seat=0 n=0",
    b"drop 0",
    b"revoke 0",
    b"op=cost seat=0 n=0",
    b"cost 0 0",
    b"op=extent seat=0 n=0",
    b"extent 0 1 0",
    b"op=open slot=0 n=0",
    b"op=open seat=0 N=0",
    b"\xef\xbb\xbfop=open seat=0 n=0",
];

#[test]
fn every_operation_has_its_word() {
    let words = [
        ("format", Operation::Format),
        ("open", Operation::Open),
        ("start", Operation::Start),
        ("alloc", Operation::Allocate),
        ("free", Operation::Deallocate),
        ("pre", Operation::Precommit),
        ("commit", Operation::Commit),
        ("drop", Operation::Drop),
        ("revoke", Operation::Revoke),
        ("store", Operation::Store),
        ("stat", Operation::Status),
        ("cut", Operation::Crash),
    ];
    for (word, operation) in words {
        let line = format!("op={word} seat=3 n=17");
        assert_eq!(parse(line.as_bytes()), Some(Line { operation, slot: 3, number: 17 }));
        assert_eq!(operation.word(), word);
    }
    assert_eq!(words.map(|(_, operation)| operation), Operation::ALL);
}

#[test]
fn numbers_have_1_to_5_digits() {
    let numbers = [("0", 0), ("7", 7), ("007", 7), ("00000", 0), ("00064", 64), ("99999", 99_999)];
    for (slot_digits, slot) in numbers {
        for (number_digits, number) in numbers {
            let line = format!("op=free seat={slot_digits} n={number_digits}");
            let expected = Line { operation: Operation::Deallocate, slot, number };
            assert_eq!(parse(line.as_bytes()), Some(expected), "{line}");
        }
    }
}

#[test]
fn lines_not_in_form() {
    for line in NOT_IN_FORM {
        assert_eq!(parse(line), None, "{}", line.escape_ascii());
    }
}

#[test]
fn no_beginning_of_a_line_is_in_form() {
    let line = b"op=commit seat=12345 n=6";
    assert!(parse(line).is_some());
    for length in 0..line.len() {
        assert_eq!(parse(&line[..length]), None);
    }
}
