//! The form of a bench line: `op=.. seat=.. n=..`.

/// The longest line, byte 10 not counted.
pub const MAX_LINE_BYTES: usize = 64;
pub const MAX_DIGITS: usize = 5;

/// What a bench line asks for.
#[derive(Clone, Copy, PartialEq, Eq, Debug)]
pub enum Operation {
    Format,
    Open,
    Start,
    Allocate,
    Deallocate,
    Precommit,
    Commit,
    Drop,
    Revoke,
    Store,
    Status,
    Crash,
}

impl Operation {
    pub const ALL: [Operation; 12] = [
        Operation::Format,
        Operation::Open,
        Operation::Start,
        Operation::Allocate,
        Operation::Deallocate,
        Operation::Precommit,
        Operation::Commit,
        Operation::Drop,
        Operation::Revoke,
        Operation::Store,
        Operation::Status,
        Operation::Crash,
    ];

    /// The operation's word in the bench format.
    pub fn word(self) -> &'static str {
        match self {
            Operation::Format => "format",
            Operation::Open => "open",
            Operation::Start => "start",
            Operation::Allocate => "alloc",
            Operation::Deallocate => "free",
            Operation::Precommit => "pre",
            Operation::Commit => "commit",
            Operation::Drop => "drop",
            Operation::Revoke => "revoke",
            Operation::Store => "store",
            Operation::Status => "stat",
            Operation::Crash => "cut",
        }
    }
}

/// A line in form. `number` is the field `n`: blocks of a format, a count or a block.
#[derive(Clone, Copy, PartialEq, Eq, Debug)]
pub struct Line {
    pub operation: Operation,
    pub slot: u32,
    pub number: u32,
}

/// Reads a line without its byte 10. A line that isn't in form gives nothing.
pub fn parse(line: &[u8]) -> Option<Line> {
    if line.len() > MAX_LINE_BYTES {
        return None;
    }
    let (operation, rest) = read_operation(line.strip_prefix(b"op=")?)?;
    let (slot, rest) = read_number(rest.strip_prefix(b" seat=")?)?;
    let (number, rest) = read_number(rest.strip_prefix(b" n=")?)?;
    rest.is_empty().then_some(Line { operation, slot, number })
}

/// Reads the word up to the next space.
fn read_operation(bytes: &[u8]) -> Option<(Operation, &[u8])> {
    let end = bytes.iter().position(|byte| *byte == b' ')?;
    let (word, rest) = bytes.split_at(end);
    let operation = Operation::ALL.iter().find(|operation| operation.word().as_bytes() == word)?;
    Some((*operation, rest))
}

/// Reads a decimal number of 1 to 5 digits.
fn read_number(bytes: &[u8]) -> Option<(u32, &[u8])> {
    let length = bytes.iter().take_while(|byte| byte.is_ascii_digit()).count();
    if length == 0 || length > MAX_DIGITS {
        return None;
    }
    let (digits, rest) = bytes.split_at(length);
    let value = digits.iter().fold(0, |value, digit| 10 * value + u32::from(digit - b'0'));
    Some((value, rest))
}
