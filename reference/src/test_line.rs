//! The form of a test line: a word and its numbers, one space between them (docs/TEST-LINES.md).

const MAX_DIGITS: usize = 10;

/// A test line in form. Its numbers may be out of range.
#[derive(Clone, Copy, PartialEq, Eq, Debug)]
pub enum TestLine {
    Disk { index: u32, word: u32 },
    Length { words: u32 },
    Blocks { blocks: u32 },
    Cursor { block: u32 },
    Sam { index: u32, word: u32 },
    Com { index: u32, word: u32 },
    Tam { slot: u32, index: u32, word: u32 },
    State { slot: u32, code: u32 },
    Reservation { slot: u32, blocks: u32 },
    Drawn { slot: u32, blocks: u32 },
    Pending { codes: [u32; 4] },
    List { places: u32 },
    Cost { slot: u32, count: u32 },
    Extent { slot: u32, count: u32, near: u32 },
    Reserve { slot: u32, blocks: u32 },
    Show,
    Status,
}

impl TestLine {
    /// The line's word and its numbers.
    pub fn fields(&self) -> (&'static str, Vec<u32>) {
        match *self {
            TestLine::Disk { index, word } => ("disk", vec![index, word]),
            TestLine::Length { words } => ("length", vec![words]),
            TestLine::Blocks { blocks } => ("blocks", vec![blocks]),
            TestLine::Cursor { block } => ("cursor", vec![block]),
            TestLine::Sam { index, word } => ("sam", vec![index, word]),
            TestLine::Com { index, word } => ("com", vec![index, word]),
            TestLine::Tam { slot, index, word } => ("tam", vec![slot, index, word]),
            TestLine::State { slot, code } => ("state", vec![slot, code]),
            TestLine::Reservation { slot, blocks } => ("reservation", vec![slot, blocks]),
            TestLine::Drawn { slot, blocks } => ("drawn", vec![slot, blocks]),
            TestLine::Pending { codes } => ("pending", codes.to_vec()),
            TestLine::List { places } => ("list", vec![places]),
            TestLine::Cost { slot, count } => ("cost", vec![slot, count]),
            TestLine::Extent { slot, count, near } => ("extent", vec![slot, count, near]),
            TestLine::Reserve { slot, blocks } => ("reserve", vec![slot, blocks]),
            TestLine::Show => ("show", Vec::new()),
            TestLine::Status => ("status", Vec::new()),
        }
    }
}

/// Reads a line without its byte 10. A line that isn't in form gives nothing; none that is too long
/// is in form.
pub fn parse(line: &[u8]) -> Option<TestLine> {
    let mut fields = line.split(|byte| *byte == b' ');
    let name = fields.next()?;
    let numbers = fields.map(read_number).collect::<Option<Vec<u32>>>()?;
    match (name, numbers.as_slice()) {
        (b"disk", &[index, word]) => Some(TestLine::Disk { index, word }),
        (b"length", &[words]) => Some(TestLine::Length { words }),
        (b"blocks", &[blocks]) => Some(TestLine::Blocks { blocks }),
        (b"cursor", &[block]) => Some(TestLine::Cursor { block }),
        (b"sam", &[index, word]) => Some(TestLine::Sam { index, word }),
        (b"com", &[index, word]) => Some(TestLine::Com { index, word }),
        (b"tam", &[slot, index, word]) => Some(TestLine::Tam { slot, index, word }),
        (b"state", &[slot, code]) => Some(TestLine::State { slot, code }),
        (b"reservation", &[slot, blocks]) => Some(TestLine::Reservation { slot, blocks }),
        (b"drawn", &[slot, blocks]) => Some(TestLine::Drawn { slot, blocks }),
        (b"pending", &[kind, slot, done, due]) => {
            Some(TestLine::Pending { codes: [kind, slot, done, due] })
        }
        (b"list", &[places]) => Some(TestLine::List { places }),
        (b"cost", &[slot, count]) => Some(TestLine::Cost { slot, count }),
        (b"extent", &[slot, count, near]) => Some(TestLine::Extent { slot, count, near }),
        (b"reserve", &[slot, blocks]) => Some(TestLine::Reserve { slot, blocks }),
        (b"show", &[]) => Some(TestLine::Show),
        (b"status", &[]) => Some(TestLine::Status),
        _ => None,
    }
}

/// Reads a decimal number of 1 to 10 digits that a word of 32 bits can hold.
fn read_number(digits: &[u8]) -> Option<u32> {
    if digits.is_empty() || digits.len() > MAX_DIGITS || !digits.iter().all(u8::is_ascii_digit) {
        return None;
    }
    let value = digits.iter().fold(0, |value, digit| 10 * value + u64::from(digit - b'0'));
    u32::try_from(value).ok()
}
