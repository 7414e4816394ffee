//! The bench program and the test program `inspect`: each answers the lines of its input.

use crate::bench::Bench;
use crate::error::Error;
use crate::inspector::Inspector;
use crate::line_reader::LineReader;
use std::io::{self, BufWriter, Read, Write};

/// Lines past these aren't read.
const MAX_LINES: u32 = 60_000;
const OUTPUT_PIECE_BYTES: usize = 1 << 16;

/// Reads bench lines and writes an answer line for each.
pub fn run(input: impl Read, output: impl Write) -> io::Result<()> {
    let mut bench = Bench::new();
    answer_lines(input, output, |line, _| bench.run(line))
}

/// Reads bench lines and test lines and writes an answer line for each, and behind it what else the
/// line prints.
pub fn inspect(input: impl Read, output: impl Write) -> io::Result<()> {
    let mut inspector = Inspector::new();
    answer_lines(input, output, |line, more| inspector.run(line, more))
}

/// Runs each line, and writes its answer line and then what more the run of it wrote.
fn answer_lines(
    input: impl Read,
    output: impl Write,
    mut run: impl FnMut(&[u8], &mut String) -> Result<u32, Error>,
) -> io::Result<()> {
    let mut lines = LineReader::new(input);
    let mut output = BufWriter::with_capacity(OUTPUT_PIECE_BYTES, output);
    let mut more = String::new();
    for call in 1..=MAX_LINES {
        let Some(line) = lines.next_line()? else {
            break;
        };
        let (answer, value) = match run(line, &mut more) {
            Ok(value) => (0, value),
            Err(error) => (error.code(), 0),
        };
        writeln!(output, "call={call} answer={answer} value={value}")?;
        output.write_all(more.as_bytes())?;
        more.clear();
    }
    output.flush()
}
