//! The cutting of the bench program's input into lines.

use crate::line::MAX_LINE_BYTES;
use std::io::{self, BufRead, BufReader, ErrorKind, Read};

const INPUT_PIECE_BYTES: usize = 1 << 16;
/// One byte more than a line may have, so that a longer line still shows as longer.
const KEPT_BYTES: usize = MAX_LINE_BYTES + 1;

/// Gives one line after the other, without byte 10. Of a line that is too long only the beginning
/// is kept, one byte more than a line may have.
pub struct LineReader<R> {
    input: BufReader<R>,
    line: Vec<u8>,
}

impl<R: Read> LineReader<R> {
    pub fn new(input: R) -> LineReader<R> {
        let input = BufReader::with_capacity(INPUT_PIECE_BYTES, input);
        LineReader { input, line: Vec::with_capacity(KEPT_BYTES) }
    }

    /// The next line. After the last byte 10 there is one only if bytes follow it.
    pub fn next_line(&mut self) -> io::Result<Option<&[u8]>> {
        self.line.clear();
        let mut begun = false;
        loop {
            let piece = match self.input.fill_buf() {
                Err(error) if error.kind() == ErrorKind::Interrupted => continue,
                piece => piece?,
            };
            if piece.is_empty() {
                return Ok(begun.then_some(&self.line));
            }
            begun = true;
            let end = piece.iter().position(|byte| *byte == b'\n');
            let part = &piece[..end.unwrap_or(piece.len())];
            let room = KEPT_BYTES - self.line.len();
            self.line.extend_from_slice(&part[..part.len().min(room)]);
            let used = part.len() + usize::from(end.is_some());
            self.input.consume(used);
            if end.is_some() {
                return Ok(Some(&self.line));
            }
        }
    }
}
