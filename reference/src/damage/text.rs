//! A test line written in form, now and then with leading zeros.

use crate::random::Random;
use crate::test_line::TestLine;

const ODD_IN: u32 = 15;
const MAX_DIGITS: u32 = 10;

pub fn bytes(random: &mut Random, line: &TestLine) -> Vec<u8> {
    let (word, numbers) = line.fields();
    let mut text = String::from(word);
    for number in numbers {
        let width = if random.one_in(ODD_IN) { 1 + random.below(MAX_DIGITS) } else { 1 };
        text += &format!(" {number:0width$}", width = width as usize);
    }
    text.into_bytes()
}
