//! Lines not in form, each near a line in form that would have done something.

use super::text;
use crate::line::{parse, Line, MAX_LINE_BYTES};
use crate::random::Random;

const WRONG_WORDS: [&str; 10] =
    ["allocate", "Commit", "fre", "", "cut2", "STORE", "open\t", "status", "form at", "pre,"];
/// The word that rollback had before document 02's job 5, and words near those of drop and revoke.
const OLD_AND_NEAR_WORDS: [&str; 10] =
    ["roll", "roll", "roll", "rollback", "dro", "drops", "Drop", "revok", "revoked", "Revoke"];
const TRAILING_BYTES: [u8; 6] = [b' ', b'\r', b'\t', 0, b'x', 0xff];
const WRONG_NUMBERS: [&str; 9] =
    ["", "000000", "123456", "-1", "+1", "0x1", "1.", "1e1", "\u{661}"];

/// A line not in form, made from a line in form. Byte 10 isn't in it.
pub fn bytes(random: &mut Random, line: &Line) -> Vec<u8> {
    let in_form = text::bytes(random, line);
    let mut bytes = match random.below(13) {
        0 => with_word(line, random.choose(&WRONG_WORDS)),
        1 => with_number(random, line),
        2 => swapped_fields(line),
        3 => Vec::new(),
        4 => padded(random, in_form),
        5 => in_form.to_ascii_uppercase(),
        6 => with_other_space(random, in_form),
        7 => [in_form.as_slice(), &[random.choose(&TRAILING_BYTES)]].concat(),
        8 => [b" ", in_form.as_slice()].concat(),
        9 => without_byte(random, in_form),
        10 => with_inserted_byte(random, in_form),
        11 => with_word(line, random.choose(&OLD_AND_NEAR_WORDS)),
        _ => with_changed_byte(random, in_form),
    };
    if parse(&bytes).is_some() {
        bytes.push(b' ');
    }
    bytes
}

fn with_word(line: &Line, word: &str) -> Vec<u8> {
    format!("op={word} seat={} n={}", line.slot, line.number).into_bytes()
}

fn with_number(random: &mut Random, line: &Line) -> Vec<u8> {
    let (word, number) = (line.operation.word(), random.choose(&WRONG_NUMBERS));
    if random.one_in(2) {
        format!("op={word} seat={number} n={}", line.number).into_bytes()
    } else {
        format!("op={word} seat={} n={number}", line.slot).into_bytes()
    }
}

fn swapped_fields(line: &Line) -> Vec<u8> {
    format!("op={} n={} seat={}", line.operation.word(), line.number, line.slot).into_bytes()
}

/// Lengthened near the longest allowed length, or well beyond it.
pub fn padded(random: &mut Random, mut bytes: Vec<u8>) -> Vec<u8> {
    let lengths = [MAX_LINE_BYTES - 1, MAX_LINE_BYTES, MAX_LINE_BYTES + 1, 100, 5000];
    let (length, filling) = (random.choose(&lengths), random.choose(b" 0\0n"));
    bytes.resize(length, filling);
    bytes
}

/// One of the spaces missing, doubled or replaced by a tab.
pub fn with_other_space(random: &mut Random, mut bytes: Vec<u8>) -> Vec<u8> {
    let is_space = |place: &usize| bytes[*place] == b' ';
    let spaces: Vec<usize> = (0..bytes.len()).filter(is_space).collect();
    let place = random.choose(&spaces);
    let other: &[u8] = random.choose(&[b"", b"  ", b"\t"]);
    bytes.splice(place..=place, other.iter().copied());
    bytes
}

pub fn without_byte(random: &mut Random, mut bytes: Vec<u8>) -> Vec<u8> {
    let place = random.below(bytes.len() as u32) as usize;
    bytes.remove(place);
    bytes
}

pub fn with_inserted_byte(random: &mut Random, mut bytes: Vec<u8>) -> Vec<u8> {
    let place = random.below(bytes.len() as u32 + 1) as usize;
    bytes.insert(place, any_byte(random));
    bytes
}

pub fn with_changed_byte(random: &mut Random, mut bytes: Vec<u8>) -> Vec<u8> {
    let place = random.below(bytes.len() as u32) as usize;
    bytes[place] = any_byte(random);
    bytes
}

/// Any byte but 10.
fn any_byte(random: &mut Random) -> u8 {
    match random.below(255) as u8 {
        b'\n' => 255,
        byte => byte,
    }
}
