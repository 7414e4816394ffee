//! The program `reference`: the bench and the test programs, and the makers of their inputs.

use reference::damage::Damage;
use reference::extents::Extents;
use reference::history::{with_cost, with_status, History, Shape};
use reference::{program, sweep, timing};
use std::io::{self, BufWriter, ErrorKind, Write};
use std::process::ExitCode;
use std::str::FromStr;

const USAGE: &str = "usage: reference bench
       reference inspect
       reference sweep
       reference timing
       reference history SEED LINES BLOCKS [--malformed] [--status] [--cost] [--extent] [--reserve]
       reference damage SEED LINES
       reference extents SEED LINES
BLOCKS is 1 to 4096, or 0 for a random number
with --status, --cost, --extent and --reserve there are further lines, for inspect";

const HISTORY_OPTIONS: [&str; 5] = ["--malformed", "--status", "--cost", "--extent", "--reserve"];

fn main() -> ExitCode {
    let arguments: Vec<String> = std::env::args().skip(1).collect();
    let arguments: Vec<&str> = arguments.iter().map(String::as_str).collect();
    let result = match arguments.as_slice() {
        ["bench"] => program::run(io::stdin().lock(), io::stdout().lock()),
        ["inspect"] => program::inspect(io::stdin().lock(), io::stdout().lock()),
        ["sweep"] => sweep::run(io::stdout().lock()),
        ["timing"] => timing::run(io::stdin().lock(), io::stdout().lock()),
        ["history", seed, lines, blocks, options @ ..] => {
            print_history(seed, lines, blocks, options)
        }
        ["damage", seed, lines] => print_damage(seed, lines),
        ["extents", seed, lines] => print_extents(seed, lines),
        _ => Err(usage_error()),
    };
    match result {
        Ok(()) => ExitCode::SUCCESS,
        Err(error) => {
            // The reader of the output may have gone, and then perhaps that of this message too.
            let _ = writeln!(io::stderr(), "{error}");
            ExitCode::FAILURE
        }
    }
}

fn print_history(seed: &str, lines: &str, blocks: &str, options: &[&str]) -> io::Result<()> {
    let [malformed, status, cost, extents, reserves] = history_options(options)?;
    let seed = number(seed)?;
    let shape =
        Shape { malformed, reformats: true, extents, reserves, ..Shape::plain(number(blocks)?) };
    let history = History::new(seed, shape).ok_or_else(usage_error)?.take(number(lines)?);
    let mut lines: Box<dyn Iterator<Item = Vec<u8>>> = Box::new(history);
    if status {
        lines = Box::new(with_status(seed, lines));
    }
    if cost {
        lines = Box::new(with_cost(seed, lines));
    }
    print_lines(lines)
}

/// Which of a history's options are given. They stand in any order, none twice.
fn history_options(options: &[&str]) -> io::Result<[bool; 5]> {
    let given = HISTORY_OPTIONS.map(|option| options.contains(&option));
    let known = given.iter().filter(|is_given| **is_given).count();
    if known == options.len() {
        Ok(given)
    } else {
        Err(usage_error())
    }
}

fn print_damage(seed: &str, lines: &str) -> io::Result<()> {
    print_lines(Damage::new(number(seed)?).take(number(lines)?))
}

fn print_extents(seed: &str, lines: &str) -> io::Result<()> {
    print_lines(Extents::new(number(seed)?).take(number(lines)?))
}

fn print_lines(lines: impl Iterator<Item = Vec<u8>>) -> io::Result<()> {
    let mut output = BufWriter::new(io::stdout().lock());
    for line in lines {
        output.write_all(&line)?;
        output.write_all(b"\n")?;
    }
    output.flush()
}

/// The number that an argument stands for.
fn number<T: FromStr>(argument: &str) -> io::Result<T> {
    argument.parse().map_err(|_| usage_error())
}

fn usage_error() -> io::Error {
    io::Error::new(ErrorKind::InvalidInput, USAGE)
}
