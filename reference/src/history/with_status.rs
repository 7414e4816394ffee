//! Histories for `inspect`, with `status` lines among the bench lines.

use crate::random::Random;
use std::iter::once;

const STATUS_IN: u32 = 3;

/// Puts a `status` line behind one in three of the lines. The choice has random numbers of its own,
/// so that the lines themselves stay those of the history with this seed.
pub fn with_status(
    seed: u64,
    lines: impl Iterator<Item = Vec<u8>>,
) -> impl Iterator<Item = Vec<u8>> {
    let mut random = Random::new(!seed);
    lines.flat_map(move |line| {
        let status = random.one_in(STATUS_IN).then(|| b"status".to_vec());
        once(line).chain(status)
    })
}
