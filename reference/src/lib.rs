//! A second block allocator, written from document 01 and from jobs 1, 2 and 4 to 7 of document 02
//! alone, against which another one is compared.

mod agreement;
mod bitmap;
mod block_set;
mod calls;
mod codes;
mod disk;
mod error;
mod ledger;
mod lent;
mod log;
mod memory;
mod random;
mod ranges;
mod repair;
mod show;
mod status_line;
mod store_list;
mod validity;

pub mod bench;
pub mod damage;
pub mod extents;
pub mod history;
pub mod inspector;
pub mod line;
pub mod line_reader;
pub mod program;
pub mod sweep;
pub mod test_line;
pub mod timing;

pub use bitmap::{majority, Bitmap};
pub use block_set::BlockSet;
pub use calls::{
    allocate, allocate_extent, commit, commit_cost, deallocate, drop, format, open, precommit,
    reserve, revoke, start, status, store, Opened, Status, MAX_COUNT,
};
pub use disk::{BITMAP_START, BLOCKS_POSITION, DISK_WORDS, LOG_LENGTH_POSITION, LOG_START};
pub use error::Error;
pub use ledger::{Call, Ledger};
pub use memory::{Memory, Pending, Slot, SlotState};
pub use random::Random;
