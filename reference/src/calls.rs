//! The allocator's calls. Each tests the causes that name it in document 01's table, or those that
//! document 02 gives it, in number order, and a refused call changes nothing.

mod allocate;
mod allocate_extent;
mod commit_cost;
mod deallocate;
mod format;
mod open;
mod readiness;
mod reserve;
mod status;
mod store;
mod transaction;

pub use allocate::{allocate, MAX_COUNT};
pub use allocate_extent::allocate_extent;
pub use commit_cost::commit_cost;
pub use deallocate::deallocate;
pub use format::format;
pub use open::{open, Opened};
pub use reserve::reserve;
pub use status::{status, Status};
pub use store::store;
pub use transaction::{commit, drop, precommit, revoke, start};
