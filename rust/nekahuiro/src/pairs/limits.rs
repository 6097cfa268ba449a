//! Sizes where pages can tear; all others are edition 1's. `include/nekahuiro_pairs.h` has the same numbers, and a test
//! compares them.

pub use crate::limits::{COPY_BYTES, PAIR_BYTES};
use crate::limits::{PAGES, PAGE_BYTES};

/// Bytes of a store.
pub const STORE_BYTES: usize = PAGES * PAIR_BYTES;
/// Bytes of a copy write: the number of the page, which of its copies, then its bytes.
pub const COPY_WRITE_BYTES: usize = 2 + PAGE_BYTES;
/// The status of a good copy. Any other counts as bad.
pub const GOOD: u8 = 1;
/// The status that a torn write leaves.
pub const BAD: u8 = 0;
