//! Sizes and limits of edition 2. `include/nekahuiro_edition2.h` has the same numbers, and a test compares them.

use crate::limits::{DEPTH_LIMIT, EVENTS, PAGE_BYTES};

/// Records in a store.
pub const RECORDS: usize = 64;
/// Pages of a store: the commit page, then an intention and a home page for each record.
pub const PAGES: usize = 1 + 2 * RECORDS;
/// Bytes of a store.
pub const STORE_BYTES: usize = PAGES * PAGE_BYTES;
/// Bytes of the working buffer.
pub const WORK_BYTES: usize = RECORDS * DEPTH_LIMIT * PAGE_BYTES;
/// Bytes of an event word.
pub const EVENT_BYTES: usize = 8;
/// Bytes of the longest list.
pub const LIST_BYTES: usize = EVENTS * EVENT_BYTES;
/// The largest count of page writes that an event can carry; no power cut comes then.
pub const COUNT_LIMIT: u8 = 255;
