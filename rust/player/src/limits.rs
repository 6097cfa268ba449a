//! Every number of the rules that a later edition may move, once.

/// Bytes of a page.
pub const PAGE_BYTES: usize = 32;
/// Records in a store.
pub const RECORDS: usize = 16;
/// Pages of a store: the commit page, then an intention and a home page for each record.
pub const PAGES: usize = 1 + 2 * RECORDS;
/// Bytes of a store.
pub const STORE_BYTES: usize = PAGES * PAGE_BYTES;
/// Transaction numbers are below this.
pub const TRANSACTIONS: usize = 24;
/// In begin, the transaction field that names no parent.
pub const NO_PARENT: u8 = 31;
/// The deepest transaction that can begin; a top transaction has depth 1.
pub const DEPTH_LIMIT: u8 = 16;
/// Bytes of the working buffer.
pub const WORK_BYTES: usize = RECORDS * DEPTH_LIMIT as usize * PAGE_BYTES;
/// Bytes of an event word.
pub const EVENT_BYTES: usize = 4;
/// Events in the longest list.
pub const EVENTS: usize = 4096;
/// Bytes of an answer.
pub const ANSWER_BYTES: usize = 2;
/// The edition in the commit page.
pub const EDITION: u8 = 1;
