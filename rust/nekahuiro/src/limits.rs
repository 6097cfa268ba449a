//! Sizes and limits. `include/nekahuiro.h` has the same numbers, and a test compares them.

/// Bytes of a page.
pub const PAGE_BYTES: usize = 32;
/// Records in a store.
pub const RECORDS: usize = 16;
/// Pages of a store: the commit page, then an intention and a home page for each record.
pub const PAGES: usize = 1 + 2 * RECORDS;
/// Bytes of a store.
pub const STORE_BYTES: usize = PAGES * PAGE_BYTES;
/// Transaction numbers are below this.
pub const TRANSACTIONS: usize = 24;
/// Numbers that fit the transaction field of an event.
pub const TRANSACTION_NAMES: usize = 32;
/// The deepest transaction that can begin; a top transaction has depth 1.
pub const DEPTH_LIMIT: usize = 16;
/// Bytes of the working buffer.
pub const WORK_BYTES: usize = RECORDS * DEPTH_LIMIT * PAGE_BYTES;
/// Bytes of an event word.
pub const EVENT_BYTES: usize = 4;
/// Events in the longest list or portion.
pub const EVENTS: usize = 4096;
/// Bytes of the longest list; what a sheet becomes must have room for as many.
pub const LIST_BYTES: usize = EVENTS * EVENT_BYTES;
/// Bytes of an answer.
pub const ANSWER_BYTES: usize = 2;
/// The largest count of page writes that an event can carry; no power cut comes then.
pub const COUNT_LIMIT: u8 = 63;
/// Rows that a report on waiting transactions takes.
pub const ROWS: usize = 24;
/// Bytes of a lent state.
pub const STATE_BYTES: usize = 468;
/// Bytes of a page write: the number of the page, then its bytes.
pub const PAGE_WRITE_BYTES: usize = 1 + PAGE_BYTES;

/// Bytes of a copy of a page, where pages can tear: its status, then the page.
pub const COPY_BYTES: usize = 1 + PAGE_BYTES;
/// Bytes of a page where pages can tear: its first copy, then its second.
pub const PAIR_BYTES: usize = 2 * COPY_BYTES;
