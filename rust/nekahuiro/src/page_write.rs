//! A page write: which page, and its new bytes.

use crate::limits::PAGE_WRITE_BYTES;
use crate::Page;

/// The library's answer where an event has no page write of a number.
pub(crate) const NO_SUCH_WRITE: u8 = 12;

/// One page write of an event.
#[derive(Clone, Copy, Debug, PartialEq, Eq)]
pub struct PageWrite {
    /// The number of the page, 0 to 32; in edition 2, 0 to 128.
    pub page: u8,
    /// What it holds then.
    pub bytes: Page,
}

impl PageWrite {
    /// The page write in these bytes: the number, then the page.
    pub fn of([page, bytes @ ..]: [u8; PAGE_WRITE_BYTES]) -> PageWrite {
        PageWrite { page, bytes }
    }
}
