//! The two copies of a page, and a write of one of them.

use super::limits::{COPY_WRITE_BYTES, GOOD};
use crate::Page;

/// Which of the two copies of a page.
#[derive(Clone, Copy, Debug, PartialEq, Eq)]
pub enum Half {
    /// The one that is written first, and counts where it is good.
    First,
    /// The one that is written when the first is there to stay.
    Second,
}

impl Half {
    /// Both, in the order in which they are written.
    pub const BOTH: [Half; 2] = [Half::First, Half::Second];
}

/// One copy of a page.
#[derive(Clone, Copy, Debug, PartialEq, Eq)]
pub struct PageCopy {
    /// 1 for a good copy; any other counts as bad.
    pub status: u8,
    /// The page, as this copy has it.
    pub bytes: Page,
}

impl PageCopy {
    /// Whether it is good.
    pub fn is_good(&self) -> bool {
        self.status == GOOD
    }
}

/// One copy write of an event: the copy is good, with these bytes, once it is made. The power may go within it, which
/// leaves the copy bad.
#[derive(Clone, Copy, Debug, PartialEq, Eq)]
pub struct CopyWrite {
    /// The number of the page, 0 to 32.
    pub page: u8,
    /// Which copy.
    pub half: Half,
    /// What it holds then.
    pub bytes: Page,
}

impl CopyWrite {
    /// The copy write in these bytes: the number of the page, 0 for its first copy or else its second, then the page.
    pub fn of([page, half, bytes @ ..]: [u8; COPY_WRITE_BYTES]) -> CopyWrite {
        CopyWrite { page, half: if half == 0 { Half::First } else { Half::Second }, bytes }
    }
}
