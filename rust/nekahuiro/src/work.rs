//! The working buffer, kept from one portion to the next.

use crate::answer::Refusal;
use crate::limits::{DEPTH_LIMIT, PAGE_BYTES, WORK_BYTES};
use crate::{Page, Record};

/// The working buffer, owned. Between portions it holds the versions of live transactions.
///
/// ```
/// use nekahuiro::{Refusal, Work};
/// let work = Work::new();
/// assert_eq!(Work::of(work.bytes()), Ok(work));
/// assert_eq!(Work::of(&[0; 5]), Err(Refusal::Work));
/// ```
#[derive(Clone, Debug, PartialEq, Eq)]
pub struct Work {
    bytes: Box<[u8; WORK_BYTES]>,
}

impl Work {
    /// A working buffer of zeros; before the first portion its content has no effect.
    pub fn new() -> Work {
        Work { bytes: Box::new([0; WORK_BYTES]) }
    }

    /// The working buffer in these bytes, which may be anything as long as their number is right.
    pub fn of(bytes: &[u8]) -> Result<Work, Refusal> {
        bytes.try_into().map(|bytes| Work { bytes: Box::new(bytes) }).map_err(|_| Refusal::Work)
    }

    /// All bytes.
    pub fn bytes(&self) -> &[u8; WORK_BYTES] {
        &self.bytes
    }

    /// All bytes, to change.
    pub fn bytes_mut(&mut self) -> &mut [u8; WORK_BYTES] {
        &mut self.bytes
    }

    /// Where the version of a record by a writer of this depth begins; none unless the depth is 1 to 16.
    pub fn place(record: Record, depth: u8) -> Option<usize> {
        let level = usize::from(depth).checked_sub(1).filter(|level| *level < DEPTH_LIMIT)?;
        Some((usize::from(record.number()) * DEPTH_LIMIT + level) * PAGE_BYTES)
    }

    /// The page at the place of a version; zeros if there is no such depth.
    pub fn version(&self, record: Record, depth: u8) -> Page {
        let mut page = [0; PAGE_BYTES];
        if let Some(bytes) = Work::place(record, depth).and_then(|at| self.bytes[at..].first_chunk()) {
            page = *bytes;
        }
        page
    }
}

impl Default for Work {
    fn default() -> Work {
        Work::new()
    }
}
