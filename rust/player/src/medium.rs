//! What pages are on: how a page is kept there, and what a write leaves within which the power goes.

use crate::limits::PAGE_BYTES;
use crate::planted::{Bug, Planted};
use crate::store::Page;

/// A medium. Each page has a space of its own there.
pub trait Medium {
    /// Bytes of a page's space.
    const SPACE: usize;
    /// Whether the power can go within a page write.
    const TEARS: bool;
    /// When the power goes, as far as an event can say it.
    type Cut: Copy;

    /// When the power goes by the count and the value of an event, if it can go so.
    fn cut(count: u8, value: u8) -> Option<Self::Cut>;

    /// The page writes that are made whole before; with as many as are due nothing is cut.
    fn count(cut: Self::Cut) -> u8;

    /// The page in a space; none if nothing there is good.
    fn read(space: &[u8], planted: Planted) -> Option<&[u8]>;

    /// Writes a page whole.
    fn write(space: &mut [u8], page: &Page);

    /// Leaves what a write of the page leaves where the power goes; whether it counts as made.
    fn tear(space: &mut [u8], page: &Page, cut: Self::Cut, planted: Planted) -> bool;

    /// Puts right what a torn write left, if anything there is good.
    fn mend(space: &mut [u8], planted: Planted);

    /// Whether there is nothing to put right.
    fn is_even(space: &[u8]) -> bool;
}

/// Each page write is atomic: a page is its bytes.
pub struct Atomic;

impl Medium for Atomic {
    const SPACE: usize = PAGE_BYTES;
    const TEARS: bool = false;
    /// After so many page writes.
    type Cut = u8;

    fn cut(count: u8, value: u8) -> Option<u8> {
        (value == 0).then_some(count)
    }

    fn count(count: u8) -> u8 {
        count
    }

    fn read(space: &[u8], _: Planted) -> Option<&[u8]> {
        Some(space)
    }

    fn write(space: &mut [u8], page: &Page) {
        space.copy_from_slice(page);
    }

    fn tear(_: &mut [u8], _: &Page, _: u8, _: Planted) -> bool {
        false
    }

    fn mend(_: &mut [u8], _: Planted) {}

    fn is_even(_: &[u8]) -> bool {
        true
    }
}

/// Each page is a pair of copies, first and second. A copy is a status byte and the bytes of the page.
pub struct Paired;

/// What becomes of the next page write where the power goes.
#[derive(Clone, Copy, Debug, PartialEq, Eq)]
pub enum Tear {
    /// It isn't begun.
    Between,
    /// Its first copy is left bad.
    FirstBad,
    /// Its first copy is made, the second left bad.
    SecondBad,
    /// Its first copy is made, the second is the old one.
    SecondOld,
}

/// Bytes of a copy.
const COPY_BYTES: usize = 1 + PAGE_BYTES;
/// The status of a good copy; every other counts as bad.
const GOOD: u8 = 1;
/// The status that a torn write leaves.
const BAD: u8 = 0;

impl Medium for Paired {
    const SPACE: usize = 2 * COPY_BYTES;
    const TEARS: bool = true;
    /// After so many page writes, and what becomes of the next.
    type Cut = (u8, Tear);

    fn cut(count: u8, value: u8) -> Option<Self::Cut> {
        let tears = [Tear::Between, Tear::FirstBad, Tear::SecondBad, Tear::SecondOld];
        tears.get(usize::from(value)).map(|tear| (count, *tear))
    }

    fn count((count, _): Self::Cut) -> u8 {
        count
    }

    /// The first good copy counts.
    fn read(space: &[u8], planted: Planted) -> Option<&[u8]> {
        let is_good = |copy: &&[u8]| copy[0] == GOOD || (copy[0] == 2 && planted.is(Bug::StatusTwoGood));
        let mut copies = space.chunks_exact(COPY_BYTES).filter(is_good);
        let good = if planted.is(Bug::SecondCopyRead) { copies.next_back() } else { copies.next() };
        good.map(|copy| &copy[1..])
    }

    /// First copy, then second.
    fn write(space: &mut [u8], page: &Page) {
        space.chunks_exact_mut(COPY_BYTES).for_each(|copy| make(copy, page));
    }

    /// With its first copy made a write counts.
    fn tear(space: &mut [u8], page: &Page, (_, tear): Self::Cut, planted: Planted) -> bool {
        let (mut first, mut second) = space.split_at_mut(COPY_BYTES);
        if planted.is(Bug::SecondCopyFirst) {
            std::mem::swap(&mut first, &mut second);
        }
        match tear {
            Tear::Between => false,
            Tear::FirstBad => {
                spoil(first, page, planted);
                false
            }
            Tear::SecondBad => {
                make(first, page);
                spoil(second, page, planted);
                !planted.is(Bug::SecondBadNotMade)
            }
            Tear::SecondOld => {
                make(first, page);
                !planted.is(Bug::SecondOldNotMade)
            }
        }
    }

    /// Both copies become the first good one.
    fn mend(space: &mut [u8], planted: Planted) {
        let mut copies = space.chunks_exact(COPY_BYTES).filter(|copy| copy[0] == GOOD);
        let good = if planted.is(Bug::MendedFromSecond) { copies.next_back() } else { copies.next() };
        let Some(good) = good.and_then(|copy| copy[1..].try_into().ok()) else { return };
        for copy in space.chunks_exact_mut(COPY_BYTES) {
            let status = copy[0];
            if status == GOOD && planted.is(Bug::OnlyBadMended) {
                continue;
            }
            make(copy, &good);
            if planted.is(Bug::MendedStatusLeft) {
                copy[0] = status;
            }
        }
    }

    /// Both copies are good, and alike.
    fn is_even(space: &[u8]) -> bool {
        let (first, second) = space.split_at(COPY_BYTES);
        first[0] == GOOD && first == second
    }
}

/// A good copy of a page.
fn make(copy: &mut [u8], page: &Page) {
    copy[0] = GOOD;
    copy[1..].copy_from_slice(page);
}

/// A bad copy, with the bytes that it had.
fn spoil(copy: &mut [u8], page: &Page, planted: Planted) {
    copy[0] = BAD;
    if planted.is(Bug::BadCopyNew) {
        copy[1..].copy_from_slice(page);
    }
}
