//! What stores that are played on in portions differ in: edition 1's own, and that on pages that can tear.

use crate::limits::{EVENT_BYTES, PAGE_BYTES, PAGE_WRITE_BYTES, STORE_BYTES};
use crate::page_write::PageWrite;
use crate::{raw, Cuts, Edition, Identifies, Identity, Page, State};
use std::fmt::Debug;

/// A form of the store whose events can be played in portions, on a state that is lent: how its bytes are laid out, what
/// it writes to a medium, and the operations of its library.
pub trait Form: Clone + Debug + PartialEq + Eq {
    /// Its numbers.
    const EDITION: Edition;
    /// The bytes of a store.
    type Bytes: Clone + Debug + PartialEq + Eq + AsRef<[u8]> + AsMut<[u8]> + for<'a> TryFrom<&'a [u8]>;
    /// What transactions are prepared with, if they can be.
    type Identity: Identifies + Debug;
    /// When the power goes in a commit or a recovery.
    type Cut: Cuts;
    /// What one write to the medium writes: a page, or a copy of one.
    type Write;

    /// Zeros, as many as a store has bytes.
    fn zeros() -> Self::Bytes;
    /// A page of a store; none if there is no such page, or nothing of it is good.
    fn page(store: &Self::Bytes, number: usize) -> Option<Page>;
    /// The writes to the medium that a page write comes to, in their order.
    fn writes(write: PageWrite) -> Vec<Self::Write>;
    /// The writes to the medium that mend a store before a recovery that isn't refused; none where pages don't tear.
    fn mends(store: &Self::Bytes) -> Vec<Self::Write>;

    /// Lays down a fresh store: 0, or a refusal's number.
    fn fresh(store: &mut [u8]) -> u8;
    /// Plays a list of event words: 0, or a refusal's number.
    fn run(store: &mut [u8], events: &[u8], work: &mut [u8], answers: &mut [u8]) -> u8;
    /// Plays a portion of event words on a lent state: 0, or a refusal's number.
    fn portion(state: &mut State, store: &mut [u8], events: &[u8], work: &mut [u8], answers: &mut [u8]) -> u8;
    /// The write of this number that an event makes if nothing cuts it, or a refusal's number.
    fn write(state: &State, store: &[u8], word: &[u8; EVENT_BYTES], work: &[u8], index: u8) -> Result<Self::Write, u8>;
    /// Tells the age of a record: 0 live, 1 ahead, 2 stale, with `age` set, or a refusal's number.
    fn age(store: &[u8], record: u8, clock: u32, limit: u32, age: &mut i64) -> u8;
}

/// Edition 1, on pages that are written all or nothing.
#[derive(Clone, Debug, PartialEq, Eq)]
pub struct First;

impl Form for First {
    const EDITION: Edition = Edition::FIRST;
    type Bytes = [u8; STORE_BYTES];
    type Identity = Identity;
    type Cut = u8;
    type Write = PageWrite;

    fn zeros() -> Self::Bytes {
        [0; STORE_BYTES]
    }

    fn page(store: &Self::Bytes, number: usize) -> Option<Page> {
        store.chunks_exact(PAGE_BYTES).nth(number)?.try_into().ok()
    }

    fn writes(write: PageWrite) -> Vec<PageWrite> {
        vec![write]
    }

    fn mends(_: &Self::Bytes) -> Vec<PageWrite> {
        Vec::new()
    }

    fn fresh(store: &mut [u8]) -> u8 {
        raw::fresh(store)
    }

    fn run(store: &mut [u8], events: &[u8], work: &mut [u8], answers: &mut [u8]) -> u8 {
        raw::run(store, events, work, answers)
    }

    fn portion(state: &mut State, store: &mut [u8], events: &[u8], work: &mut [u8], answers: &mut [u8]) -> u8 {
        raw::portion(state, store, events, work, answers)
    }

    fn write(state: &State, store: &[u8], word: &[u8; EVENT_BYTES], work: &[u8], index: u8) -> Result<PageWrite, u8> {
        let mut write = [0; PAGE_WRITE_BYTES];
        match raw::page_write(state, store, word, work, index, &mut write) {
            0 => Ok(PageWrite::of(write)),
            number => Err(number),
        }
    }

    fn age(store: &[u8], record: u8, clock: u32, limit: u32, age: &mut i64) -> u8 {
        raw::age(store, record, clock, limit, age)
    }
}
