//! Stores whose pages are pairs of copies: even ones, ones that torn writes left, and ones with a pair all bad.

use crate::{stores, Rng};
use nekahuiro::limits::{PAGES, PAGE_BYTES};

/// Bytes of a copy: a status, 1 for good, and the page.
pub const COPY_BYTES: usize = 1 + PAGE_BYTES;
/// Bytes of a pair.
pub const PAIR_BYTES: usize = 2 * COPY_BYTES;
/// Bytes of a store.
pub const STORE_BYTES: usize = PAGES * PAIR_BYTES;

/// Each page of a plain store as a pair of good copies.
pub fn even(plain: &stores::Bytes) -> Vec<u8> {
    let pages = plain.chunks_exact(PAGE_BYTES);
    pages.flat_map(|page| [&[1], page, &[1], page].concat()).collect()
}

/// A fresh store.
pub fn fresh() -> Vec<u8> {
    even(&stores::fresh())
}

/// The same with some pairs uneven, `times` in a hundred, of which each has a good copy.
pub fn uneven(rng: &mut Rng, mut store: Vec<u8>, times: usize) -> Vec<u8> {
    for pair in store.chunks_exact_mut(PAIR_BYTES) {
        if rng.percent(times) {
            let (first, second) = pair.split_at_mut(COPY_BYTES);
            match rng.below(3) {
                0 => spoil(rng, first),
                1 => spoil(rng, second),
                // Two good copies, the first of which counts.
                _ => change(rng, second),
            }
        }
    }
    store
}

/// The same with one pair all bad.
pub fn all_bad(rng: &mut Rng, mut store: Vec<u8>, page: usize) -> Vec<u8> {
    store[page * PAIR_BYTES..][..PAIR_BYTES].chunks_exact_mut(COPY_BYTES).for_each(|copy| spoil(rng, copy));
    store
}

/// Any of the above, over any plain store. Mostly each pair has a good copy.
pub fn any(rng: &mut Rng) -> Vec<u8> {
    let plain = stores::any(rng);
    let times = rng.one_of([0, 3, 30, 100]);
    let store = uneven(rng, even(&plain), times);
    if rng.percent(5) {
        let page = rng.below(PAGES);
        return all_bad(rng, store, page);
    }
    store
}

/// How many records a committed page 0 names, at a guess.
pub fn named(store: &[u8]) -> u32 {
    let copy = if store[0] == 1 { &store[1..] } else { &store[COPY_BYTES + 1..] };
    if copy[0] == 0x15 {
        u16::from_be_bytes([copy[1], copy[2]]).count_ones()
    } else {
        0
    }
}

/// A copy whose status counts as bad, mostly with other bytes.
fn spoil(rng: &mut Rng, copy: &mut [u8]) {
    copy[0] = rng.one_of([0, 0, 0, 2, 255]);
    if rng.percent(70) {
        change(rng, copy);
    }
}

fn change(rng: &mut Rng, copy: &mut [u8]) {
    match rng.below(2) {
        0 => copy[1 + rng.below(PAGE_BYTES)] ^= 1 << rng.below(8),
        _ => copy[1..].fill_with(|| rng.byte()),
    }
}
