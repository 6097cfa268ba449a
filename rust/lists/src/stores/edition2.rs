//! Stores of edition 2: fresh, used, with a commit under way, and damaged in every way.

use super::pick_other;
use crate::Rng;
use nekahuiro::limits::PAGE_BYTES;

/// Records in a store.
pub const RECORDS: usize = 64;
/// Pages of a store.
pub const PAGES: usize = 1 + 2 * RECORDS;
/// Bytes of a store.
pub const STORE_BYTES: usize = PAGES * PAGE_BYTES;

/// A fresh store.
pub fn fresh() -> Vec<u8> {
    let mut store = vec![0; STORE_BYTES];
    store[0] = 0x20;
    store
}

/// Random records under an empty commit page.
pub fn used(rng: &mut Rng) -> Vec<u8> {
    let mut store = noise(rng);
    set_head(&mut store, 0x20, 0, 0);
    store
}

/// Random records with a commit of the records in `map` under way.
pub fn committed(rng: &mut Rng, map: u64) -> Vec<u8> {
    let mut store = noise(rng);
    set_head(&mut store, 0x25, map, (map.count_ones() as u8) << 1);
    store
}

/// The ways in which page 0 can be damaged.
pub const DAMAGES: usize = 11;

/// Random records under a page 0 that is damaged in this way.
pub fn damaged(rng: &mut Rng, way: usize) -> Vec<u8> {
    let map = rng.bits() | 1;
    let ones = (map.count_ones() as u8) << 1;
    let mut store = if rng.percent(50) { used(rng) } else { committed(rng, map) };
    match way {
        // Another edition, among them edition 1.
        0 => store[0] = (store[0] & 15) | pick_other(rng, 2, 16) << 4,
        1 => store[0] = 0x20 | rng.one_of([1, 2, 3, 4, 6, 7, 8, 15]),
        2 => set_head(&mut store, 0x25, 0, 0),
        3 => set_head(&mut store, 0x25, map, pick_other(rng, map.count_ones() as u8, 128) << 1),
        4 => store[9] |= 1,
        5 => store[10 + rng.below(PAGE_BYTES - 10)] = 1 << rng.below(8),
        6 => set_head(&mut store, 0x20, map, ones),
        7 => set_head(&mut store, 0x20, 0, (1 + rng.below(127) as u8) << 1),
        // Prepared, as it would be in edition 1.
        8 => {
            set_head(&mut store, 0x23, map, ones);
            store[10] = rng.one_of([0, 7]);
        }
        // The count where edition 1 would have it, or in eight bits.
        9 => set_head(&mut store, 0x25, map & !0xFF | 1, rng.one_of([0, 1, 3]) * 8 + 1),
        _ => {
            for byte in &mut store[..PAGE_BYTES] {
                *byte = rng.byte();
            }
        }
    }
    store
}

/// Any of the above.
pub fn any(rng: &mut Rng) -> Vec<u8> {
    match rng.below(10) {
        0..=3 => fresh(),
        4..=5 => used(rng),
        6..=8 => {
            let (few, many) = (1 << rng.below(64) | 1 << rng.below(64), rng.bits() | 1);
            let map = rng.one_of([1 << 63, 1, 1 << 32, 1 << 31, u64::MAX, few, few, many]);
            committed(rng, map)
        }
        _ => {
            let way = rng.below(DAMAGES);
            damaged(rng, way)
        }
    }
}

/// How many records a committed page 0 names, at a guess.
pub fn named(store: &[u8]) -> u32 {
    if store[0] == 0x25 {
        store[1..9].iter().map(|byte| byte.count_ones()).sum()
    } else {
        0
    }
}

fn noise(rng: &mut Rng) -> Vec<u8> {
    let mut store = vec![0; STORE_BYTES];
    for bytes in store.chunks_exact_mut(PAGE_BYTES) {
        // Some pages stay zero, so that equal and unequal pages both come up.
        if rng.percent(75) {
            bytes.fill_with(|| rng.byte());
        }
    }
    store
}

fn set_head(store: &mut [u8], first: u8, map: u64, count: u8) {
    store[..PAGE_BYTES].fill(0);
    store[0] = first;
    store[1..9].copy_from_slice(&map.to_be_bytes());
    store[9] = count;
}
