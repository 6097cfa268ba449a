//! Start stores: fresh, used, with a commit under way, with a transaction prepared, and damaged in every way. Those of
//! other forms than the plain one have a module each.

pub mod edition2;
pub mod pairs;

use crate::Rng;
use nekahuiro::limits::{PAGE_BYTES, RECORDS, STORE_BYTES};

/// The bytes of a store.
pub type Bytes = [u8; STORE_BYTES];

/// A fresh store.
pub fn fresh() -> Bytes {
    let mut store = [0; STORE_BYTES];
    store[0] = 0x10;
    store
}

/// Random records under an empty commit page.
pub fn used(rng: &mut Rng) -> Bytes {
    let mut store = noise(rng);
    set_head(&mut store, 0x10, 0, 0);
    store
}

/// Random records with a commit of the records in `map` under way.
pub fn committed(rng: &mut Rng, map: u16) -> Bytes {
    let mut store = noise(rng);
    set_head(&mut store, 0x15, map, (map.count_ones() as u8) << 3);
    store
}

/// Random records with a transaction prepared that changed the records in `map`.
pub fn prepared(rng: &mut Rng, map: u16, identity: u8) -> Bytes {
    let mut store = noise(rng);
    set_head(&mut store, 0x13, map, (map.count_ones() as u8) << 3);
    store[4] = identity;
    store
}

/// The ways in which page 0 can be damaged.
pub const DAMAGES: usize = 13;

/// Random records under a page 0 that is damaged in this way.
pub fn damaged(rng: &mut Rng, way: usize) -> Bytes {
    let map = 1 + rng.below(0xFFFE) as u16;
    let ones = (map.count_ones() as u8) << 3;
    let mut store = if rng.percent(50) { used(rng) } else { committed(rng, map) };
    match way {
        0 => store[0] = (store[0] & 15) | pick_other(rng, 1, 16) << 4,
        1 => store[0] = 0x10 | rng.one_of([1, 2, 4, 6, 7, 8, 15]),
        2 => set_head(&mut store, 0x15, 0, 0),
        3 => set_head(&mut store, 0x15, map, pick_other(rng, map.count_ones() as u8, 32) << 3),
        4 => store[3] |= 1 + rng.below(7) as u8,
        5 => store[4 + rng.below(PAGE_BYTES - 4)] = 1 << rng.below(8),
        6 => set_head(&mut store, 0x10, map, ones),
        7 => set_head(&mut store, 0x10, 0, (1 + rng.below(31) as u8) << 3),
        8 => {
            set_head(&mut store, 0x13, 0, 0);
            store[4] = any_identity(rng);
        }
        9 => {
            set_head(&mut store, 0x13, map, pick_other(rng, map.count_ones() as u8, 32) << 3);
            store[4] = any_identity(rng);
        }
        10 => {
            let identity = any_identity(rng);
            store = prepared(rng, map, identity);
            match rng.below(3) {
                0 => store[0] = pick_other(rng, 1, 16) << 4 | 3,
                1 => store[3] |= 1 + rng.below(7) as u8,
                _ => store[5 + rng.below(PAGE_BYTES - 5)] = 1 << rng.below(8),
            }
        }
        // A fifth byte under a page that isn't prepared.
        11 => store[4] = 1 + rng.below(255) as u8,
        _ => {
            for byte in &mut store[..PAGE_BYTES] {
                *byte = rng.byte();
            }
        }
    }
    store
}

/// Any of the above.
pub fn any(rng: &mut Rng) -> Bytes {
    match rng.below(10) {
        0..=3 => fresh(),
        4..=5 => used(rng),
        6..=7 => {
            let map = any_map(rng);
            committed(rng, map)
        }
        8 => {
            let (map, identity) = (any_map(rng), any_identity(rng));
            prepared(rng, map, identity)
        }
        _ => {
            let way = rng.below(DAMAGES);
            damaged(rng, way)
        }
    }
}

/// The map of a page that names records, often of few.
fn any_map(rng: &mut Rng) -> u16 {
    let map = rng.one_of([0x8000, 0x0001, 0x9000, 0x1000, 0xFFFF, 0x5555]);
    if rng.percent(50) {
        map
    } else {
        1 + rng.below(0xFFFF) as u16
    }
}

/// An identity, often the least, the greatest or one that comes again.
pub fn any_identity(rng: &mut Rng) -> u8 {
    let usual = rng.one_of([0, 255, 7]);
    if rng.percent(80) {
        usual
    } else {
        rng.byte()
    }
}

fn noise(rng: &mut Rng) -> Bytes {
    let mut store = [0; STORE_BYTES];
    for (page, bytes) in store.chunks_exact_mut(PAGE_BYTES).enumerate() {
        // Some pages stay zero, so that equal and unequal pages both come up.
        if page <= 2 * RECORDS && rng.percent(75) {
            bytes.fill_with(|| rng.byte());
        }
    }
    store
}

fn set_head(store: &mut Bytes, first: u8, map: u16, count: u8) {
    store[..PAGE_BYTES].fill(0);
    store[0] = first;
    store[1..3].copy_from_slice(&map.to_be_bytes());
    store[3] = count;
}

/// A number below `limit` that isn't `taboo`.
fn pick_other(rng: &mut Rng, taboo: u8, limit: u8) -> u8 {
    let other = rng.below(usize::from(limit) - 1) as u8;
    if other >= taboo {
        other + 1
    } else {
        other
    }
}
