//! Ages: the engine against the player, over many stores and at the edges.

use nekahuiro::limits::STORE_BYTES;
use nekahuiro::{raw, CommitPage, Record, Store};
use nekahuiro_lists::{stores, Rng};
use nekahuiro_player::Age;

/// The engine's answer as the player gives it. The age of a refusal must stay as it was.
fn engine(store: &[u8], record: u8, clock: u32, limit: u32) -> Result<Age, u8> {
    let mut age = i64::MIN;
    match raw::age(store, record, clock, limit, &mut age) {
        0 => Ok(Age::Live(age)),
        1 => Ok(Age::Ahead(age)),
        2 => Ok(Age::Stale(age)),
        number => {
            assert_eq!(age, i64::MIN, "refused {number}, but the age was written");
            Err(number)
        }
    }
}

#[test]
fn random_ages_agree() {
    let mut rng = Rng::new(99);
    let edges = [0, 1, 2, 0x7FFF_FFFF, 0x8000_0000, u32::MAX - 1, u32::MAX];
    for _ in 0..200_000 {
        let mut store = stores::any(&mut rng);
        let record = rng.below(18) as u8;
        let (clock, limit) = (number(&mut rng, &edges), number(&mut rng, &edges));
        let stamp = number(&mut rng, &edges).to_be_bytes();
        if rng.percent(70) {
            for page in [1, 17] {
                let at = 32 * (page + usize::from(record % 16));
                store[at..at + 4].copy_from_slice(&stamp);
            }
        }
        let due = nekahuiro_player::age(&store, record, clock, limit);
        assert_eq!(engine(&store, record, clock, limit), due, "record {record}, clock {clock}, limit {limit}");
    }
}

fn number(rng: &mut Rng, edges: &[u32]) -> u32 {
    match rng.below(3) {
        0 => rng.pick(edges).copied().unwrap_or(0),
        1 => rng.below(20) as u32,
        _ => rng.bits() as u32,
    }
}

#[test]
fn refusals_come_in_order() {
    let mut damaged = stores::fresh();
    damaged[0] = 0;
    assert_eq!(engine(&damaged[1..], 16, 0, 0), Err(22));
    assert_eq!(engine(&[], 0, 0, 0), Err(22));
    assert_eq!(engine(&damaged, 16, 0, 0), Err(23));
    assert_eq!(engine(&damaged, 255, 0, 0), Err(23));
    assert_eq!(engine(&damaged, 15, 0, 0), Err(4));
}

#[test]
fn every_kind_of_damage_is_refused() {
    for way in 0..stores::DAMAGES {
        for seed in 0..2_000 {
            let store = stores::damaged(&mut Rng::new(seed), way);
            assert_eq!(engine(&store, 3, 0, 0), Err(4), "damaged in way {way}, seed {seed}");
        }
    }
}

#[test]
fn the_stamp_is_read_through_a_committed_map() {
    let mut store = stores::fresh();
    store[..4].copy_from_slice(&[0x15, 0x10, 0x00, 0x08]);
    store[32 * 4 + 3] = 7;
    assert_eq!(engine(&store, 3, 5, 0), Ok(Age::Ahead(-2)));
    assert_eq!(engine(&store, 2, 5, 5), Ok(Age::Live(5)));
}

#[test]
fn what_is_only_prepared_has_no_say() {
    for identity in [0, 7, 255] {
        let mut store = stores::prepared(&mut Rng::new(5), 0x1000, identity);
        store[32 * 4..][..4].copy_from_slice(&[0, 0, 0, 7]);
        store[32 * 20..][..4].copy_from_slice(&[0, 0, 0, 1]);
        assert_eq!(engine(&store, 3, 5, 4), Ok(Age::Live(4)));
    }
}

#[test]
fn the_whole_range_of_ages() {
    let mut store = stores::fresh();
    assert_eq!(engine(&store, 0, u32::MAX, u32::MAX), Ok(Age::Live(4_294_967_295)));
    assert_eq!(engine(&store, 0, u32::MAX, u32::MAX - 1), Ok(Age::Stale(4_294_967_295)));
    store[32 * 17..][..4].fill(0xFF);
    assert_eq!(engine(&store, 0, 0, u32::MAX), Ok(Age::Ahead(-4_294_967_295)));
}

/// The wrapper's reading of page 0 is ordinary code: it must agree with the proved one.
#[test]
fn the_wrapper_reads_page_0_as_the_engine_does() {
    let mut rng = Rng::new(5);
    for round in 0..200_000 {
        let bytes: [u8; STORE_BYTES] = stores::any(&mut rng);
        let store = Store::of(&bytes).unwrap();
        let record = Record::new((round % 16) as u8).unwrap();
        let settled = store.settled(record);
        let stamp = u32::from_be_bytes([settled[0], settled[1], settled[2], settled[3]]);
        match engine(&bytes, record.number(), stamp, 0) {
            Ok(age) => assert_eq!(age, Age::Live(0)),
            Err(number) => assert!(number == 4 && matches!(store.commit_page(), CommitPage::Damaged(_))),
        }
    }
}
