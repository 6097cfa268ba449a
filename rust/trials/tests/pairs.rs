//! Pages that can tear, each kept as a pair of copies: the points of the rules in literal bytes, every tear of every
//! page write of short commits and recoveries, and what is mended.

use nekahuiro::pairs::{CommitPage, Event, Store};
use nekahuiro::{raw, Edition, Fields, Record};
use nekahuiro_lists::stores::pairs::{all_bad, even, fresh, uneven, COPY_BYTES, PAIR_BYTES, STORE_BYTES};
use nekahuiro_lists::{stores, Rng};
use nekahuiro_player::{Age, Form as _, Volatile};
use nekahuiro_trials::forms::events::{abort, begin, commit, crash, lock, read, recover, torn, words, write, TOP};
use nekahuiro_trials::forms::every::Family;
use nekahuiro_trials::forms::{check, copies, hex, random, Case, Form, Pairs, Program};
use nekahuiro_trials::portions::share;
use nekahuiro_trials::{random as plain, settings};
use std::sync::atomic::{AtomicU64, Ordering};

type Player = <Pairs as Form>::Player;

/// The age that the engine tells, which must be the player's. The age of a refusal stays as it was.
fn age(store: &[u8], record: u8, clock: u32, limit: u32) -> Result<Age, u8> {
    let mut age = i64::MIN;
    let told = match raw::pairs::age(store, record, clock, limit, &mut age) {
        0 => Ok(Age::Live(age)),
        1 => Ok(Age::Ahead(age)),
        2 => Ok(Age::Stale(age)),
        number => Err(number),
    };
    assert!(told.is_ok() || age == i64::MIN, "refused, but the age was written");
    assert_eq!(told, Player::age(store, record, clock, limit), "record {record}, clock {clock}, limit {limit}");
    told
}

/// Up, with one transaction that wrote A5 at offset 2 of record 3: n = 1, W = 4.
const ONE: &str = "80003F00 1F800000 20180000 301880A5";

fn play(store: &[u8], list: &str) -> (String, Vec<u8>) {
    hex::play::<Pairs>(store, list)
}

/// The last answers of a list on a fresh store.
fn ends(list: &str) -> String {
    play(&fresh(), &format!("{ONE} {list}")).0.split_off("0000 0000 0000 0000 ".len())
}

/// A copy of a page: its status and its bytes.
fn copy(store: &[u8], page: usize, copy: usize) -> (u8, &[u8]) {
    let bytes = &store[page * PAIR_BYTES + copy * COPY_BYTES..][..COPY_BYTES];
    (bytes[0], &bytes[1..])
}

fn set(store: &mut [u8], page: usize, copy: usize, status: u8, bytes: &[u8]) {
    let place = &mut store[page * PAIR_BYTES + copy * COPY_BYTES..][..COPY_BYTES];
    place[0] = status;
    place[1..=bytes.len()].copy_from_slice(bytes);
}

fn is_even(store: &[u8]) -> bool {
    (0..33).all(|page| copy(store, page, 0).0 == 1 && copy(store, page, 0) == copy(store, page, 1))
}

#[test]
fn sizes_and_a_fresh_store() {
    assert_eq!((STORE_BYTES, Player::STORE_BYTES, Player::WORK_BYTES, Player::EVENT_BYTES), (2_178, 2_178, 8_192, 4));
    let mut store = [0xAB; 2_178];
    for lay in [raw::pairs::fresh, Player::fresh] {
        store.fill(0xAB);
        assert_eq!(lay(&mut store), 0);
        assert_eq!(store[..], fresh()[..]);
    }
    let mut pair = [0; 66];
    (pair[0], pair[33]) = (1, 1);
    assert!(store.chunks_exact(66).skip(1).all(|page| page == pair));
    (pair[1], pair[34]) = (0x10, 0x10);
    assert_eq!(store[..66], pair);
    for wrong in [0, 1_056, 2_177, 2_179, 4_128] {
        for lay in [raw::pairs::fresh, Player::fresh] {
            let mut store = vec![0xAB; wrong];
            assert_eq!((lay(&mut store), store), (22, vec![0xAB; wrong]));
        }
    }
}

/// Every wrong length beside every other: the first wrong one in the order of the refusals is told, and nothing changed.
#[test]
fn refusals_before_the_first_event_are_those_of_the_plain_form() {
    let lengths = |due: usize| [due, due - 1, due + 1, 0, 2 * due];
    let mut tried = 0;
    for (store, work) in lengths(2_178).into_iter().chain([1_056, 4_128]).flat_map(|s| lengths(8_192).map(|w| (s, w))) {
        for (events, answers) in
            [0, 3, 4, 6, 8, 16_384, 16_388].into_iter().flat_map(|e| [0, 1, 3, 4, 8_192].map(|a| (e, a)))
        {
            let wrong = [
                (22, store != 2_178),
                (24, work != 8_192),
                (20, events % 4 != 0 || events > 16_384),
                (21, answers < events / 4 * 2),
            ];
            let due = wrong.iter().find(|(_, wrong)| *wrong).map_or(0, |(number, _)| *number);
            for run in [raw::pairs::run, Player::run] {
                let mut lent = (vec![0; store], vec![7; work], vec![9; answers]);
                let before = lent.clone();
                assert_eq!(run(&mut lent.0, &vec![0; events], &mut lent.1, &mut lent.2), due);
                assert!(due == 0 || lent == before);
            }
            tried += 1;
        }
    }
    assert_eq!(tried, 1_225);
}

#[test]
fn random_ages_are_the_players() {
    let mut rng = Rng::new(99);
    for _ in 0..settings::lists() / 5 {
        let store = stores::pairs::any(&mut rng);
        let (clock, limit) = (rng.bits() as u32 >> rng.below(32), rng.bits() as u32 >> rng.below(32));
        let _ = age(&store, rng.below(18) as u8, clock, limit);
    }
}

/// READINGS 5.1.
#[test]
fn a_last_write_that_is_torn_counts_and_is_a_cut() {
    assert_eq!(ends("50000303 10000000 80003F00"), "0B04 0200 0000");
    assert_eq!(ends("50000302 10000000 80003F00"), "0B04 0200 0000");
    assert_eq!(ends("50000301 10000000 80003F00"), "0B03 0200 0002");
    assert_eq!(ends("50000403 1F800000"), "0004 0000");
    // Of a recovery: over a page 0 that names record 3 two writes are due.
    for (way, answers) in [("01", "0B01 0200 0002"), ("02", "0B02 0200 0000"), ("03", "0B02 0200 0000")] {
        assert_eq!(ends(&format!("50000200 800001{way} 1F800000 80003F00")), format!("0B02 {answers}"));
    }
}

/// READINGS 5.2.
#[test]
fn a_tear_without_a_cut_has_no_effect_and_above_3_is_bad() {
    for way in 1..=3 {
        let word = |word: u32| format!("{:08X}", word + way);
        // k at W and above.
        assert_eq!(ends(&format!("{} 1F800000", word(0x5000_0400))), "0004 0000");
        assert_eq!(ends(&format!("{} 1F800000", word(0x5000_3F00))), "0004 0000");
        // Nothing changed; a child, which then leaves its parent something to commit.
        let (answers, store) =
            play(&fresh(), &format!("{} 1F800000 {} 1F800000", word(0x8000_0000), word(0x5000_0000)));
        assert_eq!((answers.as_str(), store), ("0000 0000 0000 0000", fresh()));
        let child = format!("80003F00 1F800000 10000000 20980000 30980001 {} 50003F00", word(0x5080_0000));
        assert_eq!(play(&fresh(), &child).0, "0000 0000 0001 0000 0000 0000 0004");
    }
    // First of all, while down, while up, for nobody and with a live child.
    for value in [4, 5, 127, 128, 254, 255] {
        let list =
            format!("500000{value:02X} 800000{value:02X} {ONE} 50003F{value:02X} 80003F{value:02X} 51003F{value:02X}");
        assert_eq!(play(&fresh(), &list).0, "0100 0100 0000 0000 0000 0000 0100 0100 0100");
    }
}

/// READINGS 5.3.
#[test]
fn a_tear_that_counts_stores_the_commit_record() {
    for (word, answer, byte) in [
        ("50000100", "0B01", 0),
        ("50000101", "0B01", 0),
        ("50000102", "0B02", 0xA5),
        ("50000103", "0B02", 0xA5),
        ("50000200", "0B02", 0xA5),
        ("50000003", "0B01", 0),
    ] {
        let (answers, store) = play(&fresh(), &format!("{ONE} {word}"));
        assert!(answers.ends_with(answer), "{word}: {answers}");
        assert_eq!(Pairs::HISTORY.settled(&store)[3][2], byte, "{word}");
        let reads = format!("{ONE} {word} 80003F00 1F800000 20180000 40188000");
        assert!(play(&fresh(), &reads).0.ends_with(&format!("00{byte:02X}")), "{word}");
    }
}

/// READINGS 5.4: the pair of page 0, which is empty before and committed after.
#[test]
fn what_each_tear_leaves() {
    let (old, new) = (hex::bytes("10000000"), hex::bytes("15100008"));
    let rows =
        [(0, (1, &old), (1, &old)), (1, (0, &old), (1, &old)), (2, (1, &new), (0, &old)), (3, (1, &new), (1, &old))];
    for (way, first, second) in rows {
        let (_, store) = play(&fresh(), &format!("{ONE} 500001{way:02X}"));
        let found = [0, 1].map(|place| copy(&store, 0, place)).map(|(status, bytes)| (status, &bytes[..4]));
        assert_eq!(found, [(first.0, &first.1[..]), (second.0, &second.1[..])], "way {way}");
        // The intention page of record 3 is whole before; no other page is touched.
        for place in [0, 1] {
            assert_eq!((copy(&store, 4, place).0, copy(&store, 4, place).1[2]), (1, 0xA5));
        }
        assert!((1..33).filter(|page| *page != 4).all(|page| copy(&store, page, 0) == copy(&fresh(), page, 0)));
        assert!((1..33).all(|page| copy(&store, page, 0) == copy(&store, page, 1)));
    }
    // A page that isn't zero before keeps its old bytes in the bad copy.
    let before = format!("{ONE} 50003F00 1F800000 20180000 30188077");
    for (way, bytes) in [(1, [(0, 0xA5), (1, 0xA5)]), (2, [(1, 0x77), (0, 0xA5)]), (3, [(1, 0x77), (1, 0xA5)])] {
        let (_, store) = play(&fresh(), &format!("{before} 500000{way:02X}"));
        assert_eq!([0, 1].map(|place| (copy(&store, 4, place).0, copy(&store, 4, place).1[2])), bytes);
        let (_, store) = play(&fresh(), &format!("{before} 500002{way:02X}"));
        assert_eq!([0, 1].map(|place| (copy(&store, 20, place).0, copy(&store, 20, place).1[2])), bytes);
    }
}

/// READINGS 5.5.
#[test]
fn a_pair_all_bad_anywhere_is_4_and_nothing_is_mended() {
    for page in 0..33 {
        let mut store = fresh();
        let torn = if page == 5 { 6 } else { 5 };
        set(&mut store, torn, 0, 0, &[7]);
        set(&mut store, page, 0, 0, &[]);
        set(&mut store, page, 1, 0, &[]);
        let (answers, after) = play(&store, "80003F00 80000000 70000000 10000000 80003F01");
        assert_eq!((answers.as_str(), &after), ("0400 0400 0000 0200 0400", &store), "page {page}");
        assert!((0..16).all(|record| age(&store, record, 0, 0) == Err(4)));
        // With one of both good again it recovers, and all is mended.
        set(&mut store, page, 1, 1, &[]);
        let (answers, after) = play(&store, "80003F00");
        assert_eq!((answers.as_str(), is_even(&after)), ("0000", true), "page {page}");
    }
}

/// READINGS 5.6.
#[test]
fn page_0_is_judged_by_its_first_good_copy() {
    let mut store = fresh();
    set(&mut store, 0, 0, 1, &hex::bytes("15000000"));
    assert_eq!(play(&store, "80003F00"), ("0400".to_string(), store.clone()));
    assert_eq!(age(&store, 0, 0, 0), Err(4));
    // Bad, the first has no say.
    set(&mut store, 0, 0, 0, &[]);
    assert_eq!(play(&store, "80003F00"), ("0000".to_string(), fresh()));
    assert_eq!(age(&store, 0, 0, 0), Ok(Age::Live(0)));
    // Two good ones that differ: the first says that record 3 is committed, and then the second.
    for first in [0, 1] {
        let mut store = fresh();
        set(&mut store, 0, first, 1, &hex::bytes("15100008"));
        set(&mut store, 4, 0, 1, &[0, 0, 0, 9]);
        set(&mut store, 4, 1, 1, &[0, 0, 0, 8]);
        let (answers, after) = play(&store, "80003F00 1F800000 20180000 4018C000");
        assert_eq!(answers, ["0002 0000 0000 0009", "0000 0000 0000 0000"][first]);
        assert!(is_even(&after));
        assert_eq!(age(&store, 3, 9, 0), [Ok(Age::Live(0)), Ok(Age::Stale(9))][first]);
    }
}

/// READINGS 5.7, 5.10: what is mended is mended before the count, and isn't counted.
#[test]
fn a_recovery_mends_all_before_it_is_cut() {
    let mut store = even(&stores::committed(&mut Rng::new(3), 0x1000));
    store = uneven(&mut Rng::new(4), store, 100);
    let settled = Pairs::HISTORY.settled(&store);
    let first_good = |page| copy(&store, page, usize::from(copy(&store, page, 0).0 != 1)).1;
    let (answers, after) = play(&store, "80000000");
    assert_eq!((answers.as_str(), is_even(&after)), ("0B00", true));
    assert!((0..33).all(|page| copy(&after, page, 0).1 == first_good(page)));
    assert_eq!(Pairs::HISTORY.settled(&after), settled);
    // Mended twice it is as mended once.
    assert_eq!(play(&store, "80000000 80000000"), ("0B00 0B00".to_string(), after.clone()));
    // A tear comes after: of the home page of record 3, and of nothing else.
    for (way, answer) in [(1, "0B00"), (2, "0B01"), (3, "0B01")] {
        let (answers, torn) = play(&store, &format!("800000{way:02X}"));
        assert_eq!(answers, answer);
        let home = PAIR_BYTES * 20..PAIR_BYTES * 21;
        assert!((0..STORE_BYTES).all(|at| home.contains(&at) || torn[at] == after[at]), "way {way}");
        assert!(torn[home.clone()] != after[home]);
        assert_eq!(Pairs::HISTORY.settled(&torn), settled);
    }
    // Any status but 1 counts as bad, and is 1 when it is mended.
    for status in (0..=255).filter(|status| *status != 1) {
        let mut store = fresh();
        set(&mut store, 20, 0, status, &[0xEE]);
        set(&mut store, 21, 1, status, &[0xEE]);
        assert_eq!(play(&store, "80003F00"), ("0000".to_string(), fresh()), "status {status}");
    }
}

/// READINGS 5.9.
#[test]
fn an_age_reads_through_the_pairs() {
    let mut store = fresh();
    set(&mut store, 20, 0, 0, &[0, 0, 0, 3]);
    set(&mut store, 20, 1, 1, &[0, 0, 0, 7]);
    assert_eq!(age(&store, 3, 5, 0), Ok(Age::Ahead(-2)));
    set(&mut store, 20, 0, 1, &[]);
    assert_eq!(age(&store, 3, 5, 1), Ok(Age::Stale(2)));
    assert_eq!(age(&store, 15, 5, 5), Ok(Age::Live(5)));
    set(&mut store, 20, 0, 2, &[]);
    set(&mut store, 20, 1, 3, &[]);
    assert_eq!([3, 15, 16].map(|record| age(&store, record, 5, 0)), [Err(4), Err(4), Err(23)]);
    assert_eq!(age(&store[..2_177], 16, 5, 0), Err(22));
    assert_eq!(age(&[0; 1_056], 3, 5, 0), Err(22));
}

/// READINGS 5.12.
#[test]
fn nothing_is_prepared_in_this_form() {
    let list = format!("90003F07 A0003F07 B0000007 {ONE} 90003F07 90000007 A0003F07 A0007F07 B0000007 50003F00");
    assert_eq!(play(&fresh(), &list).0, "0100 0100 0100 0000 0000 0000 0000 0100 0100 0100 0100 0100 0004");
    let store = even(&stores::prepared(&mut Rng::new(1), 0x9000, 7));
    assert_eq!(play(&store, "80003F00"), ("0400".to_string(), store.clone()));
    assert_eq!(age(&store, 1, 0, 0), Err(4));
}

/// The page writes of an event are the plain form's: each is of both copies.
#[test]
fn page_writes_are_told() {
    let (mut volatile, mut store) = (Volatile::default(), fresh());
    let events =
        words::<Pairs>(&[recover(0), begin(TOP), lock(0, 15), write(0, 15, 1, 9), lock(0, 0), write(0, 0, 2, 8)]);
    assert_eq!(Player::portion(&mut volatile, &mut store, &events, &mut [0; 8_192], &mut [0; 12]), 0);
    let told = Player::page_writes(&volatile, &store, [0x50, 0, 0, 3]).expect("a sound state");
    assert_eq!(told.iter().map(|(page, _)| *page).collect::<Vec<_>>(), [1, 16, 0, 17, 32, 0]);
    let writes: Vec<_> = told.into_iter().map(|(page, bytes)| (usize::from(page), bytes)).collect();
    for (count, way) in (0..=writes.len()).flat_map(|count| (0..4).map(move |way| (count, way))) {
        let due = carried(store.clone(), &writes, count, way);
        let (mut volatile, mut store, mut told) = (volatile.clone(), store.clone(), [0; 2]);
        let word = words::<Pairs>(&[torn(commit(0, count as u8), way)]);
        assert_eq!(Player::portion(&mut volatile, &mut store, &word, &mut [0; 8_192], &mut told), 0);
        assert_eq!((store, (told[0], told[1])), (due, answer(writes.len(), count, way)));
    }
}

/// Writes pages of an even store, the first of them whole and the next torn in a way.
fn carried(mut store: Vec<u8>, writes: &[(usize, [u8; 32])], count: usize, way: u8) -> Vec<u8> {
    for (at, (page, bytes)) in writes.iter().enumerate() {
        let (first, second) = match (at.cmp(&count), way) {
            (std::cmp::Ordering::Less, _) => (Some(1), Some(1)),
            (std::cmp::Ordering::Equal, 1) => (Some(0), None),
            (std::cmp::Ordering::Equal, 2) => (Some(1), Some(0)),
            (std::cmp::Ordering::Equal, 3) => (Some(1), None),
            _ => (None, None),
        };
        for (place, status) in [(0, first), (1, second)] {
            match status {
                Some(1) => set(&mut store, *page, place, 1, bytes),
                Some(bad) => set(&mut store, *page, place, bad, &[]),
                None => {}
            }
        }
    }
    store
}

/// What is answered to an event with so many page writes, with a count and a way.
fn answer(due: usize, count: usize, way: u8) -> (u8, u8) {
    match count < due {
        true => (11, (count + usize::from(way >= 2)) as u8),
        false => (0, due as u8),
    }
}

/// A commit of some records from an uneven store, cut and torn in every way; then recoveries, cut and torn in every way,
/// and one that is whole. Each store is compared with page writes made by hand, each list with demand 3.
fn every_tear(records: &[u8], recoveries: usize) -> u64 {
    let mut rng = Rng::new(records.len() as u64);
    let start = uneven(&mut rng, even(&stores::used(&mut Rng::new(9))), 50);
    let mended = play(&start, "80003F00").1;
    let old = Pairs::HISTORY.settled(&start);
    let mut new = old.clone();
    let mut prefix = vec![recover(63), begin(TOP)];
    for record in records {
        prefix.extend([lock(0, *record), write(0, *record, 31 - record, 0xC0 + record)]);
        new[usize::from(*record)][31 - usize::from(*record)] = 0xC0 + record;
    }
    let map = records.iter().fold(0u16, |map, record| map | 0x8000 >> record).to_be_bytes();
    let head = |bytes: [u8; 4]| std::array::from_fn(|at| bytes.get(at).copied().unwrap_or(0));
    let page = |record: &u8| new[usize::from(*record)];
    let home: Vec<_> = records.iter().map(|record| (17 + usize::from(*record), page(record))).collect();
    let mut writes: Vec<_> = records.iter().map(|record| (1 + usize::from(*record), page(record))).collect();
    writes.push((0, head([0x15, map[0], map[1], (records.len() as u8) << 3])));
    writes.extend(&home);
    writes.push((0, head([0x10, 0, 0, 0])));
    let again: Vec<_> = home.into_iter().chain(writes.last().copied()).collect();
    let due = Due { start, prefix, old, new, again };
    let (lists, ways) = (AtomicU64::new(0), (writes.len() as u64 + 2) * 4);
    let failure = share(ways, |number| {
        let (count, way) = (number as usize / 4, number as u8 % 4);
        let store = carried(mended.clone(), &writes, count, way);
        let answer = answer(writes.len(), count, way);
        let stored = usize::from(answer.1) > records.len();
        let under_way = stored && usize::from(answer.1) < writes.len();
        let list = [&due.prefix[..], &[torn(commit(0, count as u8), way)]].concat();
        due.check(&list, answer, &store, stored)?;
        let left = if answer.0 == 11 { recoveries } else { 0 };
        lists.fetch_add(1 + due.recoveries(&list, &store, stored, under_way, left)?, Ordering::Relaxed);
        Ok(())
    });
    assert_eq!(failure, None, "{records:?}");
    lists.into_inner()
}

/// What is due in lists that begin with a commit.
struct Due {
    start: Vec<u8>,
    prefix: Vec<Fields>,
    old: Vec<[u8; 32]>,
    new: Vec<[u8; 32]>,
    /// The page writes of a recovery while the commit is under way.
    again: Vec<(usize, [u8; 32])>,
}

impl Due {
    /// Plays a list: the last answer, the store, and all or nothing of the records.
    fn check(&self, list: &[Fields], answer: (u8, u8), store: &[u8], stored: bool) -> Result<(), String> {
        let case = Case { store: self.start.clone(), events: words::<Pairs>(list) };
        let played = check::<Pairs>(Program::Engine, Program::Player, &case).map_err(|fault| format!("{fault:?}"))?;
        let settled = Pairs::HISTORY.settled(&played.store);
        let due = if stored { &self.new } else { &self.old };
        match (played.told().last() == Some(&answer), played.store == store, settled == *due) {
            (true, true, true) => Ok(()),
            wrong => Err(format!("{:?}: answer, store, records {wrong:?}", &list[self.prefix.len()..])),
        }
    }

    /// Goes on with recoveries, cut and torn in every way, and a whole one after each.
    fn recoveries(
        &self,
        list: &[Fields],
        store: &[u8],
        stored: bool,
        under_way: bool,
        left: usize,
    ) -> Result<u64, String> {
        if left == 0 {
            return Ok(0);
        }
        // Mended before the first write.
        let mut mended = store.to_vec();
        for page in 0..33 {
            let bytes = copy(store, page, usize::from(copy(store, page, 0).0 != 1)).1;
            (0..2).for_each(|place| set(&mut mended, page, place, 1, bytes));
        }
        let writes = if under_way { &self.again[..] } else { &[] };
        let mut lists = 0;
        for count in 0..writes.len() + 2 {
            for way in 0..4 {
                let store = carried(mended.clone(), writes, count, way);
                let answer = answer(writes.len(), count, way);
                let list = [list, &[torn(recover(count as u8), way)]].concat();
                self.check(&list, answer, &store, stored)?;
                let left = if answer.0 == 11 { left - 1 } else { 0 };
                let still = under_way && usize::from(answer.1) < writes.len();
                lists += 1 + self.recoveries(&list, &store, stored, still, left)?;
            }
        }
        Ok(lists)
    }
}

#[test]
fn every_tear_of_every_page_write_of_commits_and_recoveries() {
    let all: Vec<u8> = (0..16).collect();
    let families: [(&[u8], usize); 4] = [(&[3], 3), (&[0, 15], 3), (&[2, 7, 9], 2), (&all, 1)];
    for (records, recoveries) in families {
        let (lists, events) = (every_tear(records, recoveries), 3 + 2 * records.len() + recoveries);
        println!("tears of {} records: {lists} lists of up to {events} events", records.len());
    }
}

/// One transaction over one record and another, with every cut and tear.
fn letters() -> Vec<Fields> {
    let mut letters = vec![begin(TOP), lock(0, 0), lock(0, 15), write(0, 0, 0, 0x11), write(0, 15, 31, 0x22)];
    letters.extend([read(0, 0, 0), commit(0, 63), abort(0), crash(), recover(63), torn(recover(63), 4)]);
    for way in 0..4 {
        letters.extend((0..5).map(|count| torn(commit(0, count), way)));
        letters.extend((0..3).map(|count| torn(recover(count), way)));
    }
    letters
}

fn every_list(name: &str, store: &[u8], prefix: &[Fields], length: usize, accepted: bool) {
    let letters = letters();
    let family = Family { program: Program::Engine, store, prefix, letters: &letters, length, accepted };
    match family.play::<Pairs>() {
        Ok(lists) => println!("{name}: {lists} lists of up to {length} events"),
        Err(text) => panic!("{name}: {text}"),
    }
}

#[test]
fn every_short_list_with_tears() {
    let committed = even(&stores::committed(&mut Rng::new(7), 0x8001));
    let uneven = uneven(&mut Rng::new(8), committed, 60);
    let length = settings::length(3);
    every_list("tears, fresh", &fresh(), &[], length, false);
    every_list("tears, uneven", &uneven, &[], length, false);
    every_list("tears, a pair all bad", &all_bad(&mut Rng::new(2), uneven.clone(), 30), &[], length, false);
    every_list("tears, accepted", &fresh(), &[recover(63), begin(TOP), lock(0, 0)], settings::length(4), true);
    let prefix = [recover(63), begin(TOP), lock(0, 0), write(0, 0, 0, 0x33)];
    every_list("tears, written, accepted", &uneven, &prefix, settings::length(3), true);
}

/// READINGS 5.8, 5.11: event by event a list gives what it gives as a whole; while up every pair is good and alike, and
/// from a store with a good copy of each page come only such stores.
#[test]
fn one_event_at_a_time() {
    let lists = settings::lists() / 100;
    let failure = share(lists, |number| {
        let case = random::case::<Pairs>(settings::seed() + 51, number);
        let whole = Program::Player.play::<Pairs>(&case, 0);
        let (mut volatile, mut store, mut answers) = (Volatile::default(), case.store.clone(), Vec::new());
        let premise = Pairs::HISTORY.premise(&store);
        for (at, word) in case.events.chunks_exact(4).enumerate() {
            let mut answer = [0; 2];
            match Player::portion(&mut volatile, &mut store, word, &mut [0; 8_192], &mut answer) {
                0 => answers.push((answer[0], answer[1])),
                number => return Err(format!("event {at} is refused with {number}")),
            }
            let facts = volatile.facts();
            if facts.up && !(is_even(&store) && Player::is_even(&store)) {
                return Err(format!("up and uneven after event {at}"));
            }
            let page = Player::commit_page(&store).ok_or("the store has the wrong length")?;
            if let Some(fault) = facts.fault(&page) {
                return Err(format!("{fault:?} after event {at}"));
            }
            if premise && !Pairs::HISTORY.premise(&store) {
                return Err(format!("a pair is all bad after event {at}"));
            }
        }
        match (answers == whole.told(), store == whole.store) {
            (true, true) => Ok(()),
            _ => Err("not what the whole run gives".to_string()),
        }
    });
    assert_eq!(failure, None);
}

/// A state is sound while up only if every pair is good and alike.
#[test]
fn an_uneven_pair_while_up_is_25() {
    let (mut volatile, mut store, mut answer) = (Volatile::default(), fresh(), [0; 2]);
    let mut portion = |volatile: &mut Volatile<Player>, store: &mut [u8], word: [u8; 4]| {
        (Player::portion(volatile, store, &word, &mut [0; 8_192], &mut answer), answer)
    };
    assert_eq!(portion(&mut volatile, &mut store, [0x80, 0, 63, 0]), (0, [0, 0]));
    for at in 0..STORE_BYTES {
        // Another status, or another byte in one copy alone.
        for flip in [1, 0x80] {
            let mut uneven = store.clone();
            uneven[at] ^= flip;
            let before = uneven.clone();
            assert_eq!(portion(&mut volatile, &mut uneven, [0x1F, 0x80, 0, 0]).0, 25, "byte {at}");
            assert_eq!(uneven, before);
            assert_eq!(portion(&mut Volatile::default(), &mut uneven, [0x70, 0, 0, 0]), (0, [0, 0]));
        }
    }
    // The same byte in both copies, but for page 0 where that is damage.
    for at in 1..=32 {
        let mut alike = store.clone();
        (alike[at], alike[at + COPY_BYTES]) = (0xFF, 0xFF);
        assert_eq!(portion(&mut volatile, &mut alike, [0x70, 0, 0, 0]).0, 25);
        let place = 40 * COPY_BYTES + at;
        let mut alike = store.clone();
        (alike[place], alike[place + COPY_BYTES]) = (0xFF, 0xFF);
        assert_eq!(portion(&mut volatile.clone(), &mut alike, [0x1F, 0x80, 0, 0]), (0, [0, 0]));
    }
}

/// Without tears a store of pairs is the plain store twice: the proved library plays the same lists.
#[test]
fn without_tears_it_is_the_plain_form_twice() {
    let lists = settings::lists() / 50;
    let failure = share(lists, |number| {
        let mut case = plain::case(settings::seed() + 52, number);
        if case.store[0] == 0x13 {
            case.store = stores::fresh();
        }
        // No prepares, and no commit or recover with a value.
        let keeps =
            |word: &[u8]| !(9..=11).contains(&(word[0] >> 4)) && (!matches!(word[0] >> 4, 5 | 8) || word[3] == 0);
        case.events = case.events.chunks_exact(4).filter(|word| keeps(word)).flatten().copied().collect();
        let due = nekahuiro_trials::Program::Engine.play(&case, 0x5A);
        let paired = Case { store: even(&case.store), events: case.events };
        let played = Program::Engine.play::<Pairs>(&paired, 0);
        match (played.answers == due.answers, played.store == even(&due.store)) {
            (true, true) => Ok(()),
            same => Err(format!("answers, store {same:?}")),
        }
    });
    assert_eq!(failure, None);
}

/// The wrapper's own reading of words, pages and copies is the player's.
#[test]
fn the_wrapper_reads_words_and_pages_alike() {
    let mut rng = Rng::new(17);
    for round in 0..200_000u32 {
        // All kinds and transactions in the high bits; few low bits, so that good words come up.
        let word =
            ((round << 23) | (rng.bits() as u32 & rng.bits() as u32 & rng.bits() as u32 & 0x007F_FFFF)).to_be_bytes();
        let case = Case { store: fresh(), events: word.to_vec() };
        let bad = Program::Player.play::<Pairs>(&case, 0).told() == [(1, 0)];
        let event = Event::of(word);
        assert_eq!((event.is_none(), Edition::PAIRS.why_bad(&word).is_some()), (bad, bad), "{word:02X?}");
        if let Some(event) = event {
            assert_eq!((event.word(), event.to_string().parse()), (word, Ok(event)));
            assert_eq!(Edition::PAIRS.describe(&word), event.to_string());
        }
    }
    for _ in 0..5_000 {
        let bytes = stores::pairs::any(&mut rng);
        let store = Store::of(&bytes).expect("2,178 bytes");
        let lost = (0..33).any(|page| store.first_good(page).is_none());
        let is_damaged = lost || matches!(store.commit_page(), CommitPage::Damaged(_));
        assert_eq!(is_damaged, age(&bytes, 0, 0, 0) == Err(4));
        assert_eq!(store.is_whole(), is_even(&bytes));
        if !is_damaged {
            let settled: Vec<_> = Record::all().map(|record| store.settled(record)).collect();
            assert_eq!(settled, Pairs::HISTORY.settled(&bytes));
            let mut mended = store.clone();
            store.mends().iter().for_each(|write| mended.make(write));
            assert_eq!(mended.bytes()[..], copies::mended(&bytes)[..]);
            assert!(mended.is_whole() && mended.mends().is_empty());
        }
    }
}
