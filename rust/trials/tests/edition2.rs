//! Edition 2, sixty-four records, on the proved engine and on the player: the points of the rules in literal bytes, every
//! count of a commit of all records, and the lists of edition 1 in its words.

use nekahuiro::limits::{PAGE_BYTES, PAGE_WRITE_BYTES};
use nekahuiro::{edition2, raw, CommitPage, Fields};
use nekahuiro_lists::stores::edition2::{committed, damaged, fresh, DAMAGES, STORE_BYTES};
use nekahuiro_lists::stores::{self, Bytes};
use nekahuiro_lists::{timing, Rng};
use nekahuiro_player::{Age, Form as _, Volatile};
use nekahuiro_trials::forms::events::{begin, commit, crash, lock, read, read_lock, recover, words, write, TOP};
use nekahuiro_trials::forms::every::Family;
use nekahuiro_trials::forms::{check, hex, random, Case, Edition2, Form, Program};
use nekahuiro_trials::portions::share;
use nekahuiro_trials::{random as plain, settings};
use std::sync::atomic::{AtomicU64, Ordering};

type Player = <Edition2 as Form>::Player;

fn play(store: &[u8], list: &str) -> (String, Vec<u8>) {
    hex::play::<Edition2>(store, list)
}

/// Plays events on a store, with all that is checked of a case; the answers and the store after.
fn play_events(store: &[u8], events: &[Fields]) -> (Vec<(u8, u8)>, Vec<u8>) {
    let case = Case { store: store.to_vec(), events: words::<Edition2>(events) };
    let played = check::<Edition2>(Program::Engine, Program::Player, &case);
    let played = played.unwrap_or_else(|fault| panic!("{events:?}: {fault:?}"));
    (played.told(), played.store)
}

/// A page that begins so.
fn page(start: &str) -> Vec<u8> {
    let mut page = hex::bytes(start);
    page.resize(PAGE_BYTES, 0);
    page
}

#[test]
fn sizes_and_a_fresh_store() {
    assert_eq!((STORE_BYTES, Player::STORE_BYTES), (4_128, 4_128));
    assert_eq!((Player::PAGES, Player::WORK_BYTES, Player::EVENT_BYTES), (129, 32_768, 8));
    for lay_fresh in [raw::edition2::fresh, Player::fresh] {
        let mut store = [0xAB; 4_128];
        assert_eq!(lay_fresh(&mut store), 0);
        assert_eq!(store[..32], page("20"));
        assert_eq!(store[..], fresh()[..]);
        for wrong in [0, 32, 1_056, 2_178, 4_127, 4_129, 8_256] {
            let mut store = vec![0xAB; wrong];
            assert_eq!((lay_fresh(&mut store), store), (22, vec![0xAB; wrong]));
        }
    }
}

#[test]
fn refusals_before_the_first_event_by_its_numbers() {
    let run = |store: usize, work: usize, events: usize, answers: usize| {
        let numbers = [Program::Engine, Program::Player].map(|program| {
            let (mut store, mut work) = (vec![0; store], vec![0; work]);
            let mut answers = vec![0xEE; answers];
            let number = program.run::<Edition2>(&mut store, &vec![0; events], &mut work, &mut answers);
            assert!(number == 0 || answers.iter().all(|byte| *byte == 0xEE));
            number
        });
        assert_eq!(numbers[0], numbers[1]);
        numbers[0]
    };
    assert_eq!([1_056, 2_178, 4_127, 4_129].map(|store| run(store, 1, 1, 0)), [22; 4]);
    assert_eq!([0, 8_192, 32_767, 32_769].map(|work| run(4_128, work, 1, 0)), [24; 4]);
    assert_eq!([4, 12, 7, 32_764, 32_772, 32_776].map(|events| run(4_128, 32_768, events, 0)), [20; 6]);
    assert_eq!((run(4_128, 32_768, 8, 1), run(4_128, 32_768, 32_768, 8_191)), (21, 21));
    assert_eq!((run(4_128, 32_768, 0, 0), run(4_128, 32_768, 8, 2), run(4_128, 32_768, 32_768, 8_192)), (0, 0, 0));
}

/// All wrong lengths beside each other: the first in the order 22, 24, 20, 21 is told, and no buffer is touched.
#[test]
fn wrong_lengths_are_refused_in_order_and_touch_nothing() {
    let list: Vec<u8> = timing::mixed_of(Edition2::LISTS, 3).into_iter().chain([0; 8]).collect();
    let due = |store: usize, work: usize, events: usize, answers: usize| match () {
        () if store != 4_128 => 22,
        () if work != 32_768 => 24,
        () if events % 8 != 0 || events > 32_768 => 20,
        () if answers < events / 4 => 21,
        () => 0,
    };
    for store in [0, 1_056, 4_096, 4_127, 4_128, 4_129, 8_256] {
        for work in [0, 8_192, 32_767, 32_768, 32_769, 65_536] {
            for events in [0, 1, 4, 7, 8, 9, 12, 16, 32_764, 32_767, 32_768, 32_772, 32_776] {
                let due_at: usize = events / 8 * 2;
                for answers in [0, 1, 2, due_at.saturating_sub(1), due_at, due_at + 3] {
                    let mut before = (vec![0; store], vec![0x77; work], vec![0x99; answers]);
                    if let Some(first) = before.0.first_mut() {
                        *first = 0x20;
                    }
                    for program in [Program::Engine, Program::Player] {
                        let mut lent = before.clone();
                        let number = program.run::<Edition2>(&mut lent.0, &list[..events], &mut lent.1, &mut lent.2);
                        let lengths = format!("{program:?}: {store}, {work}, {events}, {answers}");
                        assert_eq!(number, due(store, work, events, answers), "{lengths}");
                        assert!(number == 0 || lent == before, "{lengths}: a buffer was touched");
                        assert!(lent.2.iter().skip(due_at).all(|byte| *byte == 0x99), "{lengths}: past the answers");
                    }
                }
            }
        }
    }
}

/// READINGS 7.1: page 0 after a commit that is cut behind its commit page.
#[test]
fn the_commit_page() {
    let all: Vec<u8> = (0..64).collect();
    let rows: [(&[u8], &str); 4] = [
        (&[0, 3], "25 9000000000000000 04"),
        (&all, "25 FFFFFFFFFFFFFFFF 80"),
        (&[63], "25 0000000000000001 02"),
        (&[31, 32], "25 0000000180000000 04"),
    ];
    for (records, start) in rows {
        let n = records.len() as u8;
        let (answers, store) = play_events(&fresh(), &changing(records, n + 1));
        assert_eq!(answers.last(), Some(&(11, n + 1)));
        assert_eq!(store[..32], page(start));
        // The same page, read: it names these records, and the next recovery writes them home.
        let (answers, store) = play_events(&store, &[recover(255)]);
        assert_eq!((answers, &store[..32]), (vec![(0, n + 1)], &page("20")[..]));
        for record in records.iter().map(|record| usize::from(*record)) {
            assert_eq!(store[(1 + record) * 32..][..32], store[(65 + record) * 32..][..32]);
            assert_eq!(store[(65 + record) * 32], 0x80 + record as u8);
        }
    }
}

/// Up, with one transaction that writes to these records and commits.
fn changing(records: &[u8], count: u8) -> Vec<Fields> {
    let mut events = vec![recover(255), begin(TOP)];
    for record in records {
        events.extend([lock(0, *record), write(0, *record, 0, 0x80 + record)]);
    }
    events.push(commit(0, count));
    events
}

/// READINGS 7.1: any other page 0 is damaged, bit by bit.
#[test]
fn any_other_page_0_is_damaged() {
    let is_good = |page: &[u8]| {
        let mut store = fresh();
        store[..32].copy_from_slice(page);
        let (answers, after) = play_events(&store, &[recover(255)]);
        let age = age(&store, 0, 0, 0);
        assert_eq!((answers[0].0 == 4, age == Err(4)), (answers[0] != (0, answers[0].1), answers[0].0 == 4));
        assert!(answers[0].0 != 4 || after == store);
        answers[0].0 == 0
    };
    let good = ["20", "25 9000000000000000 04", "25 FFFFFFFFFFFFFFFF 80", "25 0000000000000001 02"];
    for start in good {
        assert!(is_good(&page(start)), "{start}");
        for bit in 0..256 {
            let mut page = page(start);
            page[bit / 8] ^= 0x80 >> (bit % 8);
            assert!(!is_good(&page), "{start}, bit {bit}");
        }
    }
    // Committed with map 0; another edition; prepared; the count in other bits; edition 1's own page.
    let bad = [
        "25",
        "25 0000000000000000 02",
        "20 0000000000000000 02",
        "15 9000000000000000 04",
        "10",
        "35 9000000000000000 04",
        "23 9000000000000000 04",
        "23 9000000000000000 04 07",
        "25 9000000000000000 02",
        "25 9000000000000000 08",
        "25 9000000000000000 10",
        "25 9000000000000000 06",
        "25 900010",
        "20 9000000000000000 04",
        "25 FFFFFFFFFFFFFFFF 00",
        "25 FFFFFFFFFFFFFFFF 7E",
        "25 FFFFFFFFFFFFFFFF 40",
    ];
    for start in bad {
        assert!(!is_good(&page(start)), "{start}");
    }
    for way in 0..DAMAGES - 1 {
        let store = damaged(&mut Rng::new(way as u64), way);
        assert_eq!(play(&store, "80000FF000000000"), ("0400".to_string(), store), "way {way}");
    }
}

/// READINGS 7.2: words in literal bytes, and each of the last 28 bits.
#[test]
fn the_event_word() {
    let rows = [
        (begin(TOP), "1F80000000000000"),
        (lock(1, 3), "2086000000000000"),
        (write(1, 3, 2, 0xA5), "3086200A50000000"),
        (commit(1, 255), "50800FF000000000"),
        (recover(255), "80000FF000000000"),
        (read(1, 63, 31), "40FFF00000000000"),
        (crash(), "7000000000000000"),
        (read_lock(0, 32), "2040000010000000"),
    ];
    for (event, word) in rows {
        assert_eq!(hex::of(&words::<Edition2>(&[event])), word);
    }
    // The worked list in these words.
    let list = "80000FF000000000 1F80000000000000 1000000000000000 2086000000000000 3086200A50000000 50800FF000000000 \
        1000000000000000 2086000000000000 3086200110000000 6080000000000000 5000002000000000 4006200000000000 \
        80000FF000000000 1F80000000000000 2006000000000000 4006200000000000";
    let (answers, store) = play(&fresh(), list);
    let due = "0000 0000 0001 0000 0000 0000 0001 0000 0000 0000 0B02 0200 0002 0000 0000 00A5";
    assert_eq!((answers.as_str(), store[68 * 32 + 2]), (due, 0xA5));
    // Each of the last 28 bits makes any word bad, and first of all: while down, and while up.
    let prefix = "80000FF000000000 1F80000000000000 2000000000000000";
    let good = ["1F80000000000000", "2000000000000000", "3000000A50000000", "4000000000000000", "50000FF000000000"];
    for word in good.into_iter().chain(["6000000000000000", "7000000000000000", "80000FF000000000"]) {
        let bits = u64::from_be_bytes(hex::bytes(word).try_into().expect("eight bytes"));
        for bit in 0..28 {
            let stray = bits | 1 << bit;
            assert_eq!(play(&fresh(), &format!("{stray:016X}")), ("0100".to_string(), fresh()), "{stray:016X}");
            let (answers, store) = play(&fresh(), &format!("{prefix} {stray:016X}"));
            assert_eq!((answers.as_str(), store), ("0000 0000 0000 0100", fresh()), "{stray:016X}");
        }
    }
    let (answers, _) = play(&fresh(), "1F80000000000001");
    assert_eq!(answers, "0100");
}

/// Every bit of every kind: a word is bad exactly if its kind is 0 or above 8, or a bit stands in a field that the kind
/// doesn't use, or behind all of them, or a lock or abort has a value above 1. READINGS 7.6.
#[test]
fn used_fields_and_values() {
    // Transaction, record, offset, count, value.
    let uses = [0, 0b10000, 0b11001, 0b11101, 0b11100, 0b10010, 0b10001, 0, 0b00010];
    for kind in 0..16u64 {
        for bit in 0..60 {
            let word = kind << 60 | 1 << bit;
            let field = match bit {
                55..60 => 0b10000,
                49..55 => 0b01000,
                44..49 => 0b00100,
                36..44 => 0b00010,
                28..36 => 0b00001,
                _ => 0,
            };
            let used = uses.get(kind as usize).copied().unwrap_or(0) & field != 0;
            let limited = matches!(kind, 2 | 6) && (29..36).contains(&bit);
            let good = (1..=8).contains(&kind) && used && !limited;
            let (answers, _) = play(&fresh(), &format!("{word:016X}"));
            let due = if !good {
                "0100"
            } else if kind == 8 {
                "0000"
            } else {
                "0200"
            };
            assert_eq!(answers, due, "{word:016X}");
        }
        let (answers, _) = play(&fresh(), &format!("{:016X}", kind << 60));
        assert_eq!(
            answers,
            ["0100", "0200", "0000"][usize::from(matches!(kind, 1..=6)) + 2 * usize::from(matches!(kind, 7 | 8))]
        );
    }
}

/// An age told by the proved engine, which must be the player's. The age of a refusal must stay as it was.
fn age(store: &[u8], record: u8, clock: u32, limit: u32) -> Result<Age, u8> {
    let mut minutes = i64::MIN;
    let told = match raw::edition2::age(store, record, clock, limit, &mut minutes) {
        0 => Ok(Age::Live(minutes)),
        1 => Ok(Age::Ahead(minutes)),
        2 => Ok(Age::Stale(minutes)),
        number => {
            assert_eq!(minutes, i64::MIN, "refused {number}, but the age was written");
            Err(number)
        }
    };
    assert_eq!(told, Player::age(store, record, clock, limit), "record {record}, clock {clock}, limit {limit}");
    told
}

/// READINGS 7.3, and a record above 63.
#[test]
fn ages() {
    let mut store = committed(&mut Rng::new(3), 1);
    store[64 * 32..][..4].copy_from_slice(&[0, 0, 0, 7]);
    store[128 * 32..][..4].copy_from_slice(&[0, 0, 0, 1]);
    store[65 * 32..][..4].copy_from_slice(&[0, 0, 0, 5]);
    assert_eq!(age(&store, 63, 5, 0), Ok(Age::Ahead(-2)));
    assert_eq!(age(&store, 0, 5, 0), Ok(Age::Live(0)));
    assert_eq!(age(&store, 64, 5, 0), Err(23));
    let (_, recovered) = play_events(&store, &[recover(255)]);
    assert_eq!((age(&recovered, 63, 9, 1), recovered[128 * 32 + 3]), (Ok(Age::Stale(2)), 7));
    store[0] = 0x15;
    assert_eq!((age(&store, 63, 5, 0), age(&store, 255, 5, 0)), (Err(4), Err(23)));
    assert_eq!((age(&store[1..], 64, 5, 0), age(&[0; 1_056], 0, 5, 0)), (Err(22), Err(22)));
}

/// Stamps, clocks and limits at the edges and anywhere, of records that there are and aren't, in stores of every kind.
#[test]
fn random_ages_agree() {
    let mut rng = Rng::new(99);
    let edges = [0, 1, 2, 7, 0x7FFF_FFFF, 0x8000_0000, u32::MAX - 1, u32::MAX];
    let mut told = [0; 4];
    for _ in 0..20_000 {
        let mut store = Edition2::any(&mut rng);
        let record = if rng.percent(95) { rng.below(64) as u8 } else { 64 + rng.below(192) as u8 };
        let mut number = || if rng.percent(60) { rng.one_of(edges) } else { rng.bits() as u32 };
        let (clock, limit, stamp) = (number(), number(), number());
        if rng.percent(70) {
            for page in [1, 65] {
                store[(page + usize::from(record % 64)) * 32..][..4].copy_from_slice(&stamp.to_be_bytes());
            }
        }
        let told_at = match age(&store, record, clock, limit) {
            Ok(Age::Live(_)) => 0,
            Ok(Age::Ahead(_)) => 1,
            Ok(Age::Stale(_)) => 2,
            Err(_) => 3,
        };
        told[told_at] += 1;
    }
    assert!(told.iter().all(|number| *number > 500), "{told:?}");
}

/// The wrapper's own reading of words, pages and numbers is the player's.
#[test]
fn the_wrapper_reads_words_and_pages_alike() {
    let mut rng = Rng::new(17);
    for _ in 0..20_000 {
        let fields = edition2::fields_of(rng.bits().to_be_bytes());
        let word = edition2::word_of(fields);
        assert_eq!(words::<Edition2>(&[fields]), word);
        assert_eq!(edition2::fields_of(word), fields);
        // Kinds and fields of good words too, and then some bit more.
        let kept = |number: u8| if rng.percent(50) { 0 } else { number };
        let [transaction, record, offset, count, value] =
            [fields.transaction, fields.record, fields.offset, fields.count, fields.value & 1].map(kept);
        let mut word = edition2::word_of(Fields { kind: fields.kind, transaction, record, offset, count, value });
        if rng.percent(20) {
            word[4 + rng.below(4)] |= 1 << rng.below(8);
        }
        // While down a word is bad, or is refused with 2, or is a crash or a recover.
        let case = Case { store: fresh(), events: word.to_vec() };
        let bad = Program::Player.play::<Edition2>(&case, 0).told() == [(1, 0)];
        assert_eq!(edition2::Event::of(word).is_none(), bad, "{word:02X?}");
        assert!(bad || edition2::Event::of(word).map(|event| event.word()) == Some(word));
    }
    for _ in 0..5_000 {
        let bytes = Edition2::any(&mut rng);
        let store = edition2::Store::of(&bytes).expect("4,128 bytes");
        let is_damaged = matches!(store.commit_page(), edition2::CommitPage::Damaged(_));
        assert_eq!(is_damaged, age(&bytes, 0, 0, 0) == Err(4));
        if !is_damaged {
            let settled: Vec<_> = edition2::Record::all().map(|record| store.settled(record)).collect();
            assert_eq!(settled, Edition2::HISTORY.settled(&bytes));
        }
    }
}

/// READINGS 7.4: all sixty-four records changed at once, cut at every count, and every recovery after that.
#[test]
fn every_count_of_a_commit_of_all_records() {
    let all: Vec<u8> = (0..64).collect();
    let lists = AtomicU64::new(0);
    let failure = share(256, |count| {
        let count = count as u8;
        let (answers, store) = play_events(&fresh(), &changing(&all, count));
        let due = if count < 130 { (11, count) } else { (0, 130) };
        if answers.last() != Some(&due) {
            return Err(format!("{:?}, and {due:?} is due", answers.last()));
        }
        let settled = Edition2::HISTORY.settled(&store);
        let survives = count >= 65;
        let byte = |record: usize| if survives { 0x80 + record as u8 } else { 0 };
        if (0..64).any(|record| settled[record][0] != byte(record)) {
            return Err("not all or nothing".to_string());
        }
        let written = |page: usize| store[page * 32] == 0x80 + ((page - 1) % 64) as u8;
        let pages = (1..=64).chain(65..=128);
        let made = |page: &usize| usize::from(count) > page - usize::from(*page < 65);
        if let Some(page) = pages.into_iter().find(|page| written(*page) != made(page)) {
            return Err(format!("page {page}"));
        }
        lists.fetch_add(1, Ordering::Relaxed);
        // Behind the commit page, before the last write: 65 page writes to recover, cut everywhere.
        for again in (0..=66).filter(|_| (65..130).contains(&count)) {
            let (answers, after) = play_events(&store, &[recover(again), recover(255)]);
            let due = if again < 65 { vec![(11, again), (0, 65)] } else { vec![(0, 65), (3, 0)] };
            if answers != due || Edition2::HISTORY.settled(&after) != settled || after[..32] != page("20")[..] {
                return Err(format!("recovery cut at {again}: {answers:?}"));
            }
            lists.fetch_add(1, Ordering::Relaxed);
        }
        Ok(())
    });
    assert_eq!(failure, None);
    println!("commits of 64 records: {lists:?} lists of up to 133 events");
}

/// The page writes of an event are told with the pages' numbers: intention pages from 1, home pages from 65.
#[test]
fn page_writes_are_told() {
    let (mut volatile, mut store) = (Volatile::default(), fresh());
    let events =
        words::<Edition2>(&[recover(0), begin(TOP), lock(0, 63), write(0, 63, 1, 9), lock(0, 0), write(0, 0, 2, 8)]);
    assert_eq!(Player::portion(&mut volatile, &mut store, &events, &mut [0; 32_768], &mut [0; 12]), 0);
    let word: [u8; 8] = words::<Edition2>(&[commit(0, 0)]).try_into().expect("eight bytes");
    let told = Player::page_writes(&volatile, &store, word).expect("a sound state");
    assert_eq!(told.iter().map(|(page, _)| *page).collect::<Vec<_>>(), [1, 64, 0, 65, 128, 0]);
    // Carried out one by one they are what a commit leaves that is cut there.
    for count in 0..=told.len() {
        let mut carried = store.clone();
        for (page, bytes) in &told[..count] {
            carried[usize::from(*page) * 32..][..32].copy_from_slice(bytes);
        }
        let (mut volatile, mut store, mut answer) = (volatile.clone(), store.clone(), [0; 2]);
        let word = words::<Edition2>(&[commit(0, count as u8)]);
        assert_eq!(Player::portion(&mut volatile, &mut store, &word, &mut [0; 32_768], &mut answer), 0);
        assert_eq!((store, answer[1]), (carried, count as u8));
    }
}

/// What the buffer for a page write holds before the call.
const UNTOUCHED: [u8; PAGE_WRITE_BYTES] = [0xD7; PAGE_WRITE_BYTES];

/// The page writes that the library tells of an event word after a list. Store and answers must be left as the run of
/// the list leaves them, and behind the last page write nothing is told.
fn told_after(start: &[u8], list: &[u8], word: [u8; 8]) -> Result<Vec<(u8, [u8; 32])>, String> {
    let answers = vec![0xEE; list.len() / 4 + 3];
    let (mut ran, mut ran_answers) = (start.to_vec(), answers.clone());
    if raw::edition2::run(&mut ran, list, &mut [0x55; 32_768], &mut ran_answers) != 0 {
        return Err("the run is refused".to_string());
    }
    let mut writes = Vec::new();
    for index in 0..=255 {
        let (mut store, mut work, mut left, mut write) = (start.to_vec(), [0xAA; 32_768], answers.clone(), UNTOUCHED);
        let number = raw::edition2::page_write(&mut store, list, &mut work, &mut left, &word, index, &mut write);
        if (&store, &left) != (&ran, &ran_answers) {
            return Err(format!("page write {index}: the store or the answers aren't the run's"));
        }
        match number {
            0 => writes.push((write[0], write[1..].try_into().expect("32 bytes"))),
            12 if write == UNTOUCHED => break,
            number => return Err(format!("page write {index}: {number}, {write:02X?}")),
        }
    }
    let (mut store, mut write) = (start.to_vec(), UNTOUCHED);
    let (work, last) = (&mut [0; 32_768], &mut answers.clone());
    match raw::edition2::page_write(&mut store, list, work, last, &word, 255, &mut write) {
        12 if write == UNTOUCHED => Ok(writes),
        number => Err(format!("page write 255: {number}")),
    }
}

/// The page writes of an event word after a list are the player's, and with the first k carried out the store is the one
/// that the library leaves where the event comes with count k. How many there are.
fn check_told(start: &[u8], list: &[u8], word: [u8; 8]) -> Result<usize, String> {
    let (mut volatile, mut store) = (Volatile::default(), start.to_vec());
    let mut answers = vec![0; list.len() / 4];
    if Player::portion(&mut volatile, &mut store, list, &mut [0; 32_768], &mut answers) != 0 {
        return Err("the player refuses the list".to_string());
    }
    let due = Player::page_writes(&volatile, &store, word).ok_or("the player has no state")?;
    let writes = told_after(start, list, word)?;
    if writes != due {
        return Err(format!("page writes {writes:02X?}, the player's {due:02X?}"));
    }
    let fields = edition2::fields_of(word);
    let counts = if matches!(fields.kind, 5 | 8) && !due.is_empty() { 0..=due.len() + 1 } else { 0..=0 };
    for count in counts.filter(|_| !due.is_empty()) {
        let cut = edition2::word_of(Fields { count: count as u8, ..fields });
        let (mut run, list) = (start.to_vec(), [list, &cut].concat());
        let mut answers = vec![0; list.len() / 4];
        let number = raw::edition2::run(&mut run, &list, &mut [0; 32_768], &mut answers);
        for (page, bytes) in &due[..count.min(due.len())] {
            store[usize::from(*page) * 32..][..32].copy_from_slice(bytes);
        }
        if number != 0 || run != store || usize::from(answers[answers.len() - 1]) != count.min(due.len()) {
            return Err(format!("with count {count} the library leaves another store"));
        }
    }
    Ok(due.len())
}

/// The page writes of every event of random lists, each after the list before it, and of others that could come instead.
#[test]
fn page_writes_after_random_lists() {
    let lists = settings::lists() / 1_000;
    let (events, writes) = (AtomicU64::new(0), AtomicU64::new(0));
    let failure = share(lists, |number| {
        let case = random::case::<Edition2>(settings::seed() + 55, number);
        let mut rng = Rng::new(number);
        let count = case.events.len() / 8;
        for _ in 0..count.min(12) {
            let at = 8 * rng.below(count);
            let next: [u8; 8] = case.events[at..][..8].try_into().expect("eight bytes");
            let transaction = rng.below(6) as u8;
            let other = rng.one_of([recover(9), commit(transaction, 0), commit(transaction, 255), commit(31, 3)]);
            for word in [next, edition2::word_of(other)] {
                let found = check_told(&case.store, &case.events[..at], word);
                let found = found.map_err(|text| format!("case {number}, event {}: {text}", at / 8))?;
                events.fetch_add(1, Ordering::Relaxed);
                writes.fetch_add(found as u64, Ordering::Relaxed);
            }
        }
        Ok(())
    });
    assert_eq!(failure, None, "seed {}", settings::seed());
    println!("page writes after lists of edition 2: {events:?} events, {writes:?} page writes");
}

/// A commit of all records after a list, and a recovery of all of them: 130 page writes and 65.
#[test]
fn page_writes_of_all_records() {
    let writes_all = (0..64).flat_map(|record| [lock(0, record), write(0, record, 0, 0x80 + record)]);
    let list: Vec<Fields> = [recover(255), begin(TOP)].into_iter().chain(writes_all).collect();
    let word = edition2::word_of(commit(0, 0));
    assert_eq!(check_told(&fresh(), &words::<Edition2>(&list), word), Ok(130));
    let store = committed(&mut Rng::new(8), u64::MAX);
    assert_eq!(check_told(&store, &[], edition2::word_of(recover(0))), Ok(65));
    // While up a recover is refused, and a commit of nobody: no page write.
    let up = words::<Edition2>(&[recover(255)]);
    assert_eq!(check_told(&store, &up, edition2::word_of(recover(0))), Ok(0));
    assert_eq!(check_told(&store, &up, word), Ok(0));
    assert_eq!(check_told(&store, &up, [0x90; 8]), Ok(0));
}

/// Wrong lengths of a question for a page write: the run's in its order, then the event's and the page write's; no buffer
/// is touched.
#[test]
fn a_question_is_refused_by_lengths() {
    let due = |store, work, events: usize, answers, event, write| match () {
        () if store != 4_128 => 22,
        () if work != 32_768 => 24,
        () if events % 8 != 0 || events > 32_768 => 20,
        () if answers < events / 4 => 21,
        () if event != 8 => 20,
        () if write != 33 => 21,
        () => 12,
    };
    let list = vec![0; 32_776];
    for store in [0, 1_056, 4_127, 4_128, 4_129] {
        for work in [0, 8_192, 32_767, 32_768] {
            for events in [0, 4, 8, 12, 16, 32_768, 32_776] {
                for answers in [0, 1, 2, 4, 8_191, 8_192] {
                    for event in [0, 4, 7, 8, 9, 16] {
                        for write in [0, 32, 33, 34] {
                            let before = (vec![0; store], vec![0x77; work], vec![0x99; answers], vec![0xD7; write]);
                            let mut lent = before.clone();
                            let number = raw::edition2::page_write(
                                &mut lent.0,
                                &list[..events],
                                &mut lent.1,
                                &mut lent.2,
                                &list[..event],
                                0,
                                &mut lent.3,
                            );
                            let lengths = format!("{store}, {work}, {events}, {answers}, {event}, {write}");
                            assert_eq!(number, due(store, work, events, answers, event, write), "{lengths}");
                            assert!(number == 12 || lent == before, "{lengths}: a buffer was touched");
                            assert_eq!(lent.3, before.3, "{lengths}");
                        }
                    }
                }
            }
        }
    }
}

/// Every record has its own lock, version and pages.
#[test]
fn each_record_alone() {
    for record in 0..64u8 {
        let list = [
            recover(255),
            begin(TOP),
            lock(0, record),
            write(0, record, 31, 0xA5),
            begin(TOP),
            lock(1, record),
            lock(1, record ^ 1),
            commit(0, 255),
            lock(1, record),
            read(1, record, 31),
            read(1, record ^ 1, 31),
        ];
        let (answers, store) = play_events(&fresh(), &list);
        let due = [(0, 0), (0, 0), (0, 0), (0, 0), (0, 1), (8, 0), (0, 0), (0, 4), (0, 0), (0, 0xA5), (0, 0)];
        assert_eq!(answers, due, "record {record}");
        let changed: Vec<usize> =
            (0..129).filter(|page| store[page * 32..][..32].iter().any(|byte| *byte != 0)).collect();
        assert_eq!(changed, [0, 1 + usize::from(record), 65 + usize::from(record)]);
    }
}

/// Two records far from each other, with every cut.
#[test]
fn every_short_list() {
    let mut letters = vec![begin(TOP), begin(0), lock(0, 0), lock(0, 63), lock(1, 63), write(0, 0, 0, 0x11)];
    letters.extend([write(0, 63, 31, 0x22), write(1, 63, 31, 0x33), read(0, 63, 31), commit(1, 0), crash()]);
    letters.extend([recover(255), recover(0), recover(1), recover(2)]);
    letters.extend((0..7).chain([255]).map(|count| commit(0, count)));
    let committed = committed(&mut Rng::new(7), 1 << 63 | 1);
    let begun = [recover(255), begin(TOP), lock(0, 63)];
    for (name, store, prefix, length, accepted) in [
        ("edition 2, fresh", fresh(), &begun[..0], 3, false),
        ("edition 2, committed", committed.clone(), &begun[..0], 3, false),
        ("edition 2, accepted", committed, &begun[..], 5, true),
    ] {
        let length = settings::length(length);
        let family = Family { program: Program::Engine, store: &store, prefix, letters: &letters, length, accepted };
        match family.play::<Edition2>() {
            Ok(lists) => println!("{name}: {lists} lists of up to {length} events"),
            Err(text) => panic!("{name}: {text}"),
        }
    }
}

/// A store of edition 1 as one of edition 2, whose other records are zero.
fn grown(store: &Bytes) -> Vec<u8> {
    let mut grown = fresh();
    let head: [u8; PAGE_BYTES] = std::array::from_fn(|at| store[at]);
    match CommitPage::of(&head) {
        CommitPage::Empty => {}
        CommitPage::Committed(_) => {
            grown[..3].copy_from_slice(&[0x25, store[1], store[2]]);
            grown[9] = store[3] >> 2;
        }
        _ => grown[0] = 0x2F,
    }
    for record in 0..16 {
        for (old, new) in [(1 + record, 1 + record), (17 + record, 65 + record)] {
            grown[new * 32..][..32].copy_from_slice(&store[old * 32..][..32]);
        }
    }
    grown
}

/// With its first sixteen records edition 2 is edition 1: both proved libraries play the same lists, each in its words.
#[test]
fn its_first_sixteen_records_are_edition_1() {
    let lists = settings::lists() / 50;
    let failure = share(lists, |number| {
        let mut case = plain::case(settings::seed() + 53, number);
        if case.store[0] == 0x13 {
            case.store = stores::fresh();
        }
        let chunks = case.events.chunks_exact(4).filter(|word| !(9..=11).contains(&(word[0] >> 4)));
        let fields: Vec<Fields> = chunks.map(|word| Fields::of([word[0], word[1], word[2], word[3]])).collect();
        case.events = fields.iter().flat_map(Fields::word).collect();
        let due = nekahuiro_trials::Program::Engine.play(&case, 0x5A);
        let grown_case = Case { store: grown(&case.store), events: words::<Edition2>(&fields) };
        let played = Program::Engine.play::<Edition2>(&grown_case, 0);
        match (played.answers == due.answers, played.store == grown(&due.store)) {
            (true, true) => Ok(()),
            same => Err(format!("answers, store {same:?}")),
        }
    });
    assert_eq!(failure, None);
}
