//! The auditor against the ordinary player: what the player left belongs together, and any byte changed is
//! found at its event or page; refusals in their order; lists in portions; lists that stop early.

use nekahuiro::limits::{ANSWER_BYTES, EVENT_BYTES, PAGE_BYTES, STORE_BYTES};
use nekahuiro::{raw, CommitPage, State, Store, Work};
use nekahuiro_lists::random::{list, Taste};
use nekahuiro_lists::stores::{self, Bytes};
use nekahuiro_lists::{timing, worked, Rng};
use nekahuiro_trials::case::{Case, Played, TAIL_BYTES};
use nekahuiro_trials::{settings, Program};
use std::time::Instant;

/// What `place` holds before a call.
const BEFORE: u16 = 0xBEEF;

/// A verdict's number and place.
fn audit(case: &Case, answers: &[u8], end: &[u8]) -> (u8, u16) {
    let mut place = BEFORE;
    let number = raw::audit(&case.store, &case.events, answers, end, &mut place);
    (number, place)
}

/// Whether the auditor takes the list: no kind from 9 to 11, and nothing prepared at the start.
fn is_taken(case: &Case) -> bool {
    let kinds = case.events.chunks_exact(EVENT_BYTES).map(|word| word[0] >> 4);
    let prepared = Store::of(&case.store).is_ok_and(|store| matches!(store.commit_page(), CommitPage::Prepared(..)));
    !prepared && !kinds.clone().any(|kind| (9..=11).contains(&kind))
}

/// A random case, with the kinds from 9 to 11 left out of most.
fn random(rng: &mut Rng) -> Case {
    let store = stores::any(rng);
    let page = Store::of(&store).map_or(CommitPage::Empty, |store| store.commit_page());
    let mut taste = Taste::any(rng);
    let plain = rng.percent(95);
    if plain {
        taste.joint = 0;
    }
    let mut events = list(rng, &taste, page);
    if plain {
        let plain = |word: &&[u8]| !(9..=11).contains(&(word[0] >> 4));
        events = events.chunks_exact(EVENT_BYTES).filter(plain).flatten().copied().collect();
    }
    Case { store, events }
}

/// What the player leaves, to the last byte.
fn played(case: &Case) -> Played {
    let played = Program::Player.play(case, 0x5A);
    assert_eq!(played.number, 0);
    played
}

fn changed<const N: usize>(bytes: &[u8; N], at: usize, by: u8) -> [u8; N] {
    let mut other = *bytes;
    other[at] ^= by;
    other
}

/// Every answer byte and every byte of the end store, changed one by one.
fn every_byte(case: &Case, rng: &mut Rng, step: usize) {
    let Played { store, mut answers, .. } = played(case);
    assert_eq!(audit(case, &answers, &store), (0, BEFORE));
    for at in (0..case.length() * ANSWER_BYTES).step_by(step) {
        let by = 1 + (rng.byte() % 255);
        answers[at] ^= by;
        // A wrong store doesn't matter any more.
        let end = changed(&store, rng.below(STORE_BYTES), 1);
        assert_eq!(audit(case, &answers, &end), (1, (at / ANSWER_BYTES) as u16), "answer byte {at}");
        answers[at] ^= by;
    }
    for at in (0..STORE_BYTES).step_by(step) {
        let end = changed(&store, at, 1 + (rng.byte() % 255));
        assert_eq!(audit(case, &answers, &end), (2, (at / PAGE_BYTES) as u16), "store byte {at}");
    }
    for tail in answers.iter_mut().rev().take(TAIL_BYTES) {
        *tail ^= 0xFF;
    }
    assert_eq!(audit(case, &answers, &store), (0, BEFORE), "bytes past the last event don't count");
}

#[test]
fn every_changed_byte_is_found() {
    let mut rng = Rng::new(settings::seed());
    let mut taken = 0;
    while taken < settings::lists().div_ceil(5_000) {
        let case = random(&mut rng);
        if is_taken(&case) {
            every_byte(&case, &mut rng, 1);
            taken += 1;
        }
    }
    println!("audit: {taken} random lists, each byte changed in turn");
}

#[test]
fn random_lists_are_audited_as_the_player_plays_them() {
    let mut rng = Rng::new(settings::seed() ^ 0xA0D17);
    let (mut taken, mut refused) = (0, 0);
    for _ in 0..settings::lists().div_ceil(20) {
        let case = random(&mut rng);
        let Played { store, mut answers, .. } = played(&case);
        if !is_taken(&case) {
            if let Some(first) = answers.first_mut() {
                *first ^= 1; // 30 comes before any verdict
            }
            assert_eq!(audit(&case, &answers, &store), (30, BEFORE));
            refused += 1;
            continue;
        }
        taken += 1;
        assert_eq!(audit(&case, &answers, &store), (0, BEFORE));
        if case.length() == 0 {
            continue;
        }
        // Two answers and two bytes of the store are wrong: the first counts.
        let places = [rng.below(case.length() * ANSWER_BYTES), rng.below(case.length() * ANSWER_BYTES)];
        places.iter().for_each(|at| answers[*at] ^= 0x10 << (at % 4));
        let first = places.iter().min().filter(|_| places[0] != places[1]);
        if let Some(first) = first {
            assert_eq!(audit(&case, &answers, &store), (1, (first / ANSWER_BYTES) as u16));
        }
        let bytes = [rng.below(STORE_BYTES), rng.below(STORE_BYTES)];
        let end = changed(&changed(&store, bytes[0], 3), bytes[1], 4);
        let answers = played(&case).answers;
        let page = bytes.iter().min().map_or(0, |at| at / PAGE_BYTES);
        assert_eq!(audit(&case, &answers, &end), (2, page as u16));
    }
    println!("audit: {taken} random lists as the player plays them, {refused} refused with 30");
}

#[test]
fn a_list_that_stops_early() {
    let mut rng = Rng::new(settings::seed() ^ 7);
    for _ in 0..200 {
        let whole = random(&mut rng);
        if !is_taken(&whole) {
            continue;
        }
        let Played { store: end, answers, .. } = played(&whole);
        for length in 0..whole.length() {
            let part = Case { store: whole.store, events: whole.events[..length * EVENT_BYTES].to_vec() };
            let due = played(&part);
            // The answers of the whole list go with each of its beginnings; its end store only if it is the same.
            assert_eq!(audit(&part, &answers, &due.store), (0, BEFORE));
            let page = (0..STORE_BYTES).find(|at| due.store[*at] != end[*at]).map(|at| (at / PAGE_BYTES) as u16);
            assert_eq!(audit(&part, &answers, &end), page.map_or((0, BEFORE), |page| (2, page)));
        }
    }
}

#[test]
fn portions_joined_are_one_list() {
    let mut rng = Rng::new(settings::seed() ^ 8);
    for _ in 0..500 {
        let case = random(&mut rng);
        if !is_taken(&case) {
            continue;
        }
        let mut store = Store::of(&case.store).expect("its length is right");
        let (mut state, mut work, mut answers) = (State::new(), Work::new(), Vec::new());
        let mut rest = &case.events[..];
        while !rest.is_empty() {
            let length = EVENT_BYTES * (1 + rng.below(5)).min(rest.len() / EVENT_BYTES);
            let given = store.portion_words(&mut state, &mut work, &rest[..length]).expect("it is taken");
            answers.extend(given.iter().flat_map(|answer| answer.bytes()));
            rest = &rest[length..];
        }
        assert_eq!(audit(&case, &answers, store.bytes()), (0, BEFORE));
    }
}

#[test]
fn refusals_in_their_order() {
    let start = stores::fresh();
    let prepared: Bytes = stores::prepared(&mut Rng::new(3), 0x9000, 7);
    let short = &start[1..];
    let two_phase = [0x90, 0, 0, 0, 0xA0, 0, 0, 0xFF, 0xBF, 0xFF, 0xFF, 0xFF];
    let call = |start: &[u8], events: &[u8], answers: &[u8], end: &[u8]| {
        let mut place = BEFORE;
        let number = raw::audit(start, events, answers, end, &mut place);
        assert_eq!(place, BEFORE);
        number
    };
    for wrong in [[short, &start[..]], [&start[..], short], [short, short]] {
        assert_eq!(call(wrong[0], &two_phase[1..], &[], wrong[1]), 22);
    }
    assert_eq!(call(&prepared, &two_phase[1..], &[], &start), 20);
    assert_eq!(call(&prepared, &vec![0; 4 * 4097], &vec![0; 2 * 4097], &start), 20);
    assert_eq!(call(&prepared, &two_phase, &[0; 5], &start), 21);
    assert_eq!(call(&prepared, &[], &[], &start), 30);
    assert_eq!(call(&start, &[], &[], &start), 0);
    for at in 0..3 {
        // Each of the three kinds, bad as it is, at each place of a list with a wrong answer before it.
        let mut events = [0xC0, 0, 0, 0].repeat(3);
        assert_eq!(call(&start, &events, &[1, 0].repeat(3), &start), 0);
        events[4 * at..4 * at + 4].copy_from_slice(&two_phase[4 * at..4 * at + 4]);
        assert_eq!(call(&start, &events, &[9; 6], &start), 30);
    }
    // A page in state 3 that is no prepared one is damaged, and audited.
    let mut damaged = prepared;
    damaged[3] ^= 8;
    assert_eq!(call(&damaged, &[0x80, 0, 0x3F, 0], &[4, 0], &damaged), 0);
}

#[test]
fn the_longest_lists() {
    let mut rng = Rng::new(1);
    for (name, events) in timing::all() {
        let case = Case { store: stores::fresh(), events };
        every_byte(&case, &mut rng, 1_021);
        let Played { store, answers, .. } = played(&case);
        let begun = Instant::now();
        assert_eq!(audit(&case, &answers, &store), (0, BEFORE));
        println!("audit: {} events, {name}, in {:?}", case.length(), begun.elapsed());
    }
    every_byte(&Case { store: stores::fresh(), events: worked::events() }, &mut rng, 1);
}
