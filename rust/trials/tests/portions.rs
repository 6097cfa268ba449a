//! Events in portions: cut anywhere, a list gives what the whole run gives; refusals change nothing.

use nekahuiro::limits::{ANSWER_BYTES, EVENTS, EVENT_BYTES, STORE_BYTES, WORK_BYTES};
use nekahuiro::{raw, Event, Refusal, State, Store, Work};
use nekahuiro_history::{
    first_half, second_half, second_list, tell, tell_from, Earlier, End, Run, Transaction as Told,
};
use nekahuiro_lists::stores::{self, Bytes};
use nekahuiro_lists::{timing, worked, Rng};
use nekahuiro_trials::exhaustive::{BESIDE, BESIDE_PREFIX, NESTED, PREPARING, SHARED, SHARED_PREFIX};
use nekahuiro_trials::portions::{check_cut, rng, share, Board};
use nekahuiro_trials::{lent, listed, random, settings, Case};
use std::sync::atomic::{AtomicU64, Ordering};

/// Portions are compared event by event, so fewer lists are cut than are played whole.
fn lists() -> u64 {
    settings::lists() / 10
}

#[test]
fn cut_anywhere_a_list_gives_what_the_whole_run_gives() {
    let portions = AtomicU64::new(0);
    let failure = share(lists(), |number| {
        let mut rng = rng(1, number);
        let longest = rng.one_of([1, 2, 3, 7, 20, 100]);
        let played = check_cut(&random::case(settings::seed() + 1, number), longest, &mut rng)?;
        portions.fetch_add(played, Ordering::Relaxed);
        Ok(())
    });
    assert_eq!(failure, None, "seed {}", settings::seed());
    println!("random lists in portions: {} lists, {} portions", lists(), portions.into_inner());
}

#[test]
fn one_event_at_a_time() {
    let mut rng = Rng::new(2);
    let events = worked::events();
    let case = Case { store: stores::fresh(), events: events.clone() };
    assert_eq!(check_cut(&case, 1, &mut rng), Ok(16));
    let mut board = Board::new(stores::fresh(), &mut rng);
    let answers: Vec<u8> = events.chunks_exact(EVENT_BYTES).flat_map(|word| board.play(word).unwrap()).collect();
    assert_eq!(answers, worked::answers());
    for (name, events) in timing::all() {
        let case = Case { store: stores::fresh(), events };
        assert_eq!(check_cut(&case, 1, &mut rng), Ok(EVENTS as u64), "{name}");
    }
}

#[test]
fn a_chain_of_portions_is_longer_than_any_list() {
    let mut rng = Rng::new(3);
    for store in [stores::fresh(), stores::committed(&mut rng, 0x9001)] {
        let mut board = Board::new(store, &mut rng);
        let (mut joined, mut answers) = (Vec::new(), Vec::new());
        for number in 0..600 {
            let list = random::case(settings::seed() + 3, number).events;
            let list = if number == 300 { timing::mixed(3) } else { list };
            answers.extend(board.play(&list).unwrap());
            joined.extend(list);
        }
        assert!(joined.len() > 4 * EVENTS * EVENT_BYTES);
        // Demand 3 holds over the joined list, and the second run may be cut elsewhere.
        let first = Run { before: &store, events: &joined, answers: &answers, after: &board.store };
        let history = first_half(first).unwrap();
        assert!(history.transactions.iter().filter(|told| told.survives).count() > 100);
        let changed = second_list(&history, &joined, |value| value.wrapping_add(0x5D)).unwrap();
        let mut second = Board::new(store, &mut rng);
        let portions = changed.chunks(EVENT_BYTES * 1000);
        let answers: Vec<u8> = portions.flat_map(|portion| second.play(portion).unwrap()).collect();
        let run = Run { before: &store, events: &changed, answers: &answers, after: &second.store };
        second_half(&history, first, run).unwrap();
    }
}

#[test]
fn short_lists_cut_at_every_place() {
    cut_at_every_place(stores::fresh(), NESTED, "recover 63, begin none, begin 0, lock 1 0");
    cut_at_every_place(stores::fresh(), SHARED, SHARED_PREFIX);
    cut_at_every_place(stores::fresh(), PREPARING, "recover 63, begin none, lock 0 0, write 0 0 31 44");
    cut_at_every_place(stores::prepared(&mut Rng::new(9), 0x8000, 255), BESIDE, BESIDE_PREFIX);
}

/// Every list of three events over an alphabet, after a beginning, cut in two.
fn cut_at_every_place(store: Bytes, alphabet: &str, beginning: &str) {
    let letters = listed::words(alphabet);
    let letters: Vec<&[u8]> = letters.chunks_exact(EVENT_BYTES).collect();
    let length = settings::length(3) as u32;
    let lists = (letters.len() as u64).pow(length);
    let failure = share(lists, |number| {
        let mut rng = rng(11, number);
        let mut events = listed::words(beginning);
        for place in 0..length {
            let letter = number / (letters.len() as u64).pow(place) % letters.len() as u64;
            events.extend(letters[letter as usize]);
        }
        let mut whole = Store::of(&store).map_err(|refusal| refusal.to_string())?;
        let due = whole.play_words(&events).map_err(|refusal| refusal.to_string())?;
        let due: Vec<u8> = due.iter().flat_map(|answer| answer.bytes()).collect();
        let mut ends = Vec::new();
        for at in 0..=events.len() / EVENT_BYTES {
            let mut board = Board::new(store, &mut rng);
            let (early, late) = events.split_at(at * EVENT_BYTES);
            let answers = [board.play(early)?, board.play(late)?].concat();
            if answers != due || board.store != *whole.bytes() {
                return Err(format!("{events:02X?}, cut at {at}: not what the whole run gives"));
            }
            ends.push(board.state);
        }
        match ends.iter().all(|state| *state == ends[0]) {
            true => Ok(()),
            false => Err(format!("{events:02X?}: another state when cut elsewhere")),
        }
    });
    assert_eq!(failure, None);
}

#[test]
fn a_history_can_begin_anywhere() {
    let mut rng = Rng::new(10);
    for number in 0..lists() / 4 {
        let case = random::case(settings::seed() + 10, number);
        let at = rng.below(case.length() + 1);
        let mut board = Board::new(case.store, &mut rng);
        let mut answers = board.play(&case.events[..at * EVENT_BYTES]).unwrap();
        let facts = lent::facts(&board.state, &board.work);
        let changed = |t| facts.versions.keys().filter(move |(writer, _)| *writer == t).map(|(_, record)| record.0);
        let mut live: Vec<_> = facts.live.iter().collect();
        live.sort_by_key(|(_, begun)| begun.depth);
        let earlier = live.iter().map(|(t, begun)| Earlier {
            number: t.0,
            parent: begun.parent.map(|parent| parent.0),
            changed: changed(**t).collect(),
        });
        let earlier: Vec<Earlier> = earlier.collect();
        let late = board.play(&case.events[at * EVENT_BYTES..]).unwrap();
        let part = tell_from(&earlier, &case.events[at * EVENT_BYTES..], &late).unwrap();
        answers.extend(late);
        let whole = tell(&case.events, &answers).unwrap();
        // The same transactions, in another order, have the same fate.
        let fate = |told: &Told| (told.begun.filter(|begun| *begun >= at), told.number, told.survives);
        let lives_on = |told: &&Told| match told.end {
            End::Never => true,
            End::Committed { at: end, .. } | End::Aborted(end) | End::Crashed(end) => end >= at,
            End::Prepared { at: end, .. } => end >= at,
        };
        let mut due: Vec<_> = whole.transactions.iter().filter(lives_on).map(fate).collect();
        let later = |told: &Told| (told.begun.map(|begun| begun + at), told.number, told.survives);
        let mut found: Vec<_> = part.transactions.iter().map(later).collect();
        due.sort_unstable();
        found.sort_unstable();
        assert_eq!(found, due, "list {number}, cut at {at}");
    }
}

#[test]
fn a_refused_portion_changes_nothing_and_adds_no_event() {
    let mut rng = Rng::new(4);
    for number in 0..lists() / 20 {
        let case = random::case(settings::seed() + 4, number);
        let half = case.length() / 2 * EVENT_BYTES;
        let mut board = Board::new(case.store, &mut rng);
        let mut answers = board.play(&case.events[..half]).unwrap();
        for _ in 0..4 {
            board.refuse(&case.events[half..], &mut rng).unwrap();
        }
        answers.extend(board.play(&case.events[half..]).unwrap());
        let mut store = Store::of(&case.store).unwrap();
        let whole = store.play_words(&case.events).unwrap();
        assert_eq!(answers, whole.iter().flat_map(|answer| answer.bytes()).collect::<Vec<u8>>());
        assert_eq!(*store.bytes(), board.store);
    }
}

#[test]
fn an_empty_portion_changes_nothing() {
    let (mut store, mut work) = ([0x77; STORE_BYTES], [0x55; WORK_BYTES]);
    let mut state = State::new();
    assert_eq!(raw::portion(&mut state, &mut store, &[], &mut work, &mut []), 0);
    assert_eq!((state, store, work), (State::new(), [0x77; STORE_BYTES], [0x55; WORK_BYTES]));
    let mut rng = Rng::new(5);
    let mut board = Board::new(stores::fresh(), &mut rng);
    board.play(&listed::words("recover 63, begin none, lock 0 3, write 0 3 0 11")).unwrap();
    let before = (board.state.clone(), board.store, board.work.clone());
    assert_eq!(board.play(&[]), Ok(Vec::new()));
    assert!((board.state, board.store, board.work) == before);
}

#[test]
fn wrong_lengths_and_an_unsound_state_are_refused_in_order() {
    let list = [0x80, 0, 0x3F, 0, 0x1F, 0x80, 0, 0];
    for (store, work) in
        [(1056, WORK_BYTES), (1055, WORK_BYTES), (1056, WORK_BYTES + 1), (0, 0), (2112, WORK_BYTES), (1056, 0)]
    {
        for events in [0, 3, 4, 8] {
            for (answers, sound) in [(0, true), (1, true), (4, true), (0, false), (3, false), (9, false)] {
                let mut state = State { up: if sound { 0 } else { 2 }, ..State::new() };
                let mut buffers = (vec![0x10; store], vec![0x77; work], vec![0x99; answers]);
                let before = (state.clone(), buffers.clone());
                let number = raw::portion(&mut state, &mut buffers.0, &list[..events], &mut buffers.1, &mut buffers.2);
                let tries = [
                    (22, store != STORE_BYTES),
                    (24, work != WORK_BYTES),
                    (20, events % EVENT_BYTES != 0),
                    (21, answers < events / EVENT_BYTES * ANSWER_BYTES),
                    (25, !sound),
                ];
                let due = tries.iter().find(|(_, holds)| *holds).map_or(0, |(number, _)| *number);
                assert_eq!(number, due, "store {store}, work {work}, events {events}, answers {answers}");
                assert!(due == 0 || (state, buffers) == before, "refused with {number}, but something was changed");
            }
        }
    }
    let (mut store, mut state, mut work) = (Store::fresh(), State::new(), Work::new());
    let long = vec![Event::Crash; EVENTS + 1];
    assert_eq!(store.portion(&mut state, &mut work, &long), Err(Refusal::List));
    assert_eq!(store.portion(&mut state, &mut work, &long[1..]).map(|answers| answers.len()), Ok(EVENTS));
}
