//! Pages that can tear, in portions on a lent state: cut anywhere, a list gives what the whole run gives; what may be lent,
//! against an independent judge; and copy writes, each cut of them against the library's own run.

use nekahuiro::limits::{EVENT_BYTES, WORK_BYTES};
use nekahuiro::pairs::limits::COPY_WRITE_BYTES;
use nekahuiro::pairs::Store;
use nekahuiro::{raw, Fields, Refusal, State, Work};
use nekahuiro_lists::stores::pairs::{all_bad, even, fresh, uneven, COPY_BYTES, PAIR_BYTES, STORE_BYTES};
use nekahuiro_lists::{stores, Rng};
use nekahuiro_player::soundness::Fault;
use nekahuiro_trials::forms::copies::{check, told, Board};
use nekahuiro_trials::forms::events::{begin, commit, lock, read, recover, torn, words, write, TOP};
use nekahuiro_trials::forms::{random, Case, Form, Pairs, Program};
use nekahuiro_trials::lent::{judge_in, Unsound};
use nekahuiro_trials::portions::{check_cut_of, rng, share};
use nekahuiro_trials::settings;
use nekahuiro_trials::states::{any_state, mutate};
use std::collections::BTreeMap;
use std::sync::atomic::{AtomicU64, Ordering};
use std::sync::Mutex;

type Player = <Pairs as Form>::Player;

fn up() -> State {
    State { up: 1, ..State::new() }
}

fn word(fields: Fields) -> [u8; EVENT_BYTES] {
    fields.word()
}

#[test]
fn cut_anywhere_a_list_gives_what_the_whole_run_gives() {
    let (lists, portions) = (settings::lists() / 50, AtomicU64::new(0));
    let failure = share(lists, |number| {
        let mut rng = rng(61, number);
        let longest = rng.one_of([1, 2, 3, 7, 20, 100]);
        let played = check_cut_of::<Pairs>(&random::case::<Pairs>(settings::seed() + 61, number), longest, &mut rng)?;
        portions.fetch_add(played, Ordering::Relaxed);
        Ok(())
    });
    assert_eq!(failure, None, "seed {}", settings::seed());
    println!("random lists in portions, pairs: {lists} lists, {} portions", portions.into_inner());
}

/// Every list of three events with tears, after a beginning, cut in two at every place.
#[test]
fn short_lists_cut_at_every_place() {
    let mut letters = vec![begin(TOP), read(0, 0, 0), recover(63), torn(recover(63), 4)];
    for way in 0..4 {
        letters.extend([0, 1, 2, 3, 4].map(|count| torn(commit(0, count), way)));
        letters.extend([0, 1].map(|count| torn(recover(count), way)));
    }
    let beginning = words::<Pairs>(&[recover(63), begin(TOP), lock(0, 0), write(0, 0, 31, 0x44)]);
    let (count, length) = (letters.len() as u64, settings::length(3) as u32);
    let failure = share(count.pow(length), |number| {
        let picked: Vec<Fields> = (0..length).map(|at| letters[(number / count.pow(at) % count) as usize]).collect();
        let case = Case { store: fresh(), events: [beginning.clone(), words::<Pairs>(&picked)].concat() };
        let whole = Program::Engine.play::<Pairs>(&case, 0);
        for at in 4..=case.length::<Pairs>() {
            let mut board = Board::new(fresh(), &mut rng(62, number));
            let (early, late) = case.events.split_at(at * EVENT_BYTES);
            let answers = [board.play(early)?, board.play(late)?].concat();
            if whole.answers[..answers.len()] != answers || board.store != whole.store {
                return Err(format!("{picked:?}, cut at {at}: not what the whole run gives"));
            }
        }
        Ok(())
    });
    assert_eq!(failure, None);
}

/// What the library says to an event on a lent state, which must be what the judge says.
fn judged(state: &State, work: &Work, store: &[u8]) -> Result<(), Unsound> {
    let (mut lent, mut lent_store, mut lent_work) = (state.clone(), store.to_vec(), work.clone());
    let (mut answer, mut told) = ([0x99; 2], [0xD7; COPY_WRITE_BYTES]);
    let bad = [0xC0, 0, 0, 0];
    let verdict = judge_in::<Player>(state, work, store).map(|_| ());
    let (portion, write) = if verdict.is_ok() { (0, 12) } else { (25, 25) };
    let number = raw::pairs::page_write(state, store, &bad, work.bytes(), 0, &mut told);
    assert_eq!((number, told), (write, [0xD7; COPY_WRITE_BYTES]), "{verdict:?}: {state:?}");
    let number = raw::pairs::portion(&mut lent, &mut lent_store, &bad, lent_work.bytes_mut(), &mut answer);
    assert_eq!(number, portion, "{verdict:?}: {state:?}");
    // The one event is a bad one: it changes nothing but its answer.
    assert_eq!(answer, if verdict.is_ok() { [1, 0] } else { [0x99; 2] });
    assert!((&lent, &lent_store[..]) == (state, store) && (verdict.is_ok() || lent_work == *work), "it was changed");
    verdict
}

/// States that lists lead to and sound ones made at random; some of them changed, with any stores.
#[test]
fn lent_states_are_judged_as_the_rules_say() {
    let (states, verdicts) = (settings::lists() / 40, Mutex::new(BTreeMap::<String, u64>::new()));
    let failure = share(states, |number| {
        let mut rng = rng(63, number);
        let mut case = random::case::<Pairs>(settings::seed() + 63, number);
        case.events.truncate(rng.below(case.length::<Pairs>() + 1) * EVENT_BYTES);
        let mut board = Board::new(case.store, &mut rng);
        board.play(&case.events)?;
        let (mut state, mut store) = (board.state, board.store);
        if rng.percent(30) {
            state = any_state(&mut rng);
            store = even(&stores::used(&mut rng));
        }
        (0..rng.below(3)).for_each(|_| mutate(&mut state, &mut rng));
        if rng.percent(30) {
            let times = rng.one_of([1, 3, 30]);
            store = uneven(&mut rng, store, times);
        }
        if rng.percent(10) {
            store = stores::pairs::any(&mut rng);
        }
        let verdict = judged(&state, &board.work, &store);
        let name = format!("{verdict:?}");
        verdicts.lock().map(|mut verdicts| *verdicts.entry(name).or_default() += 1).map_err(|error| error.to_string())
    });
    assert_eq!(failure, None, "seed {}", settings::seed());
    let verdicts = verdicts.into_inner().unwrap();
    println!("lent states, pairs: {verdicts:?}");
    for due in ["Ok(())", "Err(Uneven)", "Err(Struct)", "Err(Facts(Page))"] {
        assert!(verdicts.get(due).is_some_and(|found| 100 * found > states), "{due}: {verdicts:?}");
    }
}

/// Any byte of any copy: another status, or another byte in one copy alone, is 25 while up and nothing while down.
#[test]
fn an_uneven_pair_while_up_is_25() {
    let (store, work) = (even(&stores::used(&mut Rng::new(5))), Work::new());
    assert_eq!(judged(&up(), &work, &store), Ok(()));
    for (at, flip) in (0..STORE_BYTES).flat_map(|at| [1, 2, 0x80, 0xFF].map(|flip| (at, flip))) {
        let mut changed = store.clone();
        changed[at] ^= flip;
        assert!(judged(&up(), &work, &changed).is_err(), "byte {at}");
        assert_eq!(judged(&State::new(), &work, &changed), Ok(()));
        // The same in both copies: of page 0 that is damage, of any other page another page.
        changed[at / PAIR_BYTES * PAIR_BYTES + (at % PAIR_BYTES + COPY_BYTES) % PAIR_BYTES] ^= flip;
        let due = match (at % COPY_BYTES, at / PAIR_BYTES) {
            (0, 0) => Err(Unsound::Facts(Fault::Page)),
            (0, _) => Err(Unsound::Uneven),
            (_, 0) => Err(Unsound::Facts(Fault::Page)),
            _ => Ok(()),
        };
        assert_eq!(judged(&up(), &work, &changed), due, "byte {at} of both copies");
    }
    for page in 0..33 {
        assert!(judged(&up(), &work, &all_bad(&mut Rng::new(page), store.clone(), page as usize)).is_err());
    }
    let committed = even(&stores::committed(&mut Rng::new(6), 0x8000));
    let prepared = even(&stores::prepared(&mut Rng::new(6), 0x8000, 7));
    for store in [committed, prepared] {
        assert_eq!(judged(&up(), &work, &store), Err(Unsound::Facts(Fault::Page)));
    }
}

/// Boards that lists lead to, and the event that comes next, a recover, and a commit of each live transaction.
#[test]
fn copy_writes_cut_everywhere() {
    let (lists, asked, made) = (settings::lists() / 60, AtomicU64::new(0), AtomicU64::new(0));
    let failure = share(lists, |number| {
        let mut rng = rng(64, number);
        let case = random::case::<Pairs>(settings::seed() + 64, number);
        let at = rng.below(case.length::<Pairs>() + 1) * EVENT_BYTES;
        let mut board = Board::new(case.store.clone(), &mut rng);
        board.play(&case.events[..at])?;
        let next = case.events[at..].first_chunk::<EVENT_BYTES>().copied();
        let live: Vec<u8> = board.state.live().map(|t| t.number()).collect();
        let commits = live.into_iter().map(|t| word(commit(t, rng.below(64) as u8)));
        let events: Vec<_> = commits.chain(next).chain([word(recover(63)), word(torn(recover(0), 4))]).collect();
        for event in events {
            let writes = check(&board, event).map_err(|text| format!("before event {}: {text}", at / EVENT_BYTES))?;
            asked.fetch_add(1, Ordering::Relaxed);
            made.fetch_add(writes.len() as u64, Ordering::Relaxed);
        }
        Ok(())
    });
    assert_eq!(failure, None, "seed {}", settings::seed());
    println!("copy writes: {asked:?} events, {made:?} copy writes, each cut behind it and within it");
}

/// A top transaction that has versions of the records of a map.
fn writer(map: u16) -> State {
    let mut state = up();
    (state.depth[0], state.parent[0], state.line[0]) = (1, 31, 1);
    for record in (0..16).filter(|record| map & 0x8000 >> record != 0) {
        (state.held[2 * record], state.held[2 * record + 1], state.writers[record]) = (1, 1, 1);
    }
    state
}

/// Commits of every map and recoveries over every map, from uneven stores.
#[test]
fn copy_writes_of_every_map() {
    let failure = share(1 << 16, |number| {
        let (map, mut rng) = (number as u16, Rng::new(number));
        let mut work = Work::new();
        work.bytes_mut().fill_with(|| rng.byte());
        let ones = map.count_ones() as usize;
        let before = if map == 0 { stores::used(&mut rng) } else { stores::committed(&mut rng, map) };
        let rows = [
            (writer(map), even(&stores::used(&mut rng)), commit(0, 63), if ones == 0 { 0 } else { 2 * ones + 2 }),
            (State::new(), uneven(&mut rng, even(&before), 30), recover(63), if ones == 0 { 0 } else { ones + 1 }),
        ];
        for (state, store, event, due) in rows {
            let board = Board::with(state, store, work.clone()).ok_or("no board")?;
            // Every cut of each would take long.
            let found = if number % 128 == 0 { check(&board, word(event)) } else { told(&board, word(event)) };
            match found.map(|writes| writes.len()) {
                Ok(found) if found == 2 * due => {}
                other => return Err(format!("map {map:04X}, {event:?}: {other:?}, and {due} pages are due")),
            }
        }
        Ok(())
    });
    assert_eq!(failure, None);
}

/// A recover over a damaged store, or one with a pair all bad, is refused, and writes nothing.
#[test]
fn a_refused_recover_has_no_copy_writes() {
    let committed = uneven(&mut Rng::new(2), even(&stores::committed(&mut Rng::new(1), 0x9000)), 50);
    for page in 0..33 {
        let board = Board::new(all_bad(&mut Rng::new(3), committed.clone(), page), &mut Rng::new(4));
        assert_eq!(check(&board, word(recover(63))), Ok(Vec::new()), "page {page}");
    }
    let prepared = Board::new(even(&stores::prepared(&mut Rng::new(1), 0x9000, 7)), &mut Rng::new(4));
    assert_eq!(check(&prepared, word(recover(63))), Ok(Vec::new()));
    assert_eq!(check(&Board::new(committed, &mut Rng::new(4)), word(recover(63))).map(|writes| writes.len()), Ok(6));
}

/// Every wrong length beside every other, and an unsound state; nothing is touched.
#[test]
fn refusals_in_their_order() {
    let lengths = |due: usize| [due, due - 1, due + 1, 0];
    let (padded, long) = ([fresh(), vec![0]].concat(), vec![0u8; WORK_BYTES + 1]);
    let list = [0x80, 0, 0x3F, 0, 0x1F, 0x80, 0, 0];
    let mut tried = 0;
    for (store, work) in
        lengths(STORE_BYTES).into_iter().chain([1_056]).flat_map(|s| lengths(WORK_BYTES).map(|w| (s, w)))
    {
        for (event, state) in
            [4, 3, 5, 0, 8].into_iter().flat_map(|e| [0, 2].map(|up| (e, State { up, ..State::new() })))
        {
            for out in lengths(COPY_WRITE_BYTES).into_iter().chain([33, 2, 1]) {
                let due = |shape: [(u8, bool); 2]| {
                    let [list, out] = shape;
                    let first = [(22, store != STORE_BYTES), (24, work != WORK_BYTES), list, out, (25, state.up == 2)];
                    first.into_iter().find(|(_, wrong)| *wrong).map(|(number, _)| number)
                };
                let mut written = vec![0xD7; out];
                let found =
                    raw::pairs::page_write(&state, &padded[..store], &list[..event], &long[..work], 0, &mut written);
                assert_eq!(found, due([(20, event != 4), (21, out != COPY_WRITE_BYTES)]).unwrap_or(12));
                assert!(written.iter().all(|byte| *byte == 0xD7));
                let mut lent = (state.clone(), padded[..store].to_vec(), long[..work].to_vec(), vec![9; out]);
                let before = lent.clone();
                let found = raw::pairs::portion(&mut lent.0, &mut lent.1, &list[..event], &mut lent.2, &mut lent.3);
                let due = due([(20, event % 4 != 0), (21, out < event / 4 * 2)]).unwrap_or(0);
                assert_eq!(found, due);
                assert!(due == 0 || lent == before);
                tried += 1;
            }
        }
    }
    assert_eq!(tried, 1_400);
}

/// The same refusals by name, through the wrapper.
#[test]
fn refusals_by_name() {
    let (mut store, mut state, mut work) = (Store::fresh(), State::new(), Work::new());
    store.portion_words(&mut state, &mut work, &words::<Pairs>(&[recover(63)])).unwrap();
    store.bytes_mut()[20 * PAIR_BYTES] = 0;
    let refused = store.portion_words(&mut state, &mut work, &words::<Pairs>(&[begin(TOP)]));
    assert_eq!(refused, Err(Refusal::State));
    assert_eq!(store.copy_writes(&state, &work, word(recover(63))), Err(Refusal::State));
    assert_eq!(Store::of(&[0; 1_056]), Err(Refusal::Store));
    assert!(Refusal::Store.to_string().contains("2178 where pages can tear"));
}
