//! Other forms than the plain one: random lists on the proved engine, against the player and demand 3; and copies of the player with one bug each, which the same tests must find.

use nekahuiro::Fields;
use nekahuiro_history::serial_of;
use nekahuiro_lists::{stores, timing, Rng};
use nekahuiro_player::planted::Bug;
use nekahuiro_player::Form as _;
use nekahuiro_trials::forms::events::{begin, commit, crash, lock, read, recover, torn, write, TOP};
use nekahuiro_trials::forms::every::Family;
use nekahuiro_trials::forms::{check, random, run_of, Case, Edition2, Form, Pairs, Program};
use nekahuiro_trials::portions::share;
use nekahuiro_trials::settings;
use std::sync::atomic::{AtomicU64, Ordering};

#[test]
fn random_lists_keep_demand_3() {
    demand_3::<Edition2>();
    demand_3::<Pairs>();
}

fn demand_3<F: Form>() {
    let (seed, lists) = (settings::seed(), settings::lists() / 25);
    let (text, failure) = random::search::<F>(Program::Engine, Program::Player, seed, lists);
    println!("random lists, {}: {text}", F::NAME);
    assert_eq!(failure, None);
}

/// The benchmark's lists, in the words of the form and over its records.
#[test]
fn lists_of_the_greatest_length_keep_demand_3() {
    longest::<Edition2>();
    longest::<Pairs>();
}

fn longest<F: Form>() {
    for make in [timing::deep_of, timing::flat_of, timing::mixed_of] {
        let case = Case { store: F::fresh(), events: make(F::LISTS, 1) };
        let played = check::<F>(Program::Engine, Program::Player, &case).expect("demand 3");
        assert_eq!((played.number, played.told().len()), (0, 4_096));
        assert!(played.told().iter().filter(|(number, _)| *number == 0).count() > 500);
    }
}

/// As if one transaction came at a time.
#[test]
fn as_if_one_transaction_at_a_time() {
    one_at_a_time::<Edition2, 8>();
    one_at_a_time::<Pairs, 4>();
}

fn one_at_a_time<F: Form, const WORD: usize>() {
    let (lists, reads) = (settings::lists() / 50, AtomicU64::new(0));
    let failure = share(lists, |number| {
        let case = random::case::<F>(settings::seed() + 54, number);
        let played = Program::Engine.play::<F>(&case, 0);
        let run = run_of::<F>(&case, &played);
        let history = F::HISTORY.tell(run.events, run.answers).map_err(|absurd| format!("{absurd:?}"))?;
        let serial = serial_of::<WORD>(&history, run.events, run.answers);
        let again = Case { store: case.store.clone(), events: serial.words() };
        let replayed = Program::Engine.play::<F>(&again, 0);
        reads.fetch_add(serial.events().filter(|placed| placed.word[0] >> 4 == 4).count() as u64, Ordering::Relaxed);
        serial.check(run, run_of::<F>(&again, &replayed)).map_err(|unlike| format!("{unlike:?}"))
    });
    assert_eq!(failure, None, "{}", F::NAME);
    assert!(reads.into_inner() > lists / 10);
}

/// The rules that every form has, and those of the form.
fn bugs(own: &[Bug]) -> Vec<Bug> {
    let shared = Bug::ALL.into_iter().filter(|bug| !bug.is_of_two_phases());
    // Random lists are whole words.
    shared.chain(own.iter().copied()).filter(|bug| *bug != Bug::ListOfHalfWords).collect()
}

#[test]
fn random_lists_find_every_planted_bug() {
    found_at_random::<Edition2>(&bugs(&Bug::OF_EDITION_2), Some(Program::Player));
    found_at_random::<Pairs>(&bugs(&Bug::OF_PAIRS), Some(Program::Player));
}

/// Each program is compared with itself only, so that nothing but demand 3 and what is said of its premise can find
/// its bug.
#[test]
fn demand_3_alone_finds_wrong_programs() {
    let of_edition_2 = [Bug::HomeOnePageEarly, Bug::MapOfHalf, Bug::RecordOfFourBits, Bug::EditionUnasked];
    found_at_random::<Edition2>(&of_edition_2, None);
    let of_pairs = [
        Bug::SecondCopyFirst,
        Bug::MendedFromSecond,
        Bug::SecondBadNotMade,
        Bug::SecondOldNotMade,
        Bug::StatusTwoGood,
        Bug::SecondCopyRead,
        Bug::OtherPagesUnasked,
        Bug::RefusedRecoverMends,
    ];
    found_at_random::<Pairs>(&of_pairs, None);
}

fn found_at_random<F: Form>(bugs: &[Bug], reference: Option<Program>) {
    for bug in bugs {
        let program = Program::Planted(*bug);
        let (text, failure) = random::search::<F>(program, reference.unwrap_or(program), settings::seed(), 40_000);
        let failure = failure.unwrap_or_else(|| panic!("{}: {bug:?} was not found in {text}", F::NAME));
        println!("{}: {bug:?} was found after {text}:\n{failure}", F::NAME);
    }
}

/// The program's lists, shortest first, until one shows the bug.
fn shortest<F: Form>(bug: Bug, families: &[(Vec<u8>, Vec<Fields>)], letters: &[Fields]) {
    let found = (1..=5).find_map(|length| {
        families.iter().find_map(|(store, prefix)| {
            let program = Program::Planted(bug);
            Family { program, store, prefix, letters, length, accepted: true }.play::<F>().err()
        })
    });
    let text = found.unwrap_or_else(|| panic!("{}: {bug:?} was not found", F::NAME));
    println!("{}: {bug:?} was found:\n{text}", F::NAME);
}

#[test]
fn short_lists_find_every_planted_bug_of_pairs() {
    let mut letters = vec![begin(TOP), crash(), recover(63), torn(recover(63), 5), read(0, 0, 0)];
    letters.push(Fields { kind: 11, ..Fields::default() });
    for way in 0..4 {
        letters.extend([0, 1, 3].map(|count| torn(commit(0, count), way)));
        letters.push(torn(recover(1), way));
    }
    let committed = stores::pairs::even(&stores::committed(&mut Rng::new(7), 0x8001));
    let uneven = stores::pairs::uneven(&mut Rng::new(8), committed.clone(), 60);
    let all_bad = stores::pairs::all_bad(&mut Rng::new(3), uneven.clone(), 30);
    let prepared = stores::pairs::even(&stores::prepared(&mut Rng::new(1), 0x9000, 7));
    // Page 0 says two things; a status of 2 before a good copy.
    let mut differs = stores::pairs::fresh();
    differs[1..5].copy_from_slice(&[0x15, 0x80, 0, 8]);
    let mut status = stores::pairs::fresh();
    status[18 * 66] = 2;
    status[18 * 66 + 1] = 9;
    let written = vec![recover(63), begin(TOP), lock(0, 0), write(0, 0, 0, 0x33)];
    let families: Vec<(Vec<u8>, Vec<Fields>)> = vec![
        (stores::pairs::fresh(), written),
        (uneven, Vec::new()),
        (all_bad, Vec::new()),
        (prepared, Vec::new()),
        (differs, Vec::new()),
        (status, Vec::new()),
    ];
    for bug in Bug::OF_PAIRS {
        shortest::<Pairs>(bug, &families, &letters);
    }
}

#[test]
fn short_lists_find_every_planted_bug_of_edition_2() {
    let mut letters = vec![begin(TOP), crash(), recover(255), recover(1), lock(0, 63), write(0, 63, 0, 0x11)];
    letters.extend([read(0, 63, 0), commit(0, 2), commit(0, 64), commit(0, 255)]);
    letters.push(Fields { kind: 11, ..Fields::default() });
    let begun = vec![recover(255), begin(TOP), lock(0, 0), write(0, 0, 0, 0x33)];
    let mut other = stores::edition2::used(&mut Rng::new(4));
    other[0] = 0x10;
    let committed = stores::edition2::committed(&mut Rng::new(6), 1);
    let mut prepared = committed.clone();
    prepared[0] = 0x23;
    let families =
        vec![(stores::edition2::fresh(), begun), (committed, Vec::new()), (other, Vec::new()), (prepared, Vec::new())];
    for bug in Bug::OF_EDITION_2 {
        match bug {
            // Stray bits stand in no letter, and half a word is no letter: by words of their own.
            Bug::BitsBehindIgnored => {
                let word = [0x80, 0, 0x0F, 0xF0, 0, 0, 0, 1];
                assert_eq!(answer(None, &word), (0, [1, 0]));
                assert_eq!(answer(Some(bug), &word), (0, [0, 0]));
                println!("edition 2: {bug:?} was found");
            }
            Bug::ListOfHalfWords => {
                assert_eq!(answer(None, &[0x80, 0, 0x0F, 0xF0]).0, 20);
                assert_eq!(answer(Some(bug), &[0x80, 0, 0x0F, 0xF0]).0, 0);
                println!("edition 2: {bug:?} was found");
            }
            _ => shortest::<Edition2>(bug, &families, &letters),
        }
    }
}

/// What a run on a fresh store answers, and its first answer.
fn answer(bug: Option<Bug>, events: &[u8]) -> (u8, [u8; 2]) {
    type Player = <Edition2 as Form>::Player;
    let (mut store, mut work, mut answers) = (stores::edition2::fresh(), [0; 32_768], [0xEE; 2]);
    let number = match bug {
        Some(bug) => Player::run_with_bug(bug, &mut store, events, &mut work, &mut answers),
        None => Player::run(&mut store, events, &mut work, &mut answers),
    };
    (number, answers)
}

#[test]
fn ages_find_planted_bugs() {
    ages::<Edition2>(&[
        Bug::HomeOnePageEarly,
        Bug::CountOneBitLate,
        Bug::MapOfHalf,
        Bug::EditionUnasked,
        Bug::PreparedPageTaken,
    ]);
    ages::<Pairs>(&[Bug::SecondCopyRead, Bug::StatusTwoGood, Bug::OtherPagesUnasked, Bug::PreparedPageTaken]);
}

fn ages<F: Form>(bugs: &[Bug]) {
    for bug in bugs {
        let found = (0..2_000).find(|seed| {
            let mut rng = Rng::new(*seed);
            let store = F::any(&mut rng);
            let record = rng.below(F::LISTS.records + 1) as u8;
            F::Player::age(&store, record, 7, 9) != F::Player::age_with_bug(*bug, &store, record, 7, 9)
        });
        let seed = found.unwrap_or_else(|| panic!("{}: {bug:?} was not found", F::NAME));
        println!("{}: {bug:?} was found by an age, store {seed}", F::NAME);
    }
}
