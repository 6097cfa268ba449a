//! As if one transaction came at a time: the serial list of random and of all short lists, played on the
//! library, and that this finds wrong programs by itself.

use nekahuiro_history::{serial, tell, Serial, Unlike};
use nekahuiro_lists::{stores, worked, Rng};
use nekahuiro_player::planted::Bug;
use nekahuiro_trials::exhaustive::{
    Choice, Family, BESIDE, BESIDE_PREFIX, CONTENDED, CRASHING, PREPARING, REPORTED, SHARED, SHARED_PREFIX,
};
use nekahuiro_trials::serial::{check, check_cut, holds, is_serial, told, Tally};
use nekahuiro_trials::{listed, portions, random, settings, Case, Fault, Program};

/// The serial list of a list over a store, event by event: where it stood, and how it is played.
fn replayed(store: stores::Bytes, list: &str) -> Vec<(usize, String)> {
    let case = Case { store, events: listed::words(list) };
    let (_, serial) = check(Program::Engine, &case).unwrap_or_else(|fault| panic!("{list}: {fault:?}"));
    in_words(&serial)
}

fn in_words(serial: &Serial) -> Vec<(usize, String)> {
    serial.events().map(|placed| (placed.at, nekahuiro::describe(placed.word))).collect()
}

fn due(events: &[(usize, &str)]) -> Vec<(usize, String)> {
    events.iter().map(|(at, text)| (*at, text.to_string())).collect()
}

#[test]
fn the_worked_list() {
    let told = tell(&worked::events(), &worked::answers()).expect("a history");
    let serial = serial(&told, &worked::events(), &worked::answers());
    let events = [
        (1, "begin none"),
        (2, "begin 0"),
        (3, "lock 1 3"),
        (4, "write 1 3 2 A5"),
        (5, "commit 1 63"),
        (10, "commit 0 63"),
    ];
    assert_eq!(in_words(&serial), due(&events));
    assert_eq!(serial.turns.iter().map(|turn| turn.stored).collect::<Vec<_>>(), [10]);
}

#[test]
fn by_the_order_of_commit_records_and_not_of_begins() {
    // Transaction 1 commits first, 0 reads record 3 beside it; a child of 0 is lost.
    let list = "recover 63, begin none, begin none, read-lock 0 3, read-lock 1 3, lock 1 4, read 0 3 0, \
        write 1 4 0 11, begin 0, lock 2 5, commit 1 3, recover 63";
    assert_eq!(
        replayed(stores::fresh(), list),
        due(&[(2, "begin none"), (4, "read-lock 0 3"), (5, "lock 0 4"), (7, "write 0 4 0 11"), (10, "commit 0 63"),])
    );
    let list = "recover 63, begin none, begin none, read-lock 0 3, read-lock 1 3, begin 0, lock 2 5, abort 2 report, \
        commit 1 0, read 0 3 0, commit 0 0";
    assert_eq!(
        replayed(stores::fresh(), list),
        due(&[
            (2, "begin none"),
            (4, "read-lock 0 3"),
            (8, "commit 0 63"),
            (1, "begin none"),
            (3, "read-lock 0 3"),
            (9, "read 0 3 0"),
            (10, "commit 0 63"),
        ])
    );
}

#[test]
fn a_prepared_one_stands_at_its_decision() {
    let list =
        "recover 63, begin none, lock 0 3, write 0 3 0 11, prepare 0 5 7, begin none, read-lock 0 4, commit 0 0, \
        decide commit 1 7, recover 63, decide abort 63 7, query 7";
    assert_eq!(
        replayed(stores::fresh(), list),
        due(&[
            (5, "begin none"),
            (6, "read-lock 0 4"),
            (7, "commit 0 63"),
            (1, "begin none"),
            (2, "lock 0 3"),
            (3, "write 0 3 0 11"),
            (4, "prepare 0 63 7"),
            (8, "decide commit 63 7"),
        ])
    );
    // One that changed nothing stands at its prepare; one whose decision is to abort, or isn't stored, is lost.
    let nothing = "recover 63, begin none, prepare 0 0 7, decide commit 63 7";
    assert_eq!(replayed(stores::fresh(), nothing), due(&[(1, "begin none"), (2, "prepare 0 63 7")]));
    for lost in ["decide abort 63 7", "decide commit 0 7", "decide commit 63 8", "crash"] {
        let list = format!("recover 63, begin none, lock 0 3, write 0 3 0 11, prepare 0 63 7, {lost}");
        assert_eq!(replayed(stores::fresh(), &list), [], "{lost}");
    }
}

#[test]
fn the_decision_on_one_prepared_at_the_start_is_played() {
    let store = stores::prepared(&mut Rng::new(5), 0x9000, 7);
    let before = "recover 63, begin none, begin none, read-lock 1 4, commit 1 0";
    for (decision, again) in [
        ("decide commit 63 7", "decide commit 63 7"),
        ("decide commit 1 7, recover 63, begin none", "decide commit 63 7"),
        ("decide abort 63 7", "decide abort 63 7"),
    ] {
        let events = due(&[(2, "begin none"), (3, "read-lock 0 4"), (4, "commit 0 63"), (5, again)]);
        assert_eq!(replayed(store, &format!("{before}, {decision}")), events);
    }
    assert_eq!(replayed(store, "recover 63, decide commit 0 7, recover 63, decide abort 63 6"), []);
}

#[test]
fn nothing_is_played_over_a_damaged_page() {
    for way in 0..stores::DAMAGES {
        let store = stores::damaged(&mut Rng::new(way as u64), way);
        assert_eq!(replayed(store, "recover 63, begin none, lock 0 0, crash"), []);
    }
    assert_eq!(replayed(stores::fresh(), ""), []);
}

#[test]
fn random_lists() {
    let (tally, lists) = (Tally::default(), settings::lists() / 4);
    let failure = portions::share(lists, |number| {
        let case = random::case(settings::seed() ^ 0x14, number);
        check(Program::Engine, &case)
            .map(|(_, serial)| tally.add(&serial))
            .map_err(|_| told(Program::Engine, case, |_| true))
    });
    println!("random lists, one transaction at a time: {}", tally.text());
    assert_eq!(failure, None, "seed {}", settings::seed());
}

#[test]
fn random_lists_in_portions() {
    let lists = settings::lists() / 50;
    let failure = portions::share(lists, |number| {
        let mut rng = portions::rng(0x14, number);
        let case = random::case(settings::seed() ^ 0x1414, number);
        let longest = [1, 3, 30][number as usize % 3];
        check_cut(&case, longest, &mut rng)
    });
    println!("random lists, one transaction at a time, in portions: {lists} lists");
    assert_eq!(failure, None, "seed {}", settings::seed());
}

#[test]
fn every_short_list() {
    let committed = stores::committed(&mut Rng::new(7), 0x8001);
    let prepared = |map| stores::prepared(&mut Rng::new(9), map, if map == 0x8000 { 255 } else { 7 });
    for (name, store, alphabet, prefix, length) in [
        ("contended", stores::fresh(), CONTENDED, "recover 63, begin none, begin none", 6),
        ("crashing", committed, CRASHING, "recover 63, begin none", 5),
        ("shared", stores::fresh(), SHARED, SHARED_PREFIX, 6),
        ("reported", committed, REPORTED, "recover 63, begin none", 6),
        ("preparing", stores::fresh(), PREPARING, "recover 63, begin none, lock 0 0", 5),
        ("preparing, prepared", prepared(0x8001), PREPARING, "recover 0", 5),
        ("beside, prepared", prepared(0x8000), BESIDE, BESIDE_PREFIX, 6),
    ] {
        let (choice, length) = (Choice::AcceptedButLast, settings::length(length));
        let family = Family { program: Program::Engine, store, alphabet, prefix, length, choice, check: holds };
        match family.play() {
            Ok(lists) => println!("one transaction at a time, {name}: {lists} lists of up to {length} events"),
            Err(text) => panic!("{name}: {text}"),
        }
    }
}

/// What a child read stays as it is until its top transaction ends: else a stranger that commits meanwhile
/// comes first, and the child would read what that one wrote.
#[test]
fn who_retains_to_read_keeps_writers_out() {
    let list = "recover 63, begin none, begin 0, read-lock 1 3, read 1 3 0, commit 1 63, begin none, lock 1 3, \
        write 1 3 0 09, commit 1 63, begin 0, read-lock 1 3, read 1 3 0, commit 1 63, commit 0 63";
    let case = Case { store: stores::fresh(), events: listed::words(list) };
    let fault = check(Program::Planted(Bug::WriteBlindToReadRetainers), &case).err();
    assert_eq!(fault, Some(Fault::Serial(Unlike::Value { at: 4, due: 0, found: 9 })));
    assert!(check(Program::Engine, &case).is_ok());
}

/// Each program is compared with itself only.
#[test]
fn one_transaction_at_a_time_alone_finds_wrong_programs() {
    for bug in [
        Bug::GrantBlindToRetainers,
        Bug::CutOffByOne,
        Bug::ChildCommitFreesLocks,
        Bug::HomeBeforeCommitPage,
        Bug::EmptiedTooEarly,
        Bug::AbortRestoresHome,
        Bug::RetainerNeedsNoLock,
        Bug::ReadOverWriteHolder,
        Bug::WriteUnderReadLock,
        Bug::ReportKeepsVersions,
        Bug::ReportLetsParentHold,
        Bug::CrashFreesPrepared,
        Bug::CommitBesidePrepared,
        Bug::AbortDecisionWritesHome,
        Bug::CommitDecisionLeavesPage,
    ] {
        let program = Program::Planted(bug);
        let found = (0..200_000).find_map(|number| {
            let case = random::case(settings::seed(), number);
            check(program, &case).is_err_and(|fault| is_serial(&fault)).then(|| told(program, case, is_serial))
        });
        let text = found.unwrap_or_else(|| panic!("{bug:?} was not found in 200,000 lists"));
        println!("{bug:?} was found by one transaction at a time:\n{text}");
    }
}
