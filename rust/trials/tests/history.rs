//! The checker of demand 3 itself: what it tells of lists written down by hand, and that it finds a
//! wrong program with nothing to compare it with.

use nekahuiro_history::{first_half, settled, tell, Breach, Decision, End, History, Run};
use nekahuiro_lists::{stores, worked, Rng};
use nekahuiro_player::planted::Bug;
use nekahuiro_trials::{listed, random, settings, Case, Program};

fn history(list: &str) -> History {
    let case = Case { store: stores::fresh(), events: listed::words(list) };
    tell(&case.events, &Program::Player.play(&case, 0).answers).expect("the player's answers tell a history")
}

fn survivors(list: &str) -> Vec<bool> {
    history(list).transactions.iter().map(|told| told.survives).collect()
}

#[test]
fn the_worked_list() {
    let told = tell(&worked::events(), &worked::answers()).expect("a history");
    let fates: Vec<(u8, bool)> = told.transactions.iter().map(|t| (t.number, t.survives)).collect();
    assert_eq!(fates, [(0, true), (1, true), (1, false), (0, false)]);
    assert_eq!(told.transactions[2].end, End::Aborted(9));
    assert_eq!(told.owner[10], Some(0));
    assert_eq!((told.owner[11], told.owner[12]), (None, None));
    assert_eq!(told.surviving_writes().map(|write| write.value).collect::<Vec<_>>(), [0xA5]);
}

#[test]
fn a_cut_commit_survives_from_n_plus_1_writes() {
    let list = |count| {
        format!(
            "recover 63, begin none, begin 0, lock 1 3, write 1 3 0 01, lock 1 4, write 1 4 0 01, \
        write 1 4 1 02, commit 1 63, begin 0, lock 1 5, write 1 5 0 09, abort 1, commit 0 {count}"
        )
    };
    assert_eq!(survivors(&list(2)), [false, false, false]);
    assert_eq!(survivors(&list(3)), [true, true, false]);
    assert_eq!(survivors(&list(63)), [true, true, false]);
}

#[test]
fn a_child_shares_its_parents_fate() {
    assert_eq!(survivors("recover 63, begin none, begin 0, commit 1 63, abort 0"), [false, false]);
    assert_eq!(survivors("recover 63, begin none, begin 0, commit 1 63, crash"), [false, false]);
    assert_eq!(survivors("recover 63, begin none, begin 0, commit 1 63"), [false, false]);
    assert_eq!(survivors("recover 63, begin none, begin 0, commit 1 63, commit 0 0"), [true, true]);
}

#[test]
fn a_prepared_transaction_is_lost_until_its_commit_decision_is_stored() {
    // A child that committed, and its parent that prepares.
    let list = "recover 63, begin none, begin 0, lock 1 3, write 1 3 0 01, commit 1 63, prepare 0";
    let fates = |rest: &str| {
        let told = history(&format!("{list} {rest}"));
        assert!(told.transactions[2..].is_empty());
        assert_eq!(told.transactions[0].survives, told.transactions[1].survives);
        (told.transactions[0].survives, told.is_waiting(1))
    };
    for (rest, due) in [
        ("63 7", (false, true)),
        ("1 7, recover 63", (false, false)),
        ("63 7, crash, recover 63, query 7", (false, true)),
        ("63 7, decide commit 63 7", (true, false)),
        ("63 7, decide commit 0 7", (false, true)),
        ("63 7, decide commit 1 7", (true, false)),
        ("63 7, decide commit 2 7, recover 0", (true, false)),
        ("63 7, decide commit 63 8, decide abort 63 8", (false, true)),
        ("63 7, decide abort 63 7", (false, false)),
        ("63 7, decide abort 0 7", (false, true)),
        ("63 7, decide abort 63 7, decide commit 63 7", (false, false)),
        ("63 7, crash, recover 63, decide commit 63 7, decide abort 63 7", (true, false)),
    ] {
        assert_eq!(fates(rest), due, "{rest}");
    }
    // One that changed nothing survives by its prepare.
    assert_eq!(survivors("recover 63, begin none, lock 0 3, prepare 0 0 7, crash"), [true]);
    assert_eq!(
        survivors("recover 63, begin none, begin 0, commit 1 63, prepare 0 0 7, decide abort 0 7"),
        [true, true]
    );
}

#[test]
fn one_prepared_at_the_start_counts_as_having_written_its_pages_first() {
    let store = stores::prepared(&mut Rng::new(5), 0x9000, 7);
    let told = |list: &str| {
        let case = Case { store, events: listed::words(list) };
        let played = Program::Player.play(&case, 0);
        let answers = &played.answers[..2 * case.length()];
        let run = Run { before: &store, events: &case.events, answers, after: &played.store };
        (first_half(run).expect("demand 3").decided_before, played.store)
    };
    let write = "begin none, lock 0 0, write 0 0 5 99, commit 0 63";
    let (decided, end) = told(&format!("recover 63, decide commit 63 7, {write}"));
    assert_eq!(decided, Some(Decision { at: 1, identity: 7, commit: true }));
    assert_eq!((settled(&end)[0][5], &settled(&end)[0][6..]), (0x99, &store[32 + 6..64]));
    let (decided, end) = told(&format!("recover 63, decide abort 63 7, {write}"));
    assert_eq!(decided, Some(Decision { at: 1, identity: 7, commit: false }));
    assert_eq!((settled(&end)[0][5], &settled(&end)[0][6..]), (0x99, &store[32 * 17 + 6..32 * 18]));
    assert_eq!(told("recover 63, decide commit 63 8, decide abort 0 7").0, None);
    assert_eq!(told("recover 63, decide commit 0 7, recover 63, decide commit 1 7").0.map(|d| d.at), Some(3));
    // The checker wants a reason: the same answers over a store with nothing prepared, or another identity.
    for before in [stores::fresh(), stores::prepared(&mut Rng::new(5), 0x9000, 6)] {
        let events = listed::words("recover 63, decide commit 63 7");
        let run = Run { before: &before, events: &events, answers: &[0, 0, 0, 4], after: &before };
        assert!(matches!(first_half(run), Err(Breach::Absurd(absurd)) if absurd.at == 1));
    }
}

#[test]
fn decide_and_query_belong_to_nobody() {
    let told = history("recover 63, begin none, query 0, decide abort 63 0, prepare 0 63 0");
    assert_eq!(told.owner, [None, Some(0), None, None, Some(0)]);
}

#[test]
fn crash_and_recover_belong_to_nobody() {
    let told = history("recover 63, begin none, recover 63, 70000001, crash");
    assert_eq!(told.owner, [None, Some(0), None, None, None]);
    assert_eq!(told.transactions[0].end, End::Crashed(4));
}

#[test]
fn answers_that_no_run_gives_are_told() {
    let begin = listed::words("begin none, begin none");
    assert!(tell(&begin, &[0, 0, 0, 0]).is_err_and(|absurd| absurd.at == 1));
    assert!(tell(&begin, &[0, 0, 0, 40]).is_err_and(|absurd| absurd.at == 1));
    assert!(tell(&listed::words("begin 3"), &[0, 0]).is_err());
    assert!(tell(&listed::words("read 3 0 0"), &[0, 0]).is_err());
    assert!(tell(&listed::words("read 3 0 0"), &[5, 0]).is_ok());
    // A second one prepared, a decision for another that writes pages, a query that says yes to another.
    let prepared = "begin none, write 0 3 0 01, begin none, write 1 3 0 01, prepare 0 63 7";
    for (rest, answer) in
        [("prepare 1 63 8", [0, 2]), ("decide commit 63 8", [0, 3]), ("query 8", [0, 1]), ("query 7", [0, 0])]
    {
        let answers = [0, 0, 0, 0, 0, 1, 0, 0, 0, 2, answer[0], answer[1]];
        assert!(tell(&listed::words(&format!("{prepared}, {rest}")), &answers).is_err_and(|absurd| absurd.at == 5));
    }
}

/// Each program is compared with itself only, so that nothing but demand 3 can find its bug.
#[test]
fn demand_3_alone_finds_wrong_programs() {
    let wrong = [
        Bug::ParentKeepsItsVersion,
        Bug::GrantBlindToRetainers,
        Bug::CutOffByOne,
        Bug::ChildCommitFreesLocks,
        Bug::HomeBeforeCommitPage,
        Bug::EmptiedTooEarly,
        Bug::AbortRestoresHome,
        Bug::WriteUnderReadLock,
        Bug::ReportKeepsVersions,
        Bug::CrashFreesPrepared,
        Bug::CommitBesidePrepared,
        Bug::DecisionForAnother,
        Bug::AbortDecisionWritesHome,
        Bug::CommitDecisionLeavesPage,
        Bug::RecoverEmptiesPrepared,
    ];
    for bug in wrong {
        let program = Program::Planted(bug);
        let (tally, failure) = random::search(program, program, settings::seed(), 200_000);
        let text = failure.unwrap_or_else(|| panic!("{bug:?} was not found in {}", tally.text()));
        println!("{bug:?} was found by demand 3 after {}:\n{text}", tally.text());
    }
}
