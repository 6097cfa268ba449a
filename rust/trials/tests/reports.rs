//! Aborts with a report: the parent retains the locks, and nothing else of the failed transaction is left.

use nekahuiro_history::settled;
use nekahuiro_lists::stores;
use nekahuiro_trials::listed::{ends_with, play};

/// Plays the events after a top transaction, 0, with a child, 1.
fn under(list: &str, due: &str) {
    ends_with(&format!("recover 63, begin none, begin 0, {list}"), due);
}

#[test]
fn the_parent_retains_in_the_same_mode() {
    under("20980001, 60800001, begin none, lock 1 3, read-lock 1 3", "0000 0001 0800 0000");
    under("20980000, 60800001, begin none, lock 1 3, read-lock 1 3", "0000 0001 0800 0800");
    // Without a report all is discarded.
    under("20980000, 60800000, begin none, lock 1 3", "0000 0001 0000");
}

#[test]
fn the_parent_retains_and_does_not_hold() {
    under("lock 1 3, abort 1 report, read 0 3 0, write 0 3 0 01, read-lock 0 3, read 0 3 0", "0900 0900 0000 0000");
    // So its children get the lock.
    under("lock 1 3, abort 1 report, begin 0, lock 1 3", "0000 0001 0000");
}

#[test]
fn the_parents_own_mode_stays_if_it_is_stronger() {
    let wrote = "lock 1 3, commit 1 63, begin 0, read-lock 1 3, abort 1 report";
    under(&format!("{wrote}, begin none, read-lock 1 3"), "0800");
    let read = "read-lock 1 3, commit 1 63, begin 0, lock 1 3, abort 1 report";
    under(&format!("{read}, begin none, read-lock 1 3"), "0800");
    // What the failed transaction retained counts as what it held: the stronger of the two.
    let both = "begin 1, lock 2 3, commit 2 63, read-lock 1 3, abort 1 report";
    under(&format!("{both}, begin none, read-lock 1 3"), "0800");
}

#[test]
fn locks_of_live_descendants_are_discarded() {
    under("begin 1, lock 2 3, read-lock 2 4, abort 1 report, begin none, lock 1 3, lock 1 4", "0001 0000 0000");
    // Also where the descendant's mode is the stronger one.
    under(
        "read-lock 1 3, commit 1 63, begin 0, begin 1, lock 2 3, abort 1 report, begin none, read-lock 1 3",
        "0001 0000",
    );
    let both = "begin 1, read-lock 2 3, commit 2 63, begin 1, lock 2 3, abort 1 report";
    under(&format!("{both}, begin none, read-lock 1 3, lock 1 3"), "0001 0000 0800");
    // The descendant's own report goes to its own parent.
    under("begin 1, lock 2 3, abort 2 report, abort 1, begin none, lock 1 3", "0000 0001 0000");
    under("begin 1, lock 2 3, abort 2 report, abort 1 report, begin none, lock 1 3", "0000 0001 0800");
}

#[test]
fn versions_go_as_before() {
    let list = "begin 1, lock 2 3, write 2 3 0 A5, commit 2 63, abort 1 report";
    under(&format!("{list}, read 0 3 0, lock 0 3, read 0 3 0, commit 0 0"), "0900 0000 0000 0000");
    // The parent's own version is what it was.
    let list = "recover 63, begin none, begin 0, lock 1 3, write 1 3 0 11, commit 1 63, \
        begin 0, lock 1 3, write 1 3 0 22, abort 1 report, lock 0 3, read 0 3 0, commit 0 63";
    let (answers, end) = play(stores::fresh(), list);
    assert!(answers.ends_with("0011 0004"), "{answers}");
    assert_eq!(settled(&end)[3][0], 0x11);
}

#[test]
fn a_top_transaction_has_no_parent_and_discards() {
    ends_with("recover 63, begin none, lock 0 3, 60000001, begin none, lock 0 3", "0000 0000 0000");
}

#[test]
fn there_is_a_report_or_none() {
    under("60800002, 608000FF, 60800001, 60800001", "0100 0100 0000 0500");
    // A bad event comes before all else, also while down.
    ends_with("60000002, 60000001, 60000000", "0100 0200 0200");
    ends_with("recover 63, 6F800002, 6F800001", "0100 0500");
}
