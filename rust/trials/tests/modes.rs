//! Locks to read and to write: who gets which beside whom, and what a parent takes over.

use nekahuiro_trials::listed::ends_with;

/// Two top transactions, 0 and 1.
const TWO: &str = "recover 63, begin none, begin none";
/// A top transaction, 0, that retains record 3 in write mode.
const WROTE: &str = "recover 63, begin none, begin 0, lock 1 3, commit 1 63";
/// A top transaction, 0, that retains record 3 in read mode.
const READ: &str = "recover 63, begin none, begin 0, read-lock 1 3, commit 1 63";

/// Plays the events after these; only the last answers are named.
fn after(start: &str, list: &str, due: &str) {
    ends_with(&format!("{start}, {list}"), due);
}

#[test]
fn two_readers() {
    after(TWO, "read-lock 0 3, read-lock 1 3, read 0 3 0, read 1 3 0", "0000 0000 0000 0000");
    after(TWO, "read-lock 0 3, read-lock 1 3, write 0 3 0 01, write 1 3 0 01", "0900 0900");
}

#[test]
fn a_writer_keeps_readers_out_and_a_reader_writers() {
    after(TWO, "lock 0 3, read-lock 1 3, lock 1 3", "0000 0800 0800");
    after(TWO, "read-lock 0 3, lock 1 3, read-lock 1 3", "0000 0800 0000");
    after("recover 63, begin none", "lock 0 3, begin 0, read-lock 1 3, read 1 3 0", "0800 0900");
    after("recover 63, begin none", "read-lock 0 3, begin 0, lock 1 3, read-lock 1 3, lock 1 3", "0800 0000 0800");
}

#[test]
fn there_are_two_modes() {
    after(TWO, "20180000, 20180001, 20180002, 201800FF", "0000 0000 0100 0100");
    // A bad event comes before all else, also while down.
    ends_with("20000002, 20000001, 20000000", "0100 0200 0200");
    after(TWO, "2F800002, 2F800001", "0100 0500");
}

#[test]
fn held_and_retained_modes_are_independent() {
    let list = "80003F00, 1F800000, 10000000, 20980000, 50803F00";
    after(list, "20180001, 30180001, 20180000, 30180001", "0000 0900 0000 0000");
    // It reads the version that it retains, under a lock that is only to read.
    let wrote = "recover 63, begin none, begin 0, lock 1 3, write 1 3 0 A5, commit 1 63";
    after(wrote, "read 0 3 0, read-lock 0 3, read 0 3 0, write 0 3 0 11, commit 0 63", "0900 0000 00A5 0900 0004");
}

#[test]
fn asking_for_less_or_the_same_changes_nothing() {
    after(TWO, "lock 0 3, read-lock 0 3, write 0 3 0 01, read-lock 1 3", "0000 0000 0000 0800");
    after(TWO, "lock 0 3, lock 0 3, write 0 3 0 01", "0000 0000 0000");
    after(TWO, "read-lock 0 3, read-lock 1 3, read-lock 0 3, write 0 3 0 01, read 0 3 0", "0000 0900 0000");
}

#[test]
fn a_read_lock_is_raised_under_the_rule_for_writing() {
    after(TWO, "read-lock 0 3, lock 0 3, write 0 3 0 01, read-lock 1 3", "0000 0000 0000 0800");
    after(TWO, "read-lock 0 3, read-lock 1 3, lock 0 3, read 0 3 0, write 0 3 0 01", "0800 0000 0900");
}

#[test]
fn two_readers_that_both_raise_wait_for_each_other() {
    after(TWO, "20180001, 20980001, 20180000, 20980000, 60800000, 20180000", "0800 0800 0000 0000");
}

#[test]
fn a_parent_inherits_the_stronger_mode() {
    // A child that writes and then one that reads, or the other way round: write mode.
    for (first, second) in [("lock", "read-lock"), ("read-lock", "lock")] {
        let children = format!("begin 0, {first} 1 3, commit 1 63, begin 0, {second} 1 3, commit 1 63");
        after(&format!("recover 63, begin none, {children}"), "begin none, read-lock 1 3, lock 1 3", "0800 0800");
    }
    // A child that retains in write mode and holds to read.
    let child = "begin 0, begin 1, lock 2 3, commit 2 63, read-lock 1 3, commit 1 63";
    after(&format!("recover 63, begin none, {child}"), "begin none, read-lock 1 3", "0800");
    // What a parent holds itself isn't looked at: it holds to read and retains to read.
    let child = "read-lock 0 3, begin 0, read-lock 1 3, commit 1 63";
    after(&format!("recover 63, begin none, {child}"), "begin none, read-lock 1 3, lock 1 3", "0000 0800");
}

#[test]
fn retained_to_read_keeps_strangers_from_writing_only() {
    after(READ, "begin none, read-lock 1 3, begin 0, lock 2 3, abort 1, lock 2 3", "0000 0002 0800 0000 0000");
    after(READ, "begin none, lock 1 3", "0800");
    after(READ, "begin 0, lock 1 3, write 1 3 0 01", "0000 0000");
}

#[test]
fn retained_to_write_keeps_strangers_out() {
    after(WROTE, "begin none, read-lock 1 3, lock 1 3", "0800 0800");
    after(WROTE, "begin 0, read-lock 1 3, begin 0, read-lock 2 3, lock 2 3", "0000 0002 0000 0800");
}

#[test]
fn a_retained_write_lock_and_a_held_read_lock() {
    // Children of the retainer read together; strangers don't.
    let list = "begin 0, begin 0, read-lock 1 3, read-lock 2 3, begin none, read-lock 3 3, read 1 3 0, read 2 3 0";
    after(WROTE, list, "0000 0000 0003 0800 0000 0000");
}

#[test]
fn retainers_to_read_need_not_be_on_one_line() {
    // Both top transactions retain record 3 in read mode: nobody writes until one of them ends.
    let both = format!("{READ}, begin none, begin 1, read-lock 2 3, commit 2 63");
    after(&both, "lock 0 3, lock 1 3, read-lock 0 3, read-lock 1 3", "0800 0800 0000 0000");
    after(&both, "begin 0, lock 2 3, commit 1 63, lock 2 3", "0002 0800 0000 0000");
    // Two children of one parent, beside each other.
    let both = "recover 63, begin none, begin 0, begin 0, begin 1, begin 2, read-lock 3 3, read-lock 4 3, \
        commit 3 63, commit 4 63";
    after(both, "lock 1 3, lock 2 3, read-lock 1 3, read-lock 2 3", "0800 0800 0000 0000");
    after(both, "lock 2 3, commit 1 63, lock 2 3", "0800 0000 0000");
}

#[test]
fn locks_to_read_end_with_their_transaction() {
    for end in ["commit 0 63", "abort 0"] {
        after(TWO, &format!("read-lock 0 3, {end}, lock 1 3"), "0000 0000");
    }
    after(TWO, "read-lock 0 3, crash, recover 63, begin none, begin none, lock 1 3", "0000");
    after(READ, "abort 0, begin none, lock 0 3", "0000");
}
