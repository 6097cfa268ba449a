//! While a child is live its parent can't lock, read or write: refusal 14, tried after 5 and before 8 and 9.

use nekahuiro_trials::listed::ends_with;

/// Plays the events after a top transaction, 0, that holds record 3 and has a live child, 1.
fn beside(list: &str, due: &str) {
    ends_with(&format!("recover 63, begin none, lock 0 3, write 0 3 0 A5, begin 0, {list}"), due);
}

#[test]
fn a_parent_keeps_away_from_records() {
    beside("40180000, 30180001, 20180000, 20180001, 20200000", "0001 0E00 0E00 0E00 0E00 0E00");
    // The byte is as it was.
    beside("write 0 3 0 11, abort 1, read 0 3 0", "0E00 0000 00A5");
}

#[test]
fn it_works_on_when_its_children_have_ended() {
    for end in ["commit 1 63", "abort 1", "abort 1 report"] {
        beside(&format!("{end}, read 0 3 0, lock 0 4, write 0 4 0 01"), "0000 00A5 0000 0000");
        // One of two children isn't enough.
        beside(&format!("begin 0, {end}, read 0 3 0, abort 2, read 0 3 0"), "0002 0000 0E00 0000 00A5");
    }
}

#[test]
fn the_child_itself_and_strangers_are_not_concerned() {
    beside("lock 1 4, write 1 4 0 01, read 1 4 0, begin none, lock 2 5, read 2 5 0", "0000 0000 0001 0002 0000 0000");
    // A grandchild bars its parent, and by way of the live child also its parent's parent.
    beside("begin 1, lock 2 4, lock 1 4, lock 0 4, commit 2 63, lock 1 4, lock 0 4", "0000 0E00 0E00 0000 0000 0E00");
}

#[test]
fn a_live_child_is_tried_before_the_lock() {
    // 8 would be due: the child, a stranger or a stranger's retention is in the way.
    beside("lock 1 4, lock 0 4, read-lock 0 4", "0E00 0E00");
    beside("begin none, lock 2 4, lock 0 4", "0000 0E00");
    beside("begin none, begin 2, lock 3 4, commit 3 63, lock 0 4", "0000 0E00");
    // 9 would be due: it holds no lock of record 4.
    beside("read 0 4 0, write 0 4 0 01", "0E00 0E00");
}

#[test]
fn other_refusals_come_first() {
    beside("40180001, 20180002, 30180100", "0100 0100 0100");
    beside("crash, read 0 3 0, recover 63, read 0 3 0", "0000 0200 0000 0500");
}

#[test]
fn begin_commit_and_abort_are_as_before() {
    beside("begin 0, commit 0 63, abort 0, abort 1", "0002 0A00 0000 0500");
    beside("60000001, abort 1", "0000 0500");
}
