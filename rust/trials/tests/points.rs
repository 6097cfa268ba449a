//! Points where the rules could be read in two ways: each test tells the readings apart.

use nekahuiro::limits::{DEPTH_LIMIT, TRANSACTIONS};
use nekahuiro_lists::stores::{self, Bytes};
use nekahuiro_trials::listed::{ends_with, play};

/// A store whose page 0 begins with these bytes.
fn with_head(head: &[u8]) -> Bytes {
    let mut store = stores::fresh();
    store[..head.len()].copy_from_slice(head);
    store
}

fn recovers(store: Bytes, due: &str) {
    assert_eq!(play(store, "recover 63").0, due);
}

#[test]
fn too_deep_comes_before_too_many() {
    let deep: String = (0..DEPTH_LIMIT - 1).map(|t| format!("begin {t}, ")).collect();
    let wide = "begin none, ".repeat(TRANSACTIONS - DEPTH_LIMIT);
    let list = format!("recover 63, begin none, {deep} {wide} begin {}, begin {}", DEPTH_LIMIT - 1, DEPTH_LIMIT - 2);
    ends_with(&list, "0017 0600 0700");
}

#[test]
fn not_live_comes_before_a_live_child() {
    ends_with("recover 63, 1F800000, 10000000, 50003F00, 51003F00", "0A00 0500");
}

#[test]
fn numbers_from_24_are_names_that_are_never_live() {
    ends_with("1C000000", "0200");
    ends_with("recover 63, 1C000000, 1F000000, 1F800000", "0500 0500 0000");
    ends_with("recover 63, 2F800000, 5F803F00, 6F800000", "0500 0500 0500");
}

#[test]
fn unused_fields_must_be_zero() {
    for stray in ["10000001", "10000100", "10004000", "10080000", "20000002", "20000100", "20004000", "30000100"] {
        ends_with(stray, "0100");
    }
    for stray in ["40000001", "40000100", "50000001", "50004000", "50080000", "60000002", "60000100", "60080000"] {
        ends_with(stray, "0100");
    }
    for stray in ["80000001", "80800000", "80080000", "80004000", "70000001", "7F800000", "00000000", "C0000000"] {
        ends_with(&format!("recover 63, begin none, {stray}, abort 0"), "0100 0000");
    }
}

#[test]
fn a_childs_commit_writes_no_page_whatever_its_count() {
    let list = "recover 63, begin none, begin 0, lock 1 3, write 1 3 2 A5, 50800500, 50000000";
    ends_with(list, "0000 0B00");
}

#[test]
fn nothing_written_means_no_page_write_and_no_cut() {
    ends_with("80000000, begin none, 50000000, begin none, lock 0 3, 50000000", "0000 0000 0000 0000 0000 0000");
}

#[test]
fn the_value_is_the_number_of_writes_made() {
    for (count, due) in [(0, "0B00"), (1, "0B01"), (2, "0B02"), (3, "0B03"), (4, "0004"), (63, "0004")] {
        ends_with(&format!("recover 63, begin none, lock 0 3, write 0 3 2 A5, commit 0 {count}"), due);
    }
}

#[test]
fn recover_writes_one_page_for_each_record_and_one_more() {
    let store = with_head(&[0x15, 0x10, 0x00, 0x08]);
    for (list, due) in [("80000000", "0B00"), ("80000100", "0B01"), ("80000200", "0002")] {
        assert_eq!(play(store, list).0, due);
    }
    assert_eq!(play(store, "recover 1, begin none, recover 63, recover 63").0, "0B01 0200 0002 0300");
}

#[test]
fn damaged_pages_are_refused_and_stay() {
    for head in
        [[0x15, 0x90, 0x00, 0x08], [0x10, 0, 0, 0x08], [0x15, 0x90, 0x00, 0x11], [0x20, 0, 0, 0], [0x11, 0, 0, 0]]
    {
        let store = with_head(&head);
        let (answers, end) = play(store, "80003F00, 70000000, 1F800000");
        assert_eq!((answers.as_str(), end), ("0400 0000 0200", store));
    }
    let mut last = stores::fresh();
    last[31] = 1;
    recovers(last, "0400");
    recovers(with_head(&[0x15, 0x90, 0x00, 0x10]), "0003");
}

#[test]
fn a_version_equal_to_the_old_value_counts() {
    ends_with("recover 63, begin none, lock 0 3, write 0 3 0 00, 50003F00", "0004");
}

#[test]
fn a_retainer_may_lock_again_and_must() {
    let list = "recover 63, begin none, begin 0, lock 1 3, commit 1 63";
    ends_with(&format!("{list}, read 0 3 0, lock 0 3, read 0 3 0, lock 0 3"), "0900 0000 0000 0000");
}

#[test]
fn any_cut_ends_every_transaction() {
    let list = "recover 63, begin none, begin none, lock 1 3, write 1 3 0 01, lock 0 4, commit 1 3, recover 63, \
        lock 0 4, begin none";
    ends_with(list, "0B03 0002 0500 0000");
}
