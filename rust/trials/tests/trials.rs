//! The sixteen trials at the edges, each on the engine, against the player and demand 3.

use nekahuiro::limits::{DEPTH_LIMIT, RECORDS, TRANSACTIONS};
use nekahuiro::{Clock, Limit, Record, Store};
use nekahuiro_history::settled;
use nekahuiro_lists::stores::{self, Bytes};
use nekahuiro_lists::{worked, Rng};
use nekahuiro_trials::listed::{ends_with, play};

fn fresh() -> Bytes {
    stores::fresh()
}

/// `begin none` and then a chain under it, `depth` transactions in all.
fn chain(depth: usize) -> String {
    let under = |parent: usize| format!("begin {parent}, ");
    format!("begin none, {}", (0..depth - 1).map(under).collect::<String>())
}

#[test]
fn trial_1_the_worked_list() {
    let list: String = worked::WORKED.iter().map(|(word, _)| format!("{word:08X}, ")).collect();
    let due: Vec<String> = worked::WORKED.iter().map(|(_, answer)| format!("{answer:04X}")).collect();
    let (answers, end) = play(fresh(), &list);
    assert_eq!(answers, due.join(" "));
    assert_eq!(end[..32], fresh()[..32]);
    let mut record = [0; 32];
    record[2] = 0xA5;
    assert_eq!(settled(&end)[3], record);
    let eleven: String = worked::WORKED[..11].iter().map(|(word, _)| format!("{word:08X}, ")).collect();
    assert_eq!(play(fresh(), &eleven).1[..4], [0x15, 0x10, 0x00, 0x08]);
}

#[test]
fn trial_2_begin_first() {
    ends_with("begin none", "0200");
}

#[test]
fn trial_3_the_depth_limit() {
    let deepest = DEPTH_LIMIT - 1;
    ends_with(&format!("recover 63, {}", chain(DEPTH_LIMIT)), &format!("00{deepest:02X}"));
    ends_with(&format!("recover 63, {} begin {deepest}", chain(DEPTH_LIMIT)), &format!("00{deepest:02X} 0600"));
}

#[test]
fn trial_4_every_number_taken() {
    let all = "begin none, ".repeat(TRANSACTIONS);
    ends_with(&format!("recover 63, {all} begin none"), "0017 0700");
    ends_with(&format!("recover 63, {all} begin none, abort 5, begin none, begin none"), "0017 0700 0000 0005 0700");
}

#[test]
fn trial_5_two_top_transactions_one_record() {
    ends_with("recover 63, begin none, begin none, lock 0 3, lock 1 3", "0000 0800");
}

#[test]
fn trial_6_held_and_retained_by_the_parent() {
    ends_with("recover 63, begin none, lock 0 3, begin 0, lock 1 3", "0001 0800");
    ends_with("recover 63, begin none, begin 0, lock 1 3, commit 1 63, begin 0, lock 1 3", "0001 0000");
}

#[test]
fn trial_7_lost_and_surviving_cuts() {
    let list = |count: u8| format!("recover 63, begin none, lock 0 3, write 0 3 2 A5, commit 0 {count}");
    let (answers, end) = play(fresh(), &list(1));
    assert!(answers.ends_with("0B01") && settled(&end)[3][2] == 0);
    let (answers, end) = play(fresh(), &list(2));
    assert!(answers.ends_with("0B02") && settled(&end)[3][2] == 0xA5);
}

#[test]
fn trial_8_the_last_write() {
    ends_with("recover 63, begin none, lock 0 3, write 0 3 2 A5, commit 0 3", "0B03");
    ends_with("recover 63, begin none, lock 0 3, write 0 3 2 A5, commit 0 4", "0004");
}

#[test]
fn trial_9_all_records() {
    let writes: String = (0..RECORDS).map(|r| format!("lock 0 {r}, write 0 {r} 31 {r:02X}, ")).collect();
    for count in 0..=35 {
        let (answers, end) = play(fresh(), &format!("recover 63, begin none, {writes} commit 0 {count}"));
        let due = if count < 34 { format!("0B{count:02X}") } else { "0022".to_string() };
        assert!(answers.ends_with(&due), "count {count}: {answers}");
        let survives = count >= 17;
        assert!((0..RECORDS).all(|r| settled(&end)[r][31] == if survives { r as u8 } else { 0 }), "count {count}");
    }
}

#[test]
fn trial_10_recover_cut_twice() {
    let store = stores::committed(&mut Rng::new(10), 0x9000);
    let (answers, end) = play(store, "recover 0, recover 0, recover 63");
    assert_eq!(answers, "0B00 0B00 0003");
    assert_eq!(settled(&end), settled(&store));
    assert_eq!(end[..32], fresh()[..32]);
}

#[test]
fn trial_11_committed_with_an_empty_map() {
    let mut store = fresh();
    store[0] = 0x15;
    let (answers, end) = play(store, "recover 63, crash, begin none");
    assert_eq!((answers.as_str(), end), ("0400 0000 0200", store));
}

#[test]
fn trial_12_crash_while_down() {
    ends_with("crash, crash, recover 63, crash", "0000 0000 0000 0000");
}

#[test]
fn trial_13_commit_with_a_live_child() {
    ends_with("recover 63, begin none, begin 0, commit 0 63, abort 0, abort 1, abort 0", "0A00 0000 0500 0500");
}

#[test]
fn trials_14_and_15_ages() {
    let mut bytes = fresh();
    bytes[32 * 20 + 3] = 7;
    let store = Store::of(&bytes).unwrap();
    let record = Record::new(3).unwrap();
    let age = |clock, limit| store.age(record, Clock(clock), Limit(limit)).unwrap().to_string();
    assert_eq!(age(5, 100), "ahead -2");
    assert_eq!(age(7, 0), "live 0");
    assert_eq!(age(8, 0), "stale 1");
}

#[test]
fn trial_16_a_parents_abort_undoes_its_child() {
    let list = "recover 63, begin none, begin 0, lock 1 3, write 1 3 2 A5, commit 1 63, abort 0, \
        begin none, lock 0 3, read 0 3 2, commit 0 63";
    let (answers, end) = play(fresh(), list);
    assert!(answers.ends_with("0000 0000 0000 0000 0000"), "{answers}");
    assert_eq!(end, fresh());
}
