//! Prepare, decide and query: the page, the page writes with every cut, the refusals in their order, and
//! what stays locked.

use nekahuiro::{Clock, CommitPage, Identity, Limit, Record, Store};
use nekahuiro_history::settled;
use nekahuiro_lists::stores::{self, Bytes};
use nekahuiro_lists::Rng;
use nekahuiro_trials::listed::{ends_with, play};

/// Top transaction 0 has written A5 at offset 2 of record 3.
const CHANGED: &str = "recover 63, begin none, lock 0 3, write 0 3 2 A5";

fn after(list: &str, due: &str) -> Bytes {
    let (answers, end) = play(stores::fresh(), &format!("{CHANGED}, {list}"));
    assert!(answers.ends_with(due), "{list}\n  answers {answers}\n  should end with {due}");
    end
}

/// A store whose page 0 begins with these bytes.
fn with_head(head: &[u8]) -> Bytes {
    let mut store = stores::used(&mut Rng::new(1));
    store[..head.len()].copy_from_slice(head);
    store
}

#[test]
fn a_prepared_page() {
    let end = after("prepare 0 63 42", "0002");
    assert_eq!(end[..6], [0x13, 0x10, 0x00, 0x08, 0x2A, 0]);
    assert!(end[5..32].iter().all(|byte| *byte == 0));
    assert_eq!((end[32 * 4 + 2], end[32 * 20 + 2]), (0xA5, 0));
    // Two records, and the least and the greatest identity.
    for identity in [0, 0x2A, 255] {
        let list = format!(
            "recover 63, begin none, lock 0 3, write 0 3 0 11, lock 0 0, write 0 0 0 22, prepare 0 63 {identity}"
        );
        let (answers, end) = play(stores::fresh(), &list);
        assert!(answers.ends_with("0003"), "{answers}");
        assert_eq!(end[..5], [0x13, 0x90, 0x00, 0x10, identity]);
        assert_eq!(play(with_head(&[0x13, 0x90, 0x00, 0x10, identity]), "recover 0").0, "0000");
    }
}

#[test]
fn damaged_prepared_pages() {
    let damaged: [&[u8]; 9] = [
        &[0x13, 0, 0, 0, 7],
        &[0x13, 0x90, 0x00, 0x08, 7],
        &[0x13, 0x90, 0x00, 0x18, 7],
        &[0x13, 0x90, 0x00, 0x11, 7],
        &[0x23, 0x90, 0x00, 0x10, 7],
        &[0x13, 0x90, 0x00, 0x10, 7, 1],
        &[0x10, 0, 0, 0, 7],
        &[0x15, 0x90, 0x00, 0x10, 7],
        &[0x12, 0x90, 0x00, 0x10, 7],
    ];
    for head in damaged {
        let store = with_head(head);
        let list = "recover 63, query 7, decide abort 63 7, crash, begin none";
        assert_eq!(play(store, list), ("0400 0200 0200 0000 0200".to_string(), store), "{head:02X?}");
        assert!(matches!(Store::of(&store).unwrap().commit_page(), CommitPage::Damaged(_)));
    }
    let mut last = with_head(&[0x13, 0x90, 0x00, 0x10, 7]);
    last[31] = 1;
    assert_eq!(play(last, "recover 63").0, "0400");
}

/// A top transaction that changes this many records, in its own pages and in its child's.
fn changing(records: usize) -> String {
    let writes = (0..records).map(|r| match r % 2 {
        0 => format!("lock 0 {r}, write 0 {r} 0 {:02X}, ", 0xA0 + r),
        _ => format!("begin 0, lock 1 {r}, write 1 {r} 0 {:02X}, commit 1 63, ", 0xA0 + r),
    });
    format!("recover 63, begin none, {}", writes.collect::<String>())
}

/// The answer to an event with this count that makes so many page writes.
fn answer(count: usize, due: usize) -> String {
    if count < due {
        format!("0B{count:02X}")
    } else {
        format!("00{due:02X}")
    }
}

#[test]
fn every_cut_of_a_prepare() {
    for n in [0, 1, 2, 3, 16] {
        let due = if n == 0 { 0 } else { n + 1 };
        for count in 0..=due + 1 {
            let store = stores::used(&mut Rng::new(2));
            let (answers, end) = play(store, &format!("{} prepare 0 {count} 7", changing(n)));
            assert!(answers.ends_with(&answer(count, due)), "n {n}, count {count}: {answers}");
            // Nothing is settled by it; page 0 is prepared exactly if it is whole.
            assert_eq!(settled(&end), settled(&store));
            let page = Store::of(&end).unwrap().commit_page();
            match page {
                CommitPage::Prepared(map, identity) => {
                    assert!(n > 0 && count >= due && map.records().count() == n && identity == Identity(7));
                }
                page => assert!(page == CommitPage::Empty && (n == 0 || count < due)),
            }
            // What was prepared is found again after the cut or crash, and what wasn't is lost.
            let (answers, _) = play(end, "recover 0, query 7, query 8, begin none, lock 0 0");
            let (waits, lock) = if n > 0 && count >= due { ("0001", "0800") } else { ("0000", "0000") };
            assert_eq!(answers, format!("0000 {waits} 0000 0000 {lock}"));
        }
    }
}

#[test]
fn every_cut_of_a_decision() {
    for n in [1, 2, 3, 16] {
        let (_, prepared) = play(stores::used(&mut Rng::new(3)), &format!("{} prepare 0 63 255", changing(n)));
        for (word, due) in [("commit", n + 2), ("abort", 1)] {
            for count in 0..=due + 1 {
                let (answers, end) = play(prepared, &format!("recover 63, decide {word} {count} 255"));
                assert!(answers.ends_with(&answer(count, due)), "{word}, n {n}, count {count}: {answers}");
                decided(&prepared, &end, n, (word == "commit", count));
                // The power may go again and again: the decision is the same.
                let again = format!("recover 0, recover 1, recover 63, decide {word} 63 255, query 255");
                let (answers, end) = play(end, &again);
                assert!(answers.ends_with("0000"), "{word}, n {n}, count {count}: {answers}");
                decided(&prepared, &end, n, (word == "commit", 63));
            }
        }
    }
}

/// The settled records after a decision that was cut at a count.
fn decided(prepared: &Bytes, end: &Bytes, n: usize, (commit, count): (bool, usize)) {
    let mut due = settled(prepared);
    if commit && count > 0 {
        (0..n).for_each(|r| due[r][0] = 0xA0 + r as u8);
    }
    assert_eq!(settled(end), due, "n {n}, commit {commit}, count {count}");
}

#[test]
fn one_that_changed_nothing_just_commits() {
    ends_with("recover 63, begin none, read-lock 0 3, prepare 0 0 7, query 7, commit 0 63", "0000 0000 0500");
    // Also beside one that is prepared; a later decision for it does nothing.
    after(
        "prepare 0 63 7, begin none, lock 0 4, prepare 0 0 8, query 8, decide commit 0 8",
        "0002 0000 0000 0000 0000 0000",
    );
    after("prepare 0 63 7, begin none, prepare 0 0 7, query 7", "0000 0001");
}

#[test]
fn refusals_come_in_their_order() {
    // A child that changed nothing, that did, and its parent; a child's commit is never 13.
    let list =
        "90003F07, 1F800000, 10000000, 90803F08, 20A00000, 30A00001, 90803F08, 90003F08, 50803F00, 50003F00, 90003F08";
    after(list, "0002 0000 0001 1B00 0000 0000 0D00 0A00 0000 0D00 0D00");
    // 10 before 13 and 27, 5 before all of these; a child with nothing prepared is 27, changed or not.
    after("begin 0, begin 1, prepare 1 63 7, prepare 2 63 7, prepare 5 63 7", "0A00 1B00 0500");
    after("begin 0, lock 1 4, write 1 4 0 01, prepare 1 63 7, commit 1 63, prepare 0 63 7", "1B00 0000 0003");
    // A refusal changes nothing: the transaction is live, holds its lock, and commits when it can.
    let list = "prepare 0 63 7, begin none, lock 0 4, write 0 4 0 01, commit 0 63, prepare 0 63 8, read 0 4 0, \
        decide abort 63 7, commit 0 63";
    let end = after(list, "0D00 0D00 0001 0001 0004");
    assert_eq!((settled(&end)[3][2], settled(&end)[4][0]), (0, 1));
}

#[test]
fn what_was_changed_stays_locked_and_nothing_else() {
    let list = "lock 0 4, read-lock 0 5, prepare 0 63 7, begin none, lock 0 3, read-lock 0 3, lock 0 4, lock 0 5";
    after(list, "0000 0800 0800 0000 0000");
    // Through crashes, until the decision is stored; also for the asker that has a live child, which is 14.
    let crashes =
        "prepare 0 63 7, crash, recover 63, begin none, lock 0 3, crash, crash, recover 0, begin none, lock 0 3";
    after(crashes, "0002 0000 0000 0000 0800 0000 0000 0000 0000 0800");
    after("prepare 0 63 7, begin none, begin 0, lock 0 3, lock 1 3", "0E00 0800");
    for decision in ["commit", "abort"] {
        let list = format!("prepare 0 63 7, begin none, lock 0 3, decide {decision} 63 7, lock 0 3");
        after(&list, if decision == "commit" { "0800 0003 0000" } else { "0800 0001 0000" });
    }
}

#[test]
fn recover_over_a_prepared_page_writes_nothing() {
    for count in [0, 1, 63] {
        let end = after(&format!("prepare 0 63 7, crash, recover {count}, recover 63, query 7"), "0000 0000 0300 0001");
        assert_eq!(end[0], 0x13);
    }
}

#[test]
fn a_decision() {
    // The words of the readings: cut before its only write, and after its first.
    after("90003F07, A0000007, A0000007, 80003F00, B0000007", "0002 0B00 0200 0000 0001");
    let end = after("90003F07, A0004107, 80003F00, B0000007", "0002 0B01 0002 0000");
    assert_eq!(settled(&end)[3][2], 0xA5);
    // Neither to commit nor to abort is a bad event, also while down.
    ends_with("A0008000, A007C000, A0004000, A0000000", "0100 0100 0200 0200");
    after("90003F07, A0008007, B0000007", "0002 0100 0001");
    // For another, or with nothing prepared, nothing is done, whatever the count.
    let end = after(
        "prepare 0 63 7, decide commit 0 8, decide abort 0 0, decide commit 0 255, query 7",
        "0002 0000 0000 0000 0001",
    );
    assert_eq!(end[..5], [0x13, 0x10, 0x00, 0x08, 7]);
    after("decide commit 0 7, decide abort 0 7, read 0 3 2", "0000 0000 00A5");
    // Once only.
    after("prepare 0 63 7, decide commit 63 7, decide abort 63 7, decide commit 0 7", "0002 0003 0000 0000");
}

#[test]
fn a_query() {
    ends_with("query 7", "0200");
    after(
        "query 7, prepare 0 63 7, query 7, query 6, crash, query 7, recover 63, query 7",
        "0000 0002 0001 0000 0000 0200 0000 0001",
    );
    // Its other fields are unused.
    after("B0000107, B0004007, B0080007, B0800007", "0100 0100 0100 0100");
    after("90004007, 90080007, A0080007, A0800007", "0100 0100 0100 0100");
}

#[test]
fn one_prepared_in_the_start_store() {
    let store = stores::prepared(&mut Rng::new(4), 0x9000, 0);
    for (decision, due) in [("commit", "0004"), ("abort", "0001")] {
        let (answers, end) = play(store, &format!("recover 63, query 0, decide {decision} 63 0, query 0"));
        assert_eq!(answers, format!("0000 0001 {due} 0000"));
        let page = |number: usize| store[32 * number..][..32].to_vec();
        let due = if decision == "commit" { (page(1), page(4)) } else { (page(17), page(20)) };
        assert_eq!((settled(&end)[0].to_vec(), settled(&end)[3].to_vec()), due);
    }
    // Later writes go over its pages.
    let list = "recover 63, decide commit 63 0, begin none, lock 0 3, write 0 3 9 55, commit 0 63";
    let (_, end) = play(store, list);
    let mut due = store[32 * 4..][..32].to_vec();
    due[9] = 0x55;
    assert_eq!(settled(&end)[3].to_vec(), due);
}

#[test]
fn ages_over_a_prepared_page_are_those_of_home_pages() {
    let mut bytes = with_head(&[0x13, 0x10, 0x00, 0x08, 7]);
    bytes[32 * 4..][..4].copy_from_slice(&[0, 0, 0, 7]);
    bytes[32 * 20..][..4].copy_from_slice(&[0, 0, 0, 2]);
    let store = Store::of(&bytes).unwrap();
    let age = store.age(Record::new(3).unwrap(), Clock(5), Limit(10)).unwrap();
    assert_eq!(age.to_string(), "live 3");
}
