//! Every short list over a small alphabet of events.

use crate::random::told;
use crate::{check, listed, settings, Case, Played, Program};
use nekahuiro::limits::{ANSWER_BYTES, EVENT_BYTES};
use nekahuiro_lists::stores::Bytes;
use std::sync::atomic::{AtomicU64, AtomicUsize, Ordering};
use std::sync::Mutex;

/// Two records, two offsets, a parent and its child, cuts at the counts that matter.
pub const NESTED: &str = "recover 63, recover 0, begin none, begin 0, lock 0 0, lock 1 0, lock 1 15, \
    write 0 0 0 11, write 1 0 0 22, write 1 0 31 33, write 1 15 0 44, read 0 0 0, read 1 0 0, \
    commit 0 63, commit 0 1, commit 0 2, commit 1 63, abort 0, abort 1, crash";

/// Two top transactions and a child of the first, over one record.
pub const CONTENDED: &str = "recover 63, begin none, begin 0, lock 0 0, lock 1 0, lock 2 0, write 0 0 0 11, \
    write 1 0 0 22, write 2 0 31 33, read 0 0 0, read 1 0 0, read 2 0 31, commit 0 63, commit 0 2, \
    commit 1 63, commit 2 63, abort 0, abort 1";

/// Recoveries cut everywhere, with a transaction that commits two records.
pub const CRASHING: &str = "recover 63, recover 0, recover 1, recover 2, recover 3, begin none, lock 0 0, lock 0 15, \
    write 0 0 0 11, write 0 15 31 22, commit 0 0, commit 0 1, commit 0 2, commit 0 3, commit 0 4, commit 0 5, \
    commit 0 6, abort 0, crash, read 0 15 31";

/// Children one after the other over one record, for versions that a parent takes again and again.
pub const INHERITED: &str =
    "begin 0, lock 1 0, write 1 0 0 11, write 1 0 31 22, commit 1 63, abort 1, commit 0 63, lock 0 0, read 0 0 31";

/// Both modes over two records, by two top transactions, 0 and 1, and by 2, a child of the first.
pub const SHARED: &str = "lock 0 0, read-lock 0 0, lock 1 0, read-lock 1 0, lock 2 0, read-lock 2 0, read-lock 2 15, \
    lock 1 15, write 0 0 0 11, write 1 0 0 22, write 2 0 31 33, read 1 0 0, read 2 0 31, commit 0 63, commit 1 63, \
    commit 2 63, abort 0, abort 2, begin 0";

/// What SHARED begins with.
pub const SHARED_PREFIX: &str = "recover 63, begin none, begin none, begin 0";

/// Children and strangers one after the other over one record, for modes that a parent takes again and again.
pub const MODES: &str =
    "begin 0, begin none, lock 1 0, read-lock 1 0, write 1 0 0 11, commit 1 63, abort 1, lock 0 0, read-lock 0 0";

/// A child with a child of its own, both aborted with a report or without, and what its parent finds.
pub const REPORTED: &str = "begin 0, begin 1, lock 1 0, read-lock 1 0, lock 2 0, read-lock 2 15, write 1 0 0 11, \
    write 2 0 0 22, commit 2 63, abort 1, abort 1 report, abort 2 report, lock 0 0, read 0 0 0, write 0 0 31 33, \
    begin none, read-lock 1 0, lock 1 15";

/// One transaction over one record, prepared and decided with every cut, for its own identity and another.
pub const PREPARING: &str = "begin none, lock 0 0, write 0 0 0 11, prepare 0 63 7, prepare 0 0 7, prepare 0 1 7, \
    decide commit 63 7, decide commit 0 7, decide commit 1 7, decide commit 2 7, decide abort 63 7, decide abort 0 7, \
    decide commit 63 0, query 7, query 0, commit 0 63, crash, recover 63, recover 1";

/// A top transaction, 0, and its child, 1, beside one that is prepared with record 0 and identity 255.
pub const BESIDE: &str = "lock 1 0, lock 1 15, read-lock 0 0, write 1 15 0 11, commit 1 63, commit 0 63, prepare 0 63 0, \
    prepare 1 63 0, abort 1, decide commit 63 255, decide abort 63 255, decide abort 63 0, query 255, crash, recover 0, \
    begin none, begin 0";

/// What BESIDE begins with.
pub const BESIDE_PREFIX: &str = "recover 63, begin none, begin 0";

/// Events that are bad or name what there isn't.
pub const STRAY: &str =
    "00000000, C0000000, recover 63, begin none, begin 0, begin 24, 1F800001, lock 0 0, lock 31 0, \
    20004000, 20000002, 30000100, write 0 0 0 11, 40000001, commit 0 63, 50080000, 60000002, 70000001, 80800000, crash, \
    90004000, A0008000";

/// How the lists are chosen.
#[derive(Clone, Copy, PartialEq, Eq)]
pub enum Choice {
    /// All of them.
    Every,
    /// Those whose events are all accepted, but for the last.
    AcceptedButLast,
}

/// A family of lists.
pub struct Family<'f> {
    /// The program under test.
    pub program: Program,
    /// The store before.
    pub store: Bytes,
    /// The events to choose from.
    pub alphabet: &'f str,
    /// Every list begins with these.
    pub prefix: &'f str,
    /// Events after the prefix.
    pub length: usize,
    /// Which lists.
    pub choice: Choice,
    /// What is checked of each.
    pub check: Check,
}

/// A check of a case: what was played, or the failure made small and told in words.
pub type Check = fn(Program, &Case) -> Result<Played, String>;

/// The program agrees with the player, and demand 3 holds.
pub fn agrees(program: Program, case: &Case) -> Result<Played, String> {
    check(program, Program::Player, case).map_err(|_| told(program, Program::Player, case.clone()))
}

impl Family<'_> {
    /// Plays every list of the family and of its shorter ones; how many, or the first failure.
    pub fn play(&self) -> Result<u64, String> {
        let letters: Vec<[u8; EVENT_BYTES]> =
            listed::words(self.alphabet).chunks_exact(EVENT_BYTES).map(|w| [w[0], w[1], w[2], w[3]]).collect();
        let (next, lists, fault) = (AtomicUsize::new(0), AtomicU64::new(0), Mutex::new(None));
        let worker = || loop {
            let start = next.fetch_add(1, Ordering::Relaxed);
            // Two letters make pieces of work that are small enough to share.
            let (Some(first), second) = (letters.get(start / letters.len()), letters[start % letters.len()]) else {
                return;
            };
            let mut walk = Walk { family: self, letters: &letters, lists: 0 };
            let outcome = walk.start_with(*first, second);
            lists.fetch_add(walk.lists, Ordering::Relaxed);
            if let Err(text) = outcome {
                next.store(letters.len() * letters.len(), Ordering::Relaxed);
                fault.lock().map(|mut fault| fault.get_or_insert(text).clone()).ok();
            }
        };
        std::thread::scope(|scope| {
            for _ in 0..settings::threads() {
                scope.spawn(worker);
            }
        });
        match fault.into_inner().ok().flatten() {
            Some(text) => Err(text),
            None => Ok(lists.into_inner()),
        }
    }
}

struct Walk<'w> {
    family: &'w Family<'w>,
    letters: &'w [[u8; EVENT_BYTES]],
    lists: u64,
}

impl Walk<'_> {
    fn start_with(&mut self, first: [u8; EVENT_BYTES], second: [u8; EVENT_BYTES]) -> Result<(), String> {
        let mut case = Case { store: self.family.store, events: listed::words(self.family.prefix) };
        case.events.extend(first);
        if self.family.length == 0 || !self.leads_on(&case)? || self.family.length == 1 {
            return Ok(());
        }
        case.events.extend(second);
        if self.leads_on(&case)? {
            self.extend(&mut case, self.family.length - 2)?;
        }
        Ok(())
    }

    fn extend(&mut self, case: &mut Case, left: usize) -> Result<(), String> {
        if left == 0 {
            return Ok(());
        }
        for letter in self.letters {
            case.events.extend(letter);
            if self.leads_on(case)? {
                self.extend(case, left - 1)?;
            }
            case.events.truncate(case.events.len() - EVENT_BYTES);
        }
        Ok(())
    }

    /// Plays the list; tells whether longer lists that begin with it are wanted.
    fn leads_on(&mut self, case: &Case) -> Result<bool, String> {
        self.lists += 1;
        let played = (self.family.check)(self.family.program, case)?;
        let accepted = matches!(played.answers[(case.length() - 1) * ANSWER_BYTES], 0 | 11);
        Ok(accepted || self.family.choice == Choice::Every)
    }
}
