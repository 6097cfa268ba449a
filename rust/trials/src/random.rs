//! Random cases, shared among threads. A case is made from the seed and its own number alone.

use crate::{check, minimise::minimise, report, settings, Case, Program};
use nekahuiro::limits::{EVENTS, EVENT_BYTES};
use nekahuiro::{CommitPage, Page};
use nekahuiro_lists::random::{list, Taste};
use nekahuiro_lists::{stores, timing, Rng};
use std::sync::atomic::{AtomicBool, AtomicU64, Ordering};
use std::sync::Mutex;

/// The case of this number.
pub fn case(seed: u64, number: u64) -> Case {
    let mut rng = Rng::new(seed ^ number.wrapping_mul(0xD6E8_FEB8_6659_FD93));
    let mut case = Case { store: stores::any(&mut rng), events: Vec::new() };
    // A store that was played on before, often by a run that was cut.
    for _ in 0..rng.below(3) / 2 {
        case.events = random_list(&mut rng, &case);
        case.store = Program::Player.play(&case, 0).store;
    }
    case.events = match rng.below(20_000) {
        0 => timing::mixed(number),
        1 => (0..EVENTS * EVENT_BYTES).map(|_| rng.byte()).collect(),
        _ => random_list(&mut rng, &case),
    };
    case
}

fn random_list(rng: &mut Rng, case: &Case) -> Vec<u8> {
    let mut page: Page = [0; nekahuiro::limits::PAGE_BYTES];
    page.copy_from_slice(&case.store[..nekahuiro::limits::PAGE_BYTES]);
    let taste = Taste::any(rng);
    list(rng, &taste, CommitPage::of(&page))
}

/// What was played.
#[derive(Default)]
pub struct Tally {
    /// Lists.
    pub lists: AtomicU64,
    /// Events.
    pub events: AtomicU64,
    /// Events accepted.
    pub accepted: AtomicU64,
    /// Events cut by a crash.
    pub cuts: AtomicU64,
}

/// Plays the first `lists` cases of a seed; the first failure found, made small and told in words.
pub fn search(program: Program, reference: Program, seed: u64, lists: u64) -> (Tally, Option<String>) {
    let (tally, next, stop) = (Tally::default(), AtomicU64::new(0), AtomicBool::new(false));
    let found = Mutex::new(None);
    let worker = || {
        while !stop.load(Ordering::Relaxed) {
            let number = next.fetch_add(1, Ordering::Relaxed);
            if number >= lists {
                return;
            }
            let case = case(seed, number);
            match check(program, reference, &case) {
                Ok(played) => tally.add(&case, &played.answers),
                Err(_) => {
                    stop.store(true, Ordering::Relaxed);
                    let text = told(program, reference, case);
                    let text = format!("seed {seed}, list {number}, made small: {text}");
                    found.lock().map(|mut found| found.get_or_insert(text).clone()).ok();
                }
            }
        }
    };
    std::thread::scope(|scope| {
        for _ in 0..settings::threads() {
            scope.spawn(worker);
        }
    });
    (tally, found.into_inner().ok().flatten())
}

/// A failing case, made small and told in words.
pub fn told(program: Program, reference: Program, case: Case) -> String {
    let small = minimise(case, |case| check(program, reference, case).is_err());
    match check(program, reference, &small) {
        Err(fault) => report::tell(&small, &fault, program, reference),
        Ok(_) => "the failure doesn't come again: the program isn't a function of its input".to_string(),
    }
}

impl Tally {
    fn add(&self, case: &Case, answers: &[u8]) {
        let pairs = answers.chunks_exact(2).take(case.length());
        let (mut accepted, mut cuts) = (0, 0);
        for pair in pairs {
            accepted += u64::from(pair[0] == 0 || pair[0] == 11);
            cuts += u64::from(pair[0] == 11);
        }
        self.lists.fetch_add(1, Ordering::Relaxed);
        self.events.fetch_add(case.length() as u64, Ordering::Relaxed);
        self.accepted.fetch_add(accepted, Ordering::Relaxed);
        self.cuts.fetch_add(cuts, Ordering::Relaxed);
    }

    /// The tally as a line of text.
    pub fn text(&self) -> String {
        let get = |count: &AtomicU64| count.load(Ordering::Relaxed);
        let events = get(&self.events).max(1);
        format!(
            "{} lists, {} events, {} % accepted, {} cut by a crash",
            get(&self.lists),
            events,
            100 * get(&self.accepted) / events,
            get(&self.cuts)
        )
    }
}
