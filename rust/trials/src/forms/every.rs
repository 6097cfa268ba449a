//! Every short list over a few events.

use super::{check, events::words, told, Case, Form, Program};
use crate::portions::share;
use nekahuiro::Fields;
use std::sync::atomic::{AtomicU64, Ordering};

/// Lists over a few events.
pub struct Family<'f> {
    /// The program under test.
    pub program: Program,
    /// The store before.
    pub store: &'f [u8],
    /// Every list begins with these.
    pub prefix: &'f [Fields],
    /// The events to choose from.
    pub letters: &'f [Fields],
    /// Events after the prefix.
    pub length: usize,
    /// Whether a refused event ends a list.
    pub accepted: bool,
}

impl Family<'_> {
    /// Plays every list of the family and of its shorter ones; how many, or the first failure.
    pub fn play<F: Form>(&self) -> Result<u64, String> {
        let (letters, lists) = (self.letters.len(), AtomicU64::new(0));
        // Two letters make pieces of work that are small enough to share.
        let failure = share((letters * letters) as u64, |number| {
            let number = number as usize;
            let mut case = Case { store: self.store.to_vec(), events: words::<F>(self.prefix) };
            let mut walk = Walk { family: self, lists: 0 };
            let outcome = walk.start_with::<F>(&mut case, number / letters, number % letters);
            lists.fetch_add(walk.lists, Ordering::Relaxed);
            outcome
        });
        match failure {
            Some(text) => Err(text),
            None => Ok(lists.into_inner()),
        }
    }
}

struct Walk<'w> {
    family: &'w Family<'w>,
    lists: u64,
}

impl Walk<'_> {
    fn start_with<F: Form>(&mut self, case: &mut Case, first: usize, second: usize) -> Result<(), String> {
        case.events.extend(words::<F>(&[self.family.letters[first]]));
        // The list of one letter is played with the first second letter alone.
        let leads_on = if second == 0 { self.leads_on::<F>(case)? } else { self.is_wanted::<F>(case) };
        if leads_on && self.family.length > 1 {
            case.events.extend(words::<F>(&[self.family.letters[second]]));
            if self.leads_on::<F>(case)? {
                self.extend::<F>(case, self.family.length - 2)?;
            }
        }
        Ok(())
    }

    fn extend<F: Form>(&mut self, case: &mut Case, left: usize) -> Result<(), String> {
        if left == 0 {
            return Ok(());
        }
        for letter in self.family.letters {
            let before = case.events.len();
            case.events.extend(words::<F>(&[*letter]));
            if self.leads_on::<F>(case)? {
                self.extend::<F>(case, left - 1)?;
            }
            case.events.truncate(before);
        }
        Ok(())
    }

    /// Plays and checks the list; tells whether longer lists that begin with it are wanted.
    fn leads_on<F: Form>(&mut self, case: &Case) -> Result<bool, String> {
        self.lists += 1;
        let (program, reference) = (self.family.program, Program::Player);
        if check::<F>(program, reference, case).is_err() {
            return Err(told::<F>(program, reference, case.clone()));
        }
        Ok(self.is_wanted::<F>(case))
    }

    fn is_wanted<F: Form>(&self, case: &Case) -> bool {
        let last = self.family.program.play::<F>(case, 0).told().pop();
        !self.family.accepted || matches!(last, Some((0 | 11, _)))
    }
}
