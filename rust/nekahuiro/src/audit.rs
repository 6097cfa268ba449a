//! The auditor: whether a start store, a list of events, its answers and an end store belong together. It has
//! an engine of its own, which finds each answer that is due in the history so far and keeps no version and
//! no lock; it is proved to agree with the store's own on every list that it takes.

use crate::answer::Refusal;
use crate::{raw, Store};
use std::fmt;

/// What the auditor says.
#[derive(Clone, Copy, Debug, PartialEq, Eq, Hash)]
pub enum Verdict {
    /// They belong together.
    Belongs,
    /// The first event with a wrong answer, from 0.
    WrongEvent(usize),
    /// Every answer is right, and this is the first wrong page of the end store.
    WrongPage(usize),
}

impl Verdict {
    /// The verdict of this number, with its place.
    fn of(number: u8, place: u16) -> Result<Verdict, Refusal> {
        match number {
            0 => Ok(Verdict::Belongs),
            1 => Ok(Verdict::WrongEvent(usize::from(place))),
            2 => Ok(Verdict::WrongPage(usize::from(place))),
            number => Err(Refusal::of(number)),
        }
    }
}

/// Audits a list of event words with its answers, two bytes each; further answer bytes aren't looked at.
/// A list with a prepare, decide or query, or a start store in which a transaction is prepared, is refused.
/// It needs some 24 KiB of stack, and time that grows with the square of the list's length.
///
/// ```
/// use nekahuiro::audit::{audit, Verdict};
/// use nekahuiro::{Event, Refusal, Store};
///
/// let list = "recover 63, begin none, lock 0 3, write 0 3 2 A5, commit 0 63";
/// let events: Vec<Event> = list.split(',').map(str::parse).collect::<Result<_, _>>()?;
/// let (start, words) = (Store::fresh(), nekahuiro::encode(&events));
/// let mut end = start.clone();
/// let mut answers: Vec<u8> = end.play(&events)?.iter().flat_map(|answer| answer.bytes()).collect();
/// assert_eq!(audit(&start, &words, &answers, &end), Ok(Verdict::Belongs));
///
/// end.bytes_mut()[32 * 20 + 2] = 0;
/// assert_eq!(audit(&start, &words, &answers, &end), Ok(Verdict::WrongPage(20)));
/// answers[9] = 2;
/// assert_eq!(audit(&start, &words, &answers, &end), Ok(Verdict::WrongEvent(4)));
/// assert_eq!(audit(&start, &words, &answers[1..], &end), Err(Refusal::Answers));
/// # Ok::<(), Box<dyn std::error::Error>>(())
/// ```
pub fn audit(start: &Store, words: &[u8], answers: &[u8], end: &Store) -> Result<Verdict, Refusal> {
    let mut place = 0;
    let number = raw::audit(start.bytes(), words, answers, end.bytes(), &mut place);
    Verdict::of(number, place)
}

impl fmt::Display for Verdict {
    fn fmt(&self, f: &mut fmt::Formatter) -> fmt::Result {
        match self {
            Verdict::Belongs => write!(f, "they belong together"),
            Verdict::WrongEvent(event) => write!(f, "event {event} has a wrong answer"),
            Verdict::WrongPage(page) => write!(f, "every answer is right, and page {page} is wrong"),
        }
    }
}
