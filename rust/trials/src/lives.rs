//! Lives of a device: events through to a medium that fails after so many page writes, again and again, and the
//! list of events that stands for what happened.

use crate::{Case, Program};
use nekahuiro::limits::{ANSWER_BYTES, PAGE_BYTES};
use nekahuiro::{Device, Event, Fault, Fields, Medium, Page, Store, Transact};
use nekahuiro_history::{first_half, Run};
use nekahuiro_lists::stores::Bytes;

/// A medium in memory whose power goes.
pub struct Failing {
    /// What it holds.
    pub bytes: Bytes,
    /// Page writes until one fails, if one does.
    pub left: Option<usize>,
    /// Whether the one that fails is made all the same: the medium can't always say.
    pub made_yet: bool,
    /// Page writes that didn't fail since the last failure.
    pub made: usize,
}

/// The power is gone.
#[derive(Clone, Copy, Debug, PartialEq, Eq)]
pub struct PowerGone;

impl Failing {
    /// One that holds these bytes.
    pub fn new(bytes: Bytes, left: Option<usize>, made_yet: bool) -> Failing {
        Failing { bytes, left, made_yet, made: 0 }
    }
}

impl Medium for Failing {
    type Error = PowerGone;

    fn program(&mut self, page: u8, bytes: &Page) -> Result<(), PowerGone> {
        let fails = self.left == Some(self.made);
        if !fails || self.made_yet {
            self.bytes[usize::from(page) * PAGE_BYTES..][..PAGE_BYTES].copy_from_slice(bytes);
        }
        if fails {
            return Err(PowerGone);
        }
        self.made += 1;
        Ok(())
    }
}

/// A device, and what happened to it as events and answers.
pub struct Life {
    device: Device<Failing>,
    start: Bytes,
    /// After how many page writes the power goes, each counted from the restart before.
    cuts: Vec<usize>,
    failures: usize,
    words: Vec<u8>,
    /// None where the power went before it was told.
    answers: Vec<Option<[u8; ANSWER_BYTES]>>,
}

impl Life {
    /// The power comes on over these bytes.
    pub fn new(start: Bytes, cuts: &[usize], made_yet: bool) -> Life {
        let medium = Failing::new(start, cuts.first().copied(), made_yet);
        let device = Device::new(medium, store(&start));
        Life { device, start, cuts: cuts.to_vec(), failures: 0, words: Vec::new(), answers: Vec::new() }
    }

    /// Plays an event; where the power goes it comes back, and the device recovers, cut or not.
    pub fn play(&mut self, event: Event) -> Result<(), String> {
        match self.device.play(event) {
            Ok(answer) => self.note(event.uncut(), Some(answer.bytes())),
            Err(Fault::Refused(reason)) => self.note(event.uncut(), Some([reason.number(), 0])),
            Err(Fault::Medium { made, error: PowerGone }) => {
                if self.device.play(event) != Err(Fault::Failed) {
                    return Err("a device that failed plays on".to_string());
                }
                let count = made + u8::from(self.device.medium().made_yet);
                let fields = Fields { count, ..event.fields() };
                self.note(Event::of(fields.word()).ok_or("a page write of an event without a count")?, None);
                self.note(Event::Crash, None);
                self.failures += 1;
                let cut = self.cuts.get(self.failures).copied();
                let medium = self.device.medium_mut();
                (medium.left, medium.made) = (cut, 0);
                let read = store(&medium.bytes);
                self.device.restart(read);
                return self.play(Event::Recover { count: 0 });
            }
            Err(Fault::Failed) => return Err("a device that didn't fail says that it did".to_string()),
        }
        Ok(())
    }

    fn note(&mut self, event: Event, answer: Option<[u8; ANSWER_BYTES]>) {
        self.words.extend(event.word());
        self.answers.push(answer);
    }

    /// Page writes since the last failure.
    pub fn made(&self) -> usize {
        self.device.medium().made
    }

    /// How often the power went.
    pub fn failures(&self) -> usize {
        self.failures
    }

    /// The medium must be what the rules say of the list that stands for what happened, by the player and by demand
    /// 3; the device's copy must be the medium, and its answers the player's.
    pub fn check(&self) -> Result<(), String> {
        let medium = &self.device.medium().bytes;
        if self.device.session().map(|session| session.store().bytes()) != Some(medium) {
            return Err("the copy isn't the medium".to_string());
        }
        let case = Case { store: self.start, events: self.words.clone() };
        let due = Program::Player.play(&case, 0);
        if due.store != *medium {
            return Err(format!("the medium isn't the player's store after {}", self.in_words()));
        }
        for (at, (told, due)) in self.answers.iter().zip(due.answers.chunks_exact(ANSWER_BYTES)).enumerate() {
            if told.is_some_and(|told| told != due) {
                return Err(format!("event {at}: {told:02X?}, the player's {due:02X?}, in {}", self.in_words()));
            }
        }
        let answers = &due.answers[..self.answers.len() * ANSWER_BYTES];
        let run = Run { before: &self.start, events: &self.words, answers, after: medium };
        first_half(run).map(drop).map_err(|breach| format!("{breach:?} in {}", self.in_words()))
    }

    fn in_words(&self) -> String {
        let words = self.words.chunks_exact(4).map(|word| nekahuiro::describe([word[0], word[1], word[2], word[3]]));
        words.collect::<Vec<_>>().join(", ")
    }
}

/// The store in these bytes.
pub fn store(bytes: &Bytes) -> Store {
    let mut store = Store::fresh();
    *store.bytes_mut() = *bytes;
    store
}
