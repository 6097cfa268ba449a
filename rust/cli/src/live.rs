//! What is live between two events, beside the store.

use crate::follow::Follower;
use crate::state_file::Kept;
use crate::store::{is_lent, Refused, Store, Write};
use nekahuiro::any::{CommitPage, Event, Record};
use nekahuiro::{Answer, Fields, Page};
use std::collections::BTreeMap;

/// The versions of live transactions, by record and writer.
pub type Versions = BTreeMap<(Record, u8), Page>;

/// What goes on from one event to the next.
#[derive(Clone, PartialEq, Eq)]
pub enum Live {
    /// Edition 1 is played in portions on a lent state, also where pages can tear.
    Lent(Box<Kept>),
    /// Edition 2 isn't: what is live is played again before each event.
    Again(Box<Again>),
}

/// A run of edition 2 as far as something of it is live.
#[derive(Clone, PartialEq, Eq)]
pub struct Again {
    /// The store when nothing was live last.
    before: Store,
    /// The events since then that changed something.
    words: Vec<u8>,
    follower: Follower,
    versions: Versions,
}

impl Live {
    /// Down, with nothing live.
    pub fn start(store: &Store) -> Live {
        match is_lent(store.edition) {
            true => Live::Lent(Box::default()),
            false => Live::Again(Box::new(Again {
                before: store.clone(),
                words: Vec::new(),
                follower: Follower::down(store.edition),
                versions: Versions::new(),
            })),
        }
    }

    /// Plays events on the store that is there now: one answer each. Refused, nothing is changed.
    pub fn portion(&mut self, store: &mut Store, words: &[u8]) -> Result<Vec<Answer>, Refused> {
        match self {
            Live::Lent(kept) => store.portion(kept, words),
            Live::Again(again) => {
                let (mut next, mut after, mut answers) = (again.clone(), store.clone(), Vec::new());
                for word in words.chunks(store.edition.event_bytes) {
                    answers.push(next.event(&mut after, word)?);
                }
                (*again, *store) = (next, after);
                Ok(answers)
            }
        }
    }

    /// Who is live, holds and retains; page 0 says what is prepared.
    pub fn follower(&self, page: CommitPage) -> Follower {
        match self {
            Live::Lent(kept) => Follower::of(&kept.state, page),
            Live::Again(again) => again.follower.clone(),
        }
    }

    /// Whether a transaction is live.
    pub fn has(&self, number: u8) -> bool {
        match self {
            Live::Lent(kept) => kept.state.live().any(|live| live.number() == number),
            Live::Again(again) => again.follower.live.contains_key(&number),
        }
    }

    /// The writes to the medium that an event makes if nothing cuts it, in their order.
    pub fn writes(&self, store: &Store, word: &[u8]) -> Result<Vec<Write>, Refused> {
        match self {
            Live::Lent(kept) => (0..=u8::MAX).map_while(|index| store.write(kept, word, index).transpose()).collect(),
            Live::Again(again) => again.page_writes(word),
        }
    }

    /// What live transactions have written.
    pub fn versions(&self) -> Versions {
        match self {
            Live::Lent(kept) => kept.versions(),
            Live::Again(again) => again.versions.clone(),
        }
    }
}

impl Again {
    /// Plays what is live, and then an event.
    fn event(&mut self, store: &mut Store, word: &[u8]) -> Result<Answer, Refused> {
        let edition = store.edition;
        let mut after = self.before.clone();
        let answers = after.play_words(&[&self.words[..], word].concat())?;
        let answer = answers.last().copied().unwrap_or(Answer { number: 1, value: 0 });
        if let Some(event) = edition.event(word).filter(|_| answer.is_accepted()) {
            self.note(store, event, answer);
            if !matches!(event, Event::Read { .. }) {
                self.words.extend(word);
            }
        }
        *store = after;
        if self.follower.live.is_empty() {
            // A run from here is the same: down it starts anew, and up it has nothing to recover.
            self.before = store.clone();
            let recover = Event::Recover { count: edition.count_limit().into() };
            self.words = if self.follower.up { edition.word(recover.fields()) } else { Vec::new() };
        }
        Ok(answer)
    }

    /// The page writes of an event: the event is cut after each of them, and what it wrote last is in the store. Which
    /// pages they are follows from the records that the commit page names: their intention pages, the commit page, their
    /// home pages, the commit page emptied; in a recover only the last two.
    fn page_writes(&self, word: &[u8]) -> Result<Vec<Write>, Refused> {
        let edition = self.before.edition;
        let (Some(event), Some(fields)) = (edition.event(word), edition.fields(word)) else { return Ok(Vec::new()) };
        let commits = matches!(event, Event::Commit { .. });
        if !commits && !matches!(event, Event::Recover { .. }) {
            return Ok(Vec::new());
        }
        let cut_after = |count: u8| {
            let mut after = self.before.clone();
            let word = edition.word(Fields { count, ..fields });
            let answers = after.play_words(&[&self.words[..], &word].concat())?;
            Ok((answers.last().map_or(0, |answer| if answer.is_accepted() { answer.value } else { 0 }), after))
        };
        let (due, _) = cut_after(edition.count_limit())?;
        let stores = (0..=due).map(|count| cut_after(count).map(|(_, after)| after));
        let stores: Vec<Store> = stores.collect::<Result<_, _>>()?;
        let map = stores.iter().find_map(|store| match store.commit_page() {
            CommitPage::Committed(map) => Some(map),
            _ => None,
        });
        let named = || map.into_iter().flat_map(|map| map.records());
        let home = named().map(|record| self.before.home(record)).chain([0]);
        let pages: Vec<usize> = match commits {
            true => named().map(Store::intention).chain([0]).chain(home).collect(),
            false => home.collect(),
        };
        let write = |(page, after): (usize, &Store)| Write { page: page as u8, half: None, bytes: after.page(page) };
        Ok(pages.into_iter().zip(&stores[1..]).map(write).collect())
    }

    /// Takes note of an accepted event; the store is that before it.
    fn note(&mut self, store: &Store, event: Event, answer: Answer) {
        match event {
            Event::Write { transaction, record, offset, value } => {
                let mut line = self.follower.line(transaction.number());
                let seen = line.find_map(|up| self.versions.get(&(record, up)).copied());
                let seen = seen.unwrap_or_else(|| store.settled(record));
                let own = self.versions.entry((record, transaction.number())).or_insert(seen);
                own[usize::from(offset)] = value;
            }
            Event::Commit { transaction, .. } => {
                let number = transaction.number();
                if let Some(parent) = self.follower.live.get(&number).copied().flatten() {
                    let own = self.versions.iter().filter(|((_, writer), _)| *writer == number);
                    let own: Vec<_> = own.map(|((record, _), page)| ((*record, parent), *page)).collect();
                    self.versions.extend(own);
                }
            }
            _ => {}
        }
        self.follower.event(event, answer);
        self.versions.retain(|(_, writer), _| self.follower.live.contains_key(writer));
    }
}

#[cfg(test)]
mod tests {
    use super::*;
    use nekahuiro::pairs::Half;
    use nekahuiro::Edition;
    use nekahuiro_lists::Rng;

    /// The fields of some event, most often of a live transaction without a child; `None` as a count is as many page writes as are due.
    fn event(rng: &mut Rng, follower: &Follower) -> (Fields, Option<u8>) {
        let has_child = |number: &u8| follower.live.values().any(|parent| *parent == Some(*number));
        let live: Vec<u8> = follower.live.keys().copied().filter(|number| !has_child(number)).collect();
        let transaction = rng.pick(&live).copied().filter(|_| rng.below(8) > 0).unwrap_or(1);
        if !follower.up && rng.below(4) > 0 {
            return (Fields { kind: 8, ..Fields::default() }, None);
        }
        let named = Fields { transaction, record: rng.below(2) as u8, ..Fields::default() };
        let count = (rng.below(3) == 0).then(|| rng.below(9) as u8);
        let of = |kind: u8| Fields { kind, ..named };
        let plain = Fields { record: 0, ..named };
        match rng.below(24) {
            0 => (Fields { kind: 1, transaction: 31, ..Fields::default() }, None),
            1 | 2 => (Fields { kind: 1, ..plain }, None),
            3..=9 => (Fields { value: u8::from(rng.below(4) == 0), ..of(2) }, None),
            10..=17 => (Fields { offset: rng.below(4) as u8, value: rng.byte(), ..of(3) }, None),
            18 => (Fields { offset: rng.below(4) as u8, ..of(4) }, None),
            19 | 20 => (Fields { kind: 5, ..plain }, count),
            21 => (Fields { kind: 6, value: rng.below(2) as u8, ..plain }, None),
            22 if rng.below(6) == 0 => (Fields { kind: 7, ..Fields::default() }, None),
            _ => (Fields { kind: 8, ..Fields::default() }, count),
        }
    }

    /// All editions on the same events: what edition 2 plays again before each event is as the lent state says, also
    /// where pages can tear, and so are the page writes, which edition 1's library tells.
    #[test]
    fn what_is_played_again_is_as_the_lent_state() {
        let (mut rng, mut versions, mut writes, mut cut) = (Rng::new(24), 0, 0, 0);
        for _ in 0..1_000 {
            let mut stores = Edition::ALL.map(Store::fresh);
            let mut lives = stores.each_ref().map(Live::start);
            for at in 0..100 {
                let (fields, count) = event(&mut rng, &lives[0].follower(stores[0].commit_page()));
                let each = Edition::ALL.into_iter().zip(&mut stores).zip(&mut lives);
                let each = each.map(|((edition, store), live)| told_of(edition, store, live, fields, count));
                let told: Vec<Told> = each.collect();
                for other in &told[1..] {
                    assert!(*other == told[0], "event {at}, {fields:?}: {other:?} and {:?}", told[0]);
                }
                versions += lives[0].versions().len();
                writes += told[0].writes.len();
                cut += usize::from(told[0].answers[0].is_cut());
            }
        }
        assert!(versions > 10_000 && writes > 1_000 && cut > 40, "{versions} versions, {writes} writes, {cut} cut");
    }

    /// What an event leads to, as far as editions have it in common.
    #[derive(Debug, PartialEq)]
    struct Told {
        /// What each page is, and its bytes; of page 0 its state.
        writes: Vec<(String, Page)>,
        answers: Vec<Answer>,
        locks: String,
        versions: Versions,
        settled: Vec<Page>,
    }

    /// Plays an event; `None` as a count is as many page writes as are due.
    fn told_of(edition: Edition, store: &mut Store, live: &mut Live, fields: Fields, count: Option<u8>) -> Told {
        let counts = matches!(fields.kind, 5 | 8);
        let count = if counts { count.unwrap_or(edition.count_limit()) } else { 0 };
        let word = edition.word(Fields { count, ..fields });
        let write = |write: Write| {
            let what = crate::store::page_in_words(edition, write.page.into());
            (what, if write.page == 0 { [write.bytes[0] & 15; 32] } else { write.bytes })
        };
        let writes = live.writes(store, &word).unwrap_or_else(|refused| panic!("{refused}"));
        // Where pages can tear each is written twice.
        let writes = writes.into_iter().filter(|write| write.half != Some(Half::Second)).map(write).collect();
        let answers = live.portion(store, &word).unwrap_or_else(|refused| panic!("{refused}"));
        let follower = live.follower(store.commit_page());
        let settled = store.records().take(Edition::FIRST.records).map(|record| store.settled(record)).collect();
        let locks = format!("{}; {}", follower.in_words(), follower.locks_in_words());
        Told { writes, answers, locks, versions: live.versions(), settled }
    }

    /// A portion that is refused changes nothing.
    #[test]
    fn half_a_word_is_refused() {
        for edition in Edition::ALL {
            let mut store = Store::fresh(edition);
            let (mut live, before) = (Live::start(&store), store.clone());
            let recover = edition.word(Event::Recover { count: edition.count_limit().into() }.fields());
            let refused = live.portion(&mut store, &[&recover[..], &[0x70]].concat());
            assert_eq!(refused.map_err(|refused| refused.number), Err(20));
            assert!(store == before && live == Live::start(&before));
        }
    }
}
