//! A store of any edition, also on pages that can tear. A store file says which by its length.

use crate::state_file::Kept;
use nekahuiro::any::{CommitPage, Event, Record};
use nekahuiro::limits::{ANSWER_BYTES, PAGE_BYTES, PAGE_WRITE_BYTES};
use nekahuiro::pairs::{self, limits::COPY_WRITE_BYTES, CopyWrite, Half, PageCopy};
use nekahuiro::{edition2, raw, Answer, Clock, Edition, Limit, Page, PageWrite, Place, Refusal, State, Verdict};
use std::fmt;

/// What the library answers where an event makes no page write of a number.
const NO_SUCH_WRITE: u8 = 12;

/// A store, played on by the proved engine of its edition.
#[derive(Clone, PartialEq, Eq)]
pub struct Store {
    /// Its edition.
    pub edition: Edition,
    bytes: Vec<u8>,
}

/// Why a whole run or question was refused.
#[derive(Clone, Copy)]
pub struct Refused {
    /// By which edition.
    pub edition: Edition,
    /// The number of the refusal.
    pub number: u8,
}

/// The number of an event's refusal in words, as far as they are an edition's.
pub fn refusal_in_words(edition: Edition, number: u8) -> String {
    match Refusal::of(number) {
        Refusal::Damaged if edition.tears => "refused 4: page 0 is damaged, or a page has no good copy".to_string(),
        Refusal::Damaged => "refused 4: page 0 is damaged".to_string(),
        _ => Answer { number, value: 0 }.to_string(),
    }
}

impl Refused {
    /// Whether the lent state isn't sound.
    pub fn is_of_state(self) -> bool {
        self.number == Refusal::State.number()
    }
}

impl fmt::Display for Refused {
    fn fmt(&self, f: &mut fmt::Formatter) -> fmt::Result {
        match (self.edition, Refusal::of(self.number)) {
            (edition, Refusal::Damaged) => f.write_str(&refusal_in_words(edition, self.number)),
            (Edition::SECOND, _) => edition2::Refusal::of(self.number).fmt(f),
            (_, refusal) => refusal.fmt(f),
        }
    }
}

/// Plays a list: store, event words, working buffer, answers.
type Run = fn(&mut [u8], &[u8], &mut [u8], &mut [u8]) -> u8;
/// Plays a portion: the lent state, and the same.
type Portion = fn(&mut State, &mut [u8], &[u8], &mut [u8], &mut [u8]) -> u8;
/// Tells a write to the medium: the lent state, store, event word, working buffer, number, and the write.
type TellWrite = fn(&State, &[u8], &[u8], &[u8], u8, &mut [u8]) -> u8;

/// The operations of an edition's library.
struct Library {
    /// As `tools/archives` knows it.
    name: &'static str,
    fresh: fn(&mut [u8]) -> u8,
    run: Run,
    age: fn(&[u8], u8, u32, u32, &mut i64) -> u8,
    /// Those on a lent state, where there is one.
    lent: Option<Lent>,
}

/// Operations on a lent state: a portion, and a write to the medium of the event that comes next.
struct Lent {
    portion: Portion,
    write: TellWrite,
}

const FIRST: Library = Library {
    name: "nekahuiro",
    fresh: raw::fresh,
    run: raw::run,
    age: raw::age,
    lent: Some(Lent { portion: raw::portion, write: raw::page_write }),
};

const SECOND: Library = Library {
    name: "nekahuiro_edition2",
    fresh: raw::edition2::fresh,
    run: raw::edition2::run,
    age: raw::edition2::age,
    lent: None,
};

const PAIRS: Library = Library {
    name: "nekahuiro_pairs",
    fresh: raw::pairs::fresh,
    run: raw::pairs::run,
    age: raw::pairs::age,
    lent: Some(Lent { portion: raw::pairs::portion, write: raw::pairs::page_write }),
};

fn library_of(edition: Edition) -> &'static Library {
    match edition {
        Edition::SECOND => &SECOND,
        Edition::PAIRS => &PAIRS,
        _ => &FIRST,
    }
}

/// The library of an edition, as `tools/archives` knows it.
pub fn library(edition: Edition) -> &'static str {
    library_of(edition).name
}

/// Whether an edition's events can be played in portions, on a state that is lent.
pub fn is_lent(edition: Edition) -> bool {
    library_of(edition).lent.is_some()
}

/// What one write to the medium writes: a page, or where pages can tear a copy of one.
#[derive(Clone, Copy, Debug, PartialEq, Eq)]
pub struct Write {
    /// The number of the page.
    pub page: u8,
    /// Which copy, where pages can tear.
    pub half: Option<Half>,
    /// What it holds then.
    pub bytes: Page,
}

impl From<PageWrite> for Write {
    fn from(PageWrite { page, bytes }: PageWrite) -> Write {
        Write { page, half: None, bytes }
    }
}

impl From<CopyWrite> for Write {
    fn from(CopyWrite { page, half, bytes }: CopyWrite) -> Write {
        Write { page, half: Some(half), bytes }
    }
}

impl Store {
    /// A fresh store of an edition.
    pub fn fresh(edition: Edition) -> Store {
        let mut bytes = vec![0; edition.store_bytes()];
        // The length is right, so this can't be refused.
        (library_of(edition).fresh)(&mut bytes);
        Store { edition, bytes }
    }

    /// The store in these bytes, of the edition that their number says; none if there is no such edition.
    pub fn of(bytes: Vec<u8>) -> Option<Store> {
        let edition = Edition::ALL.into_iter().find(|edition| edition.store_bytes() == bytes.len())?;
        Some(Store { edition, bytes })
    }

    /// All bytes.
    pub fn bytes(&self) -> &[u8] {
        &self.bytes
    }

    /// Plays a list of event words, from a start: one answer each.
    pub fn play_words(&mut self, words: &[u8]) -> Result<Vec<Answer>, Refused> {
        let mut work = vec![0; self.edition.work_bytes()];
        let run = library_of(self.edition).run;
        self.answered(words, |store, answers| run(&mut store.bytes, words, &mut work, answers))
    }

    /// The same for events.
    pub fn play(&mut self, events: &[Event]) -> Result<Vec<Answer>, Refused> {
        let words: Vec<u8> = events.iter().flat_map(|event| self.edition.word(event.fields())).collect();
        self.play_words(&words)
    }

    /// Plays a portion of event words on a lent state, where the edition has one.
    pub fn portion(&mut self, Kept { state, work }: &mut Kept, words: &[u8]) -> Result<Vec<Answer>, Refused> {
        let Lent { portion, .. } = self.lent()?;
        self.answered(words, |store, answers| portion(state, &mut store.bytes, words, work.bytes_mut(), answers))
    }

    /// The write to the medium of this number, from 0, that an event makes on a lent state if nothing cuts it; none if
    /// there are fewer.
    pub fn write(&self, kept: &Kept, word: &[u8], index: u8) -> Result<Option<Write>, Refused> {
        let Lent { write, .. } = self.lent()?;
        let (mut page, mut copy) = ([0; PAGE_WRITE_BYTES], [0; COPY_WRITE_BYTES]);
        let told = if self.edition.tears { &mut copy[..] } else { &mut page[..] };
        match write(&kept.state, &self.bytes, word, kept.work.bytes(), index, told) {
            0 if self.edition.tears => Ok(Some(CopyWrite::of(copy).into())),
            0 => Ok(Some(PageWrite::of(page).into())),
            NO_SUCH_WRITE => Ok(None),
            number => Err(Refused { edition: self.edition, number }),
        }
    }

    /// Refused as unsound where no state can be lent.
    fn lent(&self) -> Result<&'static Lent, Refused> {
        let number = Refusal::State.number();
        library_of(self.edition).lent.as_ref().ok_or(Refused { edition: self.edition, number })
    }

    /// The writes to the medium that mend it before a recovery that isn't refused; none where pages don't tear.
    pub fn mends(&self) -> Vec<Write> {
        self.as_pairs().map_or(Vec::new(), |pairs| pairs.mends().into_iter().map(Write::from).collect())
    }

    /// The store as pairs of copies, where pages can tear.
    fn as_pairs(&self) -> Option<pairs::Store> {
        pairs::Store::of(&self.bytes).ok().filter(|_| self.edition.tears)
    }

    /// The copies of a page, where pages can tear.
    pub fn copies(&self, page: usize) -> Option<[PageCopy; 2]> {
        self.as_pairs().map(|pairs| Half::BOTH.map(|half| pairs.copy(page, half)))
    }

    fn answered(
        &mut self,
        words: &[u8],
        play: impl FnOnce(&mut Store, &mut [u8]) -> u8,
    ) -> Result<Vec<Answer>, Refused> {
        let mut answers = vec![0; words.len() / self.edition.event_bytes * ANSWER_BYTES];
        match play(self, &mut answers) {
            0 => Ok(answers.chunks_exact(ANSWER_BYTES).map(|pair| Answer::of([pair[0], pair[1]])).collect()),
            number => Err(Refused { edition: self.edition, number }),
        }
    }

    /// How old a record is at a clock reading.
    pub fn age(&self, record: Record, clock: Clock, limit: Limit) -> Result<Verdict, Refused> {
        let (record, mut age) = (record.number(), 0);
        let answer = (library_of(self.edition).age)(&self.bytes, record, clock.0, limit.0, &mut age);
        Verdict::of(answer, age).map_err(|_| Refused { edition: self.edition, number: answer })
    }

    /// What page 0 says.
    pub fn commit_page(&self) -> CommitPage {
        match self.shown(0) {
            Some(page) => self.edition.commit_page(&page),
            None => CommitPage::Damaged("neither of its copies is good"),
        }
    }

    /// Why a recover and an age are refused with 4, if they are.
    pub fn damage(&self) -> Option<String> {
        match self.commit_page() {
            CommitPage::Damaged(why) => Some(format!("page 0 is damaged: {why}")),
            _ => {
                self.lost().map(|page| format!("page {page}, {}, has no good copy", page_in_words(self.edition, page)))
            }
        }
    }

    /// The first page without a good copy.
    pub fn lost(&self) -> Option<usize> {
        (0..self.edition.pages()).find(|page| self.shown(*page).is_none())
    }

    /// Its records, rising.
    pub fn records(&self) -> impl Iterator<Item = Record> {
        Record::all().take(self.edition.records)
    }

    /// The number of a record's intention page.
    pub fn intention(record: Record) -> usize {
        1 + usize::from(record.number())
    }

    /// The number of a record's home page.
    pub fn home(&self, record: Record) -> usize {
        self.edition.records + Store::intention(record)
    }

    /// Where a record's settled value stands.
    pub fn place(&self, record: Record) -> Place {
        match self.commit_page() {
            CommitPage::Committed(map) if map.names(record) => Place::Intention,
            _ => Place::Home,
        }
    }

    /// A record's settled value.
    pub fn settled(&self, record: Record) -> Page {
        match self.place(record) {
            Place::Intention => self.page(Store::intention(record)),
            Place::Home => self.page(self.home(record)),
        }
    }

    /// A page by its number; zeros if there is no such page, or none of its copies is good.
    pub fn page(&self, number: usize) -> Page {
        self.shown(number).unwrap_or([0; PAGE_BYTES])
    }

    /// A page as the store shows it: where pages can tear, its first good copy.
    fn shown(&self, number: usize) -> Option<Page> {
        match self.copies(number) {
            Some(copies) => copies.into_iter().find(PageCopy::is_good).map(|copy| copy.bytes),
            None => self.bytes.chunks_exact(PAGE_BYTES).nth(number)?.try_into().ok(),
        }
    }
}

/// An edition in words, as `edition 2`.
pub fn edition_in_words(edition: Edition) -> String {
    match edition.tears {
        true => format!("edition {} on pages that can tear", edition.number),
        false => format!("edition {}", edition.number),
    }
}

/// What a page of an edition is, such as `the home page of record 3`.
pub fn page_in_words(edition: Edition, page: usize) -> String {
    match page {
        0 => "the commit page".to_string(),
        page if page <= edition.records => format!("the intention page of record {}", page - 1),
        page => format!("the home page of record {}", page - 1 - edition.records),
    }
}
