//! The forms of the store: what they differ in, and the operations of each.

use crate::limits::{ANSWER_BYTES, DEPTH_LIMIT, EVENTS, PAGE_BYTES};
use crate::locks::{Share, Table};
use crate::medium::{Atomic, Medium, Paired};
use crate::planted::Planted;
use crate::store::{self, CommitPage, Page, Stable};
use crate::{event, limits, Age, Answer, Player, Volatile};
use crate::{BAD_LIST, BAD_RECORD, BAD_STATE, BAD_STORE, BAD_WORK, DAMAGED, SHORT_ANSWERS};

/// Edition 1 on atomic pages: sixteen records, and transactions that can be prepared.
#[derive(Clone)]
pub struct Plain;

/// Edition 2: sixty-four records and words of eight bytes.
#[derive(Clone)]
pub struct Edition2;

/// Edition 1 where each page is a pair of copies, of which the power can tear one.
#[derive(Clone)]
pub struct Pairs;

impl Form for Plain {
    const EDITION: u8 = limits::EDITION;
    const RECORDS: usize = limits::RECORDS;
    const RECORD_BITS: u32 = 4;
    const COUNT_BITS: u32 = 6;
    const TWO_PHASES: bool = true;
    type Word = [u8; limits::EVENT_BYTES];
    type Bytes = [u8; limits::STORE_BYTES];
    type Table = [Vec<Share>; limits::RECORDS];
    type Medium = Atomic;
}

impl Form for Edition2 {
    const EDITION: u8 = 2;
    const RECORDS: usize = 64;
    const RECORD_BITS: u32 = 6;
    const COUNT_BITS: u32 = 8;
    const TWO_PHASES: bool = false;
    type Word = [u8; 8];
    type Bytes = [u8; 4_128];
    type Table = [Vec<Share>; 64];
    type Medium = Atomic;
}

impl Form for Pairs {
    const EDITION: u8 = Plain::EDITION;
    const RECORDS: usize = Plain::RECORDS;
    const RECORD_BITS: u32 = Plain::RECORD_BITS;
    const COUNT_BITS: u32 = Plain::COUNT_BITS;
    const TWO_PHASES: bool = false;
    type Word = <Plain as Form>::Word;
    type Bytes = [u8; 2_178];
    type Table = <Plain as Form>::Table;
    type Medium = Paired;
}

/// An event word as it comes.
pub trait Word: Copy {
    /// Its bytes.
    const BYTES: usize;
    /// The word in as many bytes.
    fn of(bytes: &[u8]) -> Self;
    /// The word of these bits, of which the last is the least.
    fn of_bits(bits: u64) -> Self;
    /// Its bits, the last as the least.
    fn bits(self) -> u64;
}

impl<const N: usize> Word for [u8; N] {
    const BYTES: usize = N;

    fn of(bytes: &[u8]) -> Self {
        let mut word = [0; N];
        word.copy_from_slice(bytes);
        word
    }

    fn of_bits(bits: u64) -> Self {
        Self::of(&bits.to_be_bytes()[8 - N..])
    }

    fn bits(self) -> u64 {
        let mut bits = [0; 8];
        bits[8 - N..].copy_from_slice(&self);
        u64::from_be_bytes(bits)
    }
}

/// The bytes of a store.
pub trait Bytes: AsRef<[u8]> + AsMut<[u8]> {
    /// How many there are.
    const NUMBER: usize;
    /// A lent buffer as a store, if it has as many bytes.
    fn over(lent: &[u8]) -> Option<&Self>;
    /// The same, to change.
    fn over_mut(lent: &mut [u8]) -> Option<&mut Self>;
}

impl<const N: usize> Bytes for [u8; N] {
    const NUMBER: usize = N;

    fn over(lent: &[u8]) -> Option<&Self> {
        lent.try_into().ok()
    }

    fn over_mut(lent: &mut [u8]) -> Option<&mut Self> {
        lent.try_into().ok()
    }
}

/// A form of the store: its numbers, the medium that its pages are on, and its operations, which are the same for
/// every form. Rules of transactions, locks and versions know nothing of it.
///
/// ```
/// use nekahuiro_player::{Edition2, Form, Pairs};
///
/// assert_eq!((Edition2::STORE_BYTES, Edition2::WORK_BYTES, Edition2::EVENT_BYTES), (4_128, 32_768, 8));
/// assert_eq!((Pairs::STORE_BYTES, Pairs::WORK_BYTES, Pairs::EVENT_BYTES), (2_178, 8_192, 4));
/// let mut store = [0xFF; Pairs::STORE_BYTES];
/// assert_eq!(Pairs::fresh(&mut store), 0);
/// assert_eq!((&store[..2], &store[33..35], &store[66..68]), (&[1, 0x10][..], &[1, 0x10][..], &[1, 0][..]));
/// ```
pub trait Form: Clone {
    /// The edition in the commit page.
    const EDITION: u8;
    /// Records in a store: a multiple of 8.
    const RECORDS: usize;
    /// Bits of an event word's record field.
    const RECORD_BITS: u32;
    /// Bits of an event word's count field.
    const COUNT_BITS: u32;
    /// Whether there are prepare, decide and query, and commit pages that say prepared.
    const TWO_PHASES: bool;
    /// An event word.
    type Word: Word;
    /// The bytes of a store: the space of each page.
    type Bytes: Bytes;
    /// The lock of each record.
    type Table: Table;
    /// What the pages are on.
    type Medium: Medium;

    /// Pages of a store: the commit page, then an intention and a home page for each record.
    const PAGES: usize = 1 + 2 * Self::RECORDS;
    /// How many bytes a store has.
    const STORE_BYTES: usize = Self::Bytes::NUMBER;
    /// Bytes of the working buffer.
    const WORK_BYTES: usize = Self::RECORDS * DEPTH_LIMIT as usize * PAGE_BYTES;
    /// Bytes of an event word.
    const EVENT_BYTES: usize = Self::Word::BYTES;

    /// Plays a list of event words. The working buffer is only measured: versions live in maps.
    fn run(store: &mut [u8], events: &[u8], work: &mut [u8], answers: &mut [u8]) -> u8 {
        match open::<Self>(store, events, work, answers) {
            Ok(store) => play(Player::new(store, &mut Volatile::default()), events, answers),
            Err(number) => number,
        }
    }

    /// Plays a portion of event words from what the volatile remembers, and leaves it to the next portion.
    /// All that can be wrong with a volatile is the store that comes with it.
    fn portion(
        volatile: &mut Volatile<Self>,
        store: &mut [u8],
        events: &[u8],
        work: &mut [u8],
        answers: &mut [u8],
    ) -> u8 {
        match open::<Self>(store, events, work, answers).map(|store| Player::new(store, volatile)) {
            Ok(player) if !player.is_sound() => BAD_STATE,
            Ok(player) => play(player, events, answers),
            Err(number) => number,
        }
    }

    /// The page writes that an event word makes if nothing cuts it, in their order: the number of each page, and its
    /// bytes. None at all where the store has the wrong length or the volatile can't be with it.
    fn page_writes(volatile: &Volatile<Self>, store: &[u8], word: Self::Word) -> Option<Vec<(u8, Page)>> {
        let (mut volatile, mut store) = (volatile.clone(), store.to_vec());
        let player: Player<Self> = Player::new(Stable::over(&mut store)?, &mut volatile);
        let script = player.is_sound().then(|| player.page_writes(event::uncut_as::<Self>(word)))?;
        Some(script.into_iter().map(|(place, page)| (place.number_among(Self::RECORDS), page)).collect())
    }

    /// Lays down a fresh store.
    fn fresh(store: &mut [u8]) -> u8 {
        if store.len() != Self::STORE_BYTES {
            return BAD_STORE;
        }
        let pages = std::iter::once(store::empty_page::<Self>()).chain(std::iter::repeat([0; PAGE_BYTES]));
        for (space, page) in store.chunks_exact_mut(Self::Medium::SPACE).zip(pages) {
            Self::Medium::write(space, &page);
        }
        0
    }

    /// Tells the age of a record at a clock reading, or the number of the refusal.
    fn age(store: &[u8], record: u8, clock: u32, limit: u32) -> Result<Age, u8> {
        age::<Self>(store, record, clock, limit, Planted::default())
    }

    /// What page 0 of a store says; none if the store has the wrong length.
    fn commit_page(store: &[u8]) -> Option<CommitPage> {
        Some(store::commit_page_as::<Self>(Self::Bytes::over(store)?, Planted::default()))
    }

    /// Whether there is nothing to mend in a store, as there has to be while up.
    fn is_even(store: &[u8]) -> bool {
        store.chunks_exact(Self::Medium::SPACE).all(Self::Medium::is_even)
    }

    /// As [`Form::run`], with a bug.
    #[cfg(feature = "planted")]
    fn run_with_bug(
        bug: crate::planted::Bug,
        store: &mut [u8],
        events: &[u8],
        work: &mut [u8],
        answers: &mut [u8],
    ) -> u8 {
        let events = match bug {
            // Half a word may stand behind the last.
            crate::planted::Bug::ListOfHalfWords => &events[..events.len() - events.len() % Self::EVENT_BYTES],
            _ => events,
        };
        match open::<Self>(store, events, work, answers) {
            Ok(store) => {
                let mut volatile = Volatile::default();
                let mut player = Player::new(store, &mut volatile);
                player.plant(Some(bug));
                play(player, events, answers)
            }
            Err(number) => number,
        }
    }

    /// As [`Form::age`], with a bug.
    #[cfg(feature = "planted")]
    fn age_with_bug(bug: crate::planted::Bug, store: &[u8], record: u8, clock: u32, limit: u32) -> Result<Age, u8> {
        age::<Self>(store, record, clock, limit, Planted::with(Some(bug)))
    }
}

/// The refusals before the first event, in their order.
fn open<'s, F: Form>(store: &'s mut [u8], events: &[u8], work: &[u8], answers: &[u8]) -> Result<Stable<'s, F>, u8> {
    let store = Stable::over(store).ok_or(BAD_STORE)?;
    if work.len() != F::WORK_BYTES {
        return Err(BAD_WORK);
    }
    if events.len() % F::EVENT_BYTES != 0 || events.len() > EVENTS * F::EVENT_BYTES {
        return Err(BAD_LIST);
    }
    if answers.len() < events.len() / F::EVENT_BYTES * ANSWER_BYTES {
        return Err(SHORT_ANSWERS);
    }
    Ok(store)
}

fn play<F: Form>(mut player: Player<F>, events: &[u8], answers: &mut [u8]) -> u8 {
    for (word, place) in events.chunks_exact(F::EVENT_BYTES).zip(answers.chunks_exact_mut(ANSWER_BYTES)) {
        let Answer(number, value) = player.step(F::Word::of(word));
        place.copy_from_slice(&[number, value]);
    }
    0
}

fn age<F: Form>(store: &[u8], record: u8, clock: u32, limit: u32, planted: Planted) -> Result<Age, u8> {
    let store = F::Bytes::over(store).ok_or(BAD_STORE)?;
    if usize::from(record) >= F::RECORDS {
        return Err(BAD_RECORD);
    }
    let page = store::settled::<F>(store, event::Record(record), planted).ok_or(DAMAGED)?;
    let stamp = u32::from_be_bytes([page[0], page[1], page[2], page[3]]);
    Ok(match i64::from(clock) - i64::from(stamp) {
        age if age < 0 => Age::Ahead(age),
        age if age <= i64::from(limit) => Age::Live(age),
        age => Age::Stale(age),
    })
}
