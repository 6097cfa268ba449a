//! Events in words: `write 1 3 2 A5`. Values are two hex digits, all else is decimal, identities too. A count may be
//! left out: then it is the largest that there is, 63 in edition 1, with which no power cut comes. Where pages can tear,
//! a word after the count says what becomes of the next page write: `commit 0 1 second-bad`.

use crate::limits::{EVENT_BYTES, PAGE_BYTES, TRANSACTION_NAMES};
use crate::{any, Cuts, Edition, Event, EventOf, Fields, Identifies, RecordOf, Tear, Transaction};
use std::fmt;
use std::str::{FromStr, SplitWhitespace};

/// Why a line tells no event, and how to mend it.
#[derive(Clone, Debug, PartialEq, Eq)]
pub struct BadWords {
    /// What is wrong.
    pub reason: String,
    /// What to write instead.
    pub mend: String,
}

impl fmt::Display for BadWords {
    fn fmt(&self, f: &mut fmt::Formatter) -> fmt::Result {
        write!(f, "{}; {}", self.reason, self.mend)
    }
}

impl std::error::Error for BadWords {}

/// An event's name, and how it is written.
type Form = (&'static str, &'static str);

/// How each event is written; those of two phases come last.
const FORMS: [Form; 12] = [
    ("begin", "begin none | begin PARENT"),
    ("lock", "lock TRANSACTION RECORD"),
    ("read-lock", "read-lock TRANSACTION RECORD"),
    ("write", "write TRANSACTION RECORD OFFSET VALUE"),
    ("read", "read TRANSACTION RECORD OFFSET"),
    ("commit", "commit TRANSACTION [COUNT]"),
    ("abort", "abort TRANSACTION | abort TRANSACTION report"),
    ("crash", "crash"),
    ("recover", "recover [COUNT]"),
    ("prepare", "prepare TRANSACTION [COUNT] IDENTITY"),
    ("decide", "decide commit [COUNT] IDENTITY | decide abort [COUNT] IDENTITY"),
    ("query", "query IDENTITY"),
];
/// How many of them are of two phases.
const OF_TWO_PHASES: usize = 3;

/// How a commit and a recover are written where pages can tear.
const TORN_FORMS: [Form; 2] = [
    ("commit", "commit TRANSACTION [COUNT [first-bad | second-bad | second-old]]"),
    ("recover", "recover [COUNT [first-bad | second-bad | second-old]]"),
];

/// The names of the kinds of events, from 1.
const KINDS: [&str; 11] =
    ["begin", "lock", "write", "read", "commit", "abort", "crash", "recover", "prepare", "decide", "query"];

impl<const RECORDS: usize, I: Identifies, C: Cuts> fmt::Display for EventOf<RECORDS, I, C> {
    fn fmt(&self, f: &mut fmt::Formatter) -> fmt::Result {
        match self {
            EventOf::Begin { parent } if *parent == Transaction::NONE => write!(f, "begin none"),
            EventOf::Begin { parent } => write!(f, "begin {parent}"),
            EventOf::Lock { transaction, record } => write!(f, "lock {transaction} {record}"),
            EventOf::ReadLock { transaction, record } => write!(f, "read-lock {transaction} {record}"),
            EventOf::Write { transaction, record, offset, value } => {
                write!(f, "write {transaction} {record} {offset} {value:02X}")
            }
            EventOf::Read { transaction, record, offset } => write!(f, "read {transaction} {record} {offset}"),
            EventOf::Commit { transaction, count } => write!(f, "commit {transaction} {count}"),
            EventOf::Abort { transaction, report: false } => write!(f, "abort {transaction}"),
            EventOf::Abort { transaction, report: true } => write!(f, "abort {transaction} report"),
            EventOf::Crash => write!(f, "crash"),
            EventOf::Recover { count } => write!(f, "recover {count}"),
            EventOf::Prepare { transaction, count, identity } => write!(f, "prepare {transaction} {count} {identity}"),
            EventOf::Decide { commit, count, identity } => {
                write!(f, "decide {} {count} {identity}", if *commit { "commit" } else { "abort" })
            }
            EventOf::Query { identity } => write!(f, "query {identity}"),
        }
    }
}

/// A word in words: the event, or the word itself in hex if it is bad.
pub fn describe(word: [u8; EVENT_BYTES]) -> String {
    Edition::FIRST.describe(&word)
}

/// Why a word is bad, or none if it isn't.
pub fn why_bad(word: [u8; EVENT_BYTES]) -> Option<String> {
    Edition::FIRST.why_bad(&word)
}

impl Edition {
    /// A word of this edition in words: the event, or the word itself in hex if it is bad.
    pub fn describe(self, word: &[u8]) -> String {
        match self.event(word) {
            Some::<any::Event>(event) => event.to_string(),
            None => word.iter().map(|byte| format!("{byte:02X}")).collect(),
        }
    }

    /// Why a word of this edition is bad, or none if it isn't.
    pub fn why_bad(self, word: &[u8]) -> Option<String> {
        if self.event::<64, crate::Identity, crate::Cut>(word).is_some() {
            return None;
        }
        if word.len() != self.event_bytes {
            return Some(format!("a word has {} bytes", self.event_bytes));
        }
        let kinds = &KINDS[..if self.two_phases { KINDS.len() } else { KINDS.len() - OF_TWO_PHASES }];
        let kind = word[0] >> 4;
        let Some(name) = kinds.get(usize::from(kind).wrapping_sub(1)) else {
            return Some(format!("there is no kind {kind}"));
        };
        let Some(Fields { offset, value, .. }) = self.fields(word) else {
            return Some(format!("{name} with a bit behind its fields that isn't 0"));
        };
        Some(match *name {
            "lock" if value > 1 => format!("lock in mode {value}: there are 0 to write and 1 to read"),
            "abort" if value > 1 => format!("abort with value {value}: there are 0, and 1 with a report"),
            "commit" | "recover" if self.tears && value > 3 => {
                format!("{name} with value {value}: there are 0, and 1 to 3 for a torn page write")
            }
            "decide" if offset > 1 => format!("decide with offset {offset}: there are 1 to commit and 0 to abort"),
            name => format!("{name} with a field that it doesn't use and that isn't 0"),
        })
    }

    /// An event of this edition in words.
    pub fn parse<const RECORDS: usize, I: Identifies, C: Cuts>(
        self,
        line: &str,
    ) -> Result<EventOf<RECORDS, I, C>, BadWords> {
        let (name, mut words) = Words::of(line, self)?;
        let event = match name {
            "begin" => EventOf::Begin { parent: words.parent()? },
            "lock" => EventOf::Lock { transaction: words.transaction()?, record: words.record()? },
            "read-lock" => EventOf::ReadLock { transaction: words.transaction()?, record: words.record()? },
            "write" => EventOf::Write {
                transaction: words.transaction()?,
                record: words.record()?,
                offset: words.offset()?,
                value: words.value()?,
            },
            "read" => {
                EventOf::Read { transaction: words.transaction()?, record: words.record()?, offset: words.offset()? }
            }
            "commit" => EventOf::Commit { transaction: words.transaction()?, count: words.cut()? },
            "abort" => EventOf::Abort { transaction: words.transaction()?, report: words.report() },
            "crash" => EventOf::Crash,
            "prepare" => EventOf::Prepare {
                transaction: words.transaction()?,
                count: words.count(1)?,
                identity: words.identity()?,
            },
            "decide" => {
                EventOf::Decide { commit: words.decision()?, count: words.count(1)?, identity: words.identity()? }
            }
            "query" => EventOf::Query { identity: words.identity()? },
            _ => EventOf::Recover { count: words.cut()? },
        };
        words.end()?;
        Ok(event)
    }

    /// How its events are written.
    fn forms(self) -> &'static [Form] {
        &FORMS[..if self.two_phases { FORMS.len() } else { FORMS.len() - OF_TWO_PHASES }]
    }
}

impl FromStr for Event {
    type Err = BadWords;

    fn from_str(line: &str) -> Result<Event, BadWords> {
        Edition::FIRST.parse(line)
    }
}

fn unknown(name: &str, forms: &[Form]) -> BadWords {
    let names: Vec<&str> = forms.iter().map(|(name, _)| *name).collect();
    let reason = match name {
        "" => "no event".to_string(),
        _ => format!("`{name}` is no event"),
    };
    BadWords { reason, mend: format!("begin the line with one of {}", names.join(", ")) }
}

/// The words after the event's name.
struct Words<'l> {
    rest: SplitWhitespace<'l>,
    form: &'static str,
    edition: Edition,
}

impl<'l> Words<'l> {
    /// The name of a line's event, which is one of this edition, and the words after it.
    fn of(line: &'l str, edition: Edition) -> Result<(&'static str, Words<'l>), BadWords> {
        let mut rest = line.split_whitespace();
        let name = rest.next().unwrap_or_default();
        match edition.forms().iter().find(|(known, _)| known.eq_ignore_ascii_case(name)) {
            Some((name, form)) => {
                let torn = TORN_FORMS.iter().find(|(torn, _)| edition.tears && torn == name);
                Ok((name, Words { rest, form: torn.map_or(*form, |(_, form)| *form), edition }))
            }
            None => Err(unknown(name, edition.forms())),
        }
    }

    fn bad<T>(&self, reason: String) -> Result<T, BadWords> {
        Err(BadWords { reason, mend: format!("write `{}`", self.form) })
    }

    fn next(&mut self, what: &str) -> Result<&str, BadWords> {
        match self.rest.next() {
            Some(word) => Ok(word),
            None => self.bad(format!("the {what} is missing")),
        }
    }

    /// A number from 0 to `limit - 1`.
    fn below(&mut self, what: &str, limit: usize, radix: u32) -> Result<u8, BadWords> {
        let word = self.next(what)?.to_string();
        match u32::from_str_radix(&word, radix) {
            Ok(number) if (number as usize) < limit && !word.starts_with('+') => Ok(number as u8),
            _ if radix == 16 => self.bad(format!("the {what} `{word}` isn't a hex number from 00 to FF")),
            _ => self.bad(format!("the {what} `{word}` isn't a number from 0 to {}", limit - 1)),
        }
    }

    fn named<N>(&mut self, what: &str, limit: usize, number: fn(u8) -> Option<N>) -> Result<N, BadWords> {
        let plain = self.below(what, limit, 10)?;
        match number(plain) {
            Some(number) => Ok(number),
            None => self.bad(format!("there is no {what} {plain}")),
        }
    }

    fn transaction(&mut self) -> Result<Transaction, BadWords> {
        self.named("transaction", TRANSACTION_NAMES, Transaction::new)
    }

    fn parent(&mut self) -> Result<Transaction, BadWords> {
        match self.rest.clone().next() {
            Some(word) if word.eq_ignore_ascii_case("none") => {
                self.rest.next();
                Ok(Transaction::NONE)
            }
            _ => self.named("parent", TRANSACTION_NAMES, Transaction::new),
        }
    }

    /// Whether the word `report` comes.
    fn report(&mut self) -> bool {
        let said = self.rest.clone().next().is_some_and(|word| word.eq_ignore_ascii_case("report"));
        if said {
            self.rest.next();
        }
        said
    }

    /// Whether it is to commit, or else to abort.
    fn decision(&mut self) -> Result<bool, BadWords> {
        let word = self.next("decision")?.to_string();
        match word.to_ascii_lowercase().as_str() {
            "commit" => Ok(true),
            "abort" => Ok(false),
            _ => self.bad(format!("`{word}` is no decision")),
        }
    }

    fn identity<I: Identifies>(&mut self) -> Result<I, BadWords> {
        self.named("identity", 256, I::of)
    }

    fn record<const RECORDS: usize>(&mut self) -> Result<RecordOf<RECORDS>, BadWords> {
        self.named("record", self.edition.records, RecordOf::new)
    }

    fn offset(&mut self) -> Result<u8, BadWords> {
        self.below("offset", PAGE_BYTES, 10)
    }

    fn value(&mut self) -> Result<u8, BadWords> {
        self.below("value", 256, 16)
    }

    /// The count, unless only the `after` words are left that come after it.
    fn count(&mut self, after: usize) -> Result<u8, BadWords> {
        if self.rest.clone().count() <= after {
            return Ok(self.edition.count_limit());
        }
        self.below("count", usize::from(self.edition.count_limit()) + 1, 10)
    }

    /// The count, and where pages can tear what becomes of the next page write.
    fn cut<C: Cuts>(&mut self) -> Result<C, BadWords> {
        let count = self.count(0)?;
        let tears = if self.edition.tears { &Tear::ALL[..] } else { &[Tear::None] };
        let said = self.rest.clone().next().unwrap_or_default();
        let tear = (0..).zip(tears).find(|(_, tear)| tear.word().eq_ignore_ascii_case(said));
        match tear.map(|(value, _)| C::of(count, value)) {
            Some(Some(cut)) => {
                self.rest.next();
                Ok(cut)
            }
            _ if self.edition.tears => self.bad(format!("`{said}` is no way in which a page write is torn")),
            _ => self.bad(format!("`{said}` is one word too many")),
        }
    }

    fn end(&mut self) -> Result<(), BadWords> {
        match self.rest.next() {
            None => Ok(()),
            Some(word) => self.bad(format!("`{word}` is one word too many")),
        }
    }
}
