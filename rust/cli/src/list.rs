//! Event lists as files: raw words, hex words, or words.

use crate::failure::{Failure, Outcome};
use crate::files::{name_of, read_list};
use crate::names::{Known, Named};
use crate::store::is_lent;
use nekahuiro::limits::EVENTS;
use nekahuiro::{BadWords, Edition};
use std::collections::BTreeMap;

/// The longest word that can be part of a list: no event has one half as long.
const LONGEST_WORD: usize = 32;
/// As much of a line as a message shows.
const SHOWN: usize = 60;

/// How a list is written, for the help.
pub const HELP: &str = "\
EVENTS is a file, or - for standard input. It is UTF-8 text with events in words, one to a line, or event
words in hex; # starts a comment. With --raw it has raw event words of 4 bytes.

  begin none | begin PARENT               a transaction begins, at the top or under another; its number is
                                          the answer, the lowest that is free, from 0
  begin none as NAME                      the same, and NAME may stand for its number in the lines after it
  lock TRANSACTION RECORD                 to read and to write, alone; records are 0 to 15
  read-lock TRANSACTION RECORD            only to read, beside other readers
  write TRANSACTION RECORD OFFSET VALUE   one byte: OFFSET is its place in the record, 0 to 31; VALUE is two
                                          hex digits, as A5; all else is decimal
  read TRANSACTION RECORD OFFSET          one byte; it is the answer
  commit TRANSACTION [COUNT]              COUNT makes a power cut: after so many page writes the power goes.
                                          Left out it is 63, more than are ever due, and no cut comes
  abort TRANSACTION                       its changes and locks go
  abort TRANSACTION report                its parent retains its locks, since it told what it read
  crash                                   the power goes: what isn't committed is lost
  recover [COUNT]                         a run starts down: recover comes first
  prepare TRANSACTION [COUNT] IDENTITY    end it, its changes waiting for the decision on an identity
  decide commit [COUNT] IDENTITY          the decision; for an identity that isn't prepared it does nothing
  decide abort [COUNT] IDENTITY
  query IDENTITY                          whether it is prepared: 1 or 0; identities are from 0 to 255

A list for a store of edition 2 is written in the same way: its records are 0 to 63, a COUNT is at most 255 and left
out 255, a word has 16 hex digits or 8 raw bytes, and there are no prepare, decide and query.

In a list for a store on pages that can tear, a word after COUNT says what becomes of the page write that comes next:
`first-bad`, its first copy is left bad; `second-bad`, its first copy is new and the second bad; `second-old`, its first
copy is new and the second old. In the last two cases that page write counts as made. There are no prepare, decide
and query.
";

/// A list of events in raw words, with the names in it by event.
pub struct List {
    /// Whose words they are.
    pub edition: Edition,
    /// One after the other. Where somebody is named, their number is still to come.
    pub words: Vec<u8>,
    /// The events with names.
    pub names: BTreeMap<usize, Named>,
}

impl List {
    /// A list without names.
    pub fn plain(edition: Edition, words: Vec<u8>) -> List {
        List { edition, words, names: BTreeMap::new() }
    }
}

/// Reads a list of events of an edition; `raw` says that it has raw words.
pub fn read_named(edition: Edition, path: &str, raw: bool) -> Outcome<List> {
    let bytes = read_list(path)?;
    let name = name_of(path);
    match raw {
        true => Ok(List::plain(edition, whole(edition, name, bytes)?)),
        false => parse(edition, name, text(name, &bytes)?),
    }
}

/// Reads a list without names into raw words; `raw` says that it has them already.
pub fn read(edition: Edition, path: &str, raw: bool) -> Outcome<Vec<u8>> {
    let list = read_named(edition, path, raw)?;
    match list.names.first_key_value() {
        None => Ok(list.words),
        Some((at, _)) => {
            let reason = format!("{}, event {}: {NO_NAMES}", name_of(path), at + 1);
            Err(Failure::refused(&reason, "give numbers here; `./nekahuiro play` takes names"))
        }
    }
}

/// Why names aren't taken where nothing is played.
const NO_NAMES: &str = "the number of a name is known from the answers only";

/// The mend for what is no text.
const SAVE: &str = "save the list as UTF-8 text; raw event words are taken only with --raw";

/// The bytes as text.
pub fn text<'b>(name: &str, bytes: &'b [u8]) -> Outcome<&'b str> {
    if bytes.starts_with(&[0xFF, 0xFE]) || bytes.starts_with(&[0xFE, 0xFF]) {
        return Err(Failure::refused(&format!("{name} seems to be UTF-16 text"), SAVE));
    }
    let found = std::str::from_utf8(bytes).map_err(|error| error.valid_up_to());
    let bad = |text: &str| text.find(|c: char| c.is_control() && !c.is_ascii_whitespace());
    let found = found.and_then(|text| bad(text).map_or(Ok(text), Err));
    found.map(|text| text.strip_prefix('\u{FEFF}').unwrap_or(text)).map_err(|at| {
        let line = 1 + bytes[..at].iter().filter(|byte| **byte == b'\n').count();
        Failure::refused(&format!("{name}, line {line}: the byte {:02X} is no text", bytes[at]), SAVE)
    })
}

/// Raw words, if they are whole.
fn whole(edition: Edition, name: &str, bytes: Vec<u8>) -> Outcome<Vec<u8>> {
    let word = edition.event_bytes;
    if bytes.len() % word != 0 {
        let length = crate::number_of(bytes.len(), "raw byte");
        let reason = format!("{name} has {length}, which is no whole number of {word}-byte event words (refusal 20)");
        return Err(Failure::refused(&reason, "check that the list is whole; one in text is taken without --raw"));
    }
    Ok(bytes)
}

/// Reads a list from text; a message names the line.
fn parse(edition: Edition, name: &str, text: &str) -> Outcome<List> {
    let (mut list, mut known) = (List::plain(edition, Vec::new()), Known::of(edition));
    for (number, whole) in (1..).zip(text.lines()) {
        let line = without_comment(whole);
        let (words, named) =
            line_events(&mut known, line).map_err(|bad| bad_line(&format!("{name}, line {number}"), line, &bad))?;
        if named.is_some() {
            list.names.insert(list.words.len() / edition.event_bytes, named);
        }
        list.words.extend(words);
    }
    Ok(list)
}

/// Whether the words are few enough for one run or portion.
pub fn check_length(edition: Edition, path: &str, words: &[u8]) -> Outcome {
    let events = words.len() / edition.event_bytes;
    if events > EVENTS {
        let name = name_of(path);
        let reason = format!("{name}: {events} events, but a run takes at most {EVENTS} (refusal 20)");
        let mend = match is_lent(edition) {
            true => format!("play it in portions, with `--portions {EVENTS}`"),
            false => "cut the list where nothing is live; each part starts with a recover".to_string(),
        };
        return Err(Failure::refused(&reason, &mend));
    }
    Ok(())
}

/// A line without what comes after `#`.
pub fn without_comment(line: &str) -> &str {
    line.split('#').next().unwrap_or_default().trim()
}

/// The message for a line that can't be read.
pub fn bad_line(place: &str, line: &str, bad: &BadWords) -> Failure {
    let line = format!("`{}`", shown(line));
    let reason = match bad.reason.contains(&line) {
        true => bad.reason.clone(),
        false => format!("{}, in {line}", bad.reason),
    };
    Failure::refused(&format!("{place}: {reason}"), &bad.mend)
}

/// As much of a line as a message has room for, without what would move the cursor.
fn shown(line: &str) -> String {
    let plain = |c: char| if c.is_control() { ' ' } else { c };
    let start: String = line.chars().take(SHOWN).map(plain).collect();
    if line.chars().nth(SHOWN).is_some() {
        start + ".."
    } else {
        start
    }
}

/// The raw words of a line without its comment, which may have no names.
pub fn line_words(edition: Edition, line: &str) -> Result<Vec<u8>, BadWords> {
    match line_events(&mut Known::of(edition), line)? {
        (words, named) if !named.is_some() => Ok(words),
        _ => Err(BadWords { reason: NO_NAMES.to_string(), mend: "leave out `as` and the name".to_string() }),
    }
}

/// The raw words of a line without its comment, and its names: an event in words, or any number of hex words.
pub fn line_events(known: &mut Known, line: &str) -> Result<(Vec<u8>, Named), BadWords> {
    let Some(first) = line.split_whitespace().next() else { return Ok(<_>::default()) };
    if let Some(long) = line.split_whitespace().find(|word| word.len() > LONGEST_WORD) {
        return Err(BadWords {
            reason: format!("a word of {} letters is no event", long.chars().count()),
            mend: mend(known.edition),
        });
    }
    if first.starts_with(|digit: char| digit.is_ascii_digit()) || first.bytes().all(|digit| digit.is_ascii_hexdigit()) {
        let expect = |word| expect_hex(known.edition, word);
        let words = line.split_whitespace().map(expect).collect::<Result<Vec<_>, _>>()?;
        return Ok((words.concat(), Named::default()));
    }
    known.event(line)
}

/// The mend for what is neither an event in words nor a hex word.
fn mend(edition: Edition) -> String {
    let (digits, recover) = match edition {
        Edition::SECOND => (16, "80000FF000000000"),
        _ => (8, "80003F00"),
    };
    format!("write {digits} hex digits, such as {recover}, or an event in words, such as `recover`")
}

fn expect_hex(edition: Edition, word: &str) -> Result<Vec<u8>, BadWords> {
    let other = Edition::ALL.into_iter().find(|other| *other != edition && hex_word(*other, word).is_some());
    hex_word(edition, word).ok_or_else(|| BadWords {
        reason: format!(
            "`{word}` isn't an event word{}{}",
            if edition == Edition::SECOND { " of edition 2" } else { "" },
            other.map_or(String::new(), |other| format!(", but one of edition {}", other.number))
        ),
        mend: mend(edition),
    })
}

/// An event word of an edition from hex digits, two a byte.
pub fn hex_word(edition: Edition, word: &str) -> Option<Vec<u8>> {
    let digits = word.len() == 2 * edition.event_bytes && word.bytes().all(|digit| digit.is_ascii_hexdigit());
    let byte = |at: usize| u8::from_str_radix(word.get(2 * at..2 * at + 2)?, 16).ok();
    (0..edition.event_bytes).map(byte).collect::<Option<Vec<u8>>>().filter(|_| digits)
}
