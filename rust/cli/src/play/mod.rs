//! `play STORE EVENTS`: plays a list on a store file.

mod expected;
mod options;
mod outputs;
mod report;

use crate::alone::Alone;
use crate::command::{Command, WAIT};
use crate::failure::{Failure, Outcome, Status};
use crate::files::{edition_of, name_of};
use crate::follow::Follower;
use crate::list::List;
use crate::live::Live;
use crate::names::Names;
use crate::pair::{need_edition, Pair};
use crate::store::{library, Refused, Store};
use crate::{list, names, number_of, page, say, sheet, state_file, trace};
use nekahuiro::limits::EVENTS;
use nekahuiro::{Answer, Edition};
use nekahuiro_history::{Earlier, Form, History};
use options::Options;
use outputs::Outputs;

/// The command.
pub const COMMAND: Command = Command {
    name: "play",
    names: &["STORE", "EVENTS"],
    options: &[
        ("--answers", "FILE", "write the answers there, two bytes each"),
        ("--trace", "", "tell each event in words: who holds, who retains, what crashed"),
        ("--picture", "FILE.svg", "draw the run as a timeline"),
        ("--page", "FILE.html", "make a page for a browser, with the store after each event; answers aren't told then"),
        ("--portions", "N", "play N events at a time; the list may then have any length"),
        ("--state", "FILE", "go on from the state in FILE, and leave the new state there; without it, start down"),
        ("--strict", "", "end with status 5 if an event is refused; the list is played all the same"),
        ("--expect", "FILE", "end with status 6 if the answers aren't those in FILE, as --answers writes them"),
        ("--raw", "", "take EVENTS as raw event words of 4 bytes"),
        ("--sheet", "", "take EVENTS as a job sheet (see `help sheet`); where the store is down, recover first"),
        ("--dry", "", "leave store and state file as they are"),
        WAIT,
    ],
    summary: "play a list of events on a store",
    help: "\
`./nekahuiro help` says how a list is written. A name stands for the transaction that the last begin with it
began, and for nobody once that has ended; an event that names nobody is refused with 5.

Each event has an answer of two bytes, told in hex: a number (00 done, 01 to 0A, 0D, 0E and 1B refused, 0B
cut by a crash), then a value. Refusals are told in words below; --trace tells each event in words, and there a
lock is to write unless it is said to be to read. include/nekahuiro.h has all the numbers.

When the list has been read, the command has the folders of its files for itself until they are
replaced, and another one waits. Nothing is told as done before it is: first the store is replaced, in one
step, then the state file, then answers, picture and page; then the report is printed. If somebody
else changed store or state file meanwhile, nothing is replaced.

A state file has what is live between two portions: a line that says what it is and of which version,
a digest of the store left with it and one of what follows, the lent state, the working buffer, and the
store's place as seen from the state file's folder. It goes with the store of that place and content;
with another, or if the store was changed since, nothing is played. Store and state file may be moved or
copied together. A play that is stopped leaves the old pair or the new pair: the new state is first
written to `.FILE.nekahuiro`, and where the state file doesn't fit the store and that one does, it is
taken and put in its place. To give up what is live, play a crash and a recover.

A store of edition 2, which `fresh --edition 2` makes, is known by its length. Its records are 0 to 63, its
counts go up to 255, its event words have 8 bytes or 16 hex digits; there are no prepare, decide and query, and no
--portions, --state and --sheet.

A store on pages that can tear, which `fresh --pairs` makes, is known by its length too. A list for it is one of edition
1, in which a commit or recover may say how a page write is torn (see `./nekahuiro help`); there are no prepare, decide
and query.
",
    run,
};

/// What was played.
struct Played {
    /// The store after it.
    store: Store,
    /// The state before, in words.
    start: Follower,
    /// What is left for the next portion.
    left: Live,
    words: Vec<u8>,
    names: Names,
    answers: Vec<Answer>,
    history: History,
}

impl Played {
    /// The refused events: where, and what was refused why.
    fn refusals(&self) -> impl Iterator<Item = (usize, String)> + '_ {
        let edition = self.store.edition;
        let answered = self.words.chunks_exact(edition.event_bytes).zip(&self.answers).enumerate();
        answered.filter(|(_, (_, answer))| !answer.is_accepted()).map(move |(at, (word, answer))| {
            let what = trace::what_happened(edition, word, *answer);
            (at, format!("{}: {what}", self.names.describe(edition, at, word)))
        })
    }
}

/// Plays, replaces store and state, hands out what was asked for, and then tells it.
pub fn run(words: &[String]) -> Outcome {
    let options = Options::of(words)?;
    options.check_files()?;
    options.check_edition()?;
    let edition = edition_of(options.store);
    // The list may come slowly, and the files are read when they are needed.
    let list = match options.sheet {
        true => List::plain(edition, sheet::read(options.events)?),
        false => list::read_named(edition, options.events, options.raw)?,
    };
    if options.portions.is_none() {
        list::check_length(edition, options.events, &list.words)?;
    }
    if options.page.is_some() {
        page::check_length(edition, name_of(options.events), &list.words)?;
    }
    let expected = options.expect.map(expected::read).transpose()?;
    let mut outputs = Outputs::open(&options)?;
    let files: Vec<&str> = std::iter::once(options.store).chain(options.state).chain(outputs.files()).collect();
    let alone = Alone::with(&files, options.wait)?;
    let (pair, live) = Pair::read(options.store, options.state, options.dry)?;
    need_edition(options.store, &pair.store, edition)?;
    let before = live.clone();
    let played = play(&options, pair.store.clone(), live, list)?;
    // All new content is on the disk before any file is replaced.
    outputs.stage(&options, &played, (&pair.store, &before))?;
    if !options.dry {
        pair.replace(&played.store, &played.left)?;
    }
    let told = outputs.put();
    // Nobody has to wait for the readers of the outputs.
    drop(alone);
    let told = told.and_then(|()| outputs.send());
    told.and_then(|()| say(&report::text(&options, &played))).map_err(|failure| match options.dry {
        true => failure,
        false => failure.after(&format!("the list was played on {}, so don't play it again", options.store)),
    })?;
    verdict(&options, &played, expected.as_deref())
}

/// What --expect and --strict ask for.
fn verdict(options: &Options, played: &Played, expected: Option<&[Answer]>) -> Outcome {
    let (edition, answers) = (played.store.edition, &played.answers);
    let kept = if options.dry { "nothing was changed" } else { "the list was played all the same" };
    if let (Some(name), Some(expected)) = (options.expect, expected) {
        let event = |at| edition.describe(&played.words[at * edition.event_bytes..][..edition.event_bytes]);
        expected::compare(name, expected, answers, &event).map_err(|failure| failure.and(kept))?;
    }
    let refused = answers.iter().filter(|answer| !answer.is_accepted()).count();
    if options.strict && refused > 0 {
        let verb = if refused == 1 { "was" } else { "were" };
        let first = played.refusals().next().map(|(at, what)| format!("event {}, {what}", at + 1)).unwrap_or_default();
        let reason = format!("{} {verb} refused; the first is {first}", number_of(refused, "event"));
        return Err(Failure::with(Status::EventRefused, &reason, "--trace tells of each why").and(kept));
    }
    Ok(())
}

fn play(options: &Options, mut store: Store, mut left: Live, list: List) -> Outcome<Played> {
    let List { words, names, edition } = list;
    let start = left.follower(store.commit_page());
    let mut words = if options.sheet { sheet::led_in(&start, words)? } else { words };
    let played = if !names.is_empty() {
        names::play(&mut store, &mut left, &mut words, &names)
    } else if options.portions.is_some() || options.state.is_some() || options.sheet {
        portions(&mut store, &mut left, &words, options.portions.unwrap_or(EVENTS))
    } else {
        store.play_words(&words)
    };
    let answers = played.map_err(|refused| match options.state {
        Some(path) if refused.is_of_state() => state_file::unsound(path),
        _ => Failure::refused(&format!("the run was {refused}"), "nothing was played, and no file was changed"),
    })?;
    let history = history(edition, &start.earlier(), &words, &answers)?;
    let names = Names::of(names, &answers);
    Ok(Played { store, start, left, words, names, answers, history })
}

/// Plays the words, at most so many events at a time. No words are one empty portion, so that a state
/// is looked at in any case.
pub fn portions(store: &mut Store, live: &mut Live, words: &[u8], events: usize) -> Result<Vec<Answer>, Refused> {
    let word = store.edition.event_bytes;
    let mut answers = Vec::with_capacity(words.len() / word);
    let mut rest = words;
    loop {
        let (portion, later) = rest.split_at(rest.len().min(events * word));
        answers.extend(live.portion(store, portion)?);
        if later.is_empty() {
            return Ok(answers);
        }
        rest = later;
    }
}

/// What the answers tell; no right engine gives answers that tell nothing.
pub fn history(edition: Edition, earlier: &[Earlier], words: &[u8], answers: &[Answer]) -> Outcome<History> {
    let bytes: Vec<u8> = answers.iter().flat_map(|answer| answer.bytes()).collect();
    let form = match edition {
        Edition::SECOND => Form::EDITION_2,
        Edition::PAIRS => Form::PAIRS,
        _ => Form::PLAIN,
    };
    form.tell_from(earlier, words, &bytes).map_err(|absurd| {
        let reason = format!("event {}: the engine's answer can't be: {}", absurd.at + 1, absurd.what);
        let again = format!("make it again with `tools/archives {}`", library(edition));
        Failure::new(&reason, &format!("the linked library isn't the proved one; {again}"))
    })
}
