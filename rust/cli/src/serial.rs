//! `serial STORE EVENTS`: the list as if one transaction came at a time.

use crate::command::Command;
use crate::failure::{Failure, Outcome};
use crate::live::Live;
use crate::pair::need_edition;
use crate::show::digits;
use crate::store::{library, Store};
use crate::{files, list, number_of, play, say};
use nekahuiro::any::{CommitPage, Event};
use nekahuiro::limits::EVENTS;
use nekahuiro::Edition;
use nekahuiro_history::{serial_of, History, Placed, Run, Serial, Turn, Unlike};
use std::fmt::Write;

/// The command.
pub const COMMAND: Command = Command {
    name: "serial",
    names: &["STORE", "EVENTS"],
    options: &[("--raw", "", "take EVENTS as raw event words of 4 bytes")],
    summary: "a list as if one transaction came at a time",
    help: "\
It prints a list that `play` takes: a recover, and then the accepted events of the transactions that
survive, top transaction by top transaction in the order in which their commit records were written. One
that changed nothing stands at its commit, a prepared one at the decision on it; a decision on what was
prepared in STORE is played too. Numbers are given anew and no page writes are cut. Comments say where each
event stood. What is live or undecided at the end of EVENTS counts as lost.

Both lists are played on copies of STORE, which stays as it is, in portions if they are long. Nothing is
printed before it is known that each event is done, that each read gives the byte that it gave, and that the
settled records are the same.
",
    run,
};

/// A list that was played.
struct Played {
    words: Vec<u8>,
    answers: Vec<u8>,
    store: Store,
}

/// Prints the serial list of a list.
fn run(words: &[String]) -> Outcome {
    let ([path, events], given) = COMMAND.read(words)?;
    let edition = files::edition_of(path);
    let words = list::read(edition, events, given.has("--raw"))?;
    let store = files::read_store(path)?;
    need_edition(path, &store, edition)?;
    match edition.event_bytes {
        8 => say(&tell::<8>(&store, words)?),
        _ => say(&tell::<4>(&store, words)?),
    }
}

/// The serial list of a list in words of so many bytes.
fn tell<const WORD: usize>(store: &Store, words: Vec<u8>) -> Outcome<String> {
    let (first, history) = played(store, words)?;
    let serial = serial_of::<WORD>(&history, &first.words, &first.answers);
    let (second, _) = played(store, serial.words())?;
    serial.check(of(store, &first), of(store, &second)).map_err(|unlike| wrong(store.edition, &unlike))?;
    Ok(text(store, &first, &history, &serial))
}

/// Plays a list on a copy of the store, from a start.
fn played(store: &Store, words: Vec<u8>) -> Outcome<(Played, History)> {
    let mut store = store.clone();
    let mut live = Live::start(&store);
    let answers = play::portions(&mut store, &mut live, &words, EVENTS).map_err(|refused| {
        Failure::refused(&format!("the run was {refused}"), "nothing was played, and no file was changed")
    })?;
    let history = play::history(store.edition, &[], &words, &answers)?;
    let answers = answers.iter().flat_map(|answer| answer.bytes()).collect();
    Ok((Played { words, answers, store }, history))
}

fn of<'r>(before: &'r Store, played: &'r Played) -> Run<'r> {
    let Played { words, answers, store } = played;
    Run { before: before.bytes(), events: words, answers, after: store.bytes() }
}

fn wrong(edition: Edition, unlike: &Unlike) -> Failure {
    let reason = match unlike {
        Unlike::Recover(answer) => format!("the recover is answered {}", digits(answer)),
        Unlike::Refused { at, answer } => format!("event {} is answered {}", at + 1, digits(answer)),
        Unlike::Value { at, due, found } => format!("event {} gives {found:02X}, and {due:02X} is due", at + 1),
        Unlike::Settled { record } => format!("record {record} is another"),
        Unlike::Longer => "it has more events".to_string(),
    };
    let mend =
        format!("the linked library isn't the proved one; make it again with `tools/archives {}`", library(edition));
    Failure::new(&format!("one transaction at a time it isn't the same: {reason}"), &mend)
}

fn text<const WORD: usize>(store: &Store, first: &Played, history: &History, serial: &Serial<WORD>) -> String {
    let edition = store.edition;
    let all = first.words.len() / WORD;
    let mut text = format!("# {}, as if one transaction came at a time\n", number_of(all, "event"));
    let refused = match (store.commit_page(), store.lost()) {
        (CommitPage::Damaged(_), _) => "  # refused: page 0 is damaged".to_string(),
        (_, Some(page)) => format!("  # refused: page {page} has no good copy"),
        (_, None) => String::new(),
    };
    let recover = Event::Recover { count: edition.count_limit().into() }.to_string();
    let _ = writeln!(text, "{recover:24}{refused}");
    for turn in &serial.turns {
        let _ = writeln!(text, "# {}", heading(history, turn));
        for placed in &turn.events {
            let _ = writeln!(text, "{:24}  # {}", edition.describe(&placed.word), place(edition, &first.words, placed));
        }
    }
    let (played, reads) = (serial.events().count(), serial.events().filter(|placed| placed.word[0] >> 4 == 4).count());
    let _ = writeln!(text, "# {} of the list, each done; {}", number_of(played, "event"), same_bytes(reads));
    let _ = writeln!(text, "# the settled records are those that the list leaves");
    let trimmed: Vec<&str> = text.lines().map(str::trim_end).collect();
    trimmed.join("\n") + "\n"
}

fn same_bytes(reads: usize) -> String {
    match reads {
        0 => "none of them reads".to_string(),
        1 => "1 read gives the byte that it gave".to_string(),
        reads => format!("{reads} reads give the bytes that they gave"),
    }
}

/// Whose turn it is.
fn heading<const WORD: usize>(history: &History, turn: &Turn<WORD>) -> String {
    let stored = turn.stored + 1;
    match turn.transaction.map(|place| &history.transactions[place]) {
        Some(told) => {
            let begun = told.begun.map_or(0, |at| at + 1);
            format!("the transaction of event {begun}, stored by event {stored}")
        }
        None => format!("prepared before the first event, decided by event {stored}"),
    }
}

/// Where an event stood, and how it was written there if it was otherwise.
fn place<const WORD: usize>(edition: Edition, words: &[u8], placed: &Placed<WORD>) -> String {
    let word = &words[placed.at * WORD..][..WORD];
    match placed.word == word {
        true => format!("event {}", placed.at + 1),
        false => format!("event {}: {}", placed.at + 1, edition.describe(word)),
    }
}
