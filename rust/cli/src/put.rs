//! `put STORE RECORD HEX`: writes a record, in a transaction of its own.

use crate::alone::Alone;
use crate::command::{digits, number, record, Command, WAIT};
use crate::failure::{visible, Failure, Outcome};
use crate::files::{edition_of, need_plain};
use crate::live::Live;
use crate::pair::{need_no_state, Pair};
use crate::store::{self, Store};
use crate::{number_of, say, show, state_file, trace};
use nekahuiro::any::{Event, Record};
use nekahuiro::limits::PAGE_BYTES;
use nekahuiro::{Answer, Edition, Transaction};

/// The command.
pub const COMMAND: Command = Command {
    name: "put",
    names: &["STORE", "RECORD", "HEX"],
    options: &[
        ("--at", "OFFSET", "write from there on; else from the record's first byte"),
        ("--state", "FILE", "beside what is live in FILE, and leave the new state there; without it, start down"),
        WAIT,
    ],
    summary: "write bytes to a record, all of them or none",
    help: "\
HEX has two digits a byte, at most 32 bytes; what of the record comes before and after them stays. It is played as
a list would be: recover, begin, lock, a write for each byte, commit. If one of these is refused, nothing is
changed. Where transactions are live in a state file, give it with --state: without it they would be lost, and
the state file would no longer go with the store.
",
    run,
};

/// What is said if something fails after the point of no return.
const DONE: &str = "the record was written";

/// Writes the bytes, and tells it once they are in the store.
fn run(words: &[String]) -> Outcome {
    let ([path, number, hex], given) = COMMAND.read(words)?;
    digits(edition_of(path), number)?;
    let (bytes, offset) = bytes(hex, given.value("--at"))?;
    let state = given.value("--state");
    need_plain(path, "store")?;
    state.map_or(Ok(()), |name| need_plain(name, "state file"))?;
    need_no_state(path, state)?;
    let files: Vec<&str> = std::iter::once(path).chain(state).collect();
    let alone = Alone::with(&files, given.wait()?)?;
    let (pair, mut live) = Pair::read(path, state, false)?;
    let mut store = pair.store.clone();
    let record = record(store.edition, number)?;
    write(&mut store, &mut live, record, offset, &bytes).map_err(|refused| match (refused, state) {
        (Refused::Run(refused), Some(name)) if refused.is_of_state() => state_file::unsound(name),
        (refused, _) => refused.failure(store.edition, path, record),
    })?;
    pair.replace_and(&store, &live, DONE)?;
    drop(alone);
    let value = show::line(&store.settled(record));
    let text = format!("{}: record {record} is {value}\n", visible(path));
    say(&text).map_err(|failure| failure.after(&format!("{DONE}, in {path}")))
}

/// The bytes in HEX, and where they go.
fn bytes(hex: &str, at: Option<&str>) -> Outcome<(Vec<u8>, u8)> {
    let usage = |reason: String| COMMAND.misuse(&reason);
    let plain: String = hex.split_whitespace().collect();
    if plain.is_empty() || plain.len() % 2 != 0 || !plain.bytes().all(|digit| digit.is_ascii_hexdigit()) {
        return Err(usage(format!("`{hex}` isn't bytes in hex, two digits each")));
    }
    let bytes: Vec<u8> =
        (0..plain.len()).step_by(2).filter_map(|at| u8::from_str_radix(&plain[at..at + 2], 16).ok()).collect();
    let word = at.unwrap_or("0");
    let offset = number(word).filter(|offset| *offset < PAGE_BYTES as u32);
    let offset = offset
        .ok_or_else(|| usage(format!("--at needs an offset from 0 to {}, and `{word}` was given", PAGE_BYTES - 1)))?;
    if offset as usize + bytes.len() > PAGE_BYTES {
        let length = number_of(bytes.len(), "byte");
        return Err(usage(format!("{length} from offset {offset} on don't fit into a record of {PAGE_BYTES}")));
    }
    Ok((bytes, offset as u8))
}

/// Why a record can't be written.
enum Refused {
    Run(store::Refused),
    Event(Event, Answer),
}

impl Refused {
    fn failure(self, edition: Edition, path: &str, record: Record) -> Failure {
        let why = match self {
            Refused::Run(refused) => refused.to_string(),
            Refused::Event(event, answer) => {
                format!("{event}: {}", trace::what_happened(edition, &edition.word(event.fields()), answer))
            }
        };
        let mend = format!("no file was changed; `./nekahuiro check {path}` says how the store stands");
        Failure::refused(&format!("record {record} of {path} wasn't written: {why}"), &mend)
    }
}

/// Plays what writes the bytes, up to the first event that isn't done.
fn write(store: &mut Store, live: &mut Live, record: Record, offset: u8, bytes: &[u8]) -> Result<(), Refused> {
    let count = store.edition.count_limit().into();
    let is_up = live.follower(store.commit_page()).up;
    let mut play = |event: Event| {
        let word = store.edition.word(event.fields());
        let answers = live.portion(store, &word).map_err(Refused::Run)?;
        match answers.iter().find(|answer| answer.number != nekahuiro::DONE) {
            Some(answer) => Err(Refused::Event(event, *answer)),
            None => Ok(answers.first().map_or(0, |answer| answer.value)),
        }
    };
    if !is_up {
        play(Event::Recover { count })?;
    }
    let begun = play(Event::Begin { parent: Transaction::NONE })?;
    let transaction = Transaction::new(begun).unwrap_or(Transaction::NONE);
    play(Event::Lock { transaction, record })?;
    for (offset, value) in (offset..).zip(bytes) {
        play(Event::Write { transaction, record, offset, value: *value })?;
    }
    play(Event::Commit { transaction, count }).map(|_| ())
}
