//! `shell STORE`: events one by one, each answered at once. What is answered is in the files.

use crate::alone::Alone;
use crate::command::{Command, WAIT};
use crate::failure::{visible, Failure, Outcome, Status};
use crate::files::need_plain;
use crate::follow::Follower;
use crate::live::Live;
use crate::names::{Bound, Known, Named};
use crate::pair::{need_no_state, without_state, Pair};
use crate::store::{is_lent, Refused, Store};
use crate::{as_called, complain, list, say, show, state_file, trace};
use nekahuiro::limits::EVENTS;
use nekahuiro::{Answer, Refusal};
use std::io::{self, BufRead, IsTerminal, Read};
use std::time::Duration;

/// The command.
pub const COMMAND: Command = Command {
    name: "shell",
    names: &["STORE"],
    options: &[
        ("--state", "FILE", "go on from the state in FILE, and keep what is live there; without it, start down"),
        WAIT,
    ],
    summary: "play events as they are typed, each answered at once",
    help: WORDS,
    run,
};

const WORDS: &str = "\
Each line is an event in words or in hex, as `./nekahuiro help` has them; it is played, store and state file are
replaced, and then it is answered. Between two events other commands may have the store; if one changes it,
what is live here without --state is lost, and the shell ends. These lines are no events:
  show       the store          locks      who is live, who holds and retains
  help       this text          quit       the end, as the end of the input is
At a terminal a line that can't be taken is told and the next one is read; otherwise it ends the shell, with the
exit status of that line. What was answered before stays.
";

/// The longest line that is read.
const LONGEST: u64 = 4096;
/// What is said if something fails after an event was played.
const DONE: &str = "the event was played, so don't play it again";

/// Reads and plays lines until there are no more.
fn run(words: &[String]) -> Outcome {
    let ([store_name], given) = COMMAND.read(words)?;
    let state_name = given.value("--state");
    need_plain(store_name, "store")?;
    state_name.map_or(Ok(()), |name| need_plain(name, "state file"))?;
    need_no_state(store_name, state_name)?;
    let mut shell = Shell::open(store_name, state_name, given.wait()?)?;
    let asks = io::stdin().is_terminal();
    if asks {
        say(&format!("{}: {}\n`help` says what may be typed\n", visible(store_name), shell.in_words()))?;
    }
    loop {
        if asks {
            prompt()?;
        }
        let Some(line) = next_line()? else { break };
        match shell.line(&line) {
            Ok(Told::End) => break,
            Ok(Told::Text(text)) => say(&text).map_err(|failure| failure.after(DONE))?,
            Err(failure) if asks && failure.status != Status::Untold => complain(&failure),
            Err(failure) => return Err(failure),
        }
    }
    shell.end()
}

fn prompt() -> Outcome {
    say("> ")
}

/// The next line of standard input; none at its end.
fn next_line() -> Outcome<Option<String>> {
    let mut bytes = Vec::new();
    let read = io::stdin().lock().take(LONGEST).read_until(b'\n', &mut bytes);
    let name = "standard input";
    read.map_err(|error| crate::files::cant_read(name, &error, "check it"))?;
    if bytes.len() as u64 == LONGEST && !bytes.ends_with(b"\n") {
        return Err(Failure::refused(
            &format!("{name}: a line has more than {LONGEST} bytes"),
            "write one event to a line",
        ));
    }
    if bytes.is_empty() {
        return Ok(None);
    }
    list::text(name, &bytes).map(|text| Some(list::without_comment(text).to_string()))
}

/// What a line leads to.
enum Told {
    Text(String),
    End,
}

struct Shell<'n> {
    store_name: &'n str,
    state_name: Option<&'n str>,
    wait: Duration,
    /// As the last event left them.
    store: Store,
    live: Live,
    known: Known,
    bound: Bound,
}

impl<'n> Shell<'n> {
    fn open(store_name: &'n str, state_name: Option<&'n str>, wait: Duration) -> Outcome<Shell<'n>> {
        let _alone = alone(store_name, state_name, wait)?;
        let (pair, live) = Pair::read(store_name, state_name, false)?;
        let (known, bound) = (Known::of(pair.store.edition), Bound::default());
        Ok(Shell { store_name, state_name, wait, store: pair.store, live, known, bound })
    }

    fn line(&mut self, line: &str) -> Outcome<Told> {
        Ok(Told::Text(match line.to_ascii_lowercase().as_str() {
            "" => String::new(),
            "quit" | "exit" => return Ok(Told::End),
            "help" => as_called(&format!("{WORDS}\n{}", list::HELP)),
            "show" => show::records(&self.store),
            "locks" => format!("{}\n", self.in_words()),
            _ => {
                let read = list::line_events(&mut self.known, line);
                let (words, named) = read.map_err(|bad| list::bad_line("standard input", line, &bad))?;
                let mut text = String::new();
                for word in words.chunks_exact(self.store.edition.event_bytes) {
                    text += &self.event(word, &named)?;
                }
                text
            }
        }))
    }

    /// Plays one event, replaces the files, and then has it in words.
    fn event(&mut self, word: &[u8], named: &Named) -> Outcome<String> {
        let alone = alone(self.store_name, self.state_name, self.wait)?;
        let (pair, found) = Pair::read(self.store_name, self.state_name, false)?;
        let mut text = self.meet(&pair.store, found)?;
        let before = self.follower();
        let word = self.bound.resolve(pair.store.edition, word, named);
        let (mut store, mut live) = (pair.store.clone(), self.live.clone());
        let answers = live.portion(&mut store, &word).map_err(|refused| self.failure(refused))?;
        pair.replace_and(&store, &live, DONE)?;
        drop(alone);
        (self.store, self.live) = (store, live);
        for answer in answers {
            self.bound.answered(named, answer, &self.live);
            text += &self.told(&word, named, answer, &before);
        }
        Ok(text)
    }

    /// The message for an event that can't be played.
    fn failure(&self, refused: Refused) -> Failure {
        match self.state_name {
            Some(name) if refused.is_of_state() => state_file::unsound(name),
            // Edition 2 plays what is live again before each event.
            None if !is_lent(refused.edition) && refused.number == Refusal::List.number() => {
                let reason = format!("{EVENTS} events are live, and no more can be played at once (refusal 20)");
                Failure::refused(&reason, "begin again: what is live is lost, as by a crash; no file was changed")
            }
            _ => Failure::refused(&format!("the event was {refused}"), "nothing was played, and no file was changed"),
        }
    }

    /// What another command did since the last event: with a state file it is gone on from, else all is lost.
    fn meet(&mut self, store: &Store, found: Live) -> Outcome<String> {
        let changed = *store != self.store;
        match self.state_name {
            None if changed => {
                let reason = format!("{} was changed by another command since the last event", self.store_name);
                Err(Failure::with(Status::Busy, &reason, "what was live here is lost; begin again with a recover"))
            }
            Some(_) if changed || found != self.live => {
                (self.store, self.live) = (store.clone(), found);
                self.bound = Bound::default();
                Ok("another command played on it: names from before stand for nobody now\n".to_string())
            }
            _ => Ok(String::new()),
        }
    }

    /// The answer in words, and what else it changed.
    fn told(&self, word: &[u8], named: &Named, answer: Answer, before: &Follower) -> String {
        let called = named.as_what.as_ref().filter(|_| answer.is_accepted());
        let called = called.map_or(String::new(), |name| format!(", called {name}"));
        let mut text = format!("{}{called}\n", trace::what_happened(self.store.edition, word, answer));
        let after = self.follower();
        let ended: Vec<String> =
            before.live.keys().filter(|t| !after.live.contains_key(t)).map(u8::to_string).collect();
        if ended.len() > 1 || (!after.up && !ended.is_empty()) {
            text += &format!("  ended: {}\n", ended.join(", "));
        }
        if before.locks_in_words() != after.locks_in_words() {
            text += &format!("  {}\n", after.locks_in_words());
        }
        if answer.is_cut() {
            text += &format!("  the store is down; {}\n", show::commit_page(&self.store));
        }
        text
    }

    fn follower(&self) -> Follower {
        self.live.follower(self.store.commit_page())
    }

    fn in_words(&self) -> String {
        let follower = self.follower();
        format!("{}; {}", follower.in_words(), follower.locks_in_words())
    }

    /// What is live and isn't kept is told at the end.
    fn end(&self) -> Outcome {
        match self.state_name.is_none() && !self.follower().live.is_empty() {
            true => say(&format!("what is live at the end isn't kept{}\n", without_state(self.store.edition))),
            false => Ok(()),
        }
    }
}

fn alone(store_name: &str, state_name: Option<&str>, wait: Duration) -> Outcome<Alone> {
    let files: Vec<&str> = std::iter::once(store_name).chain(state_name).collect();
    Alone::with(&files, wait)
}
