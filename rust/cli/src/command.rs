//! A command of the command line: the words that it takes, its help, and what it does.

use crate::failure::{Failure, Outcome};
use crate::store::Refused;
use nekahuiro::any::Record;
use nekahuiro::{Edition, Refusal};
use std::fmt::Write;
use std::time::Duration;

/// The names that take standard input for `-`.
const FROM_INPUT: [&str; 3] = ["EVENTS", "ROWS", "SHEET"];

/// A command. Its module has one of these, and the table in commands.rs has a row for it.
pub struct Command {
    /// Its name.
    pub name: &'static str,
    /// The names of files and numbers that it takes, in their order.
    pub names: &'static [&'static str],
    /// What may stand anywhere between them.
    pub options: &'static [Choice],
    /// What it does, in one line.
    pub summary: &'static str,
    /// What else there is to know; empty if nothing.
    pub help: &'static str,
    /// Does it, with the words after its name.
    pub run: fn(&[String]) -> Outcome,
}

/// An option: its name, what comes after it or nothing, and what it does.
pub type Choice = (&'static str, &'static str, &'static str);

/// How long to wait for another command.
pub const WAIT: Choice = ("--wait", "SECONDS", "wait so long while another command has the store; else 5 seconds");

/// The name of the option for an edition.
pub const EDITION: &str = "--edition";

/// The name of the option for pages that can tear.
pub const PAIRS: &str = "--pairs";

/// The words of a call, told apart.
pub struct Given<'w> {
    /// What is no option, in its order.
    pub names: Vec<&'w str>,
    options: Vec<(&'static str, &'w str)>,
}

impl Command {
    /// The names, as many as there should be, and the options.
    pub fn read<'w, const N: usize>(&self, words: &'w [String]) -> Outcome<([&'w str; N], Given<'w>)> {
        let given = self.split(words)?;
        if let Some(missing) = self.names.get(given.names.len()) {
            return Err(self.misuse(&format!("{missing} is missing")));
        }
        let Ok(names) = <[&str; N]>::try_from(&given.names[..]) else {
            return Err(self.misuse(&format!("`{}` is one word too many", given.names[self.names.len()])));
        };
        for (name, what) in names.iter().zip(self.names) {
            match *name {
                "" => return Err(self.misuse(&format!("{what} is empty"))),
                "-" if !FROM_INPUT.contains(what) => {
                    return Err(self.misuse(&format!("{what} can't be standard input")))
                }
                _ => {}
            }
        }
        Ok((names, given))
    }

    /// Names and options, of any number. After `--` all are names.
    pub fn split<'w>(&self, words: &'w [String]) -> Outcome<Given<'w>> {
        let mut given = Given { names: Vec::new(), options: Vec::new() };
        let mut rest = words.iter().map(String::as_str);
        while let Some(word) = rest.next() {
            if word == "--" {
                given.names.extend(rest.by_ref());
            } else if is_option(word) {
                let (name, joined) = word.split_once('=').map_or((word, None), |(name, value)| (name, Some(value)));
                let Some((option, what, _)) = self.options.iter().find(|(option, ..)| *option == name) else {
                    return Err(self.misuse(&format!("there is no option `{name}`")));
                };
                let value = match (*what, joined) {
                    ("", None) => "",
                    ("", Some(_)) => return Err(self.misuse(&format!("{option} takes nothing after a ="))),
                    (what, Some(value)) => self.value(option, what, value, &given)?,
                    (what, None) => match rest.next().unwrap_or_default() {
                        next if is_option(next) => return Err(self.wants(option, what, next)),
                        next => self.value(option, what, next, &given)?,
                    },
                };
                given.options.push((*option, value));
            } else {
                given.names.push(word);
            }
        }
        Ok(given)
    }

    fn value<'w>(&self, option: &str, what: &str, word: &'w str, before: &Given) -> Outcome<&'w str> {
        match word {
            _ if before.value(option).is_some() => Err(self.misuse(&format!("{option} is given twice"))),
            "" | "-" => Err(self.wants(option, what, word)),
            word => Ok(word),
        }
    }

    fn wants(&self, option: &str, what: &str, word: &str) -> Failure {
        let given = if word.is_empty() { "nothing".to_string() } else { format!("`{word}`") };
        self.misuse(&format!("{option} needs {what}, and {given} was given"))
    }

    /// The message for a call that isn't as it should be.
    pub fn misuse(&self, reason: &str) -> Failure {
        let mut usage = self.usage();
        for (option, what, _) in self.options {
            let _ = write!(usage, " [{}]", joined(option, what));
        }
        Failure::usage(&format!("{}: {reason}", self.name), &format!("write `{usage}`"))
    }

    /// How it is called, without its options.
    pub fn usage(&self) -> String {
        [&["./nekahuiro", self.name], self.names].concat().join(" ")
    }

    /// Its own help: the call, its options, and what else there is to know.
    pub fn help(&self) -> String {
        let mut text = format!("{}\n    {}\n", self.usage(), self.summary);
        for (option, what, does) in self.options {
            let _ = writeln!(text, "  {:22}{does}", joined(option, what));
        }
        if !self.help.is_empty() {
            let _ = write!(text, "\n{}", self.help);
        }
        text
    }
}

fn joined(option: &str, what: &str) -> String {
    format!("{option} {what}").trim_end().to_string()
}

impl<'w> Given<'w> {
    /// Whether an option was given.
    pub fn has(&self, option: &str) -> bool {
        self.value(option).is_some()
    }

    /// What came after an option, if it was given.
    pub fn value(&self, option: &str) -> Option<&'w str> {
        self.options.iter().find(|(given, _)| *given == option).map(|(_, value)| *value)
    }

    /// The edition that was asked for, which is the first if none was.
    pub fn edition(&self) -> Outcome<Edition> {
        match self.value(EDITION) {
            None | Some("1") if self.has(PAIRS) => Ok(Edition::PAIRS),
            None | Some("1") => Ok(Edition::FIRST),
            Some("2") if self.has(PAIRS) => {
                let reason = "pages that can tear are those of edition 1, and --edition 2 was given";
                Err(Failure::usage(reason, "leave out --pairs or --edition"))
            }
            Some("2") => Ok(Edition::SECOND),
            Some(other) => {
                Err(Failure::usage(&format!("there is no edition `{other}`"), "write `--edition 1` or `--edition 2`"))
            }
        }
    }

    /// How long to wait for another command.
    pub fn wait(&self) -> Outcome<Duration> {
        let Some(word) = self.value(WAIT.0) else { return Ok(Duration::from_secs(5)) };
        number(word).map(|seconds| Duration::from_secs(seconds.into())).ok_or_else(|| {
            let reason = format!("--wait needs a number of seconds, and `{word}` was given");
            Failure::usage(&reason, "write `--wait 60` for a minute, or `--wait 0` not to wait")
        })
    }
}

/// `-` alone is standard input, and a number below 0 is a number.
fn is_option(word: &str) -> bool {
    word.strip_prefix('-').is_some_and(|rest| rest.starts_with(|first: char| !first.is_ascii_digit()))
}

/// A number in digits alone: no sign, no blanks.
pub fn number(word: &str) -> Option<u32> {
    word.bytes().all(|digit| digit.is_ascii_digit()).then(|| word.parse().ok()).flatten()
}

/// A word in digits alone, which is to be the number of a record.
pub fn digits(edition: Edition, word: &str) -> Outcome {
    match !word.is_empty() && word.bytes().all(|digit| digit.is_ascii_digit()) {
        true => Ok(()),
        false => {
            let reason = format!("the record `{word}` isn't a number");
            Err(Failure::usage(&reason, &format!("give a number from 0 to {}", edition.records - 1)))
        }
    }
}

/// A record by its number.
pub fn record(edition: Edition, word: &str) -> Outcome<Record> {
    let found = word.parse().ok().and_then(Record::new);
    found.filter(|record| usize::from(record.number()) < edition.records).ok_or_else(|| {
        let refused = Refused { edition, number: Refusal::Record.number() };
        let reason = format!("there is no record {word} ({refused})");
        Failure::refused(&reason, &format!("give a number from 0 to {}", edition.records - 1))
    })
}
