//! `encode`: events in words to event words and back.

use crate::command::{Command, EDITION, PAIRS};
use crate::failure::{Failure, Outcome};
use crate::list::{self, hex_word, line_words};
use crate::{files, say, say_bytes};
use nekahuiro::Edition;

/// The command.
pub const COMMAND: Command = Command {
    name: "encode",
    names: &["[EVENT]"],
    options: &[
        (EDITION, "NUMBER", "1 or 2: whose event words; without it those of edition 1"),
        (PAIRS, "", "the event words where pages can tear"),
        ("--raw", "", "write raw event words of 4 bytes, for `play --raw`"),
        ("--from-raw", "", "take standard input as raw event words, and write them in words"),
    ],
    summary: "words to event words and back",
    help: "\
An event in words becomes 8 hex digits, and 8 hex digits become words. Without EVENT each line of standard
input is taken. With --edition 2 a word has 16 hex digits or 8 raw bytes.
",
    run,
};

/// Turns the event given, or each line of standard input.
fn run(words: &[String]) -> Outcome {
    let given = COMMAND.split(words)?;
    let edition = given.edition()?;
    let is_input = matches!(given.names[..], [] | ["-"]);
    for option in ["--raw", "--from-raw"] {
        if given.has(option) && !is_input {
            let reason = format!("encode: {option} takes no EVENT, but a list on standard input");
            return Err(Failure::usage(&reason, &format!("write `./nekahuiro encode {option} < LIST`")));
        }
    }
    let name = files::name_of("-");
    match (given.has("--raw"), given.has("--from-raw")) {
        (true, from_raw) => say_bytes(&list::read(edition, "-", from_raw)?),
        (false, true) => say(&all_in_words(edition, &list::read(edition, "-", true)?)),
        (false, false) if is_input => say(&turn(edition, Some(name), list::text(name, &files::read_list("-")?)?)?),
        (false, false) => match given.names.join(" ") {
            event if event.trim().is_empty() => Err(COMMAND.misuse("EVENT is empty")),
            event => say(&turn(edition, None, &event)?),
        },
    }
}

/// Turns each line of a list, or of the event given.
fn turn(edition: Edition, name: Option<&str>, text: &str) -> Outcome<String> {
    let mut out = String::new();
    for (number, whole) in (1..).zip(text.lines()) {
        let line = list::without_comment(whole);
        let words = line_words(edition, line).map_err(|bad| {
            let place = name.map_or("the event given".to_string(), |name| format!("{name}, line {number}"));
            list::bad_line(&place, line, &bad)
        })?;
        if line.split_whitespace().next().is_some_and(|first| hex_word(edition, first).is_some()) {
            out.push_str(&all_in_words(edition, &words));
        } else if !words.is_empty() {
            out.extend(words.iter().map(|byte| format!("{byte:02X}")).chain(["\n".to_string()]));
        }
    }
    Ok(out)
}

/// Each event word in words, one to a line.
pub fn all_in_words(edition: Edition, words: &[u8]) -> String {
    words.chunks_exact(edition.event_bytes).map(|word| in_words(edition, word) + "\n").collect()
}

fn in_words(edition: Edition, word: &[u8]) -> String {
    match edition.why_bad(word) {
        None => edition.describe(word),
        Some(why) => format!("{}  # bad, answered 1: {why}", edition.describe(word)),
    }
}
