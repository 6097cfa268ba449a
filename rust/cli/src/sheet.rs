//! `sheet SHEET`: a job sheet as a list of events, or played.

use crate::command::Command;
use crate::failure::{Failure, Outcome};
use crate::files::{name_of, read_list};
use crate::follow::Follower;
use crate::{encode, play, say, say_bytes};
use nekahuiro::limits::{DEPTH_LIMIT, EVENTS};
use nekahuiro::{sheet_words, BadSheet, Edition, Event};

/// The command.
pub const COMMAND: Command = Command {
    name: "sheet",
    names: &["SHEET"],
    options: &[
        ("--raw", "", "write raw event words of 4 bytes, for `play --raw`"),
        ("--play", "STORE", "play it on a store, as `play STORE SHEET --sheet` does, which has more options"),
    ],
    summary: "a job sheet as a list of events, or played",
    help: "\
SHEET is a file, or - for standard input. A sheet is one top transaction, without blanks:

  {   begins a transaction, within another or at the top
  }   commits it
  !   aborts it, and closes it as } does
  L   with a record: lock it to write
  W   with record, offset and value: write a byte
  R   with record and offset: read a byte

A record is one digit, offset and value are two; digits are 0 to 9 and A to F, and an offset is at most 1F.
Transactions nest 16 deep, and there are at most 4,096 events. The numbers in the list are right where it is
played while up with nothing live. A line end at the end of the file is left out. Sheets are for edition 1.
",
    run,
};

/// How much of a sheet is shown before and after a bad byte.
const SHOWN: usize = 40;

/// Writes the list, or plays it.
fn run(words: &[String]) -> Outcome {
    let ([sheet], given) = COMMAND.read(words)?;
    if let Some(store) = given.value("--play") {
        return match given.has("--raw") {
            true => Err(COMMAND.misuse("--raw writes the list, and --play plays it")),
            false => play::run(&["--sheet", "--", store, sheet].map(String::from)),
        };
    }
    let list = read(sheet)?;
    match given.has("--raw") {
        true => say_bytes(&list),
        false => say(&encode::all_in_words(Edition::FIRST, &list)),
    }
}

/// Reads a sheet into raw words. Most editors end a file with a line end, which is no part of the sheet.
pub fn read(path: &str) -> Outcome<Vec<u8>> {
    let bytes = read_list(path)?;
    let sheet = bytes.strip_suffix(b"\n").unwrap_or(&bytes);
    let sheet = sheet.strip_suffix(b"\r").unwrap_or(sheet);
    sheet_words(sheet).map_err(|bad| refused(name_of(path), sheet, &bad))
}

/// The message for a bad sheet: the sheet about the place, a caret under the byte, and what could stand there.
fn refused(name: &str, sheet: &[u8], bad: &BadSheet) -> Failure {
    let reason = format!("{name}: {} (refusal 29; bytes are counted from 0)", bad.what());
    let start = bad.place.saturating_sub(SHOWN);
    let end = sheet.len().min(bad.place + SHOWN);
    let before = if start > 0 { ".." } else { "" };
    let after = if end < sheet.len() { ".." } else { "" };
    let plain = |byte: &u8| if byte.is_ascii_graphic() { char::from(*byte) } else { '?' };
    let line: String = sheet[start..end].iter().map(plain).collect();
    let caret = " ".repeat(before.len() + bad.place - start) + "^";
    let failure = Failure::refused(&reason, &bad.could_stand());
    let failure = match sheet {
        [] => failure,
        _ => failure.showing(&[format!("{before}{line}{after}"), caret]),
    };
    // A step that only the limits forbid.
    match bad.found {
        Some(b'{' | b'L' | b'W' | b'R') if bad.could.contains(&b'}') => {
            failure.and(&format!("a sheet has at most {EVENTS} events, and transactions nest {DEPTH_LIMIT} deep"))
        }
        _ => failure,
    }
}

/// What a sheet is played on: up with nothing live. Where it is down, a recover comes first.
pub fn led_in(start: &Follower, list: Vec<u8>) -> Outcome<Vec<u8>> {
    let live: Vec<String> = start.live.keys().map(u8::to_string).collect();
    match (start.up, live.is_empty()) {
        (false, _) => Ok([Event::Recover { count: 63 }.word().to_vec(), list].concat()),
        (true, true) => Ok(list),
        (true, false) => {
            let reason = format!("a sheet is played with nothing live, and there are {}", live.join(", "));
            Err(Failure::refused(&reason, "commit or abort them first; nothing was played"))
        }
    }
}
