//! `waiting STATE ROWS`: whether transactions of a state wait on each other, in words and as a drawing.

use crate::command::Command;
use crate::failure::{Failure, Outcome};
use crate::files::{name_of, need_different, read_list};
use crate::output::Output;
use crate::picture::{self, ring};
use crate::state_file::{self, Kept};
use crate::{list, say};
use nekahuiro::limits::{EVENT_BYTES, ROWS};
use nekahuiro::{BadWords, Edition, Event, Refusal, Ring, Row, State, Transaction};
use std::fmt::Write;
use std::path::Path;

/// The command.
pub const COMMAND: Command = Command {
    name: "waiting",
    names: &["STATE", "ROWS"],
    options: &[("--picture", "FILE.svg", "draw the live transactions, their locks and the ring")],
    summary: "whether transactions wait on each other, and which",
    help: "\
STATE is a state file that `play --state` left. ROWS is a file, or - for standard input, with the locks that
are waited for, one to a line and written as in a list: `lock TRANSACTION RECORD` to write, `read-lock
TRANSACTION RECORD` to read. There are at most 24; # starts a comment.

A transaction that waits points to each that blocks its lock, and to the ancestors of that one which aren't its
own; every transaction points to its live children. A ring of such pointings is told, if there is one: it
can't clear by itself, and an abort of one of its transactions breaks it. What is prepared in the store plays
no part. Edition 2 has no state files, so this is for edition 1.
",
    run,
};

/// A waiting row and the line that it stands in.
type Placed = (usize, Row);

/// Tells whether there is a ring, and draws it if that was asked for.
fn run(words: &[String]) -> Outcome {
    let ([state, rows], given) = COMMAND.read(words)?;
    let drawn = given.value("--picture");
    let input = if rows == "-" { "/dev/stdin" } else { rows };
    let mut files = vec![("the state", state), ("the rows", input), ("the output", "/dev/stdout")];
    files.extend(drawn.map(|name| ("the picture", name)));
    need_different(&files)?;
    drawn.map_or(Ok(()), picture::check_name)?;
    let Kept { state: lent, .. } = read_state(state)?;
    let placed = read_rows(rows)?;
    let rows: Vec<Row> = placed.iter().map(|(_, row)| *row).collect();
    let ring = lent.waiting(&rows).map_err(|refusal| refused(refusal, state, name_of(input), &lent, &placed))?;
    let text = in_words(&lent, &ring);
    if let Some(name) = drawn {
        let mut output = Output::open(name)?;
        output.stage(ring::draw(&lent, &rows, &ring, text.trim_end()).into_bytes())?;
        output.put()?;
        output.send()?;
    }
    say(&text)
}

fn read_state(name: &str) -> Outcome<Kept> {
    let Some(bytes) = state_file::bytes(name, Path::new(name))? else {
        let mend = "check the name; `./nekahuiro play STORE EVENTS --state FILE` leaves a state file";
        return Err(Failure::new(&format!("can't read {name}: there is no such file"), mend));
    };
    state_file::read_alone(name, &bytes)
}

/// The rows of a list of locks.
fn read_rows(path: &str) -> Outcome<Vec<Placed>> {
    let (bytes, name) = (read_list(path)?, name_of(path));
    let mut rows = Vec::new();
    for (number, whole) in (1..).zip(list::text(name, &bytes)?.lines()) {
        let line = list::without_comment(whole);
        let bad = |bad: BadWords| list::bad_line(&format!("{name}, line {number}"), line, &bad);
        for word in list::line_words(Edition::FIRST, line).map_err(bad)?.chunks_exact(EVENT_BYTES) {
            let event = Event::of([word[0], word[1], word[2], word[3]]);
            let row = event.as_ref().and_then(Row::of).ok_or_else(|| bad(no_lock()))?;
            rows.push((number, row));
        }
    }
    Ok(rows)
}

fn no_lock() -> BadWords {
    let mend = "write `lock TRANSACTION RECORD`, or `read-lock TRANSACTION RECORD` to read";
    BadWords { reason: "only a lock can be waited for".to_string(), mend: mend.to_string() }
}

/// The message for a report that is refused.
fn refused(refusal: Refusal, state: &str, rows: &str, lent: &State, placed: &[Placed]) -> Failure {
    let live = |row: &Row| lent.live().any(|t| t.number() == row.transaction);
    let dead = placed.iter().find(|(_, row)| !live(row));
    match (refusal, dead) {
        (Refusal::State, _) => state_file::unsound(state),
        (Refusal::NotLive, Some((line, row))) => {
            let reason = format!("{rows}, line {line}: transaction {} isn't live (refusal 5)", row.transaction);
            Failure::refused(&reason, "leave out who waits no longer")
        }
        (Refusal::Rows, _) => {
            let reason = format!("{rows}: {} locks, but a report takes at most {ROWS} (refusal 26)", placed.len());
            Failure::refused(&reason, "leave some out: transactions that aren't live wait for nothing")
        }
        _ => Failure::refused(&format!("{rows}: {refusal}"), "check the rows"),
    }
}

/// The ring in words: who waits for whom, until the first comes again.
fn in_words(state: &State, ring: &Ring) -> String {
    let all: Vec<Transaction> = ring.transactions().collect();
    let Some(first) = all.first() else { return "no ring: nobody waits for itself\n".to_string() };
    let mut text = first.to_string();
    for (at, (one, other)) in all.iter().zip(all.iter().cycle().skip(1)).enumerate() {
        let which = if at == 0 { "" } else { ", which" };
        let child = if state.parent(*other) == Some(*one) { "its child " } else { "" };
        let _ = write!(text, "{which} waits for {child}{other}");
    }
    text + "\n"
}
