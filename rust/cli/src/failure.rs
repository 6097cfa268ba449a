//! What went wrong and how to mend it.

use std::fmt;

/// How a command ends, if not with 0.
#[derive(Clone, Copy, PartialEq, Eq)]
pub enum Status {
    /// A file can't be read or written.
    Failed = 1,
    /// The command was called wrongly.
    Usage = 2,
    /// Another command has the store, or changed it meanwhile.
    Busy = 3,
    /// What was given can't be played.
    Refused = 4,
    /// An event was refused, and --strict was given.
    EventRefused = 5,
    /// The answers aren't those of --expect, or what is audited doesn't belong together.
    OtherAnswers = 6,
    /// All was done, but couldn't be told.
    Untold = 7,
}

/// The exit statuses in words, for the help.
pub const STATUSES: &str = "  0  all went well; a refused event is an answer and no failure
  1  failed: a file can't be read or written; store and state file are as they were
  2  called wrongly: nothing was done
  3  busy: another command has the store, or changed it meanwhile; nothing was done, try again
  4  refused: a list, store, state file or number that can't be taken; nothing was done
  5  with --strict: the list was played, and an event was refused
  6  with --expect: the list was played, and the answers aren't the expected ones; audit: they don't belong together
  7  done, but not told: store and state file are replaced, and an output couldn't be written
";

/// A command that did not succeed: nothing of the user's was changed, unless it says so.
pub struct Failure {
    reason: String,
    /// Lines that show where it went wrong.
    shown: Vec<String>,
    mend: String,
    /// How the command ends.
    pub status: Status,
    /// There is nothing to say: the reader of the output had enough.
    quiet: bool,
}

/// Success, or a failure.
pub type Outcome<T = ()> = Result<T, Failure>;

impl Failure {
    /// A command ends with this status; `mend` says what the user can do.
    pub fn with(status: Status, reason: &str, mend: &str) -> Failure {
        Failure { reason: reason.to_string(), shown: Vec::new(), mend: mend.to_string(), status, quiet: false }
    }

    /// A file can't be read or written.
    pub fn new(reason: &str, mend: &str) -> Failure {
        Failure::with(Status::Failed, reason, mend)
    }

    /// What was given can't be taken.
    pub fn refused(reason: &str, mend: &str) -> Failure {
        Failure::with(Status::Refused, reason, mend)
    }

    /// The command was not called as it should be.
    pub fn usage(reason: &str, mend: &str) -> Failure {
        Failure::with(Status::Usage, reason, mend)
    }

    /// The reader of the output stopped before its end, as `head` does: that is its own affair.
    pub fn unread(reason: &str, mend: &str) -> Failure {
        Failure { quiet: true, ..Failure::new(reason, mend) }
    }

    /// The same with lines that show where it went wrong, between reason and mend.
    pub fn showing(self, lines: &[String]) -> Failure {
        Failure { shown: lines.to_vec(), ..self }
    }

    /// The same with more to say after the mend.
    pub fn and(self, more: &str) -> Failure {
        Failure { mend: format!("{}; {more}", self.mend), ..self }
    }

    /// The same, after all was done that changes a store.
    pub fn after(self, done: &str) -> Failure {
        Failure { status: Status::Untold, quiet: false, mend: format!("{done}; {}", self.mend), ..self }
    }
}

impl fmt::Display for Failure {
    fn fmt(&self, f: &mut fmt::Formatter) -> fmt::Result {
        if self.quiet {
            return Ok(());
        }
        writeln!(f, "nekahuiro: {}", visible(&self.reason))?;
        self.shown.iter().chain([&self.mend]).try_for_each(|line| writeln!(f, "  {}", visible(line)))
    }
}

/// Text for a terminal: what would move the cursor or change colours is written out.
pub fn visible(text: &str) -> String {
    let one = |c: char| if c.is_control() { c.escape_default().to_string() } else { c.to_string() };
    text.chars().map(one).collect()
}
