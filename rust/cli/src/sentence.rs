//! An event in a sentence, for a reader who doesn't know how lists are written.

use nekahuiro::any::Event;
use nekahuiro::{page_writes, Cut, Edition, Tear, Transaction};

/// What an event word asks for.
pub fn of(edition: Edition, word: &[u8]) -> String {
    let Some(event) = edition.event(word) else {
        return format!("no event: {}", edition.why_bad(word).unwrap_or_default());
    };
    let cut = |count: Cut| cut(edition, count);
    match event {
        Event::Begin { parent: Transaction::NONE } => "a top transaction begins".to_string(),
        Event::Begin { parent } => format!("a child of transaction {parent} begins"),
        Event::Lock { transaction, record } => {
            format!("transaction {transaction} asks for record {record}, to read and to write")
        }
        Event::ReadLock { transaction, record } => {
            format!("transaction {transaction} asks for record {record}, only to read")
        }
        Event::Write { transaction, record, offset, value } => {
            format!("transaction {transaction} writes {value:02X} at offset {offset} of record {record}")
        }
        Event::Read { transaction, record, offset } => {
            format!("transaction {transaction} reads the byte at offset {offset} of record {record}")
        }
        Event::Commit { transaction, count } => format!("transaction {transaction} commits{}", cut(count)),
        Event::Abort { transaction, report: false } => format!("transaction {transaction} aborts"),
        Event::Abort { transaction, report: true } => {
            format!("transaction {transaction} aborts, and tells its parent why")
        }
        Event::Crash => "the power goes".to_string(),
        Event::Recover { count } => format!("the store recovers{}", cut(count)),
        Event::Prepare { transaction, count, identity } => {
            format!("transaction {transaction} prepares under identity {identity}{}", cut(count.into()))
        }
        Event::Decide { commit, count, identity } => {
            let decision = if commit { "commit" } else { "abort" };
            format!("the decision on identity {identity} is to {decision}{}", cut(count.into()))
        }
        Event::Query { identity } => format!("is identity {identity} prepared?"),
    }
}

/// Where the power goes, if it does.
fn cut(edition: Edition, Cut { count, tear }: Cut) -> String {
    let made = match count {
        count if count == edition.count_limit() => return String::new(),
        0 => "before the first page write, if one is due".to_string(),
        _ => format!("after {}, if more are due", page_writes(count)),
    };
    format!("; the power goes {made}{}", torn(tear))
}

/// What it leaves of the page write that comes next.
fn torn(tear: Tear) -> &'static str {
    match tear {
        Tear::None => "",
        Tear::FirstBad => "; the next is torn: its first copy is left bad",
        Tear::SecondBad => "; the next is torn: its first copy is new, its second left bad",
        Tear::SecondOld => "; the next is torn: its first copy is new, its second old",
    }
}
