//! Writes that are in no store in the end, and how each was lost.

use crate::picture::Told;
use nekahuiro::page_writes;
use nekahuiro_history::{End, Write};

/// An accepted write of a transaction that doesn't survive.
pub struct Lost<'t> {
    /// The write.
    pub write: &'t Write,
    /// How it was lost, or why that isn't decided.
    pub how: String,
    /// Whether it may still survive.
    pub open: bool,
}

/// All of them, in list order.
pub fn writes<'t>(told: &'t Told) -> Vec<Lost<'t>> {
    let lost = |write: &&Write| !told.history.transactions[write.transaction].survives;
    let of = |write: &'t Write| {
        let open = told.history.is_undecided(write.transaction);
        Lost { write, how: how(told, write.transaction), open }
    };
    told.history.writes.iter().filter(lost).map(of).collect()
}

/// What became of the writes of a transaction that doesn't survive: to whom they were handed up, and how that ended.
fn how(told: &Told, writer: usize) -> String {
    let all = &told.history.transactions;
    let mut text = String::new();
    let mut place = writer;
    while let (End::Committed { at, .. }, Some(parent)) = (all[place].end, all[place].parent) {
        text += &format!("handed up to transaction {} at event {}; ", all[parent].number, at + 1);
        place = parent;
    }
    let cut_after = |at: usize| page_writes(told.answers[at].value);
    let own = all[place].number;
    text + &match all[place].end {
        End::Aborted(at) => match told.history.owner[at].filter(|aborted| *aborted != place) {
            None => format!("transaction {own} aborted at event {}", at + 1),
            Some(other) => format!("the abort of transaction {} at event {} took it along", all[other].number, at + 1),
        },
        End::Crashed(at) => format!("the power went at event {}, before transaction {own} had committed", at + 1),
        End::Committed { at, .. } => {
            let page = "before the commit page was written";
            format!("the commit of transaction {own} was cut at event {} after {}, {page}", at + 1, cut_after(at))
        }
        End::Prepared { at, cut: true, .. } => {
            let page = "before page 0 said prepared";
            format!("the prepare of transaction {own} was cut at event {} after {}, {page}", at + 1, cut_after(at))
        }
        End::Prepared { decision: Some(decision), .. } => {
            format!("identity {} was decided at event {}: abort", decision.identity, decision.at + 1)
        }
        End::Prepared { identity, .. } => format!("not decided: it waits for the decision on identity {identity}"),
        End::Never => format!("not decided: transaction {own} is live at the end"),
    }
}
