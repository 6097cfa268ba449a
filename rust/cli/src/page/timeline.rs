//! The timeline of a page, as data: where bars and locks stand is told by the same layout as in the picture.

use super::json::{list, object, text, Texts};
use crate::follow::bearers_in_words;
use crate::names::Names;
use crate::picture::{bar_class, bar_tip, Layout, Mark, Rows, Stretch, Told, GAP, ROW};
use nekahuiro::any::Event;

/// How an event is drawn: letters and classes, or 0 if it isn't; and what it is on the axis: a crash, a recover, a
/// refusal, a decision.
pub fn mark(told: &Told, at: usize, texts: &mut Texts) -> String {
    let answer = told.answers[at];
    let recover = matches!(told.events[at], Some(Event::Recover { .. })) && answer.is_accepted();
    let kinds = [told.is_crash(at), recover, !answer.is_accepted()];
    let kinds: u8 = kinds.iter().enumerate().map(|(place, is)| u8::from(*is) << place).sum();
    let drawn = Mark::of(told, at).map_or("0".to_string(), |Mark { class, letters, tick }| {
        list([text(&letters), texts.place(class.to_string()).to_string(), texts.place(tick.to_string()).to_string()])
    });
    list([kinds.to_string(), drawn])
}

/// Each transaction: number, name, first and last event, top and height of its bar, class, tip, and its decision.
pub fn transactions(told: &Told, names: &Names) -> String {
    let layout = Layout::of(told.history, told.answers.len());
    let mut places = vec![None; told.history.transactions.len()];
    layout.bars.iter().for_each(|bar| places[bar.transaction] = Some(bar));
    list(told.history.transactions.iter().zip(places).enumerate().filter_map(|(place, (transaction, bar))| {
        let bar = bar?;
        let name = transaction.begun.and_then(|begun| names.begun.get(&begun)).map_or("", String::as_str);
        let decision = match transaction.end {
            nekahuiro_history::End::Prepared { decision: Some(decision), .. } => {
                list([decision.at.to_string(), u8::from(decision.commit).to_string()])
            }
            _ => "0".to_string(),
        };
        Some(list([
            transaction.number.to_string(),
            text(name),
            u8::from(transaction.begun.is_some()).to_string(),
            bar.first.to_string(),
            bar.last.to_string(),
            bar.top.to_string(),
            bar.height.to_string(),
            text(&bar_class(told, place)),
            text(&bar_tip(told, place)),
            decision,
        ]))
    }))
}

/// The height of the bars, and the lock of each record that was ever locked.
pub fn rows(told: &Told) -> String {
    let layout = Layout::of(told.history, told.answers.len());
    let rows = Rows::of(told).rows.into_iter().map(|(record, row)| {
        let stretches = |what: &str, all: &[Stretch]| {
            list(all.iter().filter(|stretch| !stretch.who.is_empty()).map(|stretch| {
                let tip = bearers_in_words(what, &stretch.who);
                let label = [stretch.label(), stretch.class(what), tip].map(|part| text(&part)).join(",");
                format!("[{},{},{label}]", stretch.first, stretch.end)
            }))
        };
        let prepared = row.prepared.iter().map(|(first, end, identity)| list([*first, *end, usize::from(*identity)]));
        let (held, retained) = (stretches("held", &row.held), stretches("retained", &row.retained));
        list([record.to_string(), held, retained, list(prepared)])
    });
    object(&[
        ("row", ROW.to_string()),
        ("gap", GAP.to_string()),
        ("height", layout.height.to_string()),
        ("locks", list(rows)),
        ("up", u8::from(told.start.up).to_string()),
    ])
}
