//! Transactions as nested bars, each with its own events.

use super::layout::{Bar, Layout, Scale, ROW};
use super::svg::Svg;
use super::Told;
use nekahuiro::any::Event;
use nekahuiro_history::End;

/// Draws all bars, parents first.
pub fn draw(svg: &mut Svg, told: &Told, scale: &Scale, layout: &Layout, top: f64) {
    let label = if layout.bars.is_empty() { "no transactions" } else { "transactions" };
    svg.text(16.0, top + 16.0, "label", label);
    let mut rows = vec![0.0; told.history.transactions.len()];
    for bar in &layout.bars {
        rows[bar.transaction] = top + bar.top;
        draw_box(svg, told, scale, bar, top + bar.top);
    }
    for (at, owner) in told.history.owner.iter().enumerate() {
        if let Some(owner) = owner {
            draw_event(svg, told, scale, at, rows[*owner] + ROW / 2.0);
        }
    }
    for (told_of, row) in told.history.transactions.iter().zip(&rows) {
        if let End::Prepared { decision: Some(decision), .. } = told_of.end {
            let sign = if decision.commit { "\u{2713}" } else { "\u{2717}" };
            draw_decision(svg, scale, decision.at, row + ROW / 2.0, sign);
        }
    }
    for bar in &layout.bars {
        draw_badge(svg, told, scale, bar, rows[bar.transaction] + ROW / 2.0);
    }
}

fn draw_box(svg: &mut Svg, told: &Told, scale: &Scale, bar: &Bar, y: f64) {
    let x = scale.left(bar.first) + 1.0;
    let width = scale.left(bar.last) + scale.step - 1.0 - x;
    svg.rect(x, y, width.max(2.0), bar.height, &class(told, bar.transaction), &tip(told, bar.transaction));
}

/// How a bar is drawn: by what became of its transaction, and dashed if that is open.
pub fn class(told: &Told, place: usize) -> String {
    let transaction = &told.history.transactions[place];
    let waits = told.history.is_waiting(place) && transaction.parent.is_none();
    let open = if transaction.end == End::Never || waits { " open" } else { "" };
    format!("{}{open}", told.fate(place))
}

/// A transaction in words: where it began and ended, and what became of it.
pub fn tip(told: &Told, place: usize) -> String {
    let transaction = &told.history.transactions[place];
    let ending = match transaction.end {
        End::Never => "still live at the end".to_string(),
        End::Committed { at, cut: false, .. } => format!("committed at event {}", at + 1),
        End::Committed { at, .. } => format!("its commit was cut at event {}", at + 1),
        End::Prepared { at, cut: true, .. } => format!("its prepare was cut at event {}", at + 1),
        End::Prepared { at, decision: None, .. } => format!("prepared at event {}", at + 1),
        End::Prepared { at, decision: Some(decision), .. } => {
            let verb = if decision.commit { "committed" } else { "aborted" };
            format!("prepared at event {}, {verb} at event {}", at + 1, decision.at + 1)
        }
        End::Aborted(at) => format!("aborted at event {}", at + 1),
        End::Crashed(at) => format!("crashed at event {}", at + 1),
    };
    let begun = match transaction.begun {
        Some(at) => format!("begun at event {}", at + 1),
        None => "begun before".to_string(),
    };
    format!("transaction {}, {begun}, {ending}: {}", transaction.number, told.fate(place))
}

/// The transaction's number, where it begins.
fn draw_badge(svg: &mut Svg, told: &Told, scale: &Scale, bar: &Bar, y: f64) {
    let transaction = &told.history.transactions[bar.transaction];
    let tip = transaction.begun.map_or("begun before".to_string(), |at| told.tip(at));
    if !scale.has_room_for_text() {
        svg.text_with_tip(scale.left(bar.first) + 3.0, y - 4.5, "small", &transaction.number.to_string(), &tip);
        return;
    }
    let class = format!("badge-{}", told.fate(bar.transaction));
    // One that was live before has an event of its own in its first column.
    let x = if transaction.begun.is_some() { scale.middle(bar.first) } else { scale.left(bar.first) };
    svg.circle(x, y, 8.5, &class, &tip);
    svg.text_with_tip(x, y + 3.5, "badge", &transaction.number.to_string(), &tip);
}

fn draw_event(svg: &mut Svg, told: &Told, scale: &Scale, at: usize, y: f64) {
    let Some(Mark { class, letters, tick }) = Mark::of(told, at) else { return };
    if scale.has_room_for_text() {
        svg.text_with_tip(scale.middle(at), y + 4.0, class, &letters, &told.tip(at));
    } else {
        svg.rect(scale.left(at), y - 2.0, scale.step - 1.0, 9.0, tick, &told.tip(at));
    }
}

/// How an event is drawn in its transaction's bar: in letters, or as a tick where there is no room.
pub struct Mark {
    /// The class of the letters.
    pub class: &'static str,
    /// The letters.
    pub letters: String,
    /// The class of the tick.
    pub tick: &'static str,
}

impl Mark {
    /// The mark of an event; none for one that is no transaction's, and where a badge stands.
    pub fn of(told: &Told, at: usize) -> Option<Mark> {
        let accepted = told.answers[at].is_accepted();
        let (class, letters) = told.events[at].and_then(letters)?;
        if matches!(told.events[at], Some(Event::Begin { .. })) && accepted {
            return None;
        }
        // A commit that was cut and lost is none.
        let lost = told.answers[at].is_cut() && told.history.owner[at].is_some_and(|owner| told.fate(owner) == "lost");
        Some(match (accepted, lost) {
            (false, _) => Mark { class: "event no", letters, tick: "tick-no" },
            (true, true) => Mark { class: "event cut", letters: "cut".to_string(), tick: "tick-cut" },
            (true, false) => Mark { class, letters, tick: "tick" },
        })
    }
}

/// The decision on a prepared transaction, where its bar ends.
fn draw_decision(svg: &mut Svg, scale: &Scale, at: usize, y: f64, sign: &str) {
    if scale.has_room_for_text() {
        svg.text(scale.middle(at), y + 4.0, "end", sign);
    } else {
        svg.rect(scale.left(at), y - 2.0, scale.step - 1.0, 9.0, "tick", "");
    }
}

fn letters(event: Event) -> Option<(&'static str, String)> {
    Some(match event {
        Event::Begin { .. } => ("event", "B".to_string()),
        Event::Lock { record, .. } => ("event", format!("L{record}")),
        Event::ReadLock { record, .. } => ("event", format!("L{record}r")),
        Event::Write { record, .. } => ("event", format!("W{record}")),
        Event::Read { record, .. } => ("event", format!("R{record}")),
        Event::Commit { .. } => ("end", "\u{2713}".to_string()),
        Event::Abort { report, .. } => ("end", format!("\u{2717}{}", if report { "\u{2191}" } else { "" })),
        Event::Prepare { .. } => ("end", "P".to_string()),
        Event::Crash | Event::Recover { .. } | Event::Decide { .. } | Event::Query { .. } => return None,
    })
}
