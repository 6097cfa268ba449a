//! Locks as rows, one for each record that was ever locked: who holds above, who retains below.

use super::layout::Scale;
use super::svg::Svg;
use super::Told;
use crate::follow::{bearers_in_words, Bearers, Mode};

const ROW: f64 = 30.0;

/// A stretch of events during which the same transactions have to do with a lock.
#[derive(Clone)]
pub struct Stretch {
    /// The first event.
    pub first: usize,
    /// One past the last event.
    pub end: usize,
    /// Who, and in which mode.
    pub who: Bearers,
}

/// The lock of one record through a run.
#[derive(Clone, Default)]
pub struct Row {
    /// Who holds it.
    pub held: Vec<Stretch>,
    /// Who retains it.
    pub retained: Vec<Stretch>,
    /// Where it waits for a decision: from an event to another, and on which identity.
    pub prepared: Vec<(usize, usize, u8)>,
}

/// The locks of the records that were ever locked.
pub struct Rows {
    /// Each of them with its record.
    pub rows: Vec<(usize, Row)>,
}

/// Lengthens the last stretch, or begins another.
fn note(stretches: &mut Vec<Stretch>, at: usize, who: &Bearers) {
    match stretches.last_mut() {
        Some(last) if last.who == *who => last.end = at + 1,
        _ => stretches.push(Stretch { first: at, end: at + 1, who: who.clone() }),
    }
}

/// Lengthens the last wait, or begins another.
fn wait(waits: &mut Vec<(usize, usize, u8)>, at: usize, identity: u8) {
    match waits.last_mut() {
        Some((_, end, same)) if *end == at && *same == identity => *end = at + 1,
        _ => waits.push((at, at + 1, identity)),
    }
}

impl Rows {
    /// Follows the locks through a run.
    pub fn of(told: &Told) -> Rows {
        let mut follower = told.start.clone();
        let mut rows = vec![Row::default(); told.edition.records];
        for (at, (event, answer)) in told.events.iter().zip(told.answers).enumerate() {
            // A crash comes at the right end of its column: until there all is as it was.
            let before = follower.clone();
            if let Some(event) = event {
                follower.event(*event, *answer);
            }
            let shown = if told.is_crash(at) { &before } else { &follower };
            for (row, lock) in rows.iter_mut().zip(&shown.locks) {
                note(&mut row.held, at, &lock.holders);
                note(&mut row.retained, at, &lock.retainers);
            }
            if let Some((identity, records)) = &follower.prepared {
                records.iter().for_each(|record| wait(&mut rows[usize::from(*record)].prepared, at, identity.0));
            }
        }
        let locked = |row: &Row| row.held.iter().chain(&row.retained).any(|stretch| !stretch.who.is_empty());
        let used = |row: &Row| locked(row) || !row.prepared.is_empty();
        Rows { rows: rows.into_iter().enumerate().filter(|(_, row)| used(row)).collect() }
    }

    /// The height of all rows.
    pub fn height(&self) -> f64 {
        self.rows.len() as f64 * ROW
    }

    /// Draws the rows.
    pub fn draw(&self, svg: &mut Svg, scale: &Scale, top: f64) {
        for (place, (record, row)) in self.rows.iter().enumerate() {
            let y = top + place as f64 * ROW;
            svg.line(16.0, y, scale.right() - 16.0, y, "grid");
            svg.text(16.0, y + 16.0, "label", &format!("record {record}"));
            row.held.iter().for_each(|stretch| stretch.draw(svg, scale, y + 2.0, "held"));
            row.retained.iter().for_each(|stretch| stretch.draw(svg, scale, y + 16.0, "retained"));
            for (first, end, identity) in &row.prepared {
                let (left, right) = (scale.left(*first), scale.left(*end));
                let tip = format!("locked until the decision on identity {identity}");
                svg.rect(left, y + 2.0, right - left - 1.0, 26.0, "prepared", &tip);
                let label = format!("p{identity}");
                if right - left > 4.0 + 6.0 * label.len() as f64 {
                    svg.text((left + right) / 2.0, y + 18.5, "held-by", &label);
                }
            }
        }
    }
}

impl Stretch {
    fn draw(&self, svg: &mut Svg, scale: &Scale, y: f64, what: &str) {
        if self.who.is_empty() {
            return;
        }
        let class = self.class(what);
        let (left, right) = (scale.left(self.first), scale.left(self.end));
        svg.rect(left, y, right - left - 1.0, 12.0, &class, &bearers_in_words(what, &self.who));
        let label = self.label();
        if right - left > 4.0 + 6.0 * label.len() as f64 {
            svg.text((left + right) / 2.0, y + 9.5, &format!("{what}-by"), &label);
        }
    }

    /// How it is drawn: held or retained, and otherwise where all may only read.
    pub fn class(&self, what: &str) -> String {
        let to_read = self.who.values().all(|mode| *mode == Mode::Read);
        format!("{what}{}", if to_read { "-to-read" } else { "" })
    }

    /// Their numbers, those that may only read with an r.
    pub fn label(&self) -> String {
        let short = |(t, mode): (&u8, &Mode)| format!("{t}{}", if *mode == Mode::Read { "r" } else { "" });
        self.who.iter().map(short).collect::<Vec<_>>().join(" ")
    }
}
