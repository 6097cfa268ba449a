//! A state as a drawing: its live transactions as a tree, what each has and waits for, and the ring.

use super::svg::Svg;
use nekahuiro::{Record, Ring, Row, State, Transaction};
use std::collections::BTreeMap;

const COLUMN: f64 = 130.0;
const LEVEL: f64 = 92.0;
const TOP: f64 = 70.0;
const SIDE: f64 = 40.0;
const RADIUS: f64 = 13.0;
const LEAST_WIDTH: f64 = 480.0;

const STYLE: &str = "
.wait { fill: none; stroke: #b3261e; stroke-width: 2 } .wait-head { fill: #b3261e }
.kin { stroke: #9aa3af; stroke-width: 1.5 } .calm { fill: #5c6673 } .caught { fill: #b3261e }
.note { fill: #333; font-size: 10px; text-anchor: middle }
.waits { fill: #b3261e; font-size: 10px; text-anchor: middle }
";

/// Where each transaction stands: a column for each that has no child, parents above the middle of theirs.
struct Places {
    at: BTreeMap<Transaction, (f64, f64)>,
    columns: f64,
    levels: f64,
}

impl Places {
    fn of(state: &State) -> Places {
        let mut places = Places { at: BTreeMap::new(), columns: 0.0, levels: 0.0 };
        let tops: Vec<Transaction> = state.live().filter(|t| state.parent(*t).is_none()).collect();
        tops.into_iter().for_each(|top| places.put(state, top, 0.0));
        places
    }

    /// Places a transaction and all beneath it; a sound state has an end there.
    fn put(&mut self, state: &State, transaction: Transaction, level: f64) {
        let first = self.columns;
        let children: Vec<Transaction> = state.live().filter(|t| state.parent(*t) == Some(transaction)).collect();
        children.iter().for_each(|child| self.put(state, *child, level + 1.0));
        if children.is_empty() {
            self.columns += 1.0;
        }
        self.levels = self.levels.max(level + 1.0);
        let middle = (first + self.columns - 1.0) / 2.0;
        self.at.insert(transaction, (SIDE + COLUMN / 2.0 + middle * COLUMN, TOP + level * LEVEL));
    }
}

/// Draws a state with its waiting rows and a ring, under these words.
pub fn draw(state: &State, rows: &[Row], ring: &Ring, words: &str) -> String {
    let places = Places::of(state);
    let widest = (2.0 * SIDE + places.columns * COLUMN).max(32.0 + 7.6 * words.len() as f64);
    let mut svg = Svg::new(widest.max(LEAST_WIDTH), TOP + places.levels.max(1.0) * LEVEL + 30.0);
    svg.style(STYLE);
    svg.text(16.0, 24.0, "title", words);
    if places.at.is_empty() {
        svg.text(16.0, TOP, "label", "nothing is live");
    }
    for (child, (x, y)) in &places.at {
        if let Some((up_x, up_y)) = state.parent(*child).and_then(|parent| places.at.get(&parent)) {
            svg.line(*up_x, *up_y, *x, *y, "kin");
        }
    }
    let caught: Vec<Transaction> = ring.transactions().collect();
    for (one, other) in caught.iter().zip(caught.iter().cycle().skip(1)) {
        if let (Some(from), Some(to)) = (places.at.get(one), places.at.get(other)) {
            svg.arrow(*from, *to, RADIUS, "wait", &format!("{one} waits for {other}"));
        }
    }
    for (transaction, (x, y)) in &places.at {
        let class = if caught.contains(transaction) { "caught" } else { "calm" };
        svg.circle(*x, *y, RADIUS, class, &format!("transaction {transaction}"));
        svg.text(*x, y + 3.5, "badge", &transaction.to_string());
        for (line, (class, note)) in notes(state, rows, *transaction).iter().enumerate() {
            svg.text(*x, y + RADIUS + 13.0 + 12.0 * line as f64, class, note);
        }
    }
    let bottom = TOP + places.levels.max(1.0) * LEVEL + 16.0;
    svg.text(16.0, bottom, "legend", "grey line: parent and child \u{b7} red: the ring \u{b7} 3r: record 3, to read");
    svg.finish()
}

/// What a transaction holds, retains and waits for, each in a line if there is any.
fn notes(state: &State, rows: &[Row], transaction: Transaction) -> Vec<(&'static str, String)> {
    let is = |mut who: Box<dyn Iterator<Item = Transaction> + '_>| who.any(|t| t == transaction);
    let of = |any: &dyn Fn(Record) -> bool, writes: &dyn Fn(Record) -> bool| {
        let short = |r: Record| format!("{r}{}", if writes(r) { "" } else { "r" });
        Record::all().filter(|r| any(*r)).map(short).collect::<Vec<_>>()
    };
    let held = of(&|r| is(Box::new(state.holders(r))), &|r| is(Box::new(state.write_holders(r))));
    let retained = of(&|r| is(Box::new(state.retainers(r))), &|r| is(Box::new(state.write_retainers(r))));
    let own = rows.iter().filter(|row| row.transaction == transaction.number());
    let waits = own.map(|row| format!("{}{}", row.record, if row.mode == 1 { "r" } else { "" }));
    let waits = waits.collect();
    let lines = [("note", "holds", held), ("note", "retains", retained), ("waits", "waits for", waits)];
    let some = lines.into_iter().filter(|(.., records)| !records.is_empty());
    let thing = |records: &[String]| if records.len() == 1 { "record" } else { "records" };
    some.map(|(class, verb, records)| (class, format!("{verb} {} {}", thing(&records), records.join(" ")))).collect()
}
