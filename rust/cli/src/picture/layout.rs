//! Where everything goes: columns for events, nested boxes for transactions.

use nekahuiro_history::{End, History};

const LEFT: f64 = 94.0;
const RIGHT: f64 = 16.0;
const WIDEST: f64 = 34.0;
const NARROWEST: f64 = 4.0;
const WANTED: f64 = 1400.0;

/// Columns: one for each event.
pub struct Scale {
    /// The width of a column.
    pub step: f64,
    columns: usize,
}

impl Scale {
    /// The scale of a list of this many events.
    pub fn of(columns: usize) -> Scale {
        Scale { step: (WANTED / columns.max(1) as f64).clamp(NARROWEST, WIDEST), columns }
    }

    /// The left end of a column.
    pub fn left(&self, at: usize) -> f64 {
        LEFT + at as f64 * self.step
    }

    /// The middle of a column.
    pub fn middle(&self, at: usize) -> f64 {
        self.left(at) + self.step / 2.0
    }

    /// The right end of all.
    pub fn right(&self) -> f64 {
        self.left(self.columns) + RIGHT
    }

    /// Whether a column has room for a word such as L15.
    pub fn has_room_for_text(&self) -> bool {
        self.step >= 20.0
    }

    /// Every which event gets its number on the axis.
    pub fn number_every(&self) -> usize {
        [1, 5, 10, 50, 100].into_iter().find(|every| *every as f64 * self.step >= 20.0).unwrap_or(100)
    }
}

/// A row for a transaction's own events.
pub const ROW: f64 = 24.0;
/// Between a box and what is in it.
pub const GAP: f64 = 4.0;

/// A transaction's box. Its children's boxes lie in it, below its own row.
pub struct Bar {
    /// Its place in the history.
    pub transaction: usize,
    /// The first event.
    pub first: usize,
    /// The last event.
    pub last: usize,
    /// The top, from the top of all boxes.
    pub top: f64,
    /// The height, children included.
    pub height: f64,
}

/// All boxes.
#[derive(Default)]
pub struct Layout {
    /// Parents before their children.
    pub bars: Vec<Bar>,
    /// The height of all.
    pub height: f64,
}

impl Layout {
    /// Places every transaction of a history over a list of this many events.
    pub fn of(history: &History, events: usize) -> Layout {
        let count = history.transactions.len();
        let mut builder = Builder { history, events, children: vec![Vec::new(); count], heights: vec![ROW; count] };
        let mut tops = Vec::new();
        for (place, told) in history.transactions.iter().enumerate() {
            told.parent.map_or(&mut tops, |parent| &mut builder.children[parent]).push(place);
        }
        // Children come after their parents, so from the last to the first all heights are known.
        for place in (0..count).rev() {
            let inner = builder.packed(&builder.children[place]).1;
            builder.heights[place] = if inner > 0.0 { ROW + GAP + inner } else { ROW };
        }
        let mut layout = Layout::default();
        layout.height = builder.place(&tops, 0.0, &mut layout.bars);
        layout
    }
}

struct Builder<'h> {
    history: &'h History,
    events: usize,
    children: Vec<Vec<usize>>,
    heights: Vec<f64>,
}

impl Builder<'_> {
    /// The top of each sibling, in the order of their begins, and the height of all. Each goes as high as those leave
    /// room that are there at the same time.
    fn packed(&self, siblings: &[usize]) -> (Vec<f64>, f64) {
        let (mut tops, mut height) = (Vec::new(), 0.0_f64);
        let mut beside: Vec<(f64, usize)> = Vec::new();
        for place in siblings {
            beside.retain(|(_, other)| self.last(*other) >= self.first(*place));
            let mut top = 0.0_f64;
            for (other_top, other) in &beside {
                if top + self.heights[*place] + GAP <= *other_top {
                    break;
                }
                top = top.max(other_top + self.heights[*other] + GAP);
            }
            beside.push((top, *place));
            beside.sort_by(|(one, _), (other, _)| one.total_cmp(other));
            tops.push(top);
            height = height.max(top + self.heights[*place] + GAP);
        }
        (tops, height)
    }

    /// Places siblings and all below them, parents first; gives the height that they take.
    fn place(&self, siblings: &[usize], top: f64, bars: &mut Vec<Bar>) -> f64 {
        let (tops, height) = self.packed(siblings);
        for (place, own) in siblings.iter().zip(tops) {
            let (first, last, y) = (self.first(*place), self.last(*place), top + own);
            bars.push(Bar { transaction: *place, first, last, top: y, height: self.heights[*place] });
            self.place(&self.children[*place], y + ROW + GAP, bars);
        }
        height
    }

    fn first(&self, transaction: usize) -> usize {
        self.history.transactions[transaction].begun.unwrap_or(0)
    }

    fn last(&self, transaction: usize) -> usize {
        match self.history.transactions[transaction].end {
            End::Never => self.events.saturating_sub(1),
            // Until its decision, if it has one.
            End::Prepared { decision: Some(decision), .. } => decision.at,
            End::Prepared { cut: false, changed: 1.., .. } => self.events.saturating_sub(1),
            End::Committed { at, .. } | End::Prepared { at, .. } | End::Aborted(at) | End::Crashed(at) => at,
        }
    }
}

#[cfg(test)]
mod tests {
    use super::*;
    use nekahuiro::Store;
    use nekahuiro_lists::timing;

    /// Whether two bars share a moment.
    fn meet(one: &Bar, other: &Bar) -> bool {
        one.first <= other.last && other.first <= one.last
    }

    #[test]
    fn children_lie_in_their_parents_and_no_other_bars_overlap() {
        for (name, words) in timing::all() {
            let answers = Store::fresh().play_words(&words).unwrap();
            let bytes: Vec<u8> = answers.iter().flat_map(|answer| answer.bytes()).collect();
            let history = nekahuiro_history::tell(&words, &bytes).unwrap();
            let bars = Layout::of(&history, answers.len()).bars;
            assert_eq!(bars.len(), history.transactions.len(), "{name}");
            let is_above = |one: &Bar, other: &Bar| history.line(other.transaction).any(|up| up == one.transaction);
            for (at, one) in bars.iter().enumerate() {
                for other in bars[at + 1..].iter().filter(|other| meet(one, other)) {
                    let (end, other_end) = (one.top + one.height, other.top + other.height);
                    match is_above(one, other) {
                        true => {
                            assert!(one.top + ROW <= other.top && other_end <= end, "{name}: a child out of its parent")
                        }
                        false => assert!(end <= other.top || other_end <= one.top, "{name}: two bars overlap"),
                    }
                }
            }
        }
    }
}
