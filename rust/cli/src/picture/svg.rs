//! The few elements of a drawing.

use std::fmt::Write;

/// A drawing under way.
pub struct Svg {
    text: String,
}

/// How each class is drawn.
pub const STYLE: &str = "
text { font-family: sans-serif; font-size: 11px; fill: #222 }
.title { font-size: 14px; font-weight: bold }
.label { fill: #555 } .legend { fill: #333 }
.number { fill: #777; font-size: 9px; text-anchor: middle }
.refusal { fill: #b3261e; font-weight: bold; font-size: 10px; text-anchor: middle }
.refused-legend { fill: #b3261e } .refused-tick { fill: #b3261e }
.survives { fill: #d5efe2; stroke: #1b7f5c; stroke-width: 1.5 }
.lost { fill: #fae3dc; stroke: #b8482f; stroke-width: 1.5 }
.undecided { fill: #eef0f3; stroke: #5c6673; stroke-width: 1.5 }
.open { stroke-dasharray: 4 3 }
.badge-survives { fill: #1b7f5c } .badge-lost { fill: #b8482f } .badge-undecided { fill: #5c6673 }
.badge { fill: #fff; font-weight: bold; font-size: 10px; text-anchor: middle }
.small { font-size: 8px; font-weight: bold }
.event { font-size: 10px; text-anchor: middle }
.no { fill: #b3261e; text-decoration: line-through }
.end { font-size: 14px; font-weight: bold; text-anchor: middle }
.cut { fill: #b3261e; font-weight: bold }
.recover { fill: #14533d } .recover-cut { fill: #b3261e }
.up { fill: #7cc6a4 } .down { fill: #cfcfcf } .up, .down, .refused-tick { shape-rendering: crispEdges }
.prepared { fill: #8a6d1d } .held { fill: #2f5fa8 } .held-to-read { fill: #5f93d6 } .held-by { fill: #fff; font-size: 10px; font-weight: bold; text-anchor: middle }
.retained { fill: #c3d5f2 } .retained-to-read { fill: #e3ecf9 } .retained-by { fill: #23406e; font-size: 9px; text-anchor: middle }
.grid { stroke: #eee }
.crash { stroke: #b3261e; stroke-width: 2; stroke-dasharray: 6 3 }
.crash-label { fill: #b3261e; font-weight: bold; font-size: 10px; text-anchor: middle }
.tick { fill: #222 } .tick-no { fill: #b3261e } .tick-cut { fill: #e08a00 }
";

impl Svg {
    /// An empty drawing.
    pub fn new(width: f64, height: f64) -> Svg {
        let mut text = String::new();
        let size = format!("width=\"{width:.0}\" height=\"{height:.0}\" viewBox=\"0 0 {width:.0} {height:.0}\"");
        let _ = writeln!(text, "<svg xmlns=\"http://www.w3.org/2000/svg\" {size}>\n<style>{STYLE}</style>");
        let _ = writeln!(text, "<rect width=\"{width:.0}\" height=\"{height:.0}\" fill=\"#fff\"/>");
        Svg { text }
    }

    /// More classes, for this drawing alone.
    pub fn style(&mut self, classes: &str) {
        let _ = writeln!(self.text, "<style>{classes}</style>");
    }

    /// A rectangle; the tip is shown where a pointer rests on it.
    pub fn rect(&mut self, x: f64, y: f64, width: f64, height: f64, class: &str, tip: &str) {
        let round = if height > 14.0 { " rx=\"4\"" } else { "" };
        let place = format!("x=\"{x:.1}\" y=\"{y:.1}\" width=\"{width:.1}\" height=\"{height:.1}\"");
        let _ = match tip {
            "" => writeln!(self.text, "<rect {place}{round} class=\"{class}\"/>"),
            _ => writeln!(self.text, "<rect {place}{round} class=\"{class}\"><title>{tip}</title></rect>"),
        };
    }

    /// Text, all of it our own: nothing in it needs escaping.
    pub fn text(&mut self, x: f64, y: f64, class: &str, text: &str) {
        let _ = writeln!(self.text, "<text x=\"{x:.1}\" y=\"{y:.1}\" class=\"{class}\">{text}</text>");
    }

    /// Text with a tip.
    pub fn text_with_tip(&mut self, x: f64, y: f64, class: &str, text: &str, tip: &str) {
        self.text(x, y, class, &format!("{text}<title>{tip}</title>"));
    }

    /// A triangle that points up, with its foot at this height.
    pub fn arrow_up(&mut self, x: f64, foot: f64, size: f64, class: &str, tip: &str) {
        let (left, right, top) = (x - size / 2.0, x + size / 2.0, foot - size);
        let path = format!("M{left:.1} {foot:.1} L{x:.1} {top:.1} L{right:.1} {foot:.1} Z");
        let _ = writeln!(self.text, "<path d=\"{path}\" class=\"{class}\"><title>{tip}</title></path>");
    }

    /// A line.
    pub fn line(&mut self, x1: f64, y1: f64, x2: f64, y2: f64, class: &str) {
        let ends = format!("x1=\"{x1:.1}\" y1=\"{y1:.1}\" x2=\"{x2:.1}\" y2=\"{y2:.1}\"");
        let _ = writeln!(self.text, "<line {ends} class=\"{class}\"/>");
    }

    /// A bent arrow from one place to another, with its head at the end; it leaves room for circles of this radius.
    pub fn arrow(&mut self, from: (f64, f64), to: (f64, f64), radius: f64, class: &str, tip: &str) {
        let (dx, dy) = (to.0 - from.0, to.1 - from.1);
        let length = dx.hypot(dy).max(1.0);
        // To the left of its way, so that an arrow back goes another way.
        let bend = (from.0 + dx / 2.0 + dy * 0.18, from.1 + dy / 2.0 - dx * 0.18);
        let edge = |at: (f64, f64), gap: f64| {
            let (x, y) = (bend.0 - at.0, bend.1 - at.1);
            let long = x.hypot(y).max(1.0);
            (at.0 + x / long * gap, at.1 + y / long * gap)
        };
        let (start, end) = (edge(from, radius), edge(to, radius + length.min(9.0)));
        let point = edge(to, radius + 1.0);
        let (x, y) = (point.0 - end.0, point.1 - end.1);
        let path = format!("M{:.1} {:.1} Q{:.1} {:.1} {:.1} {:.1}", start.0, start.1, bend.0, bend.1, end.0, end.1);
        let _ = writeln!(self.text, "<path d=\"{path}\" class=\"{class}\"><title>{tip}</title></path>");
        let (left, right) = ((end.0 - y / 2.0, end.1 + x / 2.0), (end.0 + y / 2.0, end.1 - x / 2.0));
        let head =
            format!("M{:.1} {:.1} L{:.1} {:.1} L{:.1} {:.1} Z", left.0, left.1, point.0, point.1, right.0, right.1);
        let _ = writeln!(self.text, "<path d=\"{head}\" class=\"{class}-head\"/>");
    }

    /// A filled circle with a tip.
    pub fn circle(&mut self, x: f64, y: f64, radius: f64, class: &str, tip: &str) {
        let place = format!("cx=\"{x:.1}\" cy=\"{y:.1}\" r=\"{radius:.1}\"");
        let _ = writeln!(self.text, "<circle {place} class=\"{class}\"><title>{tip}</title></circle>");
    }

    /// The whole file.
    pub fn finish(mut self) -> String {
        self.text.push_str("</svg>\n");
        self.text
    }
}
