//! What stands around points: the title, the axes, the legend.

use super::pixels::{Area, Tenths};
use super::{Axis, Entry, Panel};
use crate::thousandths::Thousandths;
use std::fmt::Write;

/// Pixels of all plots from left to right.
const WIDTH: i64 = 720;

pub const MARGIN: i64 = 12;

/// Pixels between the margins.
pub const INNER: i64 = WIDTH - 2 * MARGIN;

/// Pixels above the first panel.
pub const HEAD: i64 = 40;

/// Pixels from a line of the legend to the next.
pub const LEGEND_LINE: i64 = 22;

/// The font, the paper and the colours are those of `srm picture`.
const STYLE: &str = "<style>
text { font: 12px Helvetica, Arial, 'DejaVu Sans', sans-serif; fill: #222 }
.paper { fill: #fff }
text.head { font-size: 16px; font-weight: bold }
text.over { font-weight: bold }
text.tick { font-size: 11px; fill: #666; text-anchor: end }
text.below { text-anchor: middle }
.guide { stroke: #ececec }
.axis { fill: none; stroke: #888 }
.line, .bar { fill: none; stroke-width: 1.6 }
.bar { stroke-opacity: 0.55 }
.estimate { fill: none; stroke-width: 1.2; stroke-dasharray: 5 3 }
.box { stroke-width: 1.2; fill-opacity: 0.25 }
.median { stroke-width: 2.4 }
.mean { fill: #fff; stroke-width: 1.2 }
.first { stroke: #0072b2 }
.second { stroke: #d55e00 }
.third { stroke: #009e73 }
.dot.first, .box.first { fill: #0072b2 }
.dot.second, .box.second { fill: #d55e00 }
.dot.third, .box.third { fill: #009e73 }
.plain { stroke: #222 }
</style>
";

pub fn write_head(out: &mut String, title: &str, height: i64) {
    let size = format!("width=\"{WIDTH}\" height=\"{height}\" viewBox=\"0 0 {WIDTH} {height}\"");
    let _ = writeln!(out, "<svg xmlns=\"http://www.w3.org/2000/svg\" {size} role=\"img\">");
    let _ = writeln!(out, "<title>{title}</title>");
    out.push_str(STYLE);
    let _ = writeln!(out, "<rect class=\"paper\" width=\"{WIDTH}\" height=\"{height}\"/>");
    let _ = writeln!(out, "<text class=\"head\" x=\"{MARGIN}\" y=\"24\">{title}</text>");
}

/// The guides and the ticks, what the axes are, and the axes.
pub fn write_axes(out: &mut String, panel: &Panel, area: &Area) {
    let Area { left, right, top, bottom, .. } = *area;
    let _ = writeln!(out, "<text class=\"over\" x=\"{}\" y=\"{}\">{}</text>", left - 26, top - 10, panel.y.label);
    for &tick in &panel.y.ticks {
        let y = area.y(tick);
        let _ = writeln!(out, "<path class=\"guide\" d=\"M{left} {y}H{right}\"/>");
        let below = Tenths(y.0 + 40);
        let _ = writeln!(out, "<text class=\"tick\" x=\"{}\" y=\"{below}\">{}</text>", left - 6, said(tick, &panel.y));
    }
    for &tick in &panel.x.ticks {
        let x = area.x(tick);
        let _ = writeln!(out, "<path class=\"axis\" d=\"M{x} {bottom}v4\"/>");
        let style = "style=\"text-anchor:middle\"";
        let tick = said(tick, &panel.x);
        let _ = writeln!(out, "<text class=\"tick\" {style} x=\"{x}\" y=\"{}\">{tick}</text>", bottom + 16);
    }
    let _ = writeln!(out, "<path class=\"axis\" d=\"M{left} {top}V{bottom}H{right}\"/>");
    let middle = (left + right) / 2;
    let _ = writeln!(out, "<text class=\"below\" x=\"{middle}\" y=\"{}\">{}</text>", bottom + 32, panel.x.label);
}

/// A tick's number: with as many places as the axis needs.
fn said(tick: Thousandths, axis: &Axis) -> String {
    let whole = tick.0 / 1_000;
    if axis.ticks.iter().all(|tick| tick.0 % 1_000 == 0) {
        format!("{whole}")
    } else if axis.ticks.iter().all(|tick| tick.0 % 100 == 0) {
        format!("{whole}.{}", tick.0 % 1_000 / 100)
    } else {
        format!("{whole}.{:02}", tick.0 % 1_000 / 10)
    }
}

pub fn write_legend(out: &mut String, lines: &[Vec<Entry>], top: i64) {
    for (index, line) in lines.iter().enumerate() {
        let y = top + index as i64 * LEGEND_LINE;
        let mut x = MARGIN + 8;
        for entry in line {
            x = write_entry(out, entry, x, y);
        }
    }
}

/// Writes one entry, and answers where the next may stand.
fn write_entry(out: &mut String, entry: &Entry, x: i64, y: i64) -> i64 {
    let text = match entry {
        Entry::Points(look, text) => {
            let _ = writeln!(out, "<path class=\"line {}\" d=\"M{x} {y}h28\"/>", look.class());
            super::marks::write_dot(out, *look, Tenths((x + 14) * 10), Tenths(y * 10));
            text
        }
        Entry::Box(look, text) => {
            let class = look.class();
            let _ = writeln!(out, "<path class=\"line {class}\" d=\"M{x} {y}h28\"/>");
            let _ = writeln!(
                out,
                "<rect class=\"box {class}\" x=\"{}\" y=\"{}\" width=\"16\" height=\"8\"/>",
                x + 6,
                y - 4
            );
            let _ = writeln!(out, "<path class=\"median {class}\" d=\"M{} {}v8\"/>", x + 14, y - 4);
            text
        }
        Entry::Estimate(text) => {
            let _ = writeln!(out, "<path class=\"estimate plain\" d=\"M{x} {y}h28\"/>");
            text
        }
        Entry::Note(text) => {
            let _ = writeln!(out, "<text x=\"{x}\" y=\"{}\">{text}</text>", y + 4);
            return x;
        }
    };
    let _ = writeln!(out, "<text x=\"{}\" y=\"{}\">{text}</text>", x + 36, y + 4);
    x + 36 + 7 * text.chars().count() as i64 + 22
}
