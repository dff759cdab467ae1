//! Points, lines, bars and boxes.

use super::pixels::{Area, Tenths};
use super::{Look, Series};
use crate::thousandths::{Spread, Thousandths};
use std::fmt::Write;

/// Half of a box's width, in tenths of a pixel.
const HALF: i64 = 35;

/// From a box to the next beside it, in tenths of a pixel.
const BESIDE: i64 = 95;

/// Writes a series. Boxes at one place stand side by side, and so do bars.
pub fn write_series(out: &mut String, series: &Series, all: &[Series], area: &Area) {
    let (place, count) = beside(series, all);
    let aside = |step: i64| (2 * place - count + 1) * step / 2;
    match series {
        Series::Line(look, points) => {
            write_line(out, "line", *look, points, area);
            for &(x, y) in points {
                write_dot(out, *look, area.x(Thousandths::whole(x)), area.y(y));
            }
        }
        Series::Means(look, points) => write_means(out, *look, points, aside(30), area),
        Series::Boxes(look, points) => {
            for (x, spread) in points {
                let x = area.x(Thousandths::whole(*x)).0 + aside(BESIDE);
                write_box(out, *look, x, spread, area);
            }
        }
        Series::Estimate(look, points) => write_line(out, "estimate", *look, points, area),
    }
}

/// Which of how many series of its kind it is.
fn beside(series: &Series, all: &[Series]) -> (i64, i64) {
    let is_like = |other: &&Series| std::mem::discriminant(*other) == std::mem::discriminant(series);
    let alike: Vec<&Series> = all.iter().filter(is_like).collect();
    let place = alike.iter().position(|other| std::ptr::eq(*other, series)).unwrap_or(0);
    (place as i64, alike.len() as i64)
}

fn write_line(out: &mut String, class: &str, look: Look, points: &[(u64, Thousandths)], area: &Area) {
    let _ = write!(out, "<path class=\"{class} {}\" d=\"", look.class());
    for (index, &(x, y)) in points.iter().enumerate() {
        let letter = if index == 0 { 'M' } else { 'L' };
        let _ = write!(out, "{letter}{} {}", area.x(Thousandths::whole(x)), area.y(y));
    }
    out.push_str("\"/>\n");
}

/// A line through means. A bar stands beside its point by so many tenths of a pixel, so that bars don't hide each other.
fn write_means(out: &mut String, look: Look, points: &[(u64, Spread)], aside: i64, area: &Area) {
    let means: Vec<(u64, Thousandths)> = points.iter().map(|(x, spread)| (*x, spread.mean)).collect();
    write_line(out, "line", look, &means, area);
    for (x, spread) in points {
        let x = Tenths(area.x(Thousandths::whole(*x)).0 + aside);
        let (lower, upper) = (area.y(spread.lower), area.y(spread.upper));
        let _ = writeln!(out, "<path class=\"bar {}\" d=\"M{x} {lower}V{upper}\"/>", look.class());
    }
    for &(x, mean) in &means {
        write_dot(out, look, area.x(Thousandths::whole(x)), area.y(mean));
    }
}

fn write_box(out: &mut String, look: Look, x: i64, spread: &Spread, area: &Area) {
    let class = look.class();
    let (least, most) = (area.y(spread.least), area.y(spread.most));
    let (lower, upper, median) = (area.y(spread.lower), area.y(spread.upper), area.y(spread.median));
    let (left, right, middle) = (Tenths(x - HALF), Tenths(x + HALF), Tenths(x));
    let _ = writeln!(out, "<path class=\"line {class}\" d=\"M{middle} {least}V{lower}M{middle} {upper}V{most}\"/>");
    let _ = writeln!(out, "<path class=\"box {class}\" d=\"M{left} {lower}H{right}V{upper}H{left}z\"/>");
    let _ = writeln!(out, "<path class=\"median {class}\" d=\"M{left} {median}H{right}\"/>");
    let mean = area.y(spread.mean);
    let _ = writeln!(out, "<circle class=\"mean {class}\" cx=\"{middle}\" cy=\"{mean}\" r=\"2.4\"/>");
}

/// A dot of the look's shape.
pub fn write_dot(out: &mut String, look: Look, x: Tenths, y: Tenths) {
    let class = look.class();
    let _ = match look {
        Look::First => writeln!(out, "<circle class=\"dot {class}\" cx=\"{x}\" cy=\"{y}\" r=\"2.6\"/>"),
        Look::Second => writeln!(out, "<path class=\"dot {class}\" d=\"M{x} {y}m-2.5 -2.5h5v5h-5z\"/>"),
        Look::Third => writeln!(out, "<path class=\"dot {class}\" d=\"M{x} {y}m0 -3.4l3.4 6h-6.8z\"/>"),
    };
}
