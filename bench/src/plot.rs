// SPDX-License-Identifier: LicenseRef-Wengeludo
//! The plot of how cost grows: streams to the right, microseconds upwards by powers of ten.

use crate::report::Growth;
use crate::summary::Summary;
use std::fmt::Write;

const WIDTH: f64 = 720.0;
const HEIGHT: f64 = 440.0;
const LEFT: f64 = 70.0;
const RIGHT: f64 = 110.0;
const TOP: f64 = 24.0;
const BOTTOM: f64 = 50.0;
const MOST_STREAMS: f64 = 96.0;
const COLOURS: [&str; 6] = ["#b03030", "#3050b0", "#308050", "#a06010", "#703090", "#606060"];

/// The powers of ten that hold all times.
struct Scale {
    low: i32,
    high: i32,
}

impl Scale {
    fn of(growth: &[Growth]) -> Scale {
        let all = || growth.iter().flat_map(|g| &g.points).map(|(_, summary)| summary);
        let low = all().map(|s| s.median).fold(f64::MAX, f64::min).log10().floor() as i32;
        let high = all().map(|s| s.worst).fold(f64::MIN, f64::max).log10().ceil() as i32;
        Scale { low, high }
    }

    fn y(&self, time: f64) -> f64 {
        let share = (time.log10() - f64::from(self.low)) / f64::from(self.high - self.low);
        HEIGHT - BOTTOM - share * (HEIGHT - TOP - BOTTOM)
    }
}

fn x(streams: usize) -> f64 {
    LEFT + streams as f64 / MOST_STREAMS * (WIDTH - LEFT - RIGHT)
}

/// The axes with their lines and words.
fn axes(svg: &mut String, scale: &Scale) {
    let (right, bottom) = (WIDTH - RIGHT, HEIGHT - BOTTOM);
    for power in scale.low..=scale.high {
        let y = scale.y(10f64.powi(power));
        let name = if power < 0 { format!("{:.1}", 10f64.powi(power)) } else { format!("{}", 10i64.pow(power as u32)) };
        let _ = writeln!(svg, r##"<line x1="{LEFT}" y1="{y:.1}" x2="{right}" y2="{y:.1}" stroke="#ddd"/>"##);
        let _ = writeln!(svg, r#"<text x="{}" y="{:.1}" text-anchor="end">{name}</text>"#, LEFT - 8.0, y + 4.0);
    }
    for streams in (0..=96).step_by(12) {
        let x = x(streams);
        let _ = writeln!(svg, r##"<line x1="{x:.1}" y1="{TOP}" x2="{x:.1}" y2="{bottom}" stroke="#eee"/>"##);
        let _ = writeln!(svg, r#"<text x="{x:.1}" y="{}" text-anchor="middle">{streams}</text>"#, bottom + 18.0);
    }
    let _ = writeln!(svg, r#"<text x="{}" y="{}" text-anchor="middle">streams</text>"#, (LEFT + right) / 2.0, HEIGHT - 12.0);
    let middle = (TOP + bottom) / 2.0;
    let _ = writeln!(
        svg,
        r#"<text x="18" y="{middle}" text-anchor="middle" transform="rotate(-90 18 {middle})">microseconds</text>"#
    );
}

/// The medians as a line, the worst as a dashed one, the name in the given row of the list at the right.
fn series(svg: &mut String, scale: &Scale, growth: &Growth, row: usize) {
    let colour = COLOURS[row % COLOURS.len()];
    let points = |time: fn(&Summary) -> f64| {
        let pairs = growth.points.iter().map(|(streams, s)| format!("{:.1},{:.1}", x(*streams), scale.y(time(s))));
        pairs.collect::<Vec<String>>().join(" ")
    };
    let (median, worst) = (points(|s| s.median), points(|s| s.worst));
    let _ = writeln!(svg, r#"<polyline points="{median}" fill="none" stroke="{colour}" stroke-width="2"/>"#);
    let _ = writeln!(svg, r#"<polyline points="{worst}" fill="none" stroke="{colour}" stroke-dasharray="4 4"/>"#);
    let (left, y) = (WIDTH - RIGHT + 12.0, TOP + 16.0 * row as f64 + 10.0);
    let _ = writeln!(svg, r#"<text x="{left}" y="{y}" fill="{colour}">{}</text>"#, growth.name);
}

/// The plot as SVG.
pub fn svg(growth: &[Growth]) -> String {
    let scale = Scale::of(growth);
    let mut svg = String::new();
    let _ = writeln!(
        svg,
        r#"<svg xmlns="http://www.w3.org/2000/svg" viewBox="0 0 {WIDTH} {HEIGHT}" font-family="sans-serif" font-size="12">"#
    );
    let _ = writeln!(svg, r##"<rect width="{WIDTH}" height="{HEIGHT}" fill="#fff"/>"##);
    let _ = writeln!(svg, "<title>Time by the number of streams: median, and dashed the worst</title>");
    axes(&mut svg, &scale);
    growth.iter().enumerate().for_each(|(row, growth)| series(&mut svg, &scale, growth, row));
    svg.push_str("</svg>\n");
    svg
}
