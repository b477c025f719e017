//! The plot: ratios as bars, and times against the number of locks.

use crate::fill::{Fill, SIZES};
use crate::report::{Results, time};
use crate::rows::ROWS;
use std::fmt::Write;

const WIDTH: f64 = 1120.0;
const BAR: f64 = 9.0;
const GROUP: f64 = 3.0 * BAR + 8.0;
const TOP: f64 = 60.0;
const LIBRARY: &str = "#1f5fa8";
const FLAT: &str = "#c4651a";
const SHADES: [&str; 3] = ["#9cc3ec", "#4d8fd1", "#1f5fa8"];

/// Rows drawn as lines against L.
const LINES: [&str; 5] = ["sound", "request, granted", "release, sweep grants", "break, no deadlock", "image"];

/// Where the bars are.
const BARS_LEFT: f64 = 170.0;
const BARS_WIDTH: f64 = 330.0;

/// Where the lines are.
const LINES_LEFT: f64 = 600.0;
const LINES_WIDTH: f64 = 330.0;

/// The plot as an SVG file.
pub fn plot(results: &Results) -> String {
    let height = TOP + GROUP * ROWS.len() as f64 + 50.0;
    let mut svg = String::new();
    let _ = write!(
        svg,
        "<svg xmlns=\"http://www.w3.org/2000/svg\" viewBox=\"0 0 {WIDTH} {height}\" font-family=\"sans-serif\" font-size=\"11\">\n\
         <rect width=\"{WIDTH}\" height=\"{height}\" fill=\"white\"/>\n"
    );
    bars(&mut svg, results, height);
    lines(&mut svg, results, height);
    svg.push_str("</svg>\n");
    svg
}

fn text(svg: &mut String, x: f64, y: f64, anchor: &str, words: &str) {
    let _ = writeln!(svg, "<text x=\"{x:.1}\" y=\"{y:.1}\" text-anchor=\"{anchor}\">{words}</text>");
}

fn line(svg: &mut String, from: (f64, f64), to: (f64, f64), style: &str) {
    let _ = writeln!(svg, "<line x1=\"{:.1}\" y1=\"{:.1}\" x2=\"{:.1}\" y2=\"{:.1}\" {style}/>", from.0, from.1, to.0, to.1);
}

/// Ratios on full tables, a bar for each size.
fn bars(svg: &mut String, results: &Results, height: f64) {
    text(svg, BARS_LEFT, 20.0, "start", "Library over flat, full tables (1 = as fast)");
    for (at, size) in SIZES.iter().enumerate() {
        let x = BARS_LEFT + 110.0 * at as f64;
        let _ = writeln!(svg, "<rect x=\"{x}\" y=\"30\" width=\"10\" height=\"10\" fill=\"{}\"/>", SHADES[at]);
        text(svg, x + 14.0, 39.0, "start", &format!("R {}, L {}", size.resources, size.locks));
    }
    let all = (0..ROWS.len()).flat_map(|row| (0..SIZES.len()).map(move |size| (size, row)));
    let most = all.map(|(size, row)| results.cell(size, Fill::Full, row).ratio).fold(2.0, f64::max);
    let bottom = height - 40.0;
    for tick in ticks(most) {
        let x = BARS_LEFT + BARS_WIDTH * tick / most;
        let style = if tick == 1.0 { "stroke=\"#444\"" } else { "stroke=\"#ddd\"" };
        line(svg, (x, TOP - 10.0), (x, bottom), style);
        text(svg, x, bottom + 14.0, "middle", &format!("{tick}"));
    }
    for (row, spec) in ROWS.iter().enumerate() {
        let y = TOP + GROUP * row as f64;
        text(svg, BARS_LEFT - 8.0, y + GROUP / 2.0, "end", spec.title);
        for (size, shade) in SHADES.iter().enumerate() {
            let ratio = results.cell(size, Fill::Full, row).ratio;
            let (top, width) = (y + BAR * size as f64, BARS_WIDTH * ratio / most);
            let _ =
                writeln!(svg, "<rect x=\"{BARS_LEFT}\" y=\"{top:.1}\" width=\"{width:.1}\" height=\"{:.1}\" fill=\"{shade}\"/>", BAR - 1.0);
            text(svg, BARS_LEFT + width + 3.0, top + BAR - 1.0, "start", &format!("<tspan font-size=\"8\">{ratio:.2}</tspan>"));
        }
    }
}

/// Round numbers up to a most, few of them, and 1.
fn ticks(most: f64) -> Vec<f64> {
    let step = [1.0, 2.0, 5.0, 10.0, 20.0, 50.0, 100.0, 200.0, 500.0, 1000.0].into_iter().find(|step| most / step <= 8.0).unwrap_or(5000.0);
    let mut found: Vec<f64> = (0..=(most / step) as usize).map(|times| step * times as f64).collect();
    if !found.contains(&1.0) {
        found.push(1.0);
    }
    found
}

/// Times on full tables against L, both axes by powers of ten.
fn lines(svg: &mut String, results: &Results, height: f64) {
    text(svg, LINES_LEFT, 20.0, "start", "Time of a call against L, full tables");
    line(svg, (LINES_LEFT, 34.0), (LINES_LEFT + 24.0, 34.0), &format!("stroke=\"{LIBRARY}\" stroke-width=\"2\""));
    text(svg, LINES_LEFT + 30.0, 38.0, "start", "library");
    line(
        svg,
        (LINES_LEFT + 90.0, 34.0),
        (LINES_LEFT + 114.0, 34.0),
        &format!("stroke=\"{FLAT}\" stroke-width=\"2\" stroke-dasharray=\"5 3\""),
    );
    text(svg, LINES_LEFT + 120.0, 38.0, "start", "flat");
    let scale = Scale::of(results, height - 40.0);
    scale.frame(svg);
    let mut labels = Vec::new();
    for title in LINES {
        let row = Results::row(title);
        let cells: Vec<_> = (0..SIZES.len()).map(|size| results.cell(size, Fill::Full, row)).collect();
        let library: Vec<f64> = cells.iter().map(|cell| cell.library).collect();
        let flat: Vec<f64> = cells.iter().map(|cell| cell.flat).collect();
        scale.curve(svg, &library, LIBRARY, "");
        scale.curve(svg, &flat, FLAT, "stroke-dasharray=\"5 3\"");
        labels.push((scale.y(library[2]), title, LIBRARY));
        labels.push((scale.y(flat[2]), title, FLAT));
    }
    end_labels(svg, labels);
}

/// Labels at the ends of lines, moved apart where they would lie on each other, with a stroke from the line to its label.
fn end_labels(svg: &mut String, mut labels: Vec<(f64, &str, &str)>) {
    labels.sort_by(|one, other| one.0.total_cmp(&other.0));
    let end = LINES_LEFT + LINES_WIDTH;
    let mut free_from = TOP;
    for (y, title, colour) in labels {
        let at = y.max(free_from);
        free_from = at + 13.0;
        line(svg, (end, y), (end + 22.0, at), &format!("stroke=\"{colour}\" stroke-width=\"0.5\""));
        text(svg, end + 25.0, at + 4.0, "start", &format!("<tspan fill=\"{colour}\">{title}</tspan>"));
    }
}

/// Where a time and a number of locks are drawn.
struct Scale {
    least: f64,
    most: f64,
    bottom: f64,
}

impl Scale {
    /// A scale of whole powers of ten that has all the lines.
    fn of(results: &Results, bottom: f64) -> Scale {
        let cells = LINES.iter().flat_map(|title| (0..SIZES.len()).map(|size| results.cell(size, Fill::Full, Results::row(title))));
        let times: Vec<f64> = cells.flat_map(|cell| [cell.library, cell.flat]).collect();
        let least = times.iter().copied().fold(f64::INFINITY, f64::min).log10().floor();
        let most = times.iter().copied().fold(1.0, f64::max).log10().ceil();
        Scale { least, most, bottom }
    }

    fn y(&self, nanoseconds: f64) -> f64 {
        let part = (nanoseconds.log10() - self.least) / (self.most - self.least);
        self.bottom - part * (self.bottom - TOP)
    }

    fn x(&self, locks: u32) -> f64 {
        let (first, last) = (f64::from(SIZES[0].locks).log10(), f64::from(SIZES[2].locks).log10());
        LINES_LEFT + LINES_WIDTH * (f64::from(locks).log10() - first) / (last - first)
    }

    fn frame(&self, svg: &mut String) {
        for power in self.least as i32..=self.most as i32 {
            let at = 10_f64.powi(power);
            line(svg, (LINES_LEFT, self.y(at)), (LINES_LEFT + LINES_WIDTH, self.y(at)), "stroke=\"#ddd\"");
            text(svg, LINES_LEFT - 6.0, self.y(at) + 4.0, "end", &time(at));
        }
        for size in SIZES {
            let x = self.x(size.locks);
            line(svg, (x, TOP), (x, self.bottom), "stroke=\"#eee\"");
            text(svg, x, self.bottom + 14.0, "middle", &format!("L {}", size.locks));
        }
    }

    fn curve(&self, svg: &mut String, times: &[f64], colour: &str, dashes: &str) {
        let points: Vec<String> =
            times.iter().zip(SIZES).map(|(time, size)| format!("{:.1},{:.1}", self.x(size.locks), self.y(*time))).collect();
        let _ = writeln!(svg, "<polyline points=\"{}\" fill=\"none\" stroke=\"{colour}\" stroke-width=\"2\" {dashes}/>", points.join(" "));
    }
}
