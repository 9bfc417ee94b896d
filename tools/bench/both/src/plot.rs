//! The growth as an SVG: both axes logarithmic.
use std::fmt::Write;

pub struct Line {
    pub name: &'static str,
    /// A class of the style below.
    pub class: &'static str,
    /// Pairs and seconds.
    pub points: Vec<(f64, f64)>,
}

const WIDTH: f64 = 760.0;
const HEIGHT: f64 = 480.0;
const LEFT: f64 = 92.0;
const RIGHT: f64 = 30.0;
const TOP: f64 = 96.0;
const BOTTOM: f64 = 64.0;

const STYLE: &str = "
  .card { fill: #ffffff; } .grid { stroke: #d9dde3; } .axis { stroke: #6b7480; }
  text { fill: #1f2630; font: 13px system-ui, sans-serif; } .title { font-size: 16px; font-weight: 600; }
  .ours { stroke: #0b62c4; fill: #0b62c4; } .rust { stroke: #b8470b; fill: #b8470b; }
  .line { stroke-width: 2.5; } .line.ours, .line.rust { fill: none; } .line.last { stroke-dasharray: 7 5; }
  .dot { stroke-width: 2; } .dot.last { fill: #ffffff; }
  @media (prefers-color-scheme: dark) {
    .card, .dot.last { fill: #14181e; } .grid { stroke: #323943; } .axis { stroke: #8c96a3; } text { fill: #e4e8ee; }
    .ours { stroke: #6db1ff; fill: #6db1ff; } .rust { stroke: #ff9a5c; fill: #ff9a5c; }
  }
";

/// One axis: where a value lies between two powers of ten, drawn from one place to another.
struct Axis {
    low: f64,
    high: f64,
    from: f64,
    to: f64,
}

impl Axis {
    fn at(&self, value: f64) -> f64 {
        self.from + (value.log10() - self.low) / (self.high - self.low) * (self.to - self.from)
    }
}

fn seconds(value: f64) -> String {
    match value {
        v if v < 0.999e-3 => format!("{:.0} µs", v * 1e6),
        v if v < 0.999 => format!("{:.0} ms", v * 1e3),
        v => format!("{v:.0} s"),
    }
}

fn thousands(value: f64) -> String {
    format!("{:.0},000", value / 1e3)
}

pub fn plot(lines: &[Line]) -> String {
    let points = || lines.iter().flat_map(|line| &line.points);
    let low = points().map(|point| point.1).fold(f64::MAX, f64::min).log10().floor();
    let high = points().map(|point| point.1).fold(f64::MIN, f64::max).log10().ceil();
    let x = Axis { low: 800f64.log10(), high: 75_000f64.log10(), from: LEFT, to: WIDTH - RIGHT };
    let y = Axis { low, high, from: HEIGHT - BOTTOM, to: TOP };
    let mut out = String::new();
    draw(&mut out, &x, &y, lines).expect("a String takes it");
    out
}

fn draw(out: &mut String, x: &Axis, y: &Axis, lines: &[Line]) -> std::fmt::Result {
    writeln!(out, r#"<svg xmlns="http://www.w3.org/2000/svg" viewBox="0 0 {WIDTH} {HEIGHT}" role="img" aria-labelledby="title">"#)?;
    writeln!(out, "<title id=\"title\">Time against visited pairs, ours and the Rust of tix, both axes logarithmic</title>")?;
    writeln!(out, "<style>{STYLE}</style>")?;
    writeln!(out, r#"<rect class="card" width="{WIDTH}" height="{HEIGHT}" rx="8"/>"#)?;
    writeln!(out, r#"<text class="title" x="{LEFT}" y="30">A chain of n variables with n + 1 lower bounds</text>"#)?;
    axes(out, x, y)?;
    for (k, line) in (0..).zip(lines) {
        legend(out, line, LEFT + 330.0 * f64::from(k % 2), 54.0 + 22.0 * f64::from(k / 2))?;
        let path: Vec<String> = line.points.iter().map(|&(pairs, time)| format!("{:.1},{:.1}", x.at(pairs), y.at(time))).collect();
        writeln!(out, r#"<polyline class="line {}" points="{}"/>"#, line.class, path.join(" "))?;
        for &(pairs, time) in &line.points {
            writeln!(out, r#"<circle class="dot {}" cx="{:.1}" cy="{:.1}" r="3.5"/>"#, line.class, x.at(pairs), y.at(time))?;
        }
    }
    writeln!(out, "</svg>")
}

fn axes(out: &mut String, x: &Axis, y: &Axis) -> std::fmt::Result {
    for pairs in [1e3, 2e3, 4e3, 8e3, 15e3, 30e3, 60e3] {
        let at = x.at(pairs);
        writeln!(out, r#"<line class="grid" x1="{at:.1}" y1="{TOP}" x2="{at:.1}" y2="{}"/>"#, y.from)?;
        writeln!(out, r#"<text x="{at:.1}" y="{}" text-anchor="middle">{}</text>"#, y.from + 20.0, thousands(pairs))?;
    }
    for exponent in y.low as i32..=y.high as i32 {
        let value = 10f64.powi(exponent);
        let at = y.at(value);
        writeln!(out, r#"<line class="grid" x1="{LEFT}" y1="{at:.1}" x2="{}" y2="{at:.1}"/>"#, x.to)?;
        writeln!(out, r#"<text x="{}" y="{:.1}" text-anchor="end">{}</text>"#, LEFT - 8.0, at + 4.5, seconds(value))?;
    }
    writeln!(out, r#"<line class="axis" x1="{LEFT}" y1="{0}" x2="{1}" y2="{0}"/>"#, y.from, x.to)?;
    writeln!(out, r#"<line class="axis" x1="{LEFT}" y1="{TOP}" x2="{LEFT}" y2="{}"/>"#, y.from)?;
    let (middle, across) = ((x.from + x.to) / 2.0, (y.from + y.to) / 2.0);
    writeln!(out, r#"<text x="{middle:.1}" y="{}" text-anchor="middle">visited pairs, logarithmic</text>"#, HEIGHT - 18.0)?;
    writeln!(
        out,
        r#"<text transform="translate(20 {across:.1}) rotate(-90)" text-anchor="middle">time of all questions, logarithmic</text>"#
    )
}

fn legend(out: &mut String, line: &Line, left: f64, at: f64) -> std::fmt::Result {
    writeln!(out, r#"<polyline class="line {}" points="{left},{at} {},{at}"/>"#, line.class, left + 36.0)?;
    writeln!(out, r#"<circle class="dot {}" cx="{}" cy="{at}" r="3.5"/>"#, line.class, left + 18.0)?;
    writeln!(out, r#"<text x="{}" y="{}">{}</text>"#, left + 46.0, at + 4.5, line.name)
}
