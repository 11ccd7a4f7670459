//! Two panels of lines on logarithmic axes, as SVG.
use std::fmt::Write;

pub struct Line {
    pub name: String,
    pub colour: &'static str,
    pub dashed: bool,
    /// x and y, both above 0.
    pub points: Vec<(f64, f64)>,
}

pub struct Panel {
    pub title: String,
    pub across: String,
    pub up: String,
    pub lines: Vec<Line>,
}

const WIDE: f64 = 420.0;
const HIGH: f64 = 300.0;
const LEFT: f64 = 62.0;
const TOP: f64 = 46.0;
const RIGHT: f64 = 118.0;
const BOTTOM: f64 = 52.0;

fn range(values: impl Iterator<Item = f64> + Clone) -> (f64, f64) {
    let low = values.clone().fold(f64::INFINITY, f64::min);
    let high = values.fold(0.0, f64::max);
    (low.log10(), high.log10().max(low.log10() + 0.1))
}

fn panel(panel: &Panel, x0: f64, out: &mut String) {
    let all = panel.lines.iter().flat_map(|line| line.points.iter());
    let (x_low, x_high) = range(all.clone().map(|point| point.0));
    let (y_low, y_high) = range(all.map(|point| point.1));
    let (y_low, y_high) = (y_low.floor(), y_high.ceil());
    let across = |x: f64| x0 + LEFT + WIDE * (x.log10() - x_low) / (x_high - x_low);
    let up = |y: f64| TOP + HIGH * (1.0 - (y.log10() - y_low) / (y_high - y_low));
    let mut put = |text: String| {
        out.push_str(&text);
        out.push('\n');
    };
    put(format!(
        r##"<text x="{:.0}" y="24" font-size="15" font-weight="600">{}</text>"##,
        x0 + LEFT,
        panel.title
    ));
    for power in y_low as i32..=y_high as i32 {
        let y = up(10f64.powi(power));
        let label = if power >= 0 {
            format!("{}", 10u64.pow(power as u32))
        } else {
            format!("{:.*}", power.unsigned_abs() as usize, 10f64.powi(power))
        };
        put(format!(
            r##"<line x1="{:.1}" y1="{y:.1}" x2="{:.1}" y2="{y:.1}" stroke="#ddd"/>"##,
            x0 + LEFT,
            x0 + LEFT + WIDE
        ));
        put(format!(
            r##"<text x="{:.1}" y="{:.1}" text-anchor="end" fill="#555">{label}</text>"##,
            x0 + LEFT - 8.0,
            y + 4.0
        ));
    }
    for &(x, _) in &panel.lines[0].points {
        put(format!(
            r##"<text x="{:.1}" y="{:.1}" text-anchor="middle" fill="#555">{x}</text>"##,
            across(x),
            TOP + HIGH + 20.0
        ));
    }
    put(format!(
        r##"<text x="{:.1}" y="{:.1}" text-anchor="middle">{}</text>"##,
        x0 + LEFT + WIDE / 2.0,
        TOP + HIGH + 42.0,
        panel.across
    ));
    put(format!(
        r##"<text x="{0:.1}" y="{1:.1}" text-anchor="middle" transform="rotate(-90 {0:.1} {1:.1})">{2}</text>"##,
        x0 + 14.0,
        TOP + HIGH / 2.0,
        panel.up
    ));
    let mut labels: Vec<f64> = Vec::new();
    for line in &panel.lines {
        let mut path = String::new();
        for (place, &(x, y)) in line.points.iter().enumerate() {
            let letter = if place == 0 { 'M' } else { 'L' };
            write!(path, "{letter}{:.1} {:.1} ", across(x), up(y)).unwrap();
        }
        let dashes = if line.dashed {
            r##" stroke-dasharray="5 4""##
        } else {
            ""
        };
        put(format!(
            r##"<path d="{}" fill="none" stroke="{}" stroke-width="2"{dashes}/>"##,
            path.trim_end(),
            line.colour
        ));
        if line.name.is_empty() {
            continue;
        }
        if let Some(&(x, y)) = line.points.last() {
            let mut at = up(y) + 4.0;
            while labels.iter().any(|&other| (other - at).abs() < 14.0) {
                at += 3.0;
            }
            labels.push(at);
            put(format!(
                r##"<text x="{:.1}" y="{at:.1}" fill="{}">{}</text>"##,
                across(x) + 8.0,
                line.colour,
                line.name
            ));
        }
    }
}

/// The panels side by side, and a line of text below them.
pub fn svg(panels: &[Panel], below: &str) -> String {
    let each = LEFT + WIDE + RIGHT;
    let (wide, high) = (each * panels.len() as f64, TOP + HIGH + BOTTOM + 26.0);
    let mut out = format!(
        r##"<svg xmlns="http://www.w3.org/2000/svg" viewBox="0 0 {wide:.0} {high:.0}" font-family="sans-serif" font-size="12" fill="#222">
<rect width="{wide:.0}" height="{high:.0}" fill="#fff"/>
"##
    );
    for (place, one) in panels.iter().enumerate() {
        panel(one, each * place as f64, &mut out);
    }
    out.push_str(&format!(
        "<text x=\"{LEFT:.0}\" y=\"{:.0}\" fill=\"#555\">{below}</text>\n</svg>\n",
        high - 10.0
    ));
    out
}
