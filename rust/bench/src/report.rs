//! The rows as a table of values and as a plot.
use crate::measure::Row;
use crate::plot::{svg, Line, Panel};
use std::fmt::Write as _;

/// Where no other bench was asked, its two columns are empty.
pub fn csv(rows: &[Row]) -> String {
    let mut out = String::from(
        "group,size,files,histories,service,before_us,proved_us,scan_us,index_us,faster,to_index\n",
    );
    for row in rows {
        let [proved, scan, index] = row.times;
        let or_empty =
            |value: Option<f64>| value.map_or(String::new(), |value| format!("{value:.3}"));
        writeln!(
            out,
            "{},{},\"{}\",{},{},{},{proved:.3},{scan:.3},{index:.3},{},{:.3}",
            row.group,
            row.size,
            row.files,
            row.histories,
            row.service,
            or_empty(row.before),
            or_empty(row.before.map(|before| before / proved)),
            proved / index
        )
        .unwrap();
    }
    out
}

fn panel(rows: &[Row], group: &str, title: &str, across: &str) -> Panel {
    let mut lines = Vec::new();
    for (service, colour) in [
        ("stop marks", "#D55E00"),
        ("sets", "#009E73"),
        ("first reading", "#0072B2"),
    ] {
        for (side, name) in [(0, service), (2, "")] {
            let points = rows
                .iter()
                .filter(|row| row.group == group && row.service == service)
                .map(|row| (row.size as f64, row.times[side]))
                .collect();
            lines.push(Line {
                name: name.into(),
                colour,
                dashed: side != 0,
                points,
            });
        }
    }
    Panel {
        title: title.into(),
        across: across.into(),
        up: "microseconds for one call".into(),
        lines,
    }
}

pub fn plot(rows: &[Row], rounds: usize) -> String {
    let title = "1,024 tokens of one name, a stage for each 4 rules";
    let panels = [
        panel(rows, "tokens", "32 rules of one name, 8 stages", "tokens"),
        panel(rows, "rules", title, "rules"),
    ];
    let below = format!(
        "solid: the proved library; dashed: plain Rust with the same index; one core, release builds, best of {rounds} rounds"
    );
    svg(&panels, &below)
}
