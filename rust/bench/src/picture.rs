//! The table as a picture: for each thing that is timed a group of bars, two for each kind.

use crate::timing::{Limit, Line};
use std::fmt::Write;

const ROW: usize = 13;
const GAP: usize = 26;
const LEFT: f64 = 150.0;
const WIDTH: f64 = 460.0;

/// An SVG text. Within a group the longest bar has the whole width.
pub fn svg(lines: &[Line], title: &str) -> String {
    let mut body = String::new();
    let mut y = 40;
    for group in lines.chunk_by(|a, b| a.what == b.what) {
        let longest = group.iter().map(|line| line.original.max(line.port)).fold(0.0, f64::max);
        let _ = writeln!(body, r#"<text x="10" y="{}" font-weight="bold">{} (ns per {})</text>"#, y + 10, group[0].what, group[0].unit);
        y += 16;
        for line in group {
            let _ = writeln!(body, r#"<text x="{}" y="{}" text-anchor="end">{}</text>"#, LEFT - 6.0, y + 14, line.kind);
            bar(&mut body, y, line.original, longest, "#9aa5b1", "original");
            let side = if matches!(line.limit, Limit::Peer) { "peer" } else { "port" };
            bar(&mut body, y + ROW, line.port, longest, "#2f6f9f", side);
            y += 2 * ROW + 5;
        }
        y += GAP - 16;
    }
    format!(
        r##"<svg xmlns="http://www.w3.org/2000/svg" width="760" height="{y}" font-family="sans-serif" font-size="11">
<rect width="100%" height="100%" fill="#ffffff"/>
<text x="10" y="20" font-size="13">{title}</text>
{body}</svg>
"##
    )
}

fn bar(body: &mut String, y: usize, value: f64, longest: f64, colour: &str, side: &str) {
    let width = (value / longest * WIDTH).max(1.0);
    let _ = writeln!(body, r#"<rect x="{LEFT}" y="{y}" width="{width:.1}" height="{}" fill="{colour}"/>"#, ROW - 1);
    let _ = writeln!(body, r#"<text x="{:.1}" y="{}">{value:.2} {side}</text>"#, LEFT + width + 5.0, y + 10);
}
