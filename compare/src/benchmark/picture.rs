//! docs/benchmarks.svg: a panel for each family of contexts, in it a bar for each class with a mark at its limit, and a line at 1.0.

use crate::clock::Row;
use crate::report::{classes, escaped, families, worst};

const COLUMNS: usize = 3;
const PANEL: f64 = 390.0;
const LABELS: f64 = 100.0;
const BARS: f64 = 225.0;
const STEP: f64 = 18.0;
const TOP: f64 = 80.0;
/// The ratio at the right end of a panel; a longer bar is cut there.
const END: f64 = 2.5;

const WITHIN: &str = "#2c7fb8";
const ABOVE: &str = "#d95f0e";
const FREE: &str = "#8c96a3";
const ONE: &str = "#b42318";
const MARK: &str = "#000000";
const INK: &str = "#1f2328";
const FAINT: &str = "#57606a";

/// Returns the whole picture. `about` says where the numbers are from.
pub fn picture(rows: &[Row], about: &str) -> String {
    let mut text = words(20.0, 28.0, 18, "start", INK, "Lintelrye beside html-escape 0.3.0 after from_utf8: time over time, below 1.0 is faster");
    let about = format!("{}. A bar is the worst of the family's contexts; where the ratio is above {:.1} the bar is cut.", about, END);
    text += &words(20.0, 47.0, 12, "start", FAINT, &about);
    text += &legend(20.0, 68.0);
    let mut y = TOP;
    for line in families(rows).chunks(COLUMNS) {
        let panels: Vec<Vec<&Row>> = line.iter().map(|family| of(rows, family)).collect();
        for (i, panel_rows) in panels.iter().enumerate() {
            text += &panel(panel_rows, line[i], 20.0 + PANEL * i as f64, y);
        }
        y += STEP * panels.iter().map(Vec::len).max().unwrap_or(0) as f64 + 62.0;
    }
    let width = PANEL * COLUMNS as f64 + 20.0;
    let size = format!("viewBox=\"0 0 {0:.0} {1:.0}\" width=\"{0:.0}\" height=\"{1:.0}\"", width, y);
    let ground = block(0.0, 0.0, width, y, "#ffffff");
    format!("<svg xmlns=\"http://www.w3.org/2000/svg\" {} font-family=\"sans-serif\">\n{}{}</svg>\n", size, ground, text)
}

/// Returns the worst row of a family for each of its classes.
fn of<'a>(rows: &'a [Row], family: &str) -> Vec<&'a Row> {
    classes(rows).into_iter().filter_map(|class| worst(rows, family, class)).collect()
}

/// Returns what the colours mean.
fn legend(x: f64, y: f64) -> String {
    let bars = [(WITHIN, "within the limit"), (ABOVE, "above the limit"), (FREE, "no limit")];
    let lines = [(MARK, "the limit"), (ONE, "1.0: as long as the crate takes")];
    let mut text = String::new();
    for (i, (colour, meaning)) in bars.iter().chain(&lines).enumerate() {
        let x = x + [0.0, 150.0, 300.0, 410.0, 510.0][i];
        let width = if i < bars.len() { 12.0 } else { 3.0 };
        text += &block(x + 12.0 - width, y - 10.0, width, 12.0, colour);
        text += &words(x + 18.0, y, 12, "start", INK, meaning);
    }
    text
}

/// Returns a family: its name, the scale, its bars, the line at 1.0, and the marks at the limits.
fn panel(rows: &[&Row], family: &str, x: f64, y: f64) -> String {
    let (left, top, height) = (x + LABELS, y + 32.0, rows.len() as f64 * STEP);
    let mut text = words(x, y + 20.0, 14, "start", INK, family);
    text += &block(left, top, BARS, height, "#f3f5f7");
    for tick in 0..=5 {
        let at = left + BARS * tick as f64 / 5.0;
        text += &block(at, top, 0.6, height, "#d0d7de");
        text += &words(at, top + height + 13.0, 10, "middle", FAINT, &format!("{:.1}", END * tick as f64 / 5.0));
    }
    for (i, row) in rows.iter().enumerate() {
        text += &bar(row, left, top + i as f64 * STEP);
    }
    text += &block(left + width(1.0) - 0.75, top - 3.0, 1.5, height + 6.0, ONE);
    for (i, limit) in rows.iter().enumerate().filter_map(|(i, row)| Some((i, row.limit?))) {
        text += &block(left + width(limit) - 1.5, top + i as f64 * STEP + 1.0, 3.0, STEP - 2.0, MARK);
    }
    text
}

/// Returns how far to the right a ratio is.
fn width(ratio: f64) -> f64 {
    BARS * ratio.min(END) / END
}

/// Returns one bar: its class to the left, its ratio to the right; two gaps where it is cut.
fn bar(row: &Row, left: f64, top: f64) -> String {
    let colour = match row.limit {
        None => FREE,
        Some(_) if row.above() => ABOVE,
        Some(_) => WITHIN,
    };
    let mut text = words(left - 6.0, top + 13.0, 12, "end", INK, row.case.class);
    text += &block(left, top + 3.0, width(row.ratio()), STEP - 6.0, colour);
    if row.ratio() > END {
        text += &block(left + BARS - 10.0, top + 3.0, 2.0, STEP - 6.0, "#ffffff");
        text += &block(left + BARS - 6.0, top + 3.0, 2.0, STEP - 6.0, "#ffffff");
    }
    text + &words(left + BARS + 42.0, top + 13.0, 12, "end", INK, &format!("{:.2}", row.ratio()))
}

fn block(x: f64, y: f64, width: f64, height: f64, colour: &str) -> String {
    format!("<rect x=\"{:.1}\" y=\"{:.1}\" width=\"{:.1}\" height=\"{:.1}\" fill=\"{}\"/>\n", x, y, width, height, colour)
}

fn words(x: f64, y: f64, size: u32, anchor: &str, colour: &str, words: &str) -> String {
    let words = escaped(words);
    format!("<text x=\"{:.1}\" y=\"{:.1}\" font-size=\"{}\" text-anchor=\"{}\" fill=\"{}\">{}</text>\n", x, y, size, anchor, colour, words)
}
