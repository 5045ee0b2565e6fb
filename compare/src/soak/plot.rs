//! Plots as SVG: panels one below the other, each with its axes, grid, and lines with their names.

pub struct Line {
    pub name: String,
    pub colour: &'static str,
    /// A dashed line lies above the others, so that a line below it can be seen.
    pub dashed: bool,
    pub points: Vec<(f64, f64)>,
}

pub struct Panel {
    pub title: String,
    pub across: &'static str,
    pub up: &'static str,
    pub lines: Vec<Line>,
}

const WIDTH: f64 = 780.0;
const HEIGHT: f64 = 310.0;
const LEFT: f64 = 84.0;
const RIGHT: f64 = 44.0;
const TOP: f64 = 92.0;
const BOTTOM: f64 = 52.0;

/// Returns a number with commas between its thousands.
pub fn grouped(n: u64) -> String {
    let digits = n.to_string();
    let mut text = String::new();
    for (i, digit) in digits.chars().enumerate() {
        if i > 0 && (digits.len() - i) % 3 == 0 {
            text.push(',');
        }
        text.push(digit);
    }
    text
}

/// Returns a step of 1, 2 or 5 times a power of ten that divides a range into about five.
fn step(range: f64) -> f64 {
    let raw = (range / 5.0).max(1.0);
    let power = 10f64.powf(raw.log10().floor());
    power * [1.0, 2.0, 5.0, 10.0].iter().copied().find(|m| m * power >= raw).unwrap_or(10.0)
}

fn text(x: f64, y: f64, anchor: &str, words: &str) -> String {
    format!("<text x=\"{:.1}\" y=\"{:.1}\" text-anchor=\"{}\">{}</text>\n", x, y, anchor, words)
}

fn stroke(x1: f64, y1: f64, x2: f64, y2: f64, style: &str) -> String {
    format!("<line x1=\"{:.1}\" y1=\"{:.1}\" x2=\"{:.1}\" y2=\"{:.1}\" {}/>\n", x1, y1, x2, y2, style)
}

/// Returns the ticks of an axis: 0, and every step up to the end.
fn ticks(step: f64, end: f64) -> impl Iterator<Item = f64> {
    (0..=(end / step + 0.001) as u32).map(move |i| f64::from(i) * step)
}

/// Returns one panel, in its own coordinates. Of the lines that are not dashed the first lies on top.
fn panel(panel: &Panel) -> String {
    let most = |pick: fn(&(f64, f64)) -> f64| panel.lines.iter().flat_map(|l| l.points.iter().map(pick)).fold(1.0, f64::max);
    let (across, up) = (most(|p| p.0), most(|p| p.1));
    let (wide, high) = (WIDTH - LEFT - RIGHT, HEIGHT - TOP - BOTTOM);
    let top = (up / step(up)).ceil() * step(up);
    let x = |v: f64| LEFT + v / across * wide;
    let y = |v: f64| TOP + high - v / top * high;
    let mut svg = format!("<text x=\"{:.1}\" y=\"20\" font-weight=\"bold\">{}</text>\n", LEFT, panel.title);
    for tick in ticks(step(up), top) {
        svg += &stroke(LEFT, y(tick), WIDTH - RIGHT, y(tick), "stroke=\"#e4e4e4\"");
        svg += &text(LEFT - 8.0, y(tick) + 4.0, "end", &grouped(tick as u64));
    }
    for tick in ticks(step(across), across) {
        svg += &stroke(x(tick), TOP + high, x(tick), TOP + high + 5.0, "stroke=\"#666\"");
        svg += &text(x(tick), TOP + high + 19.0, "middle", &grouped(tick as u64));
    }
    svg += &stroke(LEFT, TOP + high, WIDTH - RIGHT, TOP + high, "stroke=\"#666\"");
    svg += &text(LEFT + wide / 2.0, HEIGHT - 14.0, "middle", panel.across);
    let middle = TOP + high / 2.0;
    svg += &format!("<text x=\"20\" y=\"{:.1}\" text-anchor=\"middle\" transform=\"rotate(-90 20 {:.1})\">{}</text>\n", middle, middle, panel.up);
    svg += &legend(&panel.lines);
    let (dashed, drawn): (Vec<&Line>, Vec<&Line>) = panel.lines.iter().partition(|line| line.dashed);
    for line in drawn.into_iter().rev().chain(dashed) {
        let points: Vec<String> = line.points.iter().map(|p| format!("{:.1},{:.1}", x(p.0), y(p.1))).collect();
        svg += &format!("<polyline points=\"{}\" fill=\"none\" {}/>\n", points.join(" "), style(line));
    }
    svg
}

/// Returns the names of the lines, one below the other.
fn legend(lines: &[Line]) -> String {
    let entry = |(i, line): (usize, &Line)| {
        let y = 38.0 + 17.0 * i as f64;
        stroke(LEFT, y, LEFT + 22.0, y, &style(line)) + &text(LEFT + 30.0, y + 4.0, "start", &line.name)
    };
    lines.iter().enumerate().map(entry).collect()
}

/// Returns how a line is drawn.
fn style(line: &Line) -> String {
    let dashes = if line.dashed { " stroke-dasharray=\"6 6\"" } else { "" };
    format!("stroke=\"{}\" stroke-width=\"2.5\"{}", line.colour, dashes)
}

/// Returns the panels as one picture.
pub fn svg(panels: &[Panel]) -> String {
    let height = HEIGHT * panels.len() as f64;
    let mut svg = format!(
        "<svg xmlns=\"http://www.w3.org/2000/svg\" width=\"{0}\" height=\"{1}\" viewBox=\"0 0 {0} {1}\" font-family=\"sans-serif\" font-size=\"12\" fill=\"#222\">\n",
        WIDTH, height
    );
    svg += "<rect width=\"100%\" height=\"100%\" fill=\"#fff\"/>\n";
    for (i, one) in panels.iter().enumerate() {
        svg += &format!("<g transform=\"translate(0 {:.1})\">\n{}</g>\n", HEIGHT * i as f64, panel(one));
    }
    svg + "</svg>\n"
}
