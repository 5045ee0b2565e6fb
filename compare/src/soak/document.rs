//! docs/SOAK.md and its plot.
use crate::heap::Request;
use crate::measure::{Run, Sample, Tight, KEPT};
use crate::pages::LINES;
use crate::plot::{grouped, svg, Line, Panel};

/// Pages in a day, at one in five minutes.
const DAILY: usize = 288;

/// Returns the panels of what was measured while the pages were filled.
fn panels_of_runs(runs: &[Run]) -> [Panel; 2] {
    let lines = |last: fn(&Run) -> String, pick: fn(&Sample) -> f64| {
        let line = |(run, colour): (&Run, &&'static str)| Line {
            name: format!("{}: {}", run.name, last(run)),
            colour,
            dashed: *colour == KEPT_COLOUR,
            points: run.samples.iter().map(|sample| (sample.page as f64, pick(sample))).collect(),
        };
        runs.iter().zip(&["#0b6e4f", "#c1440e", KEPT_COLOUR]).map(line).collect()
    };
    let calls = lines(|run| format!("{} calls", grouped(run.calls)), |sample| sample.calls as f64 / 1e6);
    let resident = lines(|run| format!("{} KiB after the last page", grouped(run.resident()[2])), |sample| sample.resident as f64);
    [
        Panel { title: "Calls of the heap, added up".to_string(), across: "pages filled", up: "millions of calls", lines: calls },
        Panel { title: "Resident set of the process".to_string(), across: "pages filled", up: "KiB", lines: resident },
    ]
}

/// The colour of the way whose line hides others, and is dashed.
const KEPT_COLOUR: &str = "#3d6fb4";

/// Returns the panel of the controller's heap.
fn panel_of_heap(tight: &Tight, page: usize) -> Panel {
    let line = |name: &str, colour, pick: fn(&Request) -> usize| Line {
        name: name.to_string(),
        colour,
        dashed: false,
        points: tight.samples.iter().map(|(page, request)| (*page as f64, pick(request) as f64)).collect(),
    };
    Panel {
        title: format!("html-escape, a fresh String a line, on a heap of {} KiB: page {} does not fill", tight.kib, grouped(page as u64)),
        across: "pages filled",
        up: "bytes, at the tightest requests",
        lines: vec![
            line("all that is free", "#9aa5b1", |request| request.free),
            line("longest free block", "#c1440e", |request| request.longest),
            line("block asked for: at the end it is longer than the longest free block", "#222222", |request| request.asked),
        ],
    }
}

/// Returns the row of one way.
fn row(run: &Run) -> String {
    let [before, early, last] = run.resident().map(grouped);
    let asked = format!("{} | {} | {}", grouped(run.calls), grouped(run.bytes), grouped(run.most as u64));
    format!("| {} | {} | {} | {} | {} |\n", run.name, asked, before, early, last)
}

/// Returns what the rows and the plot show, in words.
fn seen(pages: usize, runs: &[Run; 3]) -> String {
    let [ours, fresh, kept] = runs;
    let grown = |run: &Run| run.resident()[2] as i64 - run.resident()[1] as i64;
    format!(
        "What is to be seen: the library calls the heap {} times. With a fresh String a line html-escape calls it {} times a page; the few blocks that are
alive at once are handed out again and again. With one String kept it calls it {} times in all, while the String grows. From the first hundredth of the pages
to the last page the resident set grows by {}, {} and {} KiB. The three ways run one after the other in one process, and what one has touched stays resident
for the next: whether a line is flat says something, how high it lies does not.",
        grouped(ours.calls),
        grouped(fresh.calls / pages as u64),
        grouped(kept.calls),
        grown(ours),
        grown(fresh),
        grown(kept),
    )
}

/// Returns the row of one heap.
fn heap_row(tight: &Tight, pages: usize) -> String {
    let n = |n: usize| grouped(n as u64);
    let found = match tight.short {
        Some((page, r)) => {
            format!("{}, on day {} | {} | {} in {} blocks | {}", n(page), n((page - 1) / DAILY + 1), n(r.asked), n(r.free), r.blocks, n(r.longest))
        }
        None => format!("none of {} | | |", n(pages)),
    };
    format!("| {} | {} | {} |\n", n(tight.kib * 1024), n(tight.most), found)
}

/// Returns the plot: the runs, and the longest heap that came to a page that did not fill.
pub fn plot(runs: &[Run], tights: &[Tight]) -> String {
    let mut panels = Vec::from(panels_of_runs(runs));
    panels.extend(tights.iter().rev().find_map(|tight| tight.short.map(|(page, _)| panel_of_heap(tight, page))));
    svg(&panels)
}

/// Returns the document. `place` says where it was measured.
pub fn document(pages: usize, runs: &[Run; 3], tights: &[Tight], place: &str) -> String {
    format!(
        "# The soak

Written by `compare/run soak`, from numbers with a fixed seed. {pages} pages of {LINES} lines were filled in one process, in three ways one after the
other. A line holds a time, a landing's name in an attribute and in text, and an event: three texts to encode. The pages of the three ways are
the same: {bytes} bytes in all, and equal digests of every thousandth page.

| way | calls of the heap | bytes asked for | most alive at once (bytes) | resident set before the first page (KiB) | after a hundredth | after the last |
|---|---|---|---|---|---|---|
{rows}
{seen}

![Calls of the heap, resident set, longest free block](soak.svg)

A call of the heap is a request, a request for another length, or a release, counted by the program's own allocator. The resident set is VmRSS of
/proc/self/status, read a hundred times a run. {place}
{controller}",
        pages = grouped(pages as u64),
        LINES = LINES,
        bytes = grouped(runs[0].mark.bytes),
        rows = runs.iter().map(row).collect::<String>(),
        seen = seen(pages, runs),
        place = place,
        controller = controller(pages, tights),
    )
}

/// Returns the part about a heap of fixed size.
fn controller(pages: usize, tights: &[Tight]) -> String {
    format!(
        "
## On the heap of a controller

On a computer with virtual memory fresh strings do little harm. A controller has one heap of fixed size. Here the second way runs on such a heap: the first
free block that is long enough is taken, free neighbours are joined, and a block has a head of eight bytes. Some lines live longer: of each page
one is kept, three of four in turn in {half} places, the others in {half} places until somebody has seen to them, which is left to chance.

| heap (bytes) | most in use at once | first page that did not fill, and when at a page in five minutes | asked for | free then | longest free block then |
|---|---|---|---|---|---|
{heaps}
A heap that is longer than all that is ever in use at once still comes to a page that does not fill: enough is free, but in pieces. When that comes
depends on chance and on the heap's length; the table holds for this pattern and seed, not for every controller. A String that cannot grow ends the
program: html-escape has no refusal. The last panel of the plot is the longest of these heaps that came to such a page.

The third way, one String that is kept, asks for nothing once it is long enough, until a page is longer than every page before it. The library never
asks: its page is an array of the caller's, and a text that does not fit is refused with the room that it needs.
",
        half = KEPT / 2,
        heaps = tights.iter().map(|tight| heap_row(tight, pages)).collect::<String>(),
    )
}
