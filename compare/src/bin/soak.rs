//! The soak: a million pages of a journey log, filled in one process by the library and by html-escape, with every call of the heap counted and the
//! resident set read while it runs. Then the same pages by html-escape on the heap of a controller, until no free block is long enough.
//!
//!     compare/run soak [--crate PATH] [--pages N]
//!
//! Writes docs/SOAK.md and docs/soak.svg; with another number of pages it writes both to target/soak instead. Ends with 1 where the pages differ, a
//! page is refused, or the library's side calls the heap.

#[path = "../soak/document.rs"]
mod document;
#[path = "../soak/heap.rs"]
mod heap;
#[path = "../benchmark/machine.rs"]
mod machine;
#[path = "../soak/measure.rs"]
mod measure;
#[path = "../soak/pages.rs"]
mod pages;
#[path = "../soak/plot.rs"]
mod plot;

use compare::options::Options;
use measure::{run, tight, Resident, Run, Tight};
use pages::{fill_kept, fresh_line, Page};
use std::fs::File;
use std::path::Path;

#[global_allocator]
static HEAP: heap::Counting = heap::Counting;

const PAGES: usize = 1_000_000;

/// The controller's heap in KiB: the lengths that are tried, up to the first on which every page fills.
const HEAPS: std::ops::RangeInclusive<usize> = 26..=48;

/// Writes the document and its plot, and says where.
fn save(root: &str, whole: bool, text: &str, plot: &str) {
    let folder = Path::new(root).join(if whole { "docs" } else { "target/soak" });
    let saved = std::fs::create_dir_all(&folder)
        .and_then(|_| std::fs::write(folder.join("SOAK.md"), text))
        .and_then(|_| std::fs::write(folder.join("soak.svg"), plot));
    match saved {
        Ok(()) => eprintln!("written: {}, and soak.svg beside it", folder.join("SOAK.md").display()),
        Err(error) => stop(&format!("{} cannot be written: {}", folder.display(), error)),
    }
}

fn stop(why: &str) -> ! {
    eprintln!("soak: {}", why);
    std::process::exit(1)
}

/// Returns the number of pages that is asked for.
fn pages_asked() -> usize {
    let options = Options::read("soak", &[], &["--pages"]);
    match options.number("--pages", PAGES as u64) {
        0 => options.stop("--pages needs a number above 0"),
        pages => pages as usize,
    }
}

/// Fills the pages in the three ways. Stops where the pages differ, a page is refused, or the library's side calls the heap.
fn three_ways(pages: usize, resident: &Resident) -> [Run; 3] {
    let mut page = Page::empty();
    let mut kept = String::new();
    let runs = [
        run("Lintelrye, one array", pages, resident, |log, mark| mark.take(page.fill(log))),
        run("html-escape, a fresh String a line", pages, resident, |log, mark| {
            let mut html = String::new();
            log.journeys.iter().for_each(|journey| html.push_str(&fresh_line(journey)));
            mark.take(html.as_bytes());
        }),
        run("html-escape, one String kept", pages, resident, |log, mark| {
            fill_kept(&mut kept, log);
            mark.take(kept.as_bytes());
        }),
    ];
    if page.refused || runs.iter().any(|run| run.mark != runs[0].mark) {
        stop("a page was refused, or the pages of the three ways differ");
    }
    if runs[0].calls != 0 {
        stop(&format!("the library's side called the heap {} times", runs[0].calls));
    }
    runs
}

/// Returns where and with what it was measured.
fn place(root: &str) -> String {
    let facts: Vec<String> = machine::facts(root, false).iter().map(|(name, fact)| format!("| {} | {} |\n", name, fact)).collect();
    format!("It was measured on:\n\n| what | which |\n|---|---|\n{}", facts.concat().trim_end())
}

fn main() {
    let pages = pages_asked();
    let root = std::env::var("LINTELRYE_ROOT").unwrap_or_else(|_| stop("run me by compare/run soak"));
    let resident = Resident(File::open("/proc/self/status").unwrap_or_else(|_| stop("/proc/self/status cannot be read")));
    let runs = three_ways(pages, &resident);
    let mut tights: Vec<Tight> = Vec::new();
    for kib in HEAPS {
        tights.push(tight(kib, pages));
        if tights.iter().any(|tight| tight.short.is_none()) {
            break;
        }
    }
    let text = document::document(pages, &runs, &tights, &place(&root));
    print!("{}", text);
    save(&root, pages == PAGES, &text, &document::plot(&runs, &tights));
}
