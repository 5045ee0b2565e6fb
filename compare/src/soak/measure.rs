//! Fills the pages and measures while it does: the calls of the heap, the resident set, and on the controller's heap what the longest requests find.
use crate::heap::{self, Request};
use crate::pages::{fresh_line, Log, Mark, LINES, SEED};
use compare::Numbers;
use std::fs::File;
use std::os::unix::fs::FileExt;

const SAMPLES: usize = 100;

/// How many lines the controller keeps: one half in turn, the other until somebody has seen to them.
pub const KEPT: usize = 100;

/// Reads the resident set of the process, without the heap.
pub struct Resident(pub File);

impl Resident {
    /// In KiB; 0 where it cannot be read.
    fn kib(&self) -> u64 {
        let mut status = [0; 4096];
        let length = self.0.read_at(&mut status, 0).unwrap_or(0);
        let words = std::str::from_utf8(&status[..length]).unwrap_or("");
        let line = words.lines().find_map(|line| line.strip_prefix("VmRSS:")).unwrap_or("");
        line.split_whitespace().next().and_then(|n| n.parse().ok()).unwrap_or(0)
    }
}

/// Shows how far a run is, at each twentieth of its pages.
fn show(name: &str, page: usize, pages: usize) {
    if page % (pages / 20).max(1) == 0 {
        eprint!("\r{}: {} of {} pages", name, page, pages);
    }
}

/// At some page: the calls of the heap so far, and the resident set in KiB.
pub struct Sample {
    pub page: usize,
    pub calls: u64,
    pub resident: u64,
}

/// One way of filling the pages, and what was measured.
pub struct Run {
    pub name: &'static str,
    pub mark: Mark,
    pub calls: u64,
    pub bytes: u64,
    pub most: usize,
    pub samples: Vec<Sample>,
}

impl Run {
    /// Returns the resident set in KiB: before the first page, after a hundredth of the pages, after the last.
    pub fn resident(&self) -> [u64; 3] {
        let at = |i: usize| self.samples.get(i).map_or(0, |sample| sample.resident);
        [at(0), at(1), at(self.samples.len() - 1)]
    }
}

/// Fills all pages in one way. Measuring and showing how far it is call the heap nowhere.
pub fn run(name: &'static str, pages: usize, resident: &Resident, mut fill: impl FnMut(&Log, &mut Mark)) -> Run {
    let mut run = Run { name, mark: Mark::default(), calls: 0, bytes: 0, most: 0, samples: Vec::with_capacity(SAMPLES + 1) };
    let every = (pages / SAMPLES).max(1);
    let mut log = Log::begin();
    heap::forget_most();
    let before = heap::counts();
    run.samples.push(Sample { page: 0, calls: 0, resident: resident.kib() });
    for page in 1..=pages {
        log.step();
        fill(&log, &mut run.mark);
        if page % every == 0 && run.samples.len() <= SAMPLES {
            run.samples.push(Sample { page, calls: heap::counts().calls - before.calls, resident: resident.kib() });
        }
        show(name, page, pages);
    }
    let after = heap::counts();
    eprintln!();
    run.calls = after.calls - before.calls;
    run.bytes = after.bytes - before.bytes;
    run.most = after.most - before.alive;
    run
}

/// A run on the controller's heap: the first shortage with its page, the most that was taken, and what the longest requests found.
pub struct Tight {
    pub kib: usize,
    pub short: Option<(usize, Request)>,
    pub most: usize,
    pub samples: Vec<(usize, Request)>,
}

/// By how much the longest free block is longer than what was asked for.
fn spare(request: &Request) -> isize {
    request.longest as isize - request.asked as isize
}

/// Fills a page by html-escape, a fresh String a line. One line is kept for longer: in turn, or until somebody has seen to it.
fn fill_keeping(log: &Log, kept: &mut [String], turn: &mut usize, numbers: &mut Numbers) {
    let chosen = numbers.below(LINES);
    let half = kept.len() / 2;
    let mut html = String::new();
    for (i, journey) in log.journeys.iter().enumerate() {
        let line = fresh_line(journey);
        html.push_str(&line);
        if i == chosen {
            *turn = (*turn + 1) % half;
            kept[if numbers.below(4) == 0 { half + numbers.below(half) } else { *turn }] = line;
        }
    }
}

/// Fills pages on the controller's heap up to the first shortage.
pub fn tight(kib: usize, pages: usize) -> Tight {
    let every = (pages / 2000).max(1);
    let mut kept: Vec<String> = (0..KEPT).map(|_| String::new()).collect();
    let mut tight = Tight { kib, short: None, most: 0, samples: Vec::with_capacity(pages / every + 2) };
    let (mut log, mut numbers, mut turn, mut worst) = (Log::begin(), Numbers(SEED + 1), 0, None);
    heap::lend(kib * 1024);
    for page in 1..=pages {
        log.step();
        fill_keeping(&log, &mut kept, &mut turn, &mut numbers);
        let request = heap::longest_request();
        let tightest = match worst {
            Some(before) if spare(&before) < spare(&request) => before,
            _ => request,
        };
        worst = Some(tightest);
        if page % every == 0 || request.short {
            tight.samples.push((page, tightest));
            worst = None;
        }
        show("html-escape on the heap of a controller", page, pages);
        if request.short {
            tight.short = Some((page, request));
            break;
        }
    }
    tight.most = heap::end_lending();
    eprintln!();
    tight
}
