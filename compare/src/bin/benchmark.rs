//! Compares the library's speed with the crate's, both sides in one process.
//!   compare/run benchmark [--crate PATH] [--quick] [--only WORD] [--fresh] [--others] [--instructions] [--texts PATH] [--write]
//! --quick takes fewer rounds; --only takes the lines whose operation, context or class holds WORD; --fresh takes 64 texts in turn where a class has one with
//! pieces at random places, so that no processor learns where their branches go; --others also times Go's html and Node's entities where
//! they do the same job, each in a process of its own; --texts writes the texts of the lines to a file and measures nothing; --write writes
//! docs/BENCHMARKS.md with the others and its picture. --instructions counts the instructions of the x86-64 code under an emulator and times nothing; with --write it writes
//! docs/INSTRUCTIONS.md. Each line of the table is an operation in a context on texts of a class. Both sides must give the same bytes there; where
//! they do not, it ends with status 1.

#[path = "../benchmark/clock.rs"]
mod clock;
#[path = "../benchmark/count.rs"]
mod count;
#[path = "../benchmark/document.rs"]
mod document;
#[path = "../benchmark/machine.rs"]
mod machine;
#[path = "../benchmark/others.rs"]
mod others;
#[path = "../benchmark/picture.rs"]
mod picture;
#[path = "../benchmark/report.rs"]
mod report;
#[path = "../benchmark/texts.rs"]
mod texts;

use clock::{Effort, Rooms, Row};
use compare::options::Options as Words;
use count::Counter;
use std::process::exit;
use std::time::Duration;

struct Options {
    effort: Effort,
    only: String,
    /// The repository, where the documents are to be written.
    write: Option<String>,
    /// The counter, where instructions are counted and nothing is timed.
    counter: Option<Counter>,
    /// The repository, where other libraries are timed too.
    others: Option<String>,
    /// How many texts a class with pieces at random places has.
    many: usize,
}

/// With --fresh: so many texts that a processor does not remember from one pass to the next where their branches go.
const MANY: usize = 64;

fn main() {
    let options = options();
    let rows = rows(&options);
    println!("Both sides gave the same bytes in every line ({}).", rows.len());
    println!("{}", report::summary(&rows).trim_end());
    if let Some(root) = &options.write {
        write(&rows, root, &options);
    }
}

/// The words on the command line.
fn options() -> Options {
    let words = Words::read("benchmark", &["--quick", "--others", "--instructions", "--fresh", "--write"], &["--only", "--texts"]);
    let quick = words.value("--quick").is_some();
    let effort = if quick { Effort { rounds: 7, round: Duration::from_millis(1) } } else { Effort { rounds: 21, round: Duration::from_millis(2) } };
    let root = || std::env::var("LINTELRYE_ROOT").unwrap_or_else(|_| stop("--write and --others work only through compare/run"));
    let timed = words.value("--instructions").is_none();
    let options = Options {
        effort,
        only: words.value("--only").unwrap_or_default().to_string(),
        write: words.value("--write").map(|_| root()),
        counter: words.value("--instructions").map(|_| Counter::open().unwrap_or_else(|why| stop(&why))),
        others: words.value("--others").or(words.value("--write").filter(|_| timed)).map(|_| root()),
        many: if words.value("--fresh").is_some() { MANY } else { 1 },
    };
    if options.others.is_some() && !timed {
        stop("--others are timed, so it cannot be combined with --instructions");
    }
    if let Some(path) = words.value("--texts") {
        let cases = texts::cases(options.many).into_iter().filter(|case| case.name().contains(&options.only));
        let text: String = cases.flat_map(|case| case.texts).collect();
        std::fs::write(path, text).unwrap_or_else(|error| stop(&format!("{} cannot be written: {}", path, error)));
        exit(0)
    }
    if options.write.is_some() && options.many > 1 {
        stop("--write is of one text for each class, so it cannot be combined with --fresh");
    }
    if options.write.is_some() && !options.only.is_empty() {
        stop("--write needs every line, so it cannot be combined with --only");
    }
    options
}

fn stop(words: &str) -> ! {
    eprintln!("benchmark: {}", words);
    exit(2)
}

/// Compares and measures every case that was asked for, and prints its line.
fn rows(options: &Options) -> Vec<Row> {
    let mut rooms = Rooms::new();
    let mut rows = Vec::new();
    let cases: Vec<_> = texts::cases(options.many).into_iter().filter(|case| case.name().contains(&options.only)).collect();
    let others = match &options.others {
        Some(root) => others::measure(&cases, &options.effort, root).unwrap_or_else(|why| stop(&why)),
        None => vec![[None; 2]; cases.len()],
    };
    println!("{}", report::head(if options.counter.is_some() { "instructions" } else { "ns" }));
    for (case, others) in cases.into_iter().zip(others) {
        if let Err(difference) = clock::compare(&case, &mut rooms) {
            println!("different: {}", difference);
            exit(1);
        }
        let mut row = match &options.counter {
            Some(counter) => count::count(case, &mut rooms, counter),
            None => clock::measure(case, &mut rooms, &options.effort),
        };
        row.others = others;
        println!("{}", report::line(&row));
        rows.push(row);
    }
    if rows.is_empty() {
        stop(&format!("no line holds {}", options.only));
    }
    rows
}

/// Writes the document: of the counts, or of the times with its picture.
fn write(rows: &[Row], root: &str, options: &Options) {
    let facts = machine::facts(root, options.counter.is_some());
    if options.counter.is_some() {
        return save(root, "INSTRUCTIONS.md", &document::counts(rows, &facts));
    }
    let about = format!("{}, {}", facts[0].1, facts[1].1);
    save(root, "BENCHMARKS.md", &document::times(rows, &facts, &options.effort));
    save(root, "benchmarks.svg", &picture::picture(rows, &about));
}

/// Writes one file of docs/.
fn save(root: &str, name: &str, text: &str) {
    let path = format!("{}/docs/{}", root, name);
    std::fs::write(&path, text).unwrap_or_else(|error| stop(&format!("{} cannot be written: {}", path, error)));
    println!("wrote docs/{}", name);
}
