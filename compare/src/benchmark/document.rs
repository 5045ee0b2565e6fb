//! docs/BENCHMARKS.md: what was measured, how, and every median. docs/INSTRUCTIONS.md: what was counted, and what that says.

use crate::clock::{Effort, Row};
use crate::machine::machine;
use crate::others::OTHERS;
use crate::report::{above, besides, classes, each_once, escaped, families, highest, worst, worst_beside};
use crate::texts::{Case, Kind};

/// The document of the times.
pub fn times(rows: &[Row], facts: &[(&str, String)], effort: &Effort) -> String {
    let mut text = String::from("# Benchmarks\n\n");
    text +=
        "`compare/run benchmark --write` wrote this page and its picture. The numbers are from that one run, on the machine that is named here.\n";
    text += "[INSTRUCTIONS.md](INSTRUCTIONS.md) counts the instructions of the x86-64 code on the same texts.\n\n";
    text += &table(facts);
    text += &format!("| steadiness | {} |\n", steadiness(rows));
    text += &method(effort);
    text += &limits(rows);
    text += &format!("\n## Worst ratio by class\n\nOurs over crate + utf8. Bold is above the limit; `take`, `check` and script_raw by parts have none.\n\n{}", matrix(rows));
    text += &beside(rows);
    text += &others(rows);
    text += "\n![The worst ratio of each family of contexts, by class](benchmarks.svg)\n";
    text + &lines(rows)
}

/// The document of the counts.
pub fn counts(rows: &[Row], facts: &[(&str, String)]) -> String {
    let compiler = if machine() == "x86_64" { "" } else { DEBIAN };
    format!("{}{}{}{}{}{}{}", COUNTS, table(facts), COUNTED, compiler, WORST_COUNTS, matrix(rows), beside(rows))
}

/// The facts as a table.
fn table(facts: &[(&str, String)]) -> String {
    let row = |(name, fact): &(&str, String)| format!("| {} | {} |\n", name, fact);
    format!("| | |\n|---|---|\n{}", facts.iter().map(row).collect::<String>())
}

const COUNTS: &str = "\
# Instructions on x86-64

`compare/run benchmark --instructions --write` wrote this page. It holds the instructions that the archive's own code executes beside those of the crate,
on the texts of [BENCHMARKS.md](BENCHMARKS.md), which says what the sides and the classes are.

";

const COUNTED: &str = "
## How it is counted

Both sides run in one process under an emulator, whose plugin compare/instructions.c counts each instruction as it is executed. A side passes over the
texts once to warm up and once to be counted; what counting takes itself is left out. The emulated processor is the model qemu64, for which the C
library's memcpy copies by SSE2. Another run gives the same ratios: what depends on where a text lies in memory is a thousandth of an instruction per
byte. Before a line is counted, the results of both sides are compared byte for byte.

## What it says, and what not

It says how much the x86-64 code of the archive does for a text, beside what the crate does for it. A count is no time: it knows nothing of the cache,
of branches that the processor guesses wrong or of instructions that run side by side, and an instruction over sixteen bytes counts as much as one over
a single byte. So the limits, which are about times, are not judged here.
";

const DEBIAN: &str = "
The crate is compiled by Debian's rustc here, with Debian's `std` for x86-64, as no other is at hand. Where BENCHMARKS.md names a newer one, its code
generation and its `from_utf8` are newer too, and would give other counts.
";

const WORST_COUNTS: &str = "
## Worst ratio by class

Instructions of ours over those of the crate after `from_utf8`, in the worst of the family's contexts. Below 1 the library executes fewer.

";

/// How far apart the rounds were.
fn steadiness(rows: &[Row]) -> String {
    let mut spreads: Vec<f64> = rows.iter().map(|row| row.spread).collect();
    spreads.sort_by(f64::total_cmp);
    let most = spreads.get(spreads.len() * 9 / 10).copied().unwrap_or(0.0);
    format!("in nine of ten lines the middle half of the rounds is at most {:.1} % of the median wide", 100.0 * most)
}

/// How it is measured, and what the classes are.
fn method(effort: &Effort) -> String {
    let rounds = format!("After a warm-up each side has {} rounds of about {} ms.\n", effort.rounds, effort.round.as_millis());
    format!("\n## How it is measured\n\nBoth sides run in one process, on the same texts. {}{}{}", rounds, METHOD, CLASSES)
}

const METHOD: &str = "\
The rounds interleave the sides, and each round starts with another one. A number is the median of the rounds, in nanoseconds of processor time per byte
of the text. Before a line is measured, the results of both sides are compared byte for byte.

| side | what is timed |
|---|---|
| ours | the copying call (or the borrowing one or the check, where the line says so), into a buffer that has room |
| crate | the function of html-escape that ends in `_to_vec`, into a vector that is cleared and keeps its capacity |
| crate + utf8 | the same after `std::str::from_utf8`: the library takes bytes and checks them in every call, the crate takes text that was checked before |
| memcpy | a copy of the text |
| Go, Node | other libraries, each in a process of its own: see below |

The limits are about ours over crate + utf8: below 1 the library is faster. The borrowing call, which writes nothing where nothing is replaced, is held
beside the same function of the crate as the copying one. `take`, `check` and `browse` have no counterpart in the crate: `take` and `check` are held
beside the crate's decoder of the same context on the same written form, though they also refuse what is no such form; `browse` is held beside
`decode_html_entities`. The HTML seven share one decoder, so that decode and browse are measured in one of them. `closing_tag` has no counterpart either:
it is held beside `encode_script` on the same text, of which none ends before its own end, so that all of it is read. `fill_page` fills forty names in one
call, and is held beside forty calls of the crate, and beside forty of our own (\"encode for a page\"). script_raw by parts is start, a part for each
4 KiB of the text, and finish, held beside `encode_script` of the whole text. `json`, which the crate has not, is held beside its functions of
double-quoted script strings: encode on the same text, decode, take and check beside the decoder on the script form of the same text. As the two forms
differ in length, the crate's time there is per byte of the script form, which is the text that it reads. `ascii_quoted`, which the crate has not either, is held
beside its functions of quoted attributes on the same text; with characters above 7F hex those copy what `ascii_quoted` writes as references.

";

const CLASSES: &str = "\
| class | texts |
|---|---|
| plain | 64 KiB of English words in which nothing is replaced (for `unquoted`, which replaces spaces, letters and digits alone) |
| 1 %, 10 %, 50 %, all | 64 KiB, of whose characters so many are special, at random places: what encode replaces in the context; for take, check, decode and browse the references or escapes that they undo (HTML decode: half common names, a quarter numbers, a quarter any names) |
| short names | 2,000 names of 5 to 40 bytes, one call for each; about one in ten has something special |
| forty names | the same, forty for a page, which go through the HTML seven in turn |
| Cyrillic, CJK, emoji | 64 KiB of characters of two, three, four bytes, nothing special; for take and check in `ascii_quoted` the references to 8 KiB of them |
| English | `unquoted` alone: 64 KiB of English words with the spaces between them |
| only `<!--`, only `</script>`, only `<` | script_raw alone: 64 KiB of that piece |
| stray & | decode and browse: 64 KiB of English words in which 1 % of the pieces are `&` or `&bogus;`, which stay |
| names without ; | browse alone: 64 KiB of the 106 names that need no `;`, a blank behind each; html-escape leaves them, so no limit is set beside it |
| one long name, only `&a` | browse alone: an `&` and 65,535 letters, and 32,768 times `&a`; nothing is replaced, and each byte is to cost the same whatever the length |
| in `closing_tag` | special are `<!--`, `-->`, `<script>`, `</scripts>`, `<` and `-`; escaped plain and escaped twice are plain text after `<!--` and `<!--<script>`, only `-` and only `<s` that piece after `<!--` |
| numbers only, named only | decode and browse: 64 KiB of numeric references, or of names from the whole table; in strings, of the escapes with digits, or of the others |
";

/// The limits, and whether they hold.
fn limits(rows: &[Row]) -> String {
    let mut text = format!("\n## The limits\n\n{}\n\n| | classes | at most | worst | in | |\n|---|---|---|---|---|---|\n", above(rows));
    for family in families(rows) {
        let of_family = || rows.iter().filter(|row| row.case.family() == family);
        for limit in each_once(of_family().filter_map(|row| row.limit)) {
            let under = || of_family().filter(|row| row.limit == Some(limit));
            let classes = each_once(under().map(|row| row.case.class)).join(", ");
            if let Some(row) = highest(under()) {
                let place = format!("{}, {}", row.case.place(), row.case.class);
                let verdict = if row.above() { "**above**" } else { "holds" };
                text += &format!("| {} | {} | {:.2} | {:.2} | {} | {} |\n", family, escaped(&classes), limit, row.ratio(), escaped(&place), verdict);
            }
        }
    }
    text
}

/// The worst ratio of each family in each class.
fn matrix(rows: &[Row]) -> String {
    let families = families(rows);
    let mut text = format!("| | {} |\n", families.join(" | "));
    text += &format!("|---{}|\n", "|---".repeat(families.len()));
    for class in classes(rows) {
        let cell = |family: &&str| match worst(rows, family, class) {
            Some(row) => marked(row),
            None => String::new(),
        };
        text += &format!("| {} | {} |\n", escaped(class), families.iter().map(cell).collect::<Vec<_>>().join(" | "));
    }
    text
}

/// What is held beside a call of ours, on the same texts in the same run.
fn beside(rows: &[Row]) -> String {
    let check = "check over take\n\nOurs over ours, on the same texts, in the worst of the contexts.";
    let page = "fill_page over single calls\n\nForty names in one call over forty copying calls of encode.";
    let parts = "script_raw in parts of 4 KiB over one encode\n\nOurs over ours, on the same texts. Each of the short names is one part, and has no limit.";
    let json = "encode of json over that of script_double\n\nOurs over ours, on the same texts: both escape the same characters, json with two bytes more.";
    let ascii = "encode of ascii_quoted over that of quoted\n\nOurs over ours, on the same ASCII texts, of which both write the same.";
    beside_copying(rows, |case| case.kind == Kind::Check, check)
        + &beside_copying(rows, |case| case.kind == Kind::Page, page)
        + &beside_copying(rows, |case| case.kind == Kind::Parts, parts)
        + &beside_copying(rows, Case::writes_json, json)
        + &beside_copying(rows, Case::writes_ascii, ascii)
}

/// A kind of calls beside the copying call: the worst ratio of each class.
fn beside_copying(rows: &[Row], of_kind: impl Fn(&Case) -> bool, title: &str) -> String {
    let besides = besides(rows, of_kind);
    let mut text = format!("\n## {}\n\n| class | at most | worst | in | |\n|---|---|---|---|---|\n", title);
    for beside in classes(rows).into_iter().filter_map(|class| worst_beside(&besides, class)) {
        let case = &beside.row.case;
        let (limit, verdict) = match case.beside_limit() {
            Some(limit) => (format!("{:.2}", limit), if beside.above() { "**above**" } else { "holds" }),
            None => (String::new(), ""),
        };
        text += &format!("| {} | {} | {:.2} | {} | {} |\n", escaped(case.class), limit, beside.ratio(), case.place(), verdict);
    }
    text
}

/// Ours beside the other libraries: what does the same job, and the worst ratio of each family in each class.
fn others(rows: &[Row]) -> String {
    let mut columns = Vec::new();
    for family in families(rows) {
        for (k, other) in OTHERS.iter().enumerate() {
            let lines: Vec<&Row> = rows.iter().filter(|row| row.case.family() == family && row.others[k].is_some()).collect();
            if !lines.is_empty() {
                columns.push((format!("{}: {}", family, other), k, lines));
            }
        }
    }
    let names: Vec<&str> = columns.iter().map(|(name, _, _)| name.as_str()).collect();
    let mut text = format!("{}| | {} |\n|---{}|\n", BESIDE_OTHERS, names.join(" | "), "|---".repeat(names.len()));
    for class in classes(rows) {
        let ratio = |k: usize, row: &Row| Some(row.ours / row.others[k]?);
        let worst = |k: usize, lines: &[&Row]| lines.iter().filter(|row| row.case.class == class).filter_map(|row| ratio(k, row)).reduce(f64::max);
        let cell = |worst: Option<f64>| worst.map_or(String::new(), |worst| format!("{:.2}", worst));
        let cells: Vec<String> = columns.iter().map(|(_, k, lines)| cell(worst(*k, lines))).collect();
        if cells.iter().any(|cell| !cell.is_empty()) {
            text += &format!("| {} | {} |\n", escaped(class), cells.join(" | "));
        }
    }
    text
}

const BESIDE_OTHERS: &str = "
## Beside Go's html and Node's entities

Ours over theirs, on the same texts, in the worst of the contexts: below 1 the library is faster. Each of the two ran in a process of its own, before ours, and its
figure is processor time of that process, with what its garbage collector takes. It stands where the results are the same: of decode and browse byte for byte; of encode, where some
references are written in another way, if there are as many and a browser reads the text from them. Go's functions and ours get bytes; ours alone checks that they are UTF-8. Node's get strings
that were made of them before, and a result can be a chain of pieces that V8 has still to join. Where nothing is replaced, Go gives back the string that it got, as our borrowing calls do.
Go leaves `&nGt;` and `&nLt;` as they are, so that it has no figure where names of the whole table are undone.

| our call | Go, package html | Node, package entities |
|---|---|---|
| encode, `text` | | `escapeText`: the same bytes (it would replace U+00A0 too, which is in none of the texts) |
| encode, `quoted` | `EscapeString`: the same five characters, two of them as `&#34;` and `&#39;` | `escapeUTF8`: the same five characters, one of them as `&apos;` |
| decode, HTML | `UnescapeString` | `decodeHTMLStrict` |
| browse, `text` | `UnescapeString` | `decodeHTML` |

";

/// A ratio, bold where it is above its limit.
fn marked(row: &Row) -> String {
    let bold = if row.above() { "**" } else { "" };
    format!("{}{:.2}{}", bold, row.ratio(), bold)
}

/// Every row.
fn lines(rows: &[Row]) -> String {
    let mut text = String::from("\n## Every line\n\nMedians in nanoseconds per byte, then ours over each of the others.\n\n");
    text += "| | context | class | ours | crate | crate + utf8 | memcpy | Go | Node | over crate | over crate + utf8 | over memcpy | over Go | over Node |\n";
    text += "|---|---|---|---|---|---|---|---|---|---|---|---|---|---|\n";
    for row in rows {
        let place = format!("{} | {} | {}", row.case.family(), row.case.place(), escaped(row.case.class));
        let medians = format!("{:.3} | {:.3} | {:.3} | {:.3}", row.ours, row.alone, row.checked, row.copied);
        let ratios = format!("{:.2} | {} | {:.1}", row.ours / row.alone, marked(row), row.ours / row.copied);
        let [go, node] = row.others.map(|other| other.map_or(String::new(), |other| format!("{:.3}", other)));
        let [over_go, over_node] = row.others.map(|other| other.map_or(String::new(), |other| format!("{:.2}", row.ours / other)));
        text += &format!("| {} | {} | {} | {} | {} | {} | {} |\n", place, medians, go, node, ratios, over_go, over_node);
    }
    text
}
