//! Compares the library with the crate html-escape on random texts chosen to be difficult, ten million cases unless another number is given.
//!   compare/run differential [--crate PATH] [--cases N] [--pages N] [--seed S]
//! A case is a text in an operation and a context; it makes the copying and the borrowing call, each with one length of the output out of seven
//! around the result's. The seven numbers, every byte written and every byte that is to stay are compared with what compare/src/model.rs works out
//! from the crate. Beside each call of read the check is made and compared, whatever the output. A text that is encoded as a script string is also
//! written into an attribute and read back (compare/src/nested.rs). A text that differs is made as short as it can be and printed. Then pages of such
//! texts, a hundred thousand unless another number is given: the call on the whole list against single calls that the model makes, in every number of
//! every record and every byte of the output and behind it. Then texts of script_raw are given in parts, cut at random, one text for each twenty cases
//! (compare/src/parts.rs). The exit status is 1 where anything differs.

use compare::model::{has_context, Model, Outcome, CUT_SHORT, LONGEST, NOT_UTF8, PASSED};
use compare::nested::{self, ATTRIBUTES, STRINGS};
use compare::options::Options;
use compare::{call, check, fill_page, lending_encoder, parts, Answer, Checked, Field, Filled, Numbers, Operation, CONTEXTS, CRATE_LENDING_DECODERS, OPERATIONS};
use std::time::{Duration, Instant};

/// How many differences are made short and printed; the others are counted.
const SHOWN: usize = 10;

const HTML_PIECES: &[&str] = &[
    "&", "<", ">", "\"", "'", "/", "a", "b c", ";", "#", "x", "X", "&amp;", "&lt;", "&gt;", "&quot;", "&#x27;", "&#x2F;", "&#60;", "&#x", "&#", "0", "9", "41",
    "D800", "10FFFF", "110000", "4294967296", "nGt", "&nGt;", "amp", "lt;", "=", "`", " ", "\n", "\t", "\0", "\u{B}", "\u{7F}", "&#x0B;", "&#11;", "\u{E9}",
    "\u{2028}", "\u{1F600}", "Plain English text, with nothing in it.",
];
const STRING_PIECES: &[&str] = &[
    "\\", "'", "\"", "<", "/", "!", "!--", "-", "script", "SCRIPT", "style", "StYle", ">", " ", "\t", "\u{B}", "\u{1C}", "x", "u", "u2028", "2029", "x0A", "x3C",
    "3C ", "0A ", "00 ", "1F", "\\x1F", "\\0A ", "\\3C", "\\u2028", "<\\/script", "<\\!--", "\n", "\0", "\u{1F}", "\u{2028}", "\u{2029}", "\u{202A}", "\u{FFFD}",
    "\u{E9}", "\u{1F600}", "a", "Plain English text, with nothing in it.",
];
const JSON_PIECES: &[&str] = &[
    "\\", "\"", "'", "<", "/", "\\\"", "\\\\", "\\/", "\\b", "\\f", "\\n", "\\r", "\\t", "\\u", "\\u0000", "\\u003C", "\\u00e9", "\\u2028", "\\uD7FF", "\\uD800", "\\uDBFF", "\\uDC00",
    "\\uDFFF", "\\uE000", "\\uFFFF", "\\ud83d", "\\ude00", "\\uD83D\\uDE00", "\\x3C", "D8", "0", "9", "f", "G", "\n", "\0", "\u{1F}", "\u{7F}", "\u{2028}", "\u{2029}", "\u{202A}", "\u{E9}",
    "\u{1F600}", "a", "Plain English text, with nothing in it.",
];
const ASCII_PIECES: &[&str] = &[
    "&", "<", ">", "\"", "'", "a", ";", "#", "&amp;", "&#x27;", "&#x", "&eacute;", "&#xE9;", "&#xe9;", "&#x0E9;", "&COPY;", "&copy;", "&mldr;", "&hellip;", "&nbsp;", "&Mu;", "&mu;",
    "&#x1F600;", "&#128512;", "&EmptyVerySmallSquare;", "&#x80;", "&#x9F;", "&#xD7FF;", "&#xE000;", "&#x10FFFF;", "&#x110000;", "&nGt;", "\u{7F}", "\u{80}", "\u{85}", "\u{9F}", "\u{A0}",
    "\u{A9}", "\u{E9}", "\u{B5}", "\u{39C}", "\u{2026}", "\u{25AB}", "\u{2028}", "\u{FFFD}", "\u{FB01}", "\u{1D538}", "\u{1F600}", "\0", "Plain English text, with nothing in it.",
];
const RAW_PIECES: &[&str] = &[
    "<", "!--", "/", "script", "SCRIPT", "sCrIpT", "scrip", "t", ">", " ", "\t", "\u{B}", "\u{1C}", "\u{1F}", "\r", "\\", "-", "</script", "<!--", "</", "\u{17F}cript",
    "style", "\u{E9}", "\u{1F600}", "a", "Plain English text, with nothing in it.",
];
const MARKS: &[u8] = b"&;#xX\\<>/!-'\" 0123C\n\0\x1F\x7F\x80\xBF\xC0\xC3\xE2\xED\xF0\xF4\xFF";

/// What one call was asked and answered, where it is not what it is to be.
struct Difference {
    borrowing: bool,
    room: usize,
    what: String,
}

/// The lengths of the output that are tried: nothing, half, one short, exact, one over, and more.
fn rooms(outcome: &Outcome) -> [usize; 7] {
    let exact = outcome.result.len();
    [0, exact / 2, exact.saturating_sub(1), exact, exact + 1, exact + 3, exact + 64]
}

/// The byte at a place of the output before a call; it is in no valid text.
fn pattern(at: usize) -> u8 {
    0xF8 | (at & 7) as u8
}

/// One call with an output that holds the pattern, and has eight bytes more behind it.
fn one_call(operation: Operation, context: u32, text: &[u8], outcome: &Outcome, borrowing: bool, room: usize) -> Option<Difference> {
    let mut output: Vec<u8> = (0..room + 8).map(pattern).collect();
    let answer = call(operation, borrowing, context, text, &mut output[..room]);
    let (expected, written) = outcome.answer(borrowing, room);
    let checked = (operation == Operation::Read).then(|| check(context, text)).filter(|&checked| checked != outcome.checked());
    let what = if let Some(checked) = checked {
        format!("the check says {}, not {}", told(checked), told(outcome.checked()))
    } else if answer != expected {
        format!("answers {}, not {}", shown(answer), shown(expected))
    } else if output[..written] != outcome.result[..written] {
        format!("writes \"{}\", not \"{}\"", readable(&output[..written]), readable(&outcome.result))
    } else if let Some(at) = (written..room + 8).find(|&at| output[at] != pattern(at)) {
        format!("changes byte {} of the output, past the {} that it is to write", at, written)
    } else {
        return None;
    };
    Some(Difference { borrowing, room, what })
}

fn shown(answer: Answer) -> String {
    format!(
        "status {} length {} same {} replaced {} place {} left {} reason {}",
        answer.status, answer.length, answer.same, answer.replaced, answer.place, answer.left, answer.reason
    )
}

fn told(checked: Checked) -> String {
    format!("status {} length {} place {}", checked.status, checked.length, checked.place)
}

fn readable(bytes: &[u8]) -> String {
    bytes.iter().flat_map(|&byte| std::ascii::escape_default(byte)).map(char::from).collect()
}

/// Every kind of call with every length of the output: the first difference.
fn every_call(model: &Model, operation: Operation, context: u32, text: &[u8]) -> Option<Difference> {
    let outcome = model.outcome(operation, context, text);
    [false, true].into_iter().flat_map(|borrowing| rooms(&outcome).map(|room| (borrowing, room))).find_map(|(borrowing, room)| one_call(operation, context, text, &outcome, borrowing, room))
}

/// Takes away as much of a text as leaves a difference.
fn shortest(model: &Model, operation: Operation, context: u32, text: &[u8]) -> Vec<u8> {
    let mut text = text.to_vec();
    let mut size = text.len();
    while size > 0 {
        let mut at = 0;
        while at + size <= text.len() {
            let shorter = [&text[..at], &text[at + size..]].concat();
            if every_call(model, operation, context, &shorter).is_some() {
                text = shorter;
            } else {
                at += size;
            }
        }
        size /= 2;
    }
    text
}

/// The texts, made at random.
struct Texts {
    numbers: Numbers,
}

impl Texts {
    /// A text for a context: pieces, any characters, a form, references or escapes, any bytes; at times damaged, at times long.
    fn text(&mut self, context: u32) -> Vec<u8> {
        let mut text = match self.numbers.below(16) {
            0..=5 => self.pieces(context).into_bytes(),
            6 | 7 => self.characters().into_bytes(),
            8..=11 => self.form(context).into_bytes(),
            12..=14 => self.references(context).into_bytes(),
            _ => (0..self.numbers.below(12)).map(|_| self.numbers.next() as u8).collect(),
        };
        if self.numbers.below(4) == 0 {
            self.damage(&mut text);
        }
        if self.numbers.below(4_000) == 0 {
            self.lengthen(&mut text);
        }
        text
    }

    fn pieces(&mut self, context: u32) -> String {
        let pieces = match context {
            0..=6 => HTML_PIECES,
            7..=12 => STRING_PIECES,
            14 => JSON_PIECES,
            15 => ASCII_PIECES,
            _ => RAW_PIECES,
        };
        (0..self.numbers.below(10)).map(|_| *self.numbers.one_of(pieces)).collect()
    }

    /// Any characters, those of few bytes as often as those of four.
    fn characters(&mut self) -> String {
        let mut one = || {
            let largest = *self.numbers.one_of(&[0x80, 0x800, 0x1_0000, 0x11_0000]);
            char::from_u32(self.numbers.below(largest) as u32)
        };
        let count = one().map_or(5, |c| c as usize % 12);
        (0..count).filter_map(|_| one()).collect()
    }

    /// What the encoder of this context, or of another, makes of pieces or of any characters.
    fn form(&mut self, context: u32) -> String {
        let typed = if self.numbers.below(3) == 0 { self.characters() } else { self.pieces(context) };
        let encoder = if self.numbers.below(5) == 0 { self.numbers.below(16) as u32 } else { context % 16 };
        lending_encoder(encoder)(&typed).into_owned()
    }

    /// References by name and by number, or escapes by number, with a slip now and then.
    fn references(&mut self, context: u32) -> String {
        let mut text = String::new();
        for _ in 0..=self.numbers.below(3) {
            let bits = 1 + self.numbers.below(36);
            let number = self.numbers.next() >> (64 - bits);
            let zeros = "0".repeat(self.numbers.below(3) * self.numbers.below(9));
            let name = std::str::from_utf8(self.numbers.one_of(&html_escape::NAMED_ENTITIES).0).unwrap();
            if context == 14 {
                text += &self.unicode_escapes(number);
                continue;
            }
            match (context < 7 || context == 15, self.numbers.below(6)) {
                (true, 0..=2) => text += &format!("&{};", name),
                (true, 3) => text += &format!("&#{}{};", zeros, number),
                (true, 4) => text += &format!("&#x{}{:X};", zeros, number),
                (true, _) => text += &format!("&#X{}{:x};", zeros, number),
                (false, 0..=2) => text += &format!("\\x{:02X}", number % 64),
                (false, 3 | 4) => text += &format!("\\{:02X} ", number % 64),
                (false, _) => text += &format!("\\u20{:02X}", 0x20 + number % 16),
            }
            text += *self.numbers.one_of(&["", "", "a", ";", "&", "\\", "<"]);
        }
        text
    }

    /// One or two `\u` escapes in either letter case: any number, or halves of a surrogate pair, together or alone.
    fn unicode_escapes(&mut self, number: u64) -> String {
        let (high, low) = (0xD800 + number % 0x400, 0xDC00 + (number >> 10) % 0x400);
        match self.numbers.below(6) {
            0 | 1 => format!("\\u{:04X}\\u{:04x}", high, low),
            2 => format!("\\u{:04x}", high),
            3 => format!("\\u{:04X}", low),
            4 => format!("\\u{:04X}\\u{:04X}", low, high),
            _ => format!("\\u{:04x}", number % 0x1_0000),
        }
    }

    fn damage(&mut self, text: &mut Vec<u8>) {
        for _ in 0..=self.numbers.below(3) {
            if text.is_empty() {
                return;
            }
            let at = self.numbers.below(text.len());
            match self.numbers.below(5) {
                0 => drop(text.remove(at)),
                1 => text.insert(at, text[at]),
                2 => text[at] = *self.numbers.one_of(MARKS),
                3 => text[at] ^= 1 << self.numbers.below(8),
                _ => text.truncate(at),
            }
        }
    }

    /// Repeats a text up to a length near a boundary, or to any.
    fn lengthen(&mut self, text: &mut Vec<u8>) {
        let any = self.numbers.below(LONGEST);
        let boundary = *self.numbers.one_of(&[256, 4_096, LONGEST, LONGEST, any]);
        let length = boundary + 1 - self.numbers.below(8).min(boundary);
        if text.is_empty() {
            text.push(b'a');
        }
        *text = text.iter().copied().cycle().take(length).collect();
    }
}

/// A page: a text, the records of its parts, and the length of the output.
struct Page {
    text: Vec<u8>,
    fields: Vec<Field>,
    room: usize,
}

/// What a record holds before a call.
const STALE: Answer = Answer { status: 9, length: 9, same: 9, replaced: 9, place: 9, left: 9, reason: 9 };

impl Texts {
    /// A page of texts one behind the other. Most records name one of them; some any part, a part outside, or no context. The output is long enough, or any.
    fn page(&mut self) -> Page {
        let count = if self.numbers.below(200) == 0 { 250 + self.numbers.below(12) } else { self.numbers.below(48) };
        let (mut text, mut fields) = (Vec::new(), Vec::new());
        for _ in 0..count {
            let context = self.numbers.below(16) as u32;
            let part = if self.numbers.below(8) == 0 { self.text(context) } else { self.pieces(context).into_bytes() };
            fields.push(Field { context, start: text.len() as u64, length: part.len() as u64, begins: 9, answer: STALE });
            text.extend(part);
        }
        for field in &mut fields {
            match self.numbers.below(400) {
                0 => field.context = self.numbers.below(40) as u32,
                1 => field.start = self.numbers.below(text.len() + 3) as u64,
                2 => field.length = self.numbers.below(text.len() + 3) as u64,
                3 => field.start = text.len() as u64 + self.numbers.below(3) as u64,
                4 => field.start = u64::MAX - self.numbers.below(3) as u64,
                5 => field.length = u64::MAX - self.numbers.below(3) as u64,
                6..=9 => (field.start, field.length) = (self.numbers.below(text.len() + 1) as u64, self.numbers.below(6) as u64),
                _ => {}
            }
        }
        let most = 8 * text.len();
        let room = if self.numbers.below(4) == 0 { self.numbers.below(most + 1) } else { most + self.numbers.below(64) };
        Page { text, fields, room }
    }
}

/// The page filled by the library and by the model; the words say where they differ.
fn one_page(model: &Model, page: &Page) -> (Filled, Option<String>) {
    let mut output: Vec<u8> = (0..page.room + 8).map(pattern).collect();
    let (fields, bytes, filled) = model.page(&page.fields, &page.text, &output[..page.room]);
    let mut ours = page.fields.clone();
    let answer = fill_page(&mut ours, &page.text, &mut output[..page.room]);
    let what = if answer != filled {
        Some(format!("answers {:?}, not {:?}", answer, filled))
    } else if let Some(i) = (0..fields.len()).find(|&i| ours[i] != fields[i]) {
        Some(format!("record {} is {:?}, not {:?}", i, ours[i], fields[i]))
    } else if let Some(at) = (0..page.room).find(|&at| output[at] != bytes[at]) {
        Some(format!("byte {} of the output is {:02X}, not {:02X}", at, output[at], bytes[at]))
    } else {
        (page.room..page.room + 8).find(|&at| output[at] != pattern(at)).map(|at| format!("changes byte {}, behind the output", at))
    };
    (filled, what)
}

/// Compares so many pages, prints the first that differ, and says how many do.
fn pages(model: &Model, texts: &mut Texts, count: u64) -> u64 {
    let (mut records, mut whole, mut differ) = (0, 0, 0);
    let mut stopped = [0u64; 9];
    for _ in 0..count {
        let page = texts.page();
        let (filled, what) = one_page(model, &page);
        records += page.fields.len();
        whole += (filled.status == PASSED) as u64;
        stopped[filled.status as usize] += 1;
        if let Some(what) = what {
            differ += 1;
            if differ <= SHOWN as u64 {
                println!("differs: a page of {} records, output of {} bytes, text \"{}\": {}", page.fields.len(), page.room, readable(&page.text), what);
            }
        }
    }
    println!("{} pages of {} records, {} differ; {} were filled whole", count, records, differ, whole);
    let reasons: Vec<String> = (1..9).filter(|&status| stopped[status] > 0).map(|status| format!("{} by status {}", stopped[status], status)).collect();
    println!("the others were stopped, {}; each was compared with single calls of the model", reasons.join(", "));
    differ
}

/// The run and its counts.
struct Run {
    model: Model,
    texts: Texts,
    cases: [[u64; 17]; 4],
    differ: [[u64; 17]; 4],
    passed: u64,
    broken: u64,
    cut_short: u64,
    read_back: u64,
    as_decoded: u64,
    nested: u64,
    shown: Vec<(Operation, u32, Vec<u8>)>,
}

impl Run {
    fn ran(&self) -> u64 {
        self.cases.iter().flatten().sum()
    }

    fn differing(&self) -> u64 {
        self.differ.iter().flatten().sum()
    }

    /// One text in every operation that has the context; now and then in the others too, and in a context that there is not.
    fn one_text(&mut self) {
        let odd = self.texts.numbers.below(500) == 0;
        let context = if odd { self.texts.numbers.below(24) as u32 } else { self.texts.numbers.below(16) as u32 };
        let text = self.texts.text(context);
        for operation in OPERATIONS {
            if odd || has_context(operation, context) {
                self.case(operation, context, &text);
            }
        }
    }

    fn case(&mut self, operation: Operation, context: u32, text: &[u8]) {
        let outcome = self.model.outcome(operation, context, text);
        match outcome.status {
            PASSED => self.passed += 1,
            NOT_UTF8 => self.broken += 1,
            CUT_SHORT => self.cut_short += 1,
            _ => {}
        }
        self.cross_check(operation, context, text, &outcome);
        let slot = context.min(16) as usize;
        self.cases[operation as usize][slot] += 1;
        let lengths = rooms(&outcome);
        let differs = [false, true].into_iter().any(|borrowing| {
            let room = *self.texts.numbers.one_of(&lengths);
            one_call(operation, context, text, &outcome, borrowing, room).is_some()
        });
        if differs {
            self.differ[operation as usize][slot] += 1;
            self.show(operation, context, text);
        } else if operation == Operation::Encode && outcome.status == PASSED && STRINGS.contains(&context) {
            self.nest(context, text);
        }
    }

    /// The text as a script string in an event attribute, in one of the four contexts of an attribute.
    fn nest(&mut self, inner: u32, text: &[u8]) {
        let outer = *self.texts.numbers.one_of(&ATTRIBUTES);
        self.nested += 1;
        if let Some(fault) = nested::fault(outer, inner, std::str::from_utf8(text).unwrap()) {
            self.differ[Operation::Encode as usize][inner as usize] += 1;
            println!("differs: {} inside {}, text \"{}\": {}", context_name(inner), context_name(outer), readable(text), fault);
        }
    }

    /// What the model itself must agree with: the encoding of what is read is the text, and browse is decode where decode leaves no reference and there is
    /// no number.
    fn cross_check(&mut self, operation: Operation, context: u32, text: &[u8], outcome: &Outcome) {
        if outcome.status != PASSED {
            return;
        }
        let text = std::str::from_utf8(text).unwrap();
        if operation == Operation::Read {
            let meant = std::str::from_utf8(&outcome.result).unwrap();
            assert!(lending_encoder(context)(meant) == text, "the model reads {:?}, and the crate does not write it so", text);
            self.read_back += 1;
        }
        if operation == Operation::Browse && !text.contains("&#") && self.model.outcome(Operation::Decode, context, text.as_bytes()).left.1 == 0 {
            assert!(CRATE_LENDING_DECODERS[0](text).as_bytes() == outcome.result, "the model browses {:?} otherwise than decode", text);
            self.as_decoded += 1;
        }
    }

    /// Prints the shortest text that differs, unless it was printed before.
    fn show(&mut self, operation: Operation, context: u32, text: &[u8]) {
        if self.shown.len() >= SHOWN {
            return;
        }
        let text = shortest(&self.model, operation, context, text);
        let found = (operation, context, text);
        if self.shown.contains(&found) {
            return;
        }
        if let Some(difference) = every_call(&self.model, operation, context, &found.2) {
            let kind = if difference.borrowing { "borrowing" } else { "copying" };
            eprintln!("\r{:60}\r", "");
            println!("differs: {} {}, {}, output of {} bytes, text \"{}\": {}", name(operation), context_name(context), kind, difference.room, readable(&found.2), difference.what);
        }
        self.shown.push(found);
    }

    fn report(&self) {
        for operation in OPERATIONS {
            for slot in 0..17 {
                let (cases, differ) = (self.cases[operation as usize][slot], self.differ[operation as usize][slot]);
                if cases > 0 {
                    println!("{} {}: {} cases, {} differ", name(operation), context_name(slot as u32), cases, differ);
                }
            }
        }
        println!("{} cases, {} calls, {} differ; {} cases passed, the others are refusals", self.ran(), 2 * self.ran(), self.differing(), self.passed);
        println!("of the refusals {} are NOT_UTF8 and {} CUT_SHORT, as error_len of from_utf8 parts them;", self.broken, self.cut_short);
        println!("encode and decode were compared with the crate, refusals with from_utf8 and the table of RULES 13.3, each with the bytes that must keep their values;");
        let taken: u64 = self.cases[Operation::Read as usize].iter().sum();
        println!("beside each of the {} calls of read the check was made, and compared in status, length and place;", 2 * taken);
        println!("read with the units that the crate's encoders write, and {} times the crate wrote what was read back to the same text;", self.read_back);
        println!("{} texts were written as a script string into an attribute, as the crate writes them, and read back by decode and by take;", self.nested);
        println!("browse with the HTML Standard's states, and {} times with the crate's decode too, where that leaves no reference and there is no number", self.as_decoded);
    }
}

fn name(operation: Operation) -> String {
    format!("{:?}", operation).to_lowercase()
}

fn context_name(context: u32) -> &'static str {
    CONTEXTS.get(context as usize).unwrap_or(&"in no context")
}

/// Texts of script_raw in parts, cut at random: how many calls were made, and how many texts differ.
fn scripts_by_parts(texts: &mut Texts, scripts: u64) -> (u64, u64) {
    let (mut calls, mut differ) = (0, 0);
    for _ in 0..scripts {
        let text = texts.text(13);
        let (made, difference) = parts::differ(&mut texts.numbers, &text);
        calls += made;
        if let Some(what) = difference {
            differ += 1;
            if differ <= SHOWN as u64 {
                println!("differs: script_raw by parts, text \"{}\": {}", readable(&text), what);
            }
        }
    }
    (calls, differ)
}

/// Every character once in ascii_quoted: what is written for it, and what decode, take and browse make of that. Gives how many differ.
fn every_character(model: &Model) -> u64 {
    let mut differ = 0;
    for c in '\0'..=char::MAX {
        let text = c.to_string();
        let written = lending_encoder(15)(&text).into_owned();
        for (operation, text) in [(Operation::Encode, &text), (Operation::Decode, &written), (Operation::Read, &written), (Operation::Browse, &written)] {
            let outcome = model.outcome(operation, 15, text.as_bytes());
            if operation != Operation::Encode && operation != Operation::Browse {
                assert!(outcome.result == c.to_string().as_bytes(), "the model does not give {:?} back", c);
            }
            if one_call(operation, 15, text.as_bytes(), &outcome, false, outcome.result.len()).is_some() {
                differ += 1;
                if differ <= SHOWN as u64 {
                    println!("differs: {} ascii_quoted, text \"{}\"", name(operation), readable(text.as_bytes()));
                }
            }
        }
    }
    println!("every character once in ascii_quoted, by encode, decode, take and browse: {} differ", differ);
    differ
}

fn main() {
    let options = Options::read("differential", &[], &["--cases", "--seed", "--pages"]);
    let cases = options.number("--cases", 10_000_000);
    let seed = options.number("--seed", 1);
    let texts = Texts { numbers: Numbers(seed) };
    let mut run = Run { model: Model::new(), texts, cases: [[0; 17]; 4], differ: [[0; 17]; 4], passed: 0, broken: 0, cut_short: 0, read_back: 0, as_decoded: 0, nested: 0, shown: Vec::new() };
    let mut told = Instant::now();
    while run.ran() < cases {
        for _ in 0..256 {
            run.one_text();
        }
        if told.elapsed() > Duration::from_secs(2) {
            eprint!("\r{} of {} cases, {} differ ", run.ran(), cases, run.differing());
            told = Instant::now();
        }
    }
    eprintln!();
    println!("seed {}", seed);
    run.report();
    let paged = pages(&run.model, &mut run.texts, options.number("--pages", 100_000));
    let scripts = cases / 20;
    let (calls, differ) = scripts_by_parts(&mut run.texts, scripts);
    println!("{} texts of script_raw in parts, cut at random, {} calls, {} differ: each call's answer and bytes beside the crate's encode_script, a refused call's state beside that before it", scripts, calls, differ);
    let alone = every_character(&run.model);
    if run.differing() + paged + differ + alone > 0 {
        std::process::exit(1);
    }
}
