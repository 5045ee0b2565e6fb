//! Writes the list that crates/replay replays in the gate, crates/replay/stdin, and what the program must print of it, crates/replay/stdout.
//! Every answer in it comes from the crate html-escape, from `std::str::from_utf8` and from docs/RULES.md (compare/src/model.rs);
//! the library is not even linked. The seed is fixed, so that every run writes the same bytes.
//!   compare/run generate [--crate PATH]
//! The format of a line is described at the top of crates/replay/src/main.rt.

use compare::browser::WITHOUT_END;
use compare::model::{Model, Outcome, LONGEST, PASSED};
use compare::options::Options;
use compare::{ascii, lending_encoder, Numbers, Operation, CONTEXTS, OPERATIONS};
use std::path::PathBuf;
use Operation::{Browse, Decode, Encode, Read};

const SEED: u64 = 2_125;
const HTML: [u32; 7] = [0, 1, 2, 3, 4, 5, 6];
const STRINGS: [u32; 6] = [7, 8, 9, 10, 11, 12];
const RAW: [u32; 1] = [13];
const JSON: [u32; 1] = [14];
const ASCII_QUOTED: [u32; 1] = [15];
const ALL: [u32; 16] = [0, 1, 2, 3, 4, 5, 6, 7, 8, 9, 10, 11, 12, 13, 14, 15];
/// The contexts of decode and read.
const READ: [u32; 15] = [0, 1, 2, 3, 4, 5, 6, 7, 8, 9, 10, 11, 12, 14, 15];

/// How long the output is: one short, exact and one over, or one of the three by turns.
#[derive(Clone, Copy)]
enum Rooms {
    Three,
    Turns,
}

/// The list as it grows, with what the program knows at this point of it and the counts that it will print.
struct List {
    model: Model,
    lines: String,
    result: Vec<u8>,
    counts: [[u64; 17]; 4],
    turn: usize,
}

impl List {
    fn remark(&mut self, remark: &str) {
        self.lines.push_str(&format!("# {}\n", remark));
    }

    /// The cases of some operations in some contexts on one text. Those that come out alike share their lines.
    fn cases(&mut self, operations: &[Operation], contexts: &[u32], text: &[u8], rooms: Rooms) {
        self.lines.push_str(&format!("t{}\n", spelt(text)));
        self.result = text.to_vec();
        for (operations, contexts, outcome) in self.alike(operations, contexts, text) {
            if outcome.status == PASSED && outcome.result != self.result {
                self.lines.push_str(&format!("r{}\n", spelt(&outcome.result)));
                self.result = outcome.result.clone();
            }
            for room in self.rooms(&outcome, text, rooms) {
                self.lines_of(&operations, &contexts, &outcome, room);
            }
        }
    }

    /// The operations and contexts in groups that come out alike.
    fn alike(&self, operations: &[Operation], contexts: &[u32], text: &[u8]) -> Vec<(Vec<Operation>, Vec<u32>, Outcome)> {
        let mut groups: Vec<(Vec<Operation>, Vec<u32>, Outcome)> = Vec::new();
        for &operation in operations {
            let mut own: Vec<(Vec<u32>, Outcome)> = Vec::new();
            for &context in contexts {
                let outcome = self.model.outcome(operation, context, text);
                match own.iter_mut().find(|group| group.1 == outcome) {
                    Some(group) => group.0.push(context),
                    None => own.push((vec![context], outcome)),
                }
            }
            for (contexts, outcome) in own {
                match groups.iter_mut().find(|group| group.1 == contexts && group.2 == outcome) {
                    Some(group) => group.0.push(operation),
                    None => groups.push((vec![operation], contexts, outcome)),
                }
            }
        }
        groups
    }

    /// The lengths of the output to try.
    fn rooms(&mut self, outcome: &Outcome, text: &[u8], rooms: Rooms) -> Vec<usize> {
        let exact = if outcome.status == PASSED { outcome.result.len() } else { text.len() };
        let three = [exact.saturating_sub(1), exact, exact + 1];
        self.turn += 1;
        match rooms {
            Rooms::Three if exact == 0 => three[1..].to_vec(),
            Rooms::Three => three.to_vec(),
            Rooms::Turns => vec![three[self.turn % 3]],
        }
    }

    /// One line where both kinds of call answer alike, else one for each.
    fn lines_of(&mut self, operations: &[Operation], contexts: &[u32], outcome: &Outcome, room: usize) {
        let copying = outcome.answer(false, room);
        let borrowing = outcome.answer(true, room);
        let kinds = if copying == borrowing { vec![("cb", copying)] } else { vec![("c", copying), ("b", borrowing)] };
        let operation_letters: String = operations.iter().map(|&operation| letter(operation)).collect();
        let context_letters: String = contexts.iter().map(|&context| if context > 25 { 'z' } else { (b'a' + context as u8) as char }).collect();
        for (kind, (answer, written)) in kinds {
            let numbers = [room as u64, answer.status, answer.length, answer.same, answer.replaced, answer.place, answer.left, answer.reason, written as u64];
            let words: Vec<String> = numbers.iter().map(u64::to_string).collect();
            self.lines.push_str(&format!("{} {} {} {}\n", operation_letters, context_letters, kind, words.join(" ")));
            for &operation in operations {
                for &context in contexts {
                    self.counts[operation as usize][context.min(16) as usize] += kind.len() as u64;
                }
            }
        }
    }

    fn total(&self) -> u64 {
        self.counts.iter().flatten().sum()
    }

    /// What crates/replay prints where nothing differs.
    fn report(&self) -> String {
        let mut report = String::new();
        for (operation, counts) in OPERATIONS.iter().zip(self.counts) {
            for (context, ran) in counts.iter().enumerate().filter(|(_, &ran)| ran > 0) {
                let name = CONTEXTS.get(context).unwrap_or(&"in no context");
                report.push_str(&format!("{} {}: {} cases ran, 0 differ\n", format!("{:?}", operation).to_lowercase(), name, ran));
            }
        }
        report + &format!("{} cases ran, 0 differ\n", self.total())
    }
}

fn letter(operation: Operation) -> char {
    match operation {
        Encode => 'E',
        Decode => 'D',
        Read => 'R',
        Browse => 'B',
    }
}

/// A text as the list spells it: printable ASCII is itself, any other byte is \HH, and a run with a period of up to twelve bytes \*N,B;.
fn spelt(text: &[u8]) -> String {
    let mut spelling = String::new();
    let mut at = 0;
    while at < text.len() {
        match text[at] {
            b'!'..=b'[' | b']'..=b'~' => spelling.push(text[at] as char),
            byte => spelling.push_str(&format!("\\{:02X}", byte)),
        }
        at += 1;
        let run = |back: usize| (at..text.len()).take_while(|&i| text[i] == text[i - back]).count();
        let best = (1..=at.min(12)).map(|back| (run(back), back)).max_by_key(|&(n, back)| (n, 12 - back));
        if let Some((n, back)) = best.filter(|&(n, _)| n >= 24) {
            spelling.push_str(&format!("\\*{},{};", n, back));
            at += n;
        }
    }
    spelling
}

/// Every sequence of one to `most` pieces.
fn sequences(pieces: &[&str], most: usize) -> Vec<String> {
    let mut all = Vec::new();
    let mut longest = vec![String::new()];
    for _ in 0..most {
        longest = longest.iter().flat_map(|start| pieces.iter().map(move |piece| format!("{}{}", start, piece))).collect();
        all.extend_from_slice(&longest);
    }
    all
}

fn encoded(context: u32, text: &str) -> String {
    lending_encoder(context)(text).into_owned()
}

/// Every ASCII character and some others, alone: encoded, and what is written for them decoded, read and browsed.
fn characters(list: &mut List) {
    list.remark("every ASCII character and some others: encode in every context; the forms in decode, read and browse");
    let others = "\u{80}\u{FF}\u{7FF}\u{800}\u{2027}\u{2028}\u{2029}\u{202A}\u{D7FF}\u{E000}\u{FFFD}\u{FFFF}\u{10000}\u{10FFFF}";
    for c in ('\0'..='\u{7F}').chain(others.chars()) {
        let c = c.to_string();
        list.cases(&[Encode], &ALL, c.as_bytes(), Rooms::Three);
        list.cases(&[Read], &READ, c.as_bytes(), Rooms::Turns);
        let mut forms: Vec<String> = READ.iter().map(|&context| encoded(context, &c)).filter(|form| *form != c).collect();
        forms.sort();
        forms.dedup();
        for form in forms {
            list.cases(&[Decode, Read, Browse], &READ, form.as_bytes(), Rooms::Turns);
        }
    }
}

/// Short texts, every one, over difficult pieces.
fn short_texts(list: &mut List) {
    list.remark("short texts, every one: encode in the HTML seven");
    for text in sequences(&["&", "<", ">", "\"", "'", "/", "a"], 3) {
        list.cases(&[Encode], &HTML, text.as_bytes(), Rooms::Turns);
    }
    list.remark("short texts, every one: encode in the strings");
    for text in sequences(&["\\", "'", "\"", "<", "\n", "\0", "\u{2028}", "a"], 2) {
        list.cases(&[Encode], &STRINGS, text.as_bytes(), Rooms::Turns);
    }
    list.remark("short texts, every one: encode in script_raw");
    for text in sequences(&["<", "!--", "/", "script", "SCRIPT", ">", "x"], 4) {
        if text.contains('<') && (text.contains("!--") || text.to_lowercase().contains("/script")) {
            list.cases(&[Encode], &RAW, text.as_bytes(), Rooms::Turns);
        }
    }
    list.remark("short texts, every one: decode and browse of references");
    for text in sequences(&["&", "#", "x", ";", "4", "lt"], 4).iter().filter(|text| text.contains('&')) {
        list.cases(&[Decode, Browse], &[text.len() as u32 % 7], text.as_bytes(), Rooms::Turns);
    }
    list.remark("short texts, every one: decode of escapes");
    for text in sequences(&["\\", "x", "0", "3C", "'", "\"", " ", "<"], 3) {
        list.cases(&[Decode], &STRINGS, format!("\\{}", text).as_bytes(), Rooms::Turns);
    }
    list.remark("short texts, every one: read");
    for text in sequences(&["&amp;", "&lt;", "&gt;", "&quot;", "&#x27;", "&#x2F;", "&#x0B;", "&#x7F;", "&", "a", "'", ">"], 2) {
        list.cases(&[Read], &HTML, text.as_bytes(), Rooms::Turns);
    }
    for text in sequences(&["\\\\", "\\'", "\\\"", "\\x0A", "\\x3C", "\\u2028", "\\0A ", "\\3C ", "\\00 ", "\u{2028}", "\u{FFFD}", "'", "<", "a"], 2) {
        list.cases(&[Read], &STRINGS, text.as_bytes(), Rooms::Turns);
    }
}

/// Every name, in decode and browse, and every seventh also damaged.
fn names(list: &mut List) {
    list.remark("every name of the table: decode and browse; every seventh damaged in four ways");
    for (i, (name, _)) in html_escape::NAMED_ENTITIES.iter().enumerate() {
        let name = std::str::from_utf8(name).unwrap();
        let context = [i as u32 % 7];
        list.cases(&[Decode, Browse], &context, format!("&{};", name).as_bytes(), Rooms::Three);
        if i % 7 == 0 {
            let other_case: String = name.chars().map(|c| if c.is_lowercase() { c.to_ascii_uppercase() } else { c.to_ascii_lowercase() }).collect();
            for damaged in [format!("&{}", name), format!("&{}x;", name), format!("&{};", &name[..name.len() - 1]), format!("&{};", other_case)] {
                list.cases(&[Decode, Browse], &context, damaged.as_bytes(), Rooms::Turns);
            }
        }
    }
}

/// The names that need no `;`, with what may follow them, in text and in attributes, and what only begins like one.
fn bare_names(list: &mut List) {
    list.remark("names without `;`, before the end, `;`, `=`, letters, digits and other characters: browse in text and in attributes");
    let ends = ["", ";", "=1", "x", "7", " 2019", "&", "\u{E9}"];
    for (i, name) in WITHOUT_END.split(' ').enumerate() {
        for (j, end) in ends.iter().enumerate() {
            list.cases(&[Browse], &[(i + j) as u32 % 7], format!("&{}{}", name, end).as_bytes(), Rooms::Turns);
        }
    }
    for text in ["&notit;", "&notin;", "&notin", "&ampamp;", "&copy;=", "&copy=;", "&am", "&zwnj", "&lt&gt&amp", "&#65", "&#65x", "&#x41g", "&#65=", "&#0", "&#128", "&#", "&#x", "&#xg"] {
        list.cases(&[Browse], &HTML, text.as_bytes(), Rooms::Turns);
    }
}

/// Numeric references: small numbers, those that browse takes for others, the edges, signs, leading zeros, numbers past 32 and 64 bits.
fn numbers(list: &mut List) {
    list.remark("numeric references");
    let edges = [127, 160, 255, 256, 0x7FF, 0x800, 0xD7FF, 0xD800, 0xDFFF, 0xE000, 0xFFFD, 0xFFFF, 0x1_0000, 0x10_FFFF, 0x11_0000];
    let past = [0x7FFF_FFFF, 0x8000_0000, 0xFFFF_FFFF, 0x1_0000_0000, 0x1_0000_0041, u64::MAX];
    let mut bodies: Vec<String> = Vec::new();
    for n in (0..=64).chain(0x80..=0x9F).chain(edges).chain(past) {
        bodies.extend([format!("#{}", n), format!("#x{:X}", n), format!("#X{:x}", n), format!("#00000000000000000000{}", n), format!("#x0000000000000000{:x}", n)]);
    }
    let odd = ["#", "#x", "#X", "#+65", "#-65", "#x+41", "#x-41", "# 65", "#65 ", "#6_5", "#x4G", "#6A", "#xx41", "##65", "#18446744073709551681", "#x10000000000000041"];
    bodies.extend(odd.iter().map(|body| body.to_string()));
    bodies.extend(["#\u{664}", "#x\u{FF11}", "#99999999999999999999999999999999", "#xFFFFFFFFFFFFFFFFFFFFFFFFFFFFFFFF"].map(String::from));
    for (i, body) in bodies.iter().enumerate() {
        list.cases(&[Decode, Browse], &[i as u32 % 7], format!("&{};", body).as_bytes(), Rooms::Turns);
        list.cases(&[Browse], &[(i + 1) as u32 % 7], format!("&{}", body).as_bytes(), Rooms::Turns);
    }
}

/// The end tags: every byte after the name, every letter case that matters, in script_raw and in the strings' decoders.
fn tags(list: &mut List) {
    list.remark("script and style tags with every ASCII byte behind the name");
    for byte in 0..=0x80u8 {
        let end = if byte < 0x80 { (byte as char).to_string() } else { String::new() };
        list.cases(&[Encode], &RAW, format!("</script{}", end).as_bytes(), Rooms::Turns);
        list.cases(&[Decode], &STRINGS, format!("<\\/script{}", end).as_bytes(), Rooms::Turns);
        list.cases(&[Decode], &STRINGS, format!("<\\/style{}", end).as_bytes(), Rooms::Turns);
    }
    list.remark("pieces of tags and comments");
    for start in ["<", "", "\\", "a", "<<", "<\\"] {
        for tag in ["\\!--", "\\!-", "!--", "!-", "\\/sCRIPT>", "\\/StYlE>", "\\/scrip>", "/ScRiPt ", "/scrIPT", "/\u{17F}cript>", "/script\u{A0}", "\\/script\u{85}"] {
            list.cases(&[Encode], &RAW, format!("{}{}", start, tag).as_bytes(), Rooms::Turns);
            list.cases(&[Decode], &STRINGS, format!("{}{}", start, tag).as_bytes(), Rooms::Turns);
        }
    }
}

/// Sequences that are UTF-8 or just not, behind one letter.
fn sequences_of_bytes(list: &mut List) {
    list.remark("valid and invalid UTF-8");
    let leads = [0x80, 0xBF, 0xC0, 0xC1, 0xC2, 0xDF, 0xE0, 0xE1, 0xEC, 0xED, 0xEE, 0xEF, 0xF0, 0xF1, 0xF3, 0xF4, 0xF5, 0xF8, 0xFC, 0xFE, 0xFF];
    let seconds = [0x00, 0x7F, 0x80, 0x8F, 0x90, 0x9F, 0xA0, 0xBF, 0xC0, 0xFF];
    for lead in leads {
        list.cases(&[Encode], &[lead as u32 % 16], &[b'a', lead], Rooms::Turns);
        for second in seconds {
            for rest in [&[][..], &[0x80], &[0xBF, 0xBF], &[0x80, 0x7F], &[0x80, 0x80, b'a'], &[0x80, 0xC0]] {
                let text = [&[b'a', lead, second], rest].concat();
                list.cases(&[Encode], &[(lead as u32 + second as u32) % 16], &text, Rooms::Turns);
            }
        }
    }
    let broken = [&[0x61, 0xC3, 0x28][..], &[0xED, 0xA0, 0x80], &[0xF4, 0x90, 0x80, 0x80], &[0xF0, 0x8F, 0xBF, 0xBF], &[0x61, 0xE0, 0x9F]];
    let cut_short = [&[0x61, 0xC3][..], &[0x61, 0xE2, 0x82], &[0x61, 0xF0, 0x9F, 0x99]];
    for text in broken.into_iter().chain(cut_short) {
        list.cases(&OPERATIONS, &ALL, text, Rooms::Three);
    }
}

/// Lengths around each boundary: letters alone, with something to replace at either end, nothing but that, a character across the end, one cut off.
fn lengths(list: &mut List) {
    list.remark("lengths around the boundaries");
    let words = [7, 8, 9, 15, 16, 17, 31, 32, 33, 63, 64, 65];
    let pages = [255, 256, 257, 4_095, 4_096, 4_097, LONGEST - 1, LONGEST, LONGEST + 1];
    for length in words.into_iter().chain(pages) {
        let letters = vec![b'a'; length];
        let before = &letters[..length - 1];
        for special in [b'&', b'\'', b'<', b'\\', 0, 0x80] {
            let texts = [[&[special], before].concat(), [before, &[special]].concat(), [&letters[..length / 2], &[special], &letters[..length - length / 2 - 1]].concat()];
            for text in texts {
                list.cases(&[Encode], &[1, 4, 6, 9, 12, 13, 14, 15], &text, Rooms::Turns);
            }
        }
        for special in ["'", "<", "\0", "\u{2028}", "\u{E9}", "\u{10000}"] {
            list.cases(&[Encode, Read], &[0, 4, 6, 7, 9, 12, 13, 14, 15], special.repeat(length / special.len()).as_bytes(), Rooms::Three);
        }
        for form in ["&amp;", "&nGt;", "&#60;", "\\x3C", "\\3C ", "\\\\", "&#xD800;", "\\u003C", "\\uD83D\\uDE00"] {
            let run = form.repeat(length / form.len());
            list.cases(&[Decode, Read, Browse], &[1, 6, 9, 12, 14, 15], [run.as_bytes(), &letters[..length - run.len()]].concat().as_slice(), Rooms::Three);
        }
        for tail in [&[0xC3][..], &[0xC3, 0xA9], &[0xE2, 0x80], &[0xE2, 0x80, 0xA9], &[0xF0, 0x90, 0x80], &[0xF0, 0x90, 0x80, 0x80]] {
            list.cases(&OPERATIONS, &[1, 9, 12, 14, 15], &[&letters[..length - tail.len()], tail].concat(), Rooms::Turns);
        }
        list.cases(&OPERATIONS, &ALL, &letters, Rooms::Three);
    }
}

/// JSON strings: a backslash before every ASCII character, `\u` escapes in either letter case, all pairs of them around the surrogates, and escapes cut off.
fn json_strings(list: &mut List) {
    list.remark("JSON strings: escapes, surrogate pairs, halves that stand alone, and what RFC 8259 forbids");
    let units = [0, 0x1F, 0x22, 0x3C, 0x5C, 0x7F, 0x80, 0x7FF, 0x800, 0x2028, 0xD7FF, 0xD800, 0xD83D, 0xDBFF, 0xDC00, 0xDE00, 0xDFFF, 0xE000, 0xFFFF];
    let mut texts: Vec<String> = ('\0'..='\u{7F}').map(|c| format!("\\{}", c)).collect();
    texts.extend(["\\u", "\\u1", "\\u12", "\\u123", "\\u123G", "\\uG123", "\\u00\u{E9}", "\\U0041", "\\uD83D\\", "\\uD83D\\u", "\\uD83D\\uDE0", "\\uD83D\\uZZZZ"].map(String::from));
    for first in units {
        texts.extend([format!("\\u{:04X}", first), format!("\\u{:04x}", first)]);
        texts.extend(units.map(|second| format!("\\u{:04X}\\u{:04x}", first, second)));
    }
    for text in texts {
        for (before, after) in [("", ""), ("a", "b"), ("\\n\u{E9}", "\""), ("\"", "")] {
            list.cases(&[Decode, Read], &JSON, [before, &text, after].concat().as_bytes(), Rooms::Turns);
        }
    }
}

/// ascii_quoted: every character that has a name, its neighbours of which some have none, the edges of UTF-8, and other spellings of the units.
fn old_displays(list: &mut List) {
    list.remark("ascii_quoted: every character that has a name, numbers, and other spellings of the same characters");
    let mut named: Vec<char> = ascii::names().keys().copied().collect();
    named.sort_unstable();
    for characters in named.chunks(16) {
        let text: String = characters.iter().collect();
        list.cases(&[Encode], &ASCII_QUOTED, text.as_bytes(), Rooms::Turns);
        list.cases(&[Decode, Read, Browse], &ASCII_QUOTED, encoded(15, &text).as_bytes(), Rooms::Turns);
    }
    let mut numbers = Numbers(SEED);
    let edges = [0x7F, 0x80, 0x9F, 0xA0, 0x7FF, 0x800, 0xD7FF, 0xE000, 0xFFFF, 0x1_0000, 0xF_FFFF, 0x10_0000, 0x10_FFFF];
    let any: Vec<u32> = (0..200).map(|_| 0x80 + numbers.below(0x10_FF80) as u32).collect();
    for c in edges.into_iter().chain(0x80..0xA0).chain(any).filter_map(char::from_u32) {
        list.cases(&[Encode, Read], &ASCII_QUOTED, c.to_string().as_bytes(), Rooms::Turns);
        let number = c as u32;
        for spelling in [encoded(15, &c.to_string()), format!("&#x{:x};", number), format!("&#x0{:X};", number), format!("&#X{:X};", number), format!("&#{};", number), format!("&#x{:X}", number)] {
            list.cases(&[Decode, Read, Browse], &ASCII_QUOTED, spelling.as_bytes(), Rooms::Turns);
        }
    }
    for (name, _) in html_escape::NAMED_ENTITIES.iter().step_by(7) {
        list.cases(&[Read], &ASCII_QUOTED, &[b"&", *name, b";"].concat(), Rooms::Turns);
    }
}

/// The table's order: what is refused first where several refusals apply; contexts that no operation has.
fn refusals(list: &mut List) {
    list.remark("every operation in every context and in contexts that there are not, on texts for which several refusals apply");
    let contexts: Vec<u32> = (0..=25).filter(|&context| context < 25).chain([u32::MAX]).collect();
    let long = vec![b'<'; LONGEST + 1];
    let broken = vec![0x80; LONGEST + 1];
    for text in [&b""[..], b"a", b"&amp;", b"<", b"&\x80", b"\x80", b"&\xC3", &long, &broken, &broken[1..]] {
        list.cases(&OPERATIONS, &contexts, text, Rooms::Three);
    }
}

/// Copies of good texts and of their forms, damaged at random: a byte dropped, doubled, changed or cut off behind.
fn damaged(list: &mut List) {
    list.remark("damaged copies");
    let good = ["Tom's \"5\" & <up>", "a<b>&c;\n\u{2028}\u{E9}", "<script>'\\x'</script>", "x=1&y=\u{1F600}/", "\0\u{1F}\t<!-- -->\\"];
    let marks = b"&;#x\\<>/'\" 03C\x80\xC3\xE2\xF0\x00";
    let mut numbers = Numbers(SEED);
    for _ in 0..60 {
        for context in ALL {
            let mut text = encoded(context, good[numbers.below(good.len())]).into_bytes();
            for _ in 0..=numbers.below(2) {
                let at = numbers.below(text.len());
                match numbers.below(4) {
                    0 => drop(text.remove(at)),
                    1 => text.insert(at, text[at]),
                    2 => text[at] = *numbers.one_of(marks),
                    _ => text.truncate(at + 1),
                }
            }
            let operations: &[Operation] = if context < 7 || context == 15 { &[Decode, Read, Browse] } else { &[Decode, Read] };
            let operations = if context == 13 { &[Encode] } else { operations };
            list.cases(operations, &[context], &text, Rooms::Turns);
        }
    }
}

fn main() {
    Options::read("generate", &[], &[]);
    let mut list = List { model: Model::new(), lines: String::new(), result: Vec::new(), counts: [[0; 17]; 4], turn: 0 };
    let sections = [characters, short_texts, names, bare_names, numbers, tags, sequences_of_bytes, lengths, json_strings, old_displays, refusals, damaged];
    for section in sections {
        let (bytes, cases) = (list.lines.len(), list.total());
        section(&mut list);
        let remark = list.lines[bytes..].lines().next().unwrap();
        println!("{} cases in {} bytes: {}", list.total() - cases, list.lines.len() - bytes, &remark[2..]);
    }
    list.lines.push_str(&format!("end {}\n", list.total()));
    let root = std::env::var_os("LINTELRYE_ROOT").expect("compare/run says where the repository is");
    let folder = PathBuf::from(root).join("crates/replay");
    for (name, bytes) in [("stdin", &list.lines), ("stdout", &list.report())] {
        std::fs::write(folder.join(name), bytes).unwrap_or_else(|error| panic!("{} was not written: {}", folder.join(name).display(), error));
    }
    println!("{} cases in {} bytes, written to {}", list.total(), list.lines.len(), folder.join("stdin").display());
}
