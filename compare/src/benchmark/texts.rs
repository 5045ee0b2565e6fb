//! The texts of the benchmark: for every operation and context the same classes, made by a generator with a fixed seed.

use compare::browser::WITHOUT_END;
use compare::{ascii, json, Numbers, Operation, ToVec, CONTEXTS, CRATE_DECODERS, CRATE_ENCODERS};

/// The context json, which the crate has not, and the one of the crate's that its texts are made for: both escape the same characters.
const JSON: usize = 14;
const SCRIPT_DOUBLE: usize = 8;

/// The context ascii_quoted, which the crate has not either, and the one of the crate's that does the same to ASCII texts.
const ASCII_QUOTED: usize = 15;
const QUOTED: usize = 4;

/// The longest text that a call takes.
const LONGEST: usize = 65_536;

/// How many names are called one after the other.
const NAMES: usize = 2_000;

const ENGLISH: &str = "the pump in north hall was opened at seven and closed again before noon because of a pressure reading that nobody could \
    explain so far Engineers will look after valve 12 on Monday with spare parts from store room 4";
const CYRILLIC: &str = "насос в северном зале был открыт утром и закрыт снова до полудня Инженеры посмотрят клапан завтра";
const CJK: &str = "北側 の 水泵 早上 七點 開 中午 前 又 關閉 工程師 會 檢查 閥門 ポンプ 明日";
const EMOJI: &str = "😀 🚰 🔧 🏭 👩\u{200D}🔧 🌡\u{FE0F} 🚪 🔔 🔒 🧯 🪛 🛠\u{FE0F} 🕖 🙈 🎉 👍🏽";

/// How many names are filled in one call of fill_page.
pub const FORTY: usize = 40;

/// Which call of an operation is made; the check is read's, fill_page makes forty copying calls of encode in one, which are also made singly beside it,
/// and closing_tag, which judges a script element's text, goes with encode in script_raw, as do the calls for parts.
#[derive(Clone, Copy, PartialEq, Eq)]
pub enum Kind {
    Copying,
    Borrowing,
    Check,
    Page,
    Singly,
    Closing,
    Parts,
}

/// One line of the table: an operation in a context, on texts of a class.
pub struct Case {
    pub operation: Operation,
    pub kind: Kind,
    pub context: usize,
    pub class: &'static str,
    pub texts: Vec<String>,
}

impl Case {
    /// The context of a text: on a page the names go through the HTML seven in turn.
    pub fn context_of(&self, i: usize) -> usize {
        match self.kind {
            Kind::Page | Kind::Singly => i % 7,
            _ => self.context,
        }
    }

    /// The crate's counterpart: its encoder or decoder of the text's context. For `take`, `check` and `browse`, which the crate does not have, its decoder;
    /// for json that of script_double, for ascii_quoted that of quoted.
    pub fn theirs(&self, i: usize) -> ToVec {
        let context = alike(self.context_of(i));
        match self.operation {
            Operation::Encode => CRATE_ENCODERS[context],
            _ => CRATE_DECODERS[context],
        }
    }

    /// The texts that the crate gets: ours, but where a JSON string is undone its script form, which stands for the same text.
    pub fn others(&self) -> Vec<String> {
        match (self.operation, self.context) {
            (Operation::Decode | Operation::Read, JSON) => self.texts.iter().map(|text| script_form(text)).collect(),
            _ => self.texts.clone(),
        }
    }

    /// What our result must be, from what the crate makes of its text: its bytes, but where json or ascii_quoted is written those of the model.
    pub fn expected(&self, i: usize, other: &str) -> Vec<u8> {
        match (self.operation, self.context) {
            (Operation::Encode, JSON) => return json::encode(other).into_owned().into_bytes(),
            (Operation::Encode, ASCII_QUOTED) => return ascii::encode(other).into_owned().into_bytes(),
            _ => {}
        }
        let mut output = Vec::new();
        self.theirs(i)(other, &mut output);
        output
    }

    /// Whether these are the copying calls of the same operation on the same texts: what a check, a page and a script by parts are held beside, and
    /// those of script_double, beside which json is held, and of quoted, beside which ascii_quoted is.
    pub fn is_copying_of(&self, case: &Case) -> bool {
        let kind = if case.kind == Kind::Page { Kind::Singly } else { Kind::Copying };
        let context = if case.operation == Operation::Encode { alike(case.context) } else { case.context };
        self.kind == kind && (self.operation, self.context, self.class) == (case.operation, context, case.class)
    }

    /// Whether json is written.
    pub fn writes_json(&self) -> bool {
        (self.operation, self.context) == (Operation::Encode, JSON)
    }

    /// Whether ascii_quoted is written, on a class whose texts are ASCII: what quoted writes too.
    pub fn writes_ascii(&self) -> bool {
        (self.operation, self.context) == (Operation::Encode, ASCII_QUOTED) && !["Cyrillic", "CJK", "emoji"].contains(&self.class)
    }

    /// The number of bytes that one pass over the texts takes: ours, the crate's two, which are over `others`, and the copy's.
    pub fn bytes(&self) -> [usize; 4] {
        let bytes = |texts: &[String]| texts.iter().map(String::len).sum();
        let (ours, theirs) = (bytes(&self.texts), bytes(&self.others()));
        [ours, theirs, theirs, ours]
    }

    /// The contexts that are of one kind, with the operation.
    pub fn family(&self) -> &'static str {
        match (self.operation, self.context, self.kind) {
            (_, _, Kind::Closing) => "closing_tag",
            (_, _, Kind::Page) => "fill_page",
            (_, _, Kind::Singly) => "encode for a page",
            (_, _, Kind::Parts) => "script_raw by parts",
            (Operation::Encode, 0..=6, Kind::Borrowing) => "encode HTML, borrowing",
            (Operation::Encode, 0..=6, _) => "encode HTML",
            (Operation::Encode, 7..=9, _) => "encode script strings",
            (Operation::Encode, 10..=12, _) => "encode style strings",
            (Operation::Encode, JSON, _) => "encode json",
            (Operation::Encode, ASCII_QUOTED, _) => "encode ascii_quoted",
            (Operation::Encode, _, _) => "encode script_raw",
            (Operation::Decode, 0..=6, Kind::Borrowing) => "decode HTML, borrowing",
            (Operation::Decode, 0..=6, _) => "decode HTML",
            (Operation::Decode, 7..=9, _) => "decode script strings",
            (Operation::Decode, JSON, _) => "decode json",
            (Operation::Decode, _, _) => "decode style strings",
            (Operation::Read, 0..=6, Kind::Check) => "check HTML",
            (Operation::Read, 7..=9, Kind::Check) => "check script strings",
            (Operation::Read, JSON, Kind::Check) => "check json",
            (Operation::Read, ASCII_QUOTED, Kind::Check) => "check ascii_quoted",
            (Operation::Read, _, Kind::Check) => "check style strings",
            (Operation::Read, 0..=6, _) => "take HTML",
            (Operation::Read, 7..=9, _) => "take script strings",
            (Operation::Read, JSON, _) => "take json",
            (Operation::Read, ASCII_QUOTED, _) => "take ascii_quoted",
            (Operation::Read, _, _) => "take style strings",
            (Operation::Browse, _, Kind::Borrowing) => "browse, borrowing",
            (Operation::Browse, _, _) => "browse",
        }
    }

    /// The name of the context; a page has more than one.
    pub fn place(&self) -> &'static str {
        match self.kind {
            Kind::Page | Kind::Singly => "the HTML seven",
            _ => CONTEXTS[self.context],
        }
    }

    pub fn name(&self) -> String {
        format!("{} | {} | {}", self.family(), self.place(), self.class)
    }

    /// The most that it may take of what the copying calls do on the same texts. Short names are shorter than a part.
    pub fn beside_limit(&self) -> Option<f64> {
        if self.writes_json() {
            return Some(if self.class == "all" { 1.3 } else { 1.1 });
        }
        if self.writes_ascii() {
            return Some(1.05);
        }
        match (self.kind, self.class) {
            (Kind::Page, _) => Some(1.05),
            (Kind::Check, "plain") => Some(1.0),
            (Kind::Check, "10 %" | "50 %" | "all") => Some(0.65),
            (Kind::Parts, "short names") => None,
            (Kind::Parts, _) => Some(1.25),
            _ => None,
        }
    }

    /// The most that ours may take of the time of the crate after `from_utf8`; `take`, `check` and the calls for parts have no limit, and writing json and
    /// ascii_quoted is held beside script_double and quoted alone.
    pub fn limit(&self) -> Option<f64> {
        if self.kind == Kind::Closing {
            return Some(if ["plain", "Cyrillic", "CJK", "emoji", "escaped plain"].contains(&self.class) { 1.5 } else { 3.0 });
        }
        if self.kind == Kind::Page {
            return Some(0.6);
        }
        if self.kind == Kind::Singly || self.kind == Kind::Parts {
            return None;
        }
        match (self.operation, self.context, self.class) {
            (Operation::Encode, 0..=6, "plain") => Some(if self.kind == Kind::Borrowing { 0.15 } else { 0.3 }),
            (Operation::Encode, 0..=6, "short names") => Some(0.9),
            (Operation::Encode, 0..=6, "Cyrillic" | "CJK" | "emoji") => Some(0.6),
            (Operation::Encode, 0..=6, _) => Some(1.3),
            (Operation::Encode, JSON | ASCII_QUOTED, _) => None,
            (Operation::Encode, _, _) => Some(1.5),
            (Operation::Decode, JSON, "plain") => Some(0.5),
            (Operation::Decode | Operation::Browse, _, "plain" | "stray &") => Some(1.0),
            (Operation::Browse, _, "names without ;" | "one long name" | "only &a") => None,
            (Operation::Decode | Operation::Browse, _, _) => Some(2.0),
            (Operation::Read, _, _) => None,
        }
    }
}

/// The context of the crate that does nearly the same as this one: itself, but for the two that the crate has not.
fn alike(context: usize) -> usize {
    match context {
        JSON => SCRIPT_DOUBLE,
        ASCII_QUOTED => QUOTED,
        _ => context,
    }
}

/// Every case. The HTML seven share one decoder, so decode and browse are measured in one of them. Where pieces are at random places there are `many` texts.
pub fn cases(many: usize) -> Vec<Case> {
    let mut all = Vec::new();
    let mut add = |operation, kind, contexts: &[usize]| {
        for &context in contexts {
            all.extend(cases_of(operation, kind, context, many));
        }
    };
    add(Operation::Encode, Kind::Copying, &[0, 1, 2, 3, 4, 5, 6]);
    add(Operation::Encode, Kind::Borrowing, &[0, 1, 2, 3, 4, 5, 6]);
    add(Operation::Encode, Kind::Copying, &[7, 8, 9, 10, 11, 12, 13, JSON, ASCII_QUOTED]);
    add(Operation::Decode, Kind::Copying, &[1, 7, 8, 9, 10, 11, 12, JSON]);
    add(Operation::Read, Kind::Copying, &[0, 1, 2, 3, 4, 5, 6, 7, 8, 9, 10, 11, 12, JSON, ASCII_QUOTED]);
    add(Operation::Read, Kind::Check, &[0, 1, 2, 3, 4, 5, 6, 7, 8, 9, 10, 11, 12, JSON, ASCII_QUOTED]);
    add(Operation::Browse, Kind::Copying, &[1]);
    add(Operation::Decode, Kind::Borrowing, &[1]);
    add(Operation::Browse, Kind::Borrowing, &[1]);
    add(Operation::Encode, Kind::Parts, &[13]);
    all.extend([page_case(Kind::Singly), page_case(Kind::Page)]);
    all.extend(closing_cases());
    all
}

/// Pages of forty short names, which go through the HTML seven in turn.
fn page_case(kind: Kind) -> Case {
    let numbers = &mut Numbers(40);
    let english = words(numbers, ENGLISH, &[" ", " ", " ", " ", ", ", ". "]);
    let texts = names(numbers, &english, &special(4));
    Case { operation: Operation::Encode, kind, context: 4, class: "forty names", texts }
}

/// The classes of closing_tag: texts that are read to their end, as none of them has an end tag that ends the element.
fn closing_cases() -> Vec<Case> {
    let numbers = &mut Numbers(13);
    let english = words(numbers, ENGLISH, &[" ", " ", " ", " ", ", ", ". "]);
    let pieces = |list: &[&str]| list.iter().map(|piece| piece.to_string()).collect::<Vec<_>>();
    let special = pieces(&["<!--", "-->", "<script>", "</scripts>", "<", "-"]);
    let mut all = Vec::new();
    let mut add = |class, texts| all.push(Case { operation: Operation::Encode, kind: Kind::Closing, context: 13, class, texts });
    for (class, percent) in [("plain", 0), ("1 %", 1), ("10 %", 10), ("50 %", 50), ("all", 100)] {
        add(class, vec![fill(numbers, &english, &special, percent, LONGEST)]);
    }
    add("short names", names(numbers, &english, &special));
    for (class, list, gap) in [("Cyrillic", CYRILLIC, " "), ("CJK", CJK, ""), ("emoji", EMOJI, "")] {
        let text = words(numbers, list, &[gap]);
        add(class, vec![fill(numbers, &text, &[], 0, LONGEST)]);
    }
    for (class, start) in [("escaped plain", "<!--"), ("escaped twice", "<!--<script>")] {
        add(class, vec![start.to_string() + &fill(numbers, &english, &[], 0, LONGEST - start.len())]);
    }
    let only =
        [("only <", "", "<"), ("only <!--", "", "<!--"), ("only </scripts>", "", "</scripts>"), ("only -", "<!--", "-"), ("only <s", "<!--", "<s")];
    for (class, start, piece) in only {
        add(class, vec![start.to_string() + &fill(numbers, &english, &pieces(&[piece]), 100, LONGEST - start.len())]);
    }
    all
}

/// The classes of one operation in one context. In `unquoted`, where a space is special, plain words have no spaces between them; json is written for the
/// texts of script_double, ascii_quoted for those of quoted, and what is read in ascii_quoted is its own form of a shorter text.
fn cases_of(operation: Operation, kind: Kind, context: usize, many: usize) -> Vec<Case> {
    let numbers = &mut Numbers(alike(context) as u64);
    let gaps = if context == 6 { [""; 6] } else { [" ", " ", " ", " ", ", ", ". "] };
    let english = words(numbers, ENGLISH, &gaps);
    let pieces = pieces(operation, context);
    let mut all = Vec::new();
    let mut add = |class, texts| all.push(Case { operation, kind, context, class, texts });
    for (class, percent) in [("plain", 0), ("1 %", 1), ("10 %", 10), ("50 %", 50), ("all", 100)] {
        let count = if percent == 0 { 1 } else { many };
        add(class, (0..count).map(|_| fill(numbers, &english, &pieces, percent, LONGEST)).collect());
    }
    add("short names", names(numbers, &english, &pieces));
    for (class, list, gap) in [("Cyrillic", CYRILLIC, gaps[0]), ("CJK", CJK, ""), ("emoji", EMOJI, "")] {
        let text = words(numbers, list, &[gap]);
        let text = match (operation, context) {
            (Operation::Read, ASCII_QUOTED) => ascii::encode(&fill(numbers, &text, &[], 0, LONGEST / 8)).into_owned(),
            _ => fill(numbers, &text, &[], 0, LONGEST),
        };
        add(class, vec![text]);
    }
    for (class, pieces) in further(operation, context) {
        add(class, vec![fill(numbers, &english, &pieces, 100, LONGEST)]);
    }
    if matches!((operation, context), (Operation::Decode | Operation::Browse, 0..=6)) {
        let stray = ["&".to_string(), "&bogus;".to_string()];
        add("stray &", vec![fill(numbers, &english, &stray, 1, LONGEST)]);
    }
    if operation == Operation::Browse {
        let bare: Vec<String> = WITHOUT_END.split(' ').map(|name| format!("&{} ", name)).collect();
        add("names without ;", vec![fill(numbers, &english, &bare, 100, LONGEST)]);
        add("one long name", vec![format!("&{}", "a".repeat(LONGEST - 1))]);
        add("only &a", vec!["&a".repeat(LONGEST / 2)]);
    }
    all
}

/// Words of a list with gaps between them, somewhat more than a text takes.
fn words(numbers: &mut Numbers, list: &str, gaps: &[&str]) -> String {
    let list: Vec<&str> = list.split(' ').collect();
    let mut text = String::new();
    while text.len() < LONGEST + 256 {
        text += *numbers.one_of(&list);
        text += *numbers.one_of(gaps);
    }
    text
}

/// A text of at most `limit` bytes: `percent` of its pieces are from `pieces`, the others are the characters of `plain`, which is longer.
fn fill(numbers: &mut Numbers, plain: &str, pieces: &[String], percent: usize, limit: usize) -> String {
    let mut characters = plain.chars();
    let mut text = String::new();
    loop {
        let before = text.len();
        if numbers.below(100) < percent {
            text += numbers.one_of(pieces).as_str();
        } else {
            text.extend(characters.next());
        }
        if text.len() > limit {
            text.truncate(before);
            return text;
        }
    }
}

/// Names of 5 to 40 bytes, cut out of a text of ASCII characters; about one in ten has some of the pieces.
fn names(numbers: &mut Numbers, plain: &str, pieces: &[String]) -> Vec<String> {
    let mut all = Vec::new();
    while all.len() < NAMES {
        let percent = if numbers.below(10) == 0 { 10 } else { 0 };
        let (start, limit) = (numbers.below(LONGEST), 5 + numbers.below(36));
        let name = fill(numbers, &plain[start..], pieces, percent, limit);
        if name.len() >= 5 {
            all.push(name);
        }
    }
    all
}

/// What is special for the operation in the context: what encode replaces there, or what the others undo.
fn pieces(operation: Operation, context: usize) -> Vec<String> {
    match operation {
        Operation::Encode => special(context),
        Operation::Decode | Operation::Browse if context < 7 => references(),
        _ => special(context).iter().map(|piece| encoded(context, piece)).collect(),
    }
}

/// What the context's encoder replaces, but nothing that the crate's decoder would not undo (NUL in a style string, most controls in `unquoted`).
fn special(context: usize) -> Vec<String> {
    let mut pieces: Vec<&str> = match context {
        0 => vec!["&", "<"],
        1 => vec!["&", "<", ">"],
        2 => vec!["&", "<", ">", "\""],
        3 => vec!["&", "<", ">", "'"],
        QUOTED | ASCII_QUOTED => vec!["&", "<", ">", "\"", "'"],
        5 => vec!["&", "<", ">", "\"", "'", "/"],
        6 => " |!|\"|#|$|%|&|'|(|)|*|+|,|-|.|/|:|;|<|=|>|?|@|[|\\|]|^|_|`|{|}|~|\t|\n|\u{C}|\r".split('|').chain(["|"]).collect(),
        13 => vec!["<!--", "</script>", "<"],
        _ => vec!["\\", "<", "\n", "\t", "\u{1}", "\u{1F}"],
    };
    match context {
        7 | 10 => pieces.push("'"),
        8 | 11 | JSON => pieces.push("\""),
        9 | 12 => pieces.extend(["'", "\""]),
        _ => {}
    }
    if let 7..=9 | JSON = context {
        pieces.extend(["\u{2028}", "\u{2029}"]);
    }
    pieces.into_iter().map(String::from).collect()
}

/// What the context's encoder writes for a piece.
fn encoded(context: usize, piece: &str) -> String {
    if context == JSON {
        return json::encode(piece).into_owned();
    }
    let mut output = Vec::new();
    CRATE_ENCODERS[alike(context)](piece, &mut output);
    String::from_utf8(output).expect("the crate's encoders write UTF-8")
}

/// What script_double writes for the text of a JSON string.
fn script_form(string: &str) -> String {
    let (text, _) = json::decode(string).expect("the texts of json are JSON strings");
    encoded(SCRIPT_DOUBLE, &text)
}

/// References as pages have them: half of them the common names, a quarter numbers, a quarter any names of the table.
fn references() -> Vec<String> {
    let mut numbers = Numbers(14);
    let (numbered, named) = (numbered(), named());
    let common = ["&amp;", "&lt;", "&gt;", "&quot;", "&nbsp;", "&apos;"];
    let one = |i: usize| match i % 4 {
        0 => numbers.one_of(&numbered).clone(),
        1 => numbers.one_of(&named).clone(),
        _ => numbers.one_of(&common).to_string(),
    };
    (0..256).map(one).collect()
}

/// Numeric references, decimal and hexadecimal, to characters of one to four bytes.
fn numbered() -> Vec<String> {
    let mut numbers = Numbers(15);
    let one = |i: usize| {
        let (from, count) = [(0x21, 0x5E), (0xA0, 0x460), (0x2000, 0xC00), (0x1F300, 0x400)][i % 4];
        let character = from + numbers.below(count);
        match numbers.below(3) {
            0 => format!("&#{};", character),
            1 => format!("&#x{:X};", character),
            _ => format!("&#x{:x};", character),
        }
    };
    (0..256).map(one).collect()
}

/// A reference for every name of the table.
fn named() -> Vec<String> {
    html_escape::NAMED_ENTITIES.iter().map(|(name, _)| format!("&{};", String::from_utf8_lossy(name))).collect()
}

/// Classes that only some operations and contexts have: nothing but pieces of one kind. An escape with digits counts as a number.
fn further(operation: Operation, context: usize) -> Vec<(&'static str, Vec<String>)> {
    match (operation, context) {
        (Operation::Encode, 6) => vec![("English", ENGLISH.split(' ').map(|word| format!("{} ", word)).collect())],
        (Operation::Encode, 13) => {
            [("only <!--", "<!--"), ("only </script>", "</script>"), ("only <", "<")].map(|(class, piece)| (class, vec![piece.to_string()])).to_vec()
        }
        (Operation::Decode | Operation::Browse, 0..=6) => vec![("numbers only", numbered()), ("named only", named())],
        (Operation::Decode, _) => {
            let (numbered, named) = pieces(operation, context).into_iter().partition(|piece| piece.bytes().any(|byte| byte.is_ascii_digit()));
            vec![("numbers only", numbered), ("named only", named)]
        }
        _ => Vec::new(),
    }
}
