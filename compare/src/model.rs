//! What each call is to answer, worked out from the crate html-escape, from `std::str::from_utf8`, from the HTML Standard's states (browser.rs) and from
//! docs/RULES.md. The crate gives no count of replaced places: that is counted here, by the rules' own division of the text. Nothing here calls the library.

use crate::browser::Browser;
use crate::{ascii, json, lending_encoder, Answer, Checked, Field, Filled, Operation, CRATE_DECODERS, CRATE_ENCODERS, CRATE_LENDING_DECODERS};
use std::borrow::Cow;

/// The numbers of the contexts json and ascii_quoted, which the crate has not.
const JSON: u32 = 14;
const ASCII_QUOTED: u32 = 15;

/// The contexts in which browse reads a text as the value of an attribute: double_quoted, single_quoted, quoted, unquoted, ascii_quoted.
const ATTRIBUTES: [usize; 5] = [2, 3, 4, 6, 15];

/// The longest text that a call takes.
pub const LONGEST: usize = 65_536;

pub const PASSED: u64 = 0;
pub const TOO_LONG: u64 = 1;
pub const NOT_UTF8: u64 = 2;
pub const NO_ROOM: u64 = 3;
pub const NOT_A_FORM: u64 = 4;
pub const BAD_CONTEXT: u64 = 5;
pub const CUT_SHORT: u64 = 7;
pub const BAD_RANGE: u64 = 8;
pub const LONE_SURROGATE: u64 = 10;

/// The most records that a page takes.
pub const FIELD_LIMIT: usize = 256;

/// What an operation makes of a text, before any output is looked at. After a refusal the result is empty.
#[derive(Clone, Debug, PartialEq, Eq)]
pub struct Outcome {
    pub status: u64,
    pub place: usize,
    pub replaced: u64,
    /// Place and reason of the first reference that stays; 0 and 0 where none does.
    pub left: (u64, u64),
    pub result: Vec<u8>,
}

impl Outcome {
    fn passed(result: Vec<u8>, replaced: u64, left: (u64, u64)) -> Outcome {
        Outcome { status: PASSED, place: 0, replaced, left, result }
    }

    fn refused(status: u64, place: usize) -> Outcome {
        Outcome { status, place, replaced: 0, left: (0, 0), result: Vec::new() }
    }

    /// What check answers of a text that read makes this of: the numbers of a call with room.
    pub fn checked(&self) -> Checked {
        Checked { status: self.status, length: self.result.len() as u64, place: self.place as u64 }
    }

    /// The answer of a call with an output of `room` bytes, and how many bytes of the result it writes.
    pub fn answer(&self, borrowing: bool, room: usize) -> (Answer, usize) {
        let length = self.result.len() as u64;
        let place = self.place as u64;
        if self.status != PASSED {
            return (Answer { status: self.status, length: 0, same: 0, replaced: 0, place, left: 0, reason: 0 }, 0);
        }
        let same = self.replaced == 0;
        if !(borrowing && same) && room < self.result.len() {
            return (Answer { status: NO_ROOM, length, same: 0, replaced: 0, place, left: 0, reason: 0 }, 0);
        }
        let written = if borrowing && same { 0 } else { self.result.len() };
        let (left, reason) = self.left;
        (Answer { status: PASSED, length, same: same as u64, replaced: self.replaced, place, left, reason }, written)
    }
}

/// Whether an operation has a context of this number.
pub fn has_context(operation: Operation, context: u32) -> bool {
    match operation {
        Operation::Encode => context < 16,
        Operation::Decode | Operation::Read => context < 13 || context == JSON || context == ASCII_QUOTED,
        Operation::Browse => context < 7 || context == ASCII_QUOTED,
    }
}

/// The model: the crate's functions and those of json.rs and ascii.rs, and the units of every other context's forms, taken from the encoders; script_raw
/// has none.
pub struct Model {
    units: Vec<Option<Units>>,
    browser: Browser,
}

impl Model {
    pub fn new() -> Model {
        let units = (0..15).map(|context| has_context(Operation::Read, context).then(|| Units::of_context(context))).collect();
        Model { units, browser: Browser::new() }
    }

    /// What the call on a page leaves, by single calls: each record with its answer, the bytes of the output, and what the call answers.
    pub fn page(&self, fields: &[Field], text: &[u8], output: &[u8]) -> (Vec<Field>, Vec<u8>, Filled) {
        let (mut fields, mut output) = (fields.to_vec(), output.to_vec());
        if fields.len() > FIELD_LIMIT {
            return (fields, output, Filled { status: TOO_LONG, passed: 0 });
        }
        let mut end = 0;
        for i in 0..fields.len() {
            let Field { context, start, length, .. } = fields[i];
            let part = start.checked_add(length).filter(|&stop| stop <= text.len() as u64).map(|stop| &text[start as usize..stop as usize]);
            let outcome = match part {
                None if has_context(Operation::Encode, context) => Outcome::refused(BAD_RANGE, 0),
                part => self.outcome(Operation::Encode, context, part.unwrap_or_default()),
            };
            let (answer, written) = outcome.answer(false, output.len() - end);
            fields[i].answer = answer;
            fields[i].begins = if answer.status == PASSED { end as u64 } else { 0 };
            if answer.status != PASSED {
                return (fields, output, Filled { status: answer.status, passed: i as u64 });
            }
            output[end..end + written].copy_from_slice(&outcome.result);
            end += written;
        }
        let passed = fields.len() as u64;
        (fields, output, Filled { status: PASSED, passed })
    }

    /// What an operation makes of a text in a context.
    pub fn outcome(&self, operation: Operation, context: u32, text: &[u8]) -> Outcome {
        if !has_context(operation, context) {
            return Outcome::refused(BAD_CONTEXT, 0);
        }
        if text.len() > LONGEST {
            return Outcome::refused(TOO_LONG, 0);
        }
        let text = match std::str::from_utf8(text) {
            Ok(text) => text,
            Err(error) => {
                // Rust gives an invalid sequence a length, and none where the text ends before the sequence does.
                let status = if error.error_len().is_none() { CUT_SHORT } else { NOT_UTF8 };
                return Outcome::refused(status, error.valid_up_to());
            }
        };
        let context = context as usize;
        let in_ascii = context == ASCII_QUOTED as usize;
        match operation {
            Operation::Encode if in_ascii => Outcome::passed(ascii::encode(text).into_owned().into_bytes(), ascii::count(text), (0, 0)),
            Operation::Read if in_ascii => match ascii::read(text) {
                Ok((result, replaced)) => Outcome::passed(result.into_bytes(), replaced, (0, 0)),
                Err(place) => Outcome::refused(NOT_A_FORM, place),
            },
            // The HTML contexts share one decoder.
            Operation::Decode if in_ascii => self.decode(0, text),
            Operation::Encode => self.encode(context, text),
            Operation::Decode if context == JSON as usize => match json::decode(text) {
                Ok((result, replaced)) => Outcome::passed(result.into_bytes(), replaced, (0, 0)),
                Err((status, place)) => Outcome::refused(status, place),
            },
            Operation::Decode => self.decode(context, text),
            Operation::Read => self.units(context).read(text),
            Operation::Browse => {
                let (result, taken) = self.browser.read(text, ATTRIBUTES.contains(&context));
                Outcome::passed(result.into_bytes(), taken, (0, 0))
            }
        }
    }
}

impl Model {
    fn units(&self, context: usize) -> &Units {
        self.units[context].as_ref().expect("the context has units")
    }

    /// The crate's encoding, and in json that of json.rs. A character is replaced if it is when it stands alone; in script_raw each backslash is one place.
    fn encode(&self, context: usize, text: &str) -> Outcome {
        let lent = lending_encoder(context as u32)(text);
        let written = match CRATE_ENCODERS.get(context) {
            Some(to_vec) => of_crate(lent, text, *to_vec),
            None => OfCrate { lent: matches!(lent, Cow::Borrowed(_)), result: lent.into_owned().into_bytes() },
        };
        let replaced = match &self.units[context] {
            Some(units) => units.count(text),
            None => written.result.len() - text.len(),
        };
        written.counted(replaced as u64, (0, 0))
    }

    /// The crate's decoding. The places are found by the rules, and must give the crate's result.
    fn decode(&self, context: usize, text: &str) -> Outcome {
        let decoded = of_crate(CRATE_LENDING_DECODERS[context](text), text, CRATE_DECODERS[context]);
        let (result, replaced) = match context {
            0..=6 => references(text),
            7..=9 => self.units(context).unescape(text, "script"),
            _ => self.units(context).unescape(text, "style"),
        };
        assert!(result.as_bytes() == decoded.result, "the places that the rules replace do not make the crate's result of {:?}", text);
        let left = if context <= 6 { first_left(text) } else { (0, 0) };
        decoded.counted(replaced, left)
    }
}

impl Default for Model {
    fn default() -> Model {
        Model::new()
    }
}

/// What the crate gives, and whether it lends the text.
struct OfCrate {
    result: Vec<u8>,
    lent: bool,
}

impl OfCrate {
    /// The crate's result with a count of replaced places, which is 0 exactly where the crate lends the text.
    fn counted(self, replaced: u64, left: (u64, u64)) -> Outcome {
        assert!(self.lent == (replaced == 0), "{} places are replaced in {:?}, and the crate sees it otherwise", replaced, String::from_utf8_lossy(&self.result));
        Outcome::passed(self.result, replaced, left)
    }
}

/// What the crate gives. Its two ways to the result must agree.
fn of_crate(lent: Cow<str>, text: &str, to_vec: crate::ToVec) -> OfCrate {
    let mut copied = Vec::new();
    to_vec(text, &mut copied);
    assert!(copied == lent.as_bytes(), "the crate's two functions disagree on {:?}", text);
    OfCrate { result: copied, lent: matches!(lent, Cow::Borrowed(_)) }
}

/// The units of a context: what the crate's encoder writes for each character that it replaces.
struct Units {
    rows: Vec<(Vec<u8>, char)>,
    replaced: Vec<char>,
}

impl Units {
    /// Encodes every character by itself. Above 7F hex only the two line separators can be replaced, which one call over all the others shows.
    /// A style NUL is replaced and cannot be read back: U+FFFD is a plain character (RULES 6.3).
    fn of_context(context: u32) -> Units {
        let encode = |text: &str| lending_encoder(context)(text).into_owned();
        let separators = ['\u{2028}', '\u{2029}'];
        let others: String = ('\u{80}'..=char::MAX).filter(|c| !separators.contains(c)).collect();
        assert!(encode(&others) == others, "context {} replaces a character above 7F hex that is no line separator", context);
        let mut units = Units { rows: Vec::new(), replaced: Vec::new() };
        for c in ('\0'..='\u{7F}').chain(separators) {
            let written = encode(&c.to_string());
            if written != c.to_string() {
                units.replaced.push(c);
                if written != "\u{FFFD}" {
                    units.rows.push((written.into_bytes(), c));
                }
            }
        }
        units
    }

    /// How many characters of a text are replaced.
    fn count(&self, text: &str) -> usize {
        text.chars().filter(|c| self.replaced.contains(c)).count()
    }

    /// decode of a string by RULES 11: the escapes that the context writes, and after a `<` of the text the two of older pages. Gives the result, and how
    /// many escapes are replaced.
    fn unescape(&self, text: &str, element: &str) -> (String, u64) {
        let (mut result, mut replaced, mut at) = (String::new(), 0, 0);
        while let Some(c) = text[at..].chars().next() {
            let rest = &text[at..];
            let row = self.rows.iter().find(|row| rest.as_bytes().starts_with(&row.0));
            let older = c == '\\' && text[..at].ends_with('<') && (rest.starts_with("\\!--") || closes(&rest[1..], element));
            let (meant, taken) = match row {
                Some((written, meant)) => (*meant, written.len()),
                None if older => (rest.as_bytes()[1] as char, 2),
                None => (c, 0),
            };
            result.push(meant);
            replaced += (taken > 0) as u64;
            at += if taken > 0 { taken } else { c.len_utf8() };
        }
        (result, replaced)
    }

    /// The strict reader: at each place a replacement, or a character that is not replaced; otherwise the text is no form.
    fn read(&self, text: &str) -> Outcome {
        let mut result = String::new();
        let mut replaced = 0;
        let mut at = 0;
        while let Some(c) = text[at..].chars().next() {
            if !self.replaced.contains(&c) {
                result.push(c);
                at += c.len_utf8();
            } else if let Some((written, meant)) = self.rows.iter().find(|row| text.as_bytes()[at..].starts_with(&row.0)) {
                result.push(*meant);
                at += written.len();
                replaced += 1;
            } else {
                return Outcome::refused(NOT_A_FORM, at);
            }
        }
        Outcome::passed(result.into_bytes(), replaced, (0, 0))
    }
}

/// Whether the bytes begin with `/`, the element's name in any letter case, and a byte that ends a name (RULES 7.3).
fn closes(rest: &str, element: &str) -> bool {
    let bytes = rest.as_bytes();
    let end = 1 + element.len();
    bytes.len() > end && bytes[0] == b'/' && bytes[1..end].eq_ignore_ascii_case(element.as_bytes()) && matches!(bytes[end], 9..=13 | 28..=32 | b'/' | b'>')
}

/// decode: references are found by RULES 10.1, and each that stands for another text is replaced. Gives the result, and how many are replaced.
fn references(text: &str) -> (String, u64) {
    let mut result = String::new();
    let mut replaced = 0;
    let mut rest = text;
    while let Some(start) = rest.find('&') {
        result.push_str(&rest[..start]);
        rest = &rest[start..];
        let end = match rest[1..].find(|c| c == '&' || c == ';') {
            Some(end) => end + 1,
            None => break,
        };
        if rest.as_bytes()[end] == b'&' {
            result.push_str(&rest[..end]);
            rest = &rest[end..];
            continue;
        }
        let reference = &rest[..=end];
        rest = &rest[end + 1..];
        let meant = decoded_reference(reference);
        replaced += matches!(meant, Cow::Owned(_)) as u64;
        result.push_str(&meant);
    }
    result.push_str(rest);
    (result, replaced)
}

/// Place and reason of the first `&` that begins no reference which is replaced: RULES 10.7, read `&` by `&`.
fn first_left(text: &str) -> (u64, u64) {
    for (place, _) in text.match_indices('&') {
        let after = &text[place + 1..];
        let reason = match after.find(|c| c == '&' || c == ';') {
            Some(end) if after.as_bytes()[end] == b';' => match decoded_reference(&text[place..place + end + 2]) {
                Cow::Owned(_) => continue,
                Cow::Borrowed(_) => reason_of(&after[..end]),
            },
            _ => 1,
        };
        return (place as u64, reason);
    }
    (0, 0)
}

/// The digits of a body that is to be a number, and their base.
fn digits_of(body: &str) -> Option<(&str, u32)> {
    let number = body.strip_prefix('#')?;
    Some(match number.strip_prefix('x').or_else(|| number.strip_prefix('X')) {
        Some(digits) => (digits, 16),
        None => (number, 10),
    })
}

/// Why a body stands for nothing, where it does.
fn reason_of(body: &str) -> u64 {
    match digits_of(body) {
        None if body.is_empty() => 2,
        None => 3,
        Some(("", _)) => 2,
        Some((digits, base)) if digits.chars().all(|c| c.is_digit(base)) => 5,
        Some(_) => 4,
    }
}

/// What decode takes one reference for, from its `&` to its `;`: what the crate's decoder does.
fn decoded_reference(reference: &str) -> Cow<'_, str> {
    CRATE_LENDING_DECODERS[0](reference)
}
