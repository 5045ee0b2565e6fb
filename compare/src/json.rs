//! JSON strings as RULES 22 has them, written from RFC 8259 for the comparison: the crate html-escape has no such context. Nothing here calls the library.

use crate::model::{LONE_SURROGATE, NOT_A_FORM};
use std::borrow::Cow;

/// encode: the quotation mark and the backslash behind a backslash, controls, `<` and the line separators by their number. Lends a text without these.
pub fn encode(text: &str) -> Cow<'_, str> {
    let special = |c| matches!(c, '\0'..='\u{1F}' | '"' | '\\' | '<' | '\u{2028}' | '\u{2029}');
    if !text.contains(special) {
        return Cow::Borrowed(text);
    }
    let mut written = String::new();
    for c in text.chars() {
        match c {
            '"' | '\\' => written.extend(['\\', c]),
            c if special(c) => written += &format!("\\u{:04X}", c as u32),
            c => written.push(c),
        }
    }
    Cow::Owned(written)
}

/// decode: the result and how many escapes are replaced, or the status of the refusal and its place.
pub fn decode(text: &str) -> Result<(String, u64), (u64, usize)> {
    let (mut result, mut replaced, mut at) = (String::new(), 0, 0);
    while let Some(c) = text[at..].chars().next() {
        let (meant, taken) = match c {
            '\0'..='\u{1F}' | '"' => return Err((NOT_A_FORM, at)),
            '\\' => escape(&text[at..]).map_err(|status| (status, at))?,
            c => (c, 0),
        };
        result.push(meant);
        replaced += (taken > 0) as u64;
        at += if taken > 0 { taken } else { c.len_utf8() };
    }
    Ok((result, replaced))
}

/// The character of the escape that the text begins with, and the length of the escape; or the status of the refusal.
fn escape(rest: &str) -> Result<(char, usize), u64> {
    if let Some(first) = unit(rest) {
        let second = unit(&rest[6..]).filter(|_| (0xD800..0xDC00).contains(&first));
        let pair = char::decode_utf16([first].into_iter().chain(second)).next();
        return match pair {
            Some(Ok(c)) => Ok((c, if c.len_utf16() == 2 { 12 } else { 6 })),
            _ => Err(LONE_SURROGATE),
        };
    }
    let c = match rest.as_bytes().get(1) {
        Some(c @ (b'"' | b'\\' | b'/')) => *c as char,
        Some(b'b') => '\u{8}',
        Some(b'f') => '\u{C}',
        Some(b'n') => '\n',
        Some(b'r') => '\r',
        Some(b't') => '\t',
        _ => return Err(NOT_A_FORM),
    };
    Ok((c, 2))
}

/// The number of the `\u` and four hex digits that the text begins with.
fn unit(rest: &str) -> Option<u16> {
    let digits = rest.strip_prefix("\\u")?.get(..4)?;
    let all = digits.bytes().all(|b| b.is_ascii_hexdigit());
    all.then(|| u16::from_str_radix(digits, 16).unwrap())
}
