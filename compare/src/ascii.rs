//! ascii_quoted as RULES 27 has it, written for the comparison: the crate html-escape has no such context. The names are the crate's list of references by
//! the rule, and the five characters of `quoted` are the crate's. Nothing here calls the library.
use std::borrow::Cow;
use std::collections::HashMap;

/// The name of each character above 7F hex that a name stands for alone: the shortest, and of several as short the first by bytes.
fn names_by_the_rule() -> HashMap<char, &'static str> {
    let mut names: HashMap<char, &'static str> = HashMap::new();
    for (name, value) in html_escape::NAMED_ENTITIES.iter() {
        let name = std::str::from_utf8(name).unwrap();
        let mut characters = value.chars();
        if let (Some(c @ '\u{80}'..=char::MAX), None) = (characters.next(), characters.next()) {
            let known = names.entry(c).or_insert(name);
            if (name.len(), name) < (known.len(), *known) {
                *known = name;
            }
        }
    }
    names
}

thread_local! {
    static NAMES: &'static HashMap<char, &'static str> = Box::leak(Box::new(names_by_the_rule()));
    static UNITS: HashMap<String, char> = "&<>\"'".chars().chain(names().keys().copied()).map(|c| (unit(c).unwrap(), c)).collect();
}

/// The names, worked out once.
pub fn names() -> &'static HashMap<char, &'static str> {
    NAMES.with(|names| *names)
}

/// What is written for a character that is replaced.
pub fn unit(c: char) -> Option<String> {
    match c {
        '&' | '<' | '>' | '"' | '\'' => Some(html_escape::encode_quoted_attribute(&c.to_string()).into_owned()),
        '\0'..='\u{7F}' => None,
        _ => Some(match names().get(&c) {
            Some(name) => format!("&{};", name),
            None => format!("&#x{:X};", c as u32),
        }),
    }
}

/// The encoding, which lends the text where nothing is replaced.
pub fn encode(text: &str) -> Cow<'_, str> {
    if text.chars().all(|c| unit(c).is_none()) {
        return Cow::Borrowed(text);
    }
    Cow::Owned(text.chars().map(|c| unit(c).unwrap_or_else(|| c.to_string())).collect())
}

/// How many characters of a text are replaced.
pub fn count(text: &str) -> u64 {
    text.chars().filter(|&c| unit(c).is_some()).count() as u64
}

/// The character that is written by these bytes, from the `&` to the `;`.
fn character(unit_there: &str) -> Option<char> {
    if let Some(c) = UNITS.with(|units| units.get(unit_there).copied()) {
        return Some(c);
    }
    let digits = unit_there.strip_prefix("&#x")?.strip_suffix(';')?;
    let c = char::from_u32(u32::from_str_radix(digits, 16).ok()?)?;
    (unit(c).as_deref() == Some(unit_there)).then_some(c)
}

/// The strict reader: the text and how many units it has, or the place of the first that is none.
pub fn read(text: &str) -> Result<(String, u64), usize> {
    let (mut result, mut replaced, mut at) = (String::new(), 0, 0);
    while let Some(c) = text[at..].chars().next() {
        if unit(c).is_none() {
            result.push(c);
            at += 1;
            continue;
        }
        let end = if c == '&' { text[at..].find(';') } else { None };
        let there = end.map(|end| &text[at..=at + end]).ok_or(at)?;
        result.push(character(there).ok_or(at)?);
        replaced += 1;
        at += there.len();
    }
    Ok((result, replaced))
}
