//! browse, written from the HTML Standard's tokenizer: its character reference states, one arm for each. Nothing here calls the library.

use std::collections::HashMap;

/// The identifiers of the Standard's table that have no `;`. tools/check_names compares them with an outside copy.
pub const WITHOUT_END: &str = "\
    AElig AMP Aacute Acirc Agrave Aring Atilde Auml COPY Ccedil ETH Eacute Ecirc Egrave Euml GT Iacute Icirc Igrave Iuml LT Ntilde Oacute Ocirc \
    Ograve Oslash Otilde Ouml QUOT REG THORN Uacute Ucirc Ugrave Uuml Yacute aacute acirc acute aelig agrave amp aring atilde auml brvbar ccedil \
    cedil cent copy curren deg divide eacute ecirc egrave eth euml frac12 frac14 frac34 gt iacute icirc iexcl igrave iquest iuml laquo lt macr \
    micro middot nbsp not ntilde oacute ocirc ograve ordf ordm oslash otilde ouml para plusmn pound quot raquo reg sect shy sup1 sup2 sup3 szlig \
    thorn times uacute ucirc ugrave uml uuml yacute yen yuml";

/// The longest identifier, `CounterClockwiseContourIntegral;`.
const LONGEST: usize = 32;

/// What the numbers from 80 to 9F hex stand for: the bytes of windows-1252, and the control character for the five that it leaves free.
const WINDOWS: [char; 32] = [
    '€', '\u{81}', '‚', 'ƒ', '„', '…', '†', '‡', 'ˆ', '‰', 'Š', '‹', 'Œ', '\u{8D}', 'Ž', '\u{8F}', //
    '\u{90}', '‘', '’', '“', '”', '•', '–', '—', '˜', '™', 'š', '›', 'œ', '\u{9D}', 'ž', 'Ÿ',
];

/// The states of the tokenizer that read a reference, and the data state for all others.
enum State {
    Data,
    CharacterReference,
    NamedCharacterReference,
    AmbiguousAmpersand,
    NumericCharacterReference,
    Start(u32),
    Digits(u32),
    NumericCharacterReferenceEnd,
}

/// The table of identifiers, with what each stands for.
pub struct Browser {
    identifiers: HashMap<Vec<u8>, &'static str>,
}

impl Browser {
    pub fn new() -> Browser {
        let mut identifiers = HashMap::new();
        for (name, value) in html_escape::NAMED_ENTITIES.iter() {
            identifiers.insert([*name, b";"].concat(), *value);
        }
        for name in WITHOUT_END.split(' ') {
            let value = identifiers[format!("{};", name).as_bytes()];
            identifiers.insert(name.as_bytes().to_vec(), value);
        }
        assert!(identifiers.len() == 2231, "the Standard's table has 2,231 identifiers");
        Browser { identifiers }
    }

    /// The longest identifier at the head of some bytes.
    fn longest(&self, bytes: &[u8]) -> Option<(usize, &'static str)> {
        (1..=LONGEST.min(bytes.len())).rev().find_map(|n| self.identifiers.get(&bytes[..n]).map(|value| (n, *value)))
    }

    /// What the tokenizer makes of a text, in element text or in the value of an attribute, and how many references it takes. `from` is where the
    /// temporary buffer begins, which holds what was consumed since.
    pub fn read(&self, text: &str, attribute: bool) -> (String, u64) {
        let bytes = text.as_bytes();
        let (mut result, mut taken) = (Vec::new(), 0);
        let (mut state, mut at, mut from, mut code) = (State::Data, 0, 0, 0u32);
        loop {
            let next = bytes.get(at).copied();
            state = match state {
                State::Data => match next {
                    None => break,
                    Some(b'&') => {
                        from = at;
                        at += 1;
                        State::CharacterReference
                    }
                    Some(byte) => {
                        result.push(byte);
                        at += 1;
                        State::Data
                    }
                },
                State::CharacterReference => match next {
                    Some(byte) if byte.is_ascii_alphanumeric() => State::NamedCharacterReference,
                    Some(b'#') => {
                        at += 1;
                        State::NumericCharacterReference
                    }
                    _ => flush(&mut result, &bytes[from..at]),
                },
                State::NamedCharacterReference => match self.longest(&bytes[at..]) {
                    None => {
                        flush(&mut result, &bytes[from..at]);
                        State::AmbiguousAmpersand
                    }
                    Some((n, value)) => {
                        at += n;
                        let after = bytes.get(at).copied();
                        if attribute && bytes[at - 1] != b';' && after.map_or(false, |byte| byte == b'=' || byte.is_ascii_alphanumeric()) {
                            flush(&mut result, &bytes[from..at])
                        } else {
                            taken += 1;
                            flush(&mut result, value.as_bytes())
                        }
                    }
                },
                State::AmbiguousAmpersand => match next {
                    Some(byte) if byte.is_ascii_alphanumeric() => {
                        result.push(byte);
                        at += 1;
                        State::AmbiguousAmpersand
                    }
                    _ => State::Data,
                },
                State::NumericCharacterReference => {
                    code = 0;
                    match next {
                        Some(b'x') | Some(b'X') => {
                            at += 1;
                            State::Start(16)
                        }
                        _ => State::Start(10),
                    }
                }
                State::Start(base) => match digit(next, base) {
                    Some(_) => State::Digits(base),
                    None => flush(&mut result, &bytes[from..at]),
                },
                State::Digits(base) => match (digit(next, base), next) {
                    (Some(digit), _) => {
                        code = (code * base + digit).min(0x11_0000);
                        at += 1;
                        State::Digits(base)
                    }
                    (None, Some(b';')) => {
                        at += 1;
                        State::NumericCharacterReferenceEnd
                    }
                    _ => State::NumericCharacterReferenceEnd,
                },
                State::NumericCharacterReferenceEnd => {
                    let meant = match code {
                        0x80..=0x9F => WINDOWS[code as usize - 0x80],
                        _ => char::from_u32(code).filter(|&c| c != '\0').unwrap_or('\u{FFFD}'),
                    };
                    taken += 1;
                    flush(&mut result, meant.to_string().as_bytes())
                }
            };
        }
        (String::from_utf8(result).unwrap(), taken)
    }
}

impl Default for Browser {
    fn default() -> Browser {
        Browser::new()
    }
}

/// "Flush code points consumed as a character reference", and go back to the data state.
fn flush(result: &mut Vec<u8>, consumed: &[u8]) -> State {
    result.extend_from_slice(consumed);
    State::Data
}

/// The value of an ASCII digit in a base.
fn digit(byte: Option<u8>, base: u32) -> Option<u32> {
    byte.and_then(|byte| (byte as char).to_digit(base))
}
