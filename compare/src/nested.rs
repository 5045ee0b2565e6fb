//! Script strings inside event attributes (docs/RULES.md, section 23): a text is written by two encode calls, the inner one first, and read back by two
//! decode calls and by two takes, the outer one first. The crate writes the same text by its own two functions.

use crate::model::LONGEST;
use crate::{call, Operation, CRATE_LENDING_ENCODERS};

/// The four contexts of an attribute, by number.
pub const ATTRIBUTES: [u32; 4] = [2, 3, 4, 6];

/// The three contexts of a script string, by number.
pub const STRINGS: [u32; 3] = [7, 8, 9];

/// Returns what the library gives, into an output that is long enough; nothing where it refuses.
fn given(operation: Operation, context: u32, text: &[u8]) -> Option<Vec<u8>> {
    let mut output = vec![0; 6 * text.len()];
    let answer = call(operation, false, context, text, &mut output);
    output.truncate(answer.length as usize);
    (answer.status == 0).then_some(output)
}

/// Writes a text that has at most 65,536 bytes as a script string in an attribute, and reads it back. Gives what is wrong, if anything is. A result that
/// is too long for the next call must be refused by it.
pub fn fault(outer: u32, inner: u32, text: &str) -> Option<&'static str> {
    let string = CRATE_LENDING_ENCODERS[inner as usize](text);
    let attribute = CRATE_LENDING_ENCODERS[outer as usize](&string);
    if given(Operation::Encode, inner, text.as_bytes()).as_deref() != Some(string.as_bytes()) {
        return Some("the inner encode does not write what the crate writes");
    }
    let written = given(Operation::Encode, outer, string.as_bytes());
    if string.len() > LONGEST {
        return written.map(|_| "the outer encode takes too long a text");
    }
    if written.as_deref() != Some(attribute.as_bytes()) {
        return Some("the outer encode does not write what the crate writes");
    }
    for operation in [Operation::Decode, Operation::Read] {
        let outside = given(operation, outer, attribute.as_bytes());
        if attribute.len() > LONGEST {
            if outside.is_some() {
                return Some("too long a text is read back");
            }
        } else if outside.as_deref() != Some(string.as_bytes()) {
            return Some("the attribute is not read back as the script string");
        } else if given(operation, inner, string.as_bytes()).as_deref() != Some(text.as_bytes()) {
            return Some("the script string is not read back as the text");
        }
    }
    None
}
