//! Raw script by parts: the encoder of script elements with a state.
use crate::calls::{impossible, refusal, Refusal};
use crate::raw::{self, Answer, ScriptRaw};
use crate::Text;
use core::str;

/// Returns the length of an output that is enough for every part of `n` bytes; with `n` 0 for [`ScriptEncoder::finish`].
pub const fn script_part_at_most(n: usize) -> usize {
    n.saturating_add(n / 4).saturating_add(10)
}

/// Encodes the text of a script element part by part, as [`encode_script`](crate::encode_script) encodes it at once.
///
/// The parts can be cut anywhere, within a character too. What [`part`](ScriptEncoder::part) and [`finish`](ScriptEncoder::finish) return, joined, is what one
/// [`encode_script`](crate::encode_script) of the joined parts returns. A call holds back at most eight bytes, which more text could still change; they come first
/// in what the next call returns. A refused call changes nothing, so that it can be made again with more room or with less text. A clone is a place to come back
/// to. At most [`TEXT_LIMIT`](crate::TEXT_LIMIT) bytes are taken in all; the places of refusals count from the start of the text.
///
/// ```
/// use lintelrye::{script_part_at_most, ScriptEncoder};
/// let mut script = ScriptEncoder::new();
/// let mut page = [0; script_part_at_most(16)];
/// assert_eq!(script.part("write('</scr", &mut page)?, "write('");
/// assert_eq!(script.part("ipt>')", &mut page)?, "<\\/script>')");
/// assert_eq!(script.finish(&mut page)?, "");
/// # Ok::<(), lintelrye::Refusal>(())
/// ```
#[derive(Clone, Debug, Default, PartialEq, Eq)]
pub struct ScriptEncoder {
    state: ScriptRaw,
}

/// Returns what a call wrote. It is always valid UTF-8, by proof; it is checked here once more.
fn released(output: &[u8], answer: Answer) -> Result<&str, Refusal> {
    if answer.status != raw::PASSED {
        return Err(refusal(answer.status, answer.length, answer.place));
    }
    match raw::front(output, answer.length).map(str::from_utf8) {
        Some(Ok(released)) if answer.same == 0 => Ok(released),
        _ => impossible(),
    }
}

impl ScriptEncoder {
    /// Starts a script.
    pub const fn new() -> ScriptEncoder {
        ScriptEncoder { state: ScriptRaw { opaque: [0; 4] } }
    }

    /// Encodes the next part of the text, and returns what is written of it and of what was held.
    pub fn part<'a, T: ?Sized + Text>(&mut self, text: &T, output: &'a mut [u8]) -> Result<&'a str, Refusal> {
        let answer = self.state.part(text.text_bytes(), output);
        released(output, answer)
    }

    /// Ends the text, and returns what is written of what was held. After that every call is refused with [`Refusal::Finished`]; after a refused finish more
    /// parts can follow.
    pub fn finish<'a>(&mut self, output: &'a mut [u8]) -> Result<&'a str, Refusal> {
        let answer = self.state.finish(output);
        released(output, answer)
    }
}
