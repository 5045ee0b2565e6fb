//! Raw script by parts beside the crate: the calls of the archive, and what each is to answer, worked out from the crate's encode_script of the text so far.

use crate::{Answer, Numbers, CRATE_LENDING_ENCODERS};

/// The state, as include/lintelrye.h lays it out.
#[derive(Clone, Copy, Debug, Default, PartialEq, Eq)]
pub struct State {
    held: [u8; 8],
    numbers: [u64; 3],
}

#[link(name = "lintelrye_c", kind = "static")]
extern "C" {
    fn lintelrye_script_raw_part_7(h: *mut u8, s: *mut u64, t: *const u8, n: usize, o: *mut u8, m: usize) -> Answer;
    fn lintelrye_script_raw_finish_7(h: *mut u8, s: *mut u64, o: *mut u8, m: usize) -> Answer;
}

impl State {
    /// Makes the call for a part of the text, or finish where there is none.
    pub fn call(&mut self, part: Option<&[u8]>, output: &mut [u8]) -> Answer {
        let (held, numbers) = (self.held.as_mut_ptr(), self.numbers.as_mut_ptr());
        // SAFETY: the state, the text and the output are valid for their lengths, and no two of them overlap.
        unsafe {
            match part {
                Some(text) => lintelrye_script_raw_part_7(held, numbers, text.as_ptr(), text.len(), output.as_mut_ptr(), output.len()),
                None => lintelrye_script_raw_finish_7(held, numbers, output.as_mut_ptr(), output.len()),
            }
        }
    }
}

/// Returns an answer; `same` is always 0.
fn answer(status: u64, length: usize, replaced: usize, place: usize) -> Answer {
    Answer { status, length: length as u64, same: 0, replaced: replaced as u64, place: place as u64, left: 0, reason: 0 }
}

/// Encodes a text in parts of `size` bytes, one result after the other: the sums of the answers, or the first refusal.
pub fn encode(text: &[u8], size: usize, output: &mut [u8]) -> Answer {
    let mut state = State::default();
    let mut sum = answer(0, 0, 0, 0);
    for part in text.chunks(size).map(Some).chain([None]) {
        let answer = state.call(part, &mut output[sum.length as usize..]);
        if answer.status != 0 {
            return answer;
        }
        sum.length += answer.length;
        sum.replaced += answer.replaced;
    }
    sum
}

/// Returns whether the bytes begin a character, as error_len of from_utf8 tells it, or from its `<` an escaped pattern.
fn begins(tail: &[u8]) -> bool {
    let character = matches!(std::str::from_utf8(tail), Err(error) if error.valid_up_to() == 0 && error.error_len().is_none());
    let closing = tail.len() <= 8 && b"</script".starts_with(&tail.to_ascii_lowercase());
    character || closing || (tail.len() < 4 && b"<!--".starts_with(tail))
}

/// Returns how many bytes of a text are held: the longest tail that begins something.
pub fn held(text: &[u8]) -> usize {
    (1..=text.len().min(9)).rev().find(|&n| begins(&text[text.len() - n..])).unwrap_or(0)
}

/// Returns what the crate writes of a valid text.
fn encoded(text: &[u8]) -> Vec<u8> {
    CRATE_LENDING_ENCODERS[13](std::str::from_utf8(text).unwrap()).into_owned().into_bytes()
}

/// Returns what is written of a text so far: all but what is held; what the crate writes of that stands at the end of what it writes of the whole.
fn settled(text: &[u8]) -> Vec<u8> {
    let valid = match std::str::from_utf8(text) {
        Ok(_) => text.len(),
        Err(error) => error.valid_up_to(),
    };
    let mut all = encoded(&text[..valid]);
    // A character that is cut short is held, and what is before it is followed by it: `</script` before it is not at the end.
    if valid < text.len() {
        all = encoded(&[&text[..valid], "\u{E9}".as_bytes()].concat());
        all.truncate(all.len() - 2);
    } else {
        let tail = encoded(&text[text.len() - held(text)..]);
        assert!(all.ends_with(&tail), "what is held stands at the end");
        all.truncate(all.len() - tail.len());
    }
    all
}

/// Returns what a call is to answer and to write, where the parts before it are `before`.
fn expected(before: &[u8], part: Option<&[u8]>, finished: bool, room: usize) -> (Answer, Vec<u8>) {
    let refused = |status, length, place| (answer(status, length, 0, place), Vec::new());
    let text = [before, part.unwrap_or(&[])].concat();
    if finished {
        return refused(9, 0, 0);
    }
    if text.len() > 65_536 {
        return refused(1, 0, 0);
    }
    if let Err(error) = std::str::from_utf8(&text) {
        if error.error_len().is_some() {
            return refused(2, 0, error.valid_up_to());
        }
        if part.is_none() {
            return refused(7, 0, error.valid_up_to());
        }
    }
    let so_far = settled(before);
    let now = if part.is_some() { settled(&text) } else { encoded(&text) };
    assert!(now.starts_with(&so_far), "what is written stays");
    let written = now[so_far.len()..].to_vec();
    if room < written.len() {
        return refused(3, written.len(), 0);
    }
    let taken = if part.is_some() { text.len() - held(&text) } else { text.len() } - (before.len() - held(before));
    (answer(0, written.len(), written.len() - taken, 0), written)
}

/// Gives a text in parts, cut at random, with rooms at random, refused calls made again with room enough, a finish in between at times. Returns how many calls
/// were made and, where one differs, what it was.
pub fn differ(numbers: &mut Numbers, text: &[u8]) -> (u64, Option<String>) {
    let (mut state, mut passed, mut at, mut finished, mut calls) = (State::default(), Vec::new(), 0, false, 0);
    loop {
        let left = text.len() - at;
        let size = match numbers.below(4) {
            0 => left,
            1 => numbers.below(left + 1),
            _ => numbers.below(12).min(left),
        };
        let part = if at == text.len() || numbers.below(16) == 0 { None } else { Some(&text[at..at + size]) };
        let (full, written) = expected(&passed, part, finished, usize::MAX);
        let room = *numbers.one_of(&[0, written.len().saturating_sub(1), written.len(), written.len(), written.len() + 3]);
        let (answer, written) = if full.status == 0 && room >= written.len() { (full, written) } else { expected(&passed, part, finished, room) };
        let before = state;
        let mut output: Vec<u8> = (0..room + 8).map(|at| 0xF8 | (at & 7) as u8).collect();
        let given = state.call(part, &mut output[..room]);
        calls += 1;
        let kept = (written.len()..room + 8).all(|at| output[at] == 0xF8 | (at & 7) as u8);
        if given != answer || output[..written.len()] != written[..] || !kept || (answer.status != 0 && state != before) {
            return (calls, Some(format!("after {:?}, {:?} with room {}: {:?} and {:?}, not {:?} and {:?}", passed, part, room, given, &output[..room], answer, written)));
        }
        match (answer.status, part) {
            (0, Some(part)) => {
                passed.extend_from_slice(part);
                at += size;
            }
            (0, None) => finished = true,
            (3, _) => {}
            (7, None) if at < text.len() => {}
            _ => return (calls, None),
        }
    }
}
