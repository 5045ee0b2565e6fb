//! The examples of docs/RULES.md, section 16, through the archive's calls: the answer, the bytes, and the bytes past them, copying and borrowing.
use lintelrye::raw::{self, Answer};

type Call = fn(u32, &[u8], &mut [u8]) -> Answer;

const ENCODE: [Call; 2] = [raw::encode, raw::encode_borrowing];
const DECODE: [Call; 2] = [raw::decode, raw::decode_borrowing];
const TAKE: [Call; 2] = [raw::take, raw::take_borrowing];
const BROWSE: [Call; 2] = [raw::browse, raw::browse_borrowing];

const TEXT_MINIMAL: u32 = 0;
const TEXT: u32 = 1;
const SAFE: u32 = 5;
const SCRIPT_SINGLE: u32 = 7;
const SCRIPT_DOUBLE: u32 = 8;
const SCRIPT_QUOTED: u32 = 9;
const STYLE_QUOTED: u32 = 12;
const SCRIPT_RAW: u32 = 13;
const JSON: u32 = 14;
const ASCII_QUOTED: u32 = 15;

/// Both calls pass with this result and so many replaced places, into a buffer of 64 bytes.
fn passes(calls: [Call; 2], context: u32, text: &[u8], replaced: u64, result: &[u8]) {
    leaves(calls, context, text, replaced, result, 0);
}

/// Checks the same, and that the reference at the start of the text stays for this reason.
fn leaves(calls: [Call; 2], context: u32, text: &[u8], replaced: u64, result: &[u8], reason: u64) {
    let same = text == result;
    let answer = Answer { status: 0, length: result.len() as u64, same: same as u64, replaced, place: 0, left: 0, reason };
    for (borrowing, call) in calls.iter().enumerate() {
        let mut output = [0xEE; 64];
        assert_eq!(call(context, text, &mut output), answer, "of {:?}", text);
        assert_eq!(raw::view(text, &output, answer), result);
        let written = if borrowing == 1 && same { 0 } else { result.len() };
        assert_eq!(output[..written], result[..written]);
        assert!(output[written..].iter().all(|&b| b == 0xEE));
    }
}

/// Both calls refuse with this answer and leave a buffer of so many bytes as it was.
fn refuses(calls: [Call; 2], context: u32, text: &[u8], room: usize, answer: Answer) {
    for call in calls {
        let mut output = [0xEE; 64];
        assert_eq!(call(context, text, &mut output[..room]), answer, "of {} bytes", text.len());
        assert_eq!(output, [0xEE; 64]);
        assert_eq!(raw::view(text, &output[..room], answer), b"");
    }
}

/// Checks texts that stay as they are.
fn stay(calls: [Call; 2], context: u32, texts: &[&[u8]]) {
    for text in texts {
        passes(calls, context, text, 0, text);
    }
}

#[test]
fn encoding_1_to_7() {
    passes(ENCODE, TEXT_MINIMAL, b"a<b>&", 2, b"a&lt;b>&amp;");
    passes(ENCODE, SAFE, b"'/\"", 3, b"&#x27;&#x2F;&quot;");
    passes(ENCODE, SCRIPT_SINGLE, b"it's \"x\"\\", 2, b"it\\'s \"x\"\\\\");
    passes(ENCODE, SCRIPT_DOUBLE, b"\x0A\x3C", 2, b"\\x0A\\x3C");
    passes(ENCODE, STYLE_QUOTED, b"\x0A\x3C\x00", 3, b"\\0A \\3C \xEF\xBF\xBD");
    passes(ENCODE, SCRIPT_QUOTED, b"\xE2\x80\xA8", 1, b"\\u2028");
    stay(ENCODE, SCRIPT_QUOTED, &[b"\xE2\x80\xAA"]);
    passes(ENCODE, SCRIPT_RAW, b"<</script", 1, b"<<\\/script");
    stay(ENCODE, SCRIPT_RAW, &[b"</scripts>"]);
}

#[test]
fn decoding_8_to_11() {
    leaves(DECODE, TEXT, b"&&lt;", 1, b"&<", 1);
    passes(DECODE, TEXT, b"&amp;lt;", 1, b"&lt;");
    passes(DECODE, TEXT, b"&#9;", 1, b"\x09");
    for (text, reason) in [(&b"&#11;"[..], 5), (b"&#0;", 5), (b"&#+65;", 4), (b"&#xD800;", 5), (b"&#4294967296;", 5)] {
        leaves(DECODE, TEXT, text, 0, text, reason);
    }
    passes(DECODE, SCRIPT_QUOTED, b"\\\\x3C", 1, b"\\x3C");
    stay(DECODE, SCRIPT_QUOTED, &[b"\\x3c", b"\\x20"]);
    passes(DECODE, STYLE_QUOTED, b"\\3C ", 1, b"<");
    stay(DECODE, STYLE_QUOTED, &[b"\\3C", b"\\00 "]);
}

#[test]
fn reading_12() {
    refuses(TAKE, TEXT_MINIMAL, b"a&lt;&gt;", 64, Answer { status: 4, length: 0, same: 0, replaced: 0, place: 5, left: 0, reason: 0 });
}

#[test]
fn decoding_13_and_14() {
    passes(DECODE, SCRIPT_QUOTED, b"<\\/SCRIPT ", 1, b"</SCRIPT ");
    stay(DECODE, SCRIPT_QUOTED, &[b"<\\/script"]);
    passes(DECODE, TEXT, b"&nGt;", 1, b"\xE2\x89\xAB\xE2\x83\x92");
    refuses(DECODE, TEXT, b"&nGt;", 5, Answer { status: 3, length: 6, same: 0, replaced: 0, place: 0, left: 0, reason: 0 });
}

#[test]
fn limits_15() {
    let letters = vec![b'a'; 65_537];
    for calls in [ENCODE, DECODE, TAKE, BROWSE] {
        refuses(calls, TEXT, b"\x61\xC3\x28", 64, Answer { status: 2, length: 0, same: 0, replaced: 0, place: 1, left: 0, reason: 0 });
        refuses(calls, TEXT, &letters, 64, Answer { status: 1, length: 0, same: 0, replaced: 0, place: 0, left: 0, reason: 0 });
        let mut output = vec![0xEE; 65_540];
        let passed = Answer { status: 0, length: 65_536, same: 1, replaced: 0, place: 0, left: 0, reason: 0 };
        assert_eq!(calls[1](TEXT, &letters[..65_536], &mut []), passed);
        assert_eq!(calls[0](TEXT, &letters[..65_536], &mut output), passed);
        assert_eq!(output[..65_536], letters[..65_536]);
        assert_eq!(output[65_536..], [0xEE; 4]);
    }
}

#[test]
fn room_16() {
    refuses(ENCODE, TEXT, b"<", 3, Answer { status: 3, length: 4, same: 0, replaced: 0, place: 0, left: 0, reason: 0 });
    let mut output = [0; 4];
    assert_eq!(raw::encode(TEXT, b"<", &mut output).status, 0);
    assert_eq!(&output, b"&lt;");
}

#[test]
fn browsing_17() {
    passes(BROWSE, TEXT, b"&#0;", 1, b"\xEF\xBF\xBD");
}

#[test]
fn the_empty_text_18() {
    for calls in [ENCODE, DECODE, TAKE, BROWSE] {
        stay(calls, TEXT, &[b""]);
    }
}

#[test]
fn contexts_of_the_operations() {
    let read: Vec<u32> = (0..13).chain([JSON, ASCII_QUOTED]).collect();
    let (all, html): (Vec<u32>, Vec<u32>) = ((0..16).collect(), (0..7).chain([ASCII_QUOTED]).collect());
    for (calls, contexts) in [(ENCODE, &all), (DECODE, &read), (TAKE, &read), (BROWSE, &html)] {
        for context in contexts {
            stay(calls, *context, &[b"Hall"]);
        }
        for context in (0..20).chain([255, 256, u32::MAX]).filter(|context| !contexts.contains(context)) {
            refuses(calls, context, b"\xFF", 0, Answer { status: 5, length: 0, same: 0, replaced: 0, place: 0, left: 0, reason: 0 });
        }
    }
}
