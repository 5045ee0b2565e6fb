//! What this crate makes of the archive's answers: results that borrow the text or the buffer, refusals with an untouched buffer, texts of several
//! types, and the names of html-escape.
use lintelrye::raw::{self, Answer, Checked};
use lintelrye::{Context, Field, Left, Reason, Refusal, Stopped, Written};

type Operation = for<'a> fn(Context, &'a [u8], &'a mut [u8]) -> Result<Written<'a>, Refusal>;

type HasContext = fn(usize) -> bool;

/// The calls, each copying and borrowing, and whether they have the context of a number.
const OPERATIONS: [(Operation, Operation, HasContext); 4] = [
    (|c, t, o| lintelrye::encode(c, t, o), |c, t, o| lintelrye::encode_borrowing(c, t, o), |number| number < 16),
    (|c, t, o| lintelrye::decode(c, t, o), |c, t, o| lintelrye::decode_borrowing(c, t, o), |number| number < 16 && number != 13),
    (|c, t, o| lintelrye::take(c, t, o), |c, t, o| lintelrye::take_borrowing(c, t, o), |number| number < 16 && number != 13),
    (|c, t, o| lintelrye::browse(c, t, o), |c, t, o| lintelrye::browse_borrowing(c, t, o), |number| number < 7 || number == 15),
];

#[test]
fn a_borrowing_call_gives_the_text_itself() {
    let text = "Hall";
    let mut output = [0xEE; 8];
    let written = lintelrye::encode_text(text, &mut output).unwrap();
    assert_eq!(written, "Hall");
    assert_eq!(written.as_str().as_ptr(), text.as_ptr());
    assert_eq!((written.is_same(), written.replaced()), (true, 0));
    assert_eq!(output, [0xEE; 8]);
    assert_eq!(lintelrye::encode_text(text, &mut []).unwrap(), "Hall");
}

#[test]
fn a_copying_call_gives_the_front_of_the_buffer() {
    let text = "Hall";
    let mut output = [0xEE; 8];
    let start = output.as_ptr();
    let written = lintelrye::encode_text_to_slice(text, &mut output).unwrap();
    assert_eq!(written, "Hall");
    assert_eq!((written.is_same(), written.replaced()), (true, 0));
    assert_eq!(written.as_ptr(), start);
    assert_eq!(&output, b"Hall\xEE\xEE\xEE\xEE");
    assert_eq!(lintelrye::encode_text_to_slice(text, &mut output[..3]), Err(Refusal::NoRoom { needed: 4 }));
}

#[test]
fn what_is_replaced_is_in_the_buffer() {
    for borrowing in [false, true] {
        let mut output = [0xEE; 12];
        let start = output.as_ptr();
        let written = match borrowing {
            false => lintelrye::encode(Context::Text, "<a<", &mut output),
            true => lintelrye::encode_borrowing(Context::Text, "<a<", &mut output),
        };
        let written = written.unwrap();
        assert_eq!(written, "&lt;a&lt;");
        assert_eq!(written.as_ptr(), start);
        assert_eq!((written.len(), written.is_same(), written.replaced()), (9, false, 2));
        assert_eq!(&output, b"&lt;a&lt;\xEE\xEE\xEE");
    }
}

#[test]
fn refusals_leave_the_buffer() {
    let long = vec![b'<'; lintelrye::TEXT_LIMIT + 1];
    for (copying, borrowing, has) in OPERATIONS {
        for call in [copying, borrowing] {
            let mut output = [0xEE; 32];
            for (number, context) in Context::ALL.iter().enumerate() {
                let refused = |refusal| if has(number) { refusal } else { Refusal::BadContext };
                assert_eq!(call(*context, &long, &mut output), Err(refused(Refusal::TooLong)));
                assert_eq!(call(*context, b"ab\xED\xA0\x80", &mut output), Err(refused(Refusal::NotUtf8 { place: 2 })));
                assert_eq!(call(*context, b"ab\xED\xA0", &mut output), Err(refused(Refusal::NotUtf8 { place: 2 })));
                assert_eq!(call(*context, b"ab\xED\x9F", &mut output), Err(refused(Refusal::CutShort { place: 2 })));
            }
            assert_eq!(output, [0xEE; 32]);
        }
    }
    let mut output = [0xEE; 3];
    assert_eq!(lintelrye::encode_quoted_attribute("'", &mut output), Err(Refusal::NoRoom { needed: 6 }));
    assert_eq!(lintelrye::decode_html_entities("&nGt;", &mut output), Err(Refusal::NoRoom { needed: 6 }));
    assert_eq!(lintelrye::take(Context::Text, "ab<", &mut output), Err(Refusal::NotAForm { place: 2 }));
    assert_eq!(lintelrye::decode(Context::Json, "ab\\x", &mut output), Err(Refusal::NotAForm { place: 2 }));
    assert_eq!(lintelrye::decode(Context::Json, "a\\uD83D", &mut output), Err(Refusal::LoneSurrogate { place: 1 }));
    assert_eq!(output, [0xEE; 3]);
}

/// Beside every taking call, in buffers of every length: the same refusal, or the length that the call gives or needs.
#[test]
fn a_check_says_what_take_will_say() {
    let long = vec![b'a'; lintelrye::TEXT_LIMIT + 1];
    let texts: [&[u8]; 9] = [b"", b"abc", b"a&lt;b", b"a<", b"\\x3C", b"a\xC3(", b"a\xE2\x82", &long, &long[1..]];
    for context in Context::ALL {
        for text in texts {
            let checked = lintelrye::check(context, text);
            for room in (0..8).chain([lintelrye::TEXT_LIMIT]) {
                let (mut copied, mut lent) = (vec![0xEE; room], vec![0xEE; room]);
                for taken in [lintelrye::take(context, text, &mut copied), lintelrye::take_borrowing(context, text, &mut lent)] {
                    match taken {
                        Ok(result) => assert_eq!(checked, Ok(result.len())),
                        Err(Refusal::NoRoom { needed }) => assert_eq!(checked, Ok(needed)),
                        Err(refusal) => assert_eq!(checked, Err(refusal)),
                    }
                }
            }
        }
    }
    assert_eq!(lintelrye::check(Context::Quoted, "Mum &amp; Dad&#x27;s"), Ok(11));
    assert_eq!(raw::check(99, b"a"), raw::Checked { status: raw::BAD_CONTEXT, length: 0, place: 0 });
}

#[test]
fn where_a_script_element_ends() {
    use lintelrye::closing_tag;
    assert_eq!(closing_tag("a<b</ScRiPt\t"), Ok(Some(3)));
    assert_eq!(closing_tag("a</scripts>"), Ok(None));
    assert_eq!(closing_tag(""), Ok(None));
    assert_eq!(closing_tag("<!--<script>"), Ok(None));
    assert_eq!(closing_tag("<!--<script></script>"), Ok(None));
    assert_eq!(closing_tag(b"</script>\xC3("), Err(Refusal::NotUtf8 { place: 9 }));
    assert_eq!(closing_tag(b"</script>\xC3"), Err(Refusal::CutShort { place: 9 }));
    assert_eq!(closing_tag(&vec![b'<'; lintelrye::TEXT_LIMIT]), Ok(None));
    assert_eq!(closing_tag(&vec![b'<'; lintelrye::TEXT_LIMIT + 1]), Err(Refusal::TooLong));
    let mut page = [0; 64];
    let written = lintelrye::encode_script("<!--<script></script>", &mut page).unwrap().len();
    page[written..written + 9].copy_from_slice(b"</script>");
    assert_eq!(closing_tag(&page[..written + 9]), Ok(Some(written)));
}

#[test]
fn texts_of_several_types() {
    let mut output = [0; 16];
    assert_eq!(lintelrye::encode_text(&String::from("<"), &mut output).unwrap(), "&lt;");
    assert_eq!(lintelrye::encode_text(&vec![b'<'], &mut output).unwrap(), "&lt;");
    assert_eq!(lintelrye::encode_text(b"<", &mut output).unwrap(), "&lt;");
    assert_eq!(lintelrye::encode_text(&b"a<"[1..], &mut output).unwrap(), "&lt;");
    assert_eq!(lintelrye::encode_text(&"<", &mut output).unwrap(), "&lt;");
    assert_eq!(lintelrye::encode_text("\u{E9}<", &mut output).unwrap(), "\u{E9}&lt;");
}

#[test]
fn results_and_refusals_in_words() {
    let mut output = [0; 16];
    assert_eq!(format!("[{:>6}]", lintelrye::encode_text("<", &mut output).unwrap()), "[  &lt;]");
    assert_eq!(lintelrye::encode_text("<", &mut []).unwrap_err().to_string(), "the result needs 4 bytes of room");
    assert_eq!(lintelrye::encode_text(b"a\xFF", &mut []).unwrap_err().to_string(), "the text is not valid UTF-8 from byte 1 on");
    assert_eq!(lintelrye::encode_text(b"a\xC3", &mut []).unwrap_err().to_string(), "the text ends within the character that begins at byte 1");
}

#[test]
fn the_empty_text_and_the_empty_buffer() {
    for (copying, borrowing, has) in OPERATIONS {
        for context in Context::ALL.iter().filter(|context| has(**context as usize)) {
            for call in [copying, borrowing] {
                let written = call(*context, b"", &mut []).unwrap();
                assert_eq!((written.as_str(), written.replaced()), ("", 0));
            }
        }
    }
}

/// A text of which no two contexts write the same, and texts of which the decoders give different results.
const TEXTS: [&str; 4] = ["&<>\"'/ \\\n\0</script>\u{2028}", "&amp;\\'\\\"\\x3C\\3C ", "<\\/script>", "<\\/style>"];

macro_rules! are_named {
    ($operation:ident: $($named:ident $copying:ident $context:ident;)*) => {$(
        for text in TEXTS {
            let (mut named, mut copied, mut plain) = ([0; 256], [0; 256], [0; 256]);
            let result = lintelrye::$operation(Context::$context, text, &mut plain).unwrap();
            assert_eq!(lintelrye::$named(text, &mut named), Ok(result));
            assert_eq!(lintelrye::$copying(text, &mut copied), Ok(result));
            assert_eq!(&copied[..result.len()], result.as_bytes());
        }
    )*};
}

#[test]
fn names_and_contexts() {
    are_named! { encode:
        encode_text_minimal encode_text_minimal_to_slice TextMinimal;
        encode_text encode_text_to_slice Text;
        encode_double_quoted_attribute encode_double_quoted_attribute_to_slice DoubleQuoted;
        encode_single_quoted_attribute encode_single_quoted_attribute_to_slice SingleQuoted;
        encode_quoted_attribute encode_quoted_attribute_to_slice Quoted;
        encode_safe encode_safe_to_slice Safe;
        encode_unquoted_attribute encode_unquoted_attribute_to_slice Unquoted;
        encode_script_single_quoted_text encode_script_single_quoted_text_to_slice ScriptSingle;
        encode_script_double_quoted_text encode_script_double_quoted_text_to_slice ScriptDouble;
        encode_script_quoted_text encode_script_quoted_text_to_slice ScriptQuoted;
        encode_style_single_quoted_text encode_style_single_quoted_text_to_slice StyleSingle;
        encode_style_double_quoted_text encode_style_double_quoted_text_to_slice StyleDouble;
        encode_style_quoted_text encode_style_quoted_text_to_slice StyleQuoted;
        encode_script encode_script_to_slice ScriptRaw;
        encode_json_string encode_json_string_to_slice Json;
        encode_ascii_quoted_attribute encode_ascii_quoted_attribute_to_slice AsciiQuoted;
    }
    are_named! { decode:
        decode_html_entities decode_html_entities_to_slice Text;
        decode_script_single_quoted_text decode_script_single_quoted_text_to_slice ScriptSingle;
        decode_script_double_quoted_text decode_script_double_quoted_text_to_slice ScriptDouble;
        decode_script_quoted_text decode_script_quoted_text_to_slice ScriptQuoted;
        decode_style_single_quoted_text decode_style_single_quoted_text_to_slice StyleSingle;
        decode_style_double_quoted_text decode_style_double_quoted_text_to_slice StyleDouble;
        decode_style_quoted_text decode_style_quoted_text_to_slice StyleQuoted;
    }
}

#[test]
fn the_texts_tell_contexts_apart() {
    let results = |decoding: bool, contexts: &[Context]| {
        let mut seen = std::collections::BTreeSet::new();
        for context in contexts {
            let mut all = String::new();
            for text in TEXTS {
                let mut output = [0; 256];
                let result = if decoding { lintelrye::decode(*context, text, &mut output) } else { lintelrye::encode(*context, text, &mut output) };
                all.push_str(&result.unwrap());
                all.push('|');
            }
            seen.insert(all);
        }
        seen.len()
    };
    assert_eq!(results(false, &Context::ALL), 16);
    assert_eq!(results(true, &Context::ALL[6..13]), 7);
}

mod exported {
    use super::{Answer, Checked};
    extern "C" {
        pub fn lintelrye_encode_7(c: u32, t: *const u8, n: usize, o: *mut u8, m: usize) -> Answer;
        pub fn lintelrye_encode_borrowing_7(c: u32, t: *const u8, n: usize, o: *mut u8, m: usize) -> Answer;
        pub fn lintelrye_decode_7(c: u32, t: *const u8, n: usize, o: *mut u8, m: usize) -> Answer;
        pub fn lintelrye_decode_borrowing_7(c: u32, t: *const u8, n: usize, o: *mut u8, m: usize) -> Answer;
        pub fn lintelrye_take_7(c: u32, t: *const u8, n: usize, o: *mut u8, m: usize) -> Answer;
        pub fn lintelrye_take_borrowing_7(c: u32, t: *const u8, n: usize, o: *mut u8, m: usize) -> Answer;
        pub fn lintelrye_check(c: u32, t: *const u8, n: usize) -> Checked;
        pub fn lintelrye_browse_7(c: u32, t: *const u8, n: usize, o: *mut u8, m: usize) -> Answer;
        pub fn lintelrye_browse_borrowing_7(c: u32, t: *const u8, n: usize, o: *mut u8, m: usize) -> Answer;
    }
}

/// Tries a null pointer of length 0, as the header allows it.
#[test]
fn null_pointers_of_length_0() {
    use exported::*;
    let calls = [
        lintelrye_encode_7,
        lintelrye_encode_borrowing_7,
        lintelrye_decode_7,
        lintelrye_decode_borrowing_7,
        lintelrye_take_7,
        lintelrye_take_borrowing_7,
        lintelrye_browse_7,
        lintelrye_browse_borrowing_7,
    ];
    let passed = Answer { status: 0, length: 0, same: 1, replaced: 0, place: 0, left: 0, reason: 0 };
    let text = b"a&lt;";
    for call in calls {
        let mut output = [0xEE; 8];
        let mut empty = [0; 0];
        for context in 0..7 {
            // SAFETY: what is not null is valid for its length, and the text and the output do not overlap.
            let answers = unsafe {
                [
                    call(context, std::ptr::null(), 0, std::ptr::null_mut(), 0),
                    call(context, std::ptr::null(), 0, output.as_mut_ptr(), 8),
                    call(context, text.as_ptr(), 5, std::ptr::null_mut(), 0),
                    call(context, text.as_ptr(), 5, empty.as_mut_ptr(), 0),
                ]
            };
            assert_eq!(answers[..2], [passed, passed]);
            assert_eq!((answers[2], answers[2].status), (answers[3], raw::NO_ROOM));
        }
        assert_eq!(output, [0xEE; 8]);
    }
    for context in (0..13).chain([14]) {
        // SAFETY: a null text is valid for its length, 0.
        assert_eq!(unsafe { lintelrye_check(context, std::ptr::null(), 0) }, Checked { status: 0, length: 0, place: 0 });
    }
}

#[test]
fn the_first_reference_that_stays_is_told() {
    let rows = [
        ("a & b", 2, Reason::NoEnd),
        ("a&lt;&;&bogus;", 5, Reason::Empty),
        ("&nbps;&;", 0, Reason::UnknownName),
        ("&#99999999999x;", 0, Reason::NoDigit),
        ("&amp;&#0;", 5, Reason::NotAllowed),
    ];
    for (text, place, reason) in rows {
        let left = Some(Left { place, reason });
        let (copying, borrowing, _) = OPERATIONS[1];
        for call in [copying, borrowing] {
            assert_eq!(call(Context::Text, text.as_bytes(), &mut [0; 64]).unwrap().left(), left);
        }
        assert_eq!(lintelrye::browse(Context::Text, text, &mut [0; 64]).unwrap().left(), None);
    }
    assert_eq!(lintelrye::decode(Context::ScriptQuoted, "&;", &mut [0; 64]).unwrap().left(), None);
    assert_eq!(lintelrye::decode(Context::Text, "&lt;", &mut [0; 64]).unwrap().left(), None);
}

#[test]
fn a_page_is_its_single_calls_one_behind_the_other() {
    let text = "Mum & Dad's";
    let parts =
        [(Context::DoubleQuoted, 0, 11), (Context::ScriptSingle, 6, 5), (Context::Text, 0, 5), (Context::ScriptSingle, 6, 5), (Context::Text, 11, 0)];
    let mut fields = parts.map(|(context, start, length)| Field::new(context, start, length));
    let (mut page, mut singly) = ([0xEE; 64], [0xEE; 64]);
    assert_eq!(lintelrye::fill_page(&mut fields, text, &mut page), Ok(()));
    let mut end = 0;
    for (field, (context, start, length)) in fields.iter().zip(parts) {
        let single = lintelrye::encode(context, &text[start..start + length], &mut singly[end..]).unwrap();
        assert_eq!(field.result(&page), Some(Ok(single)));
        assert_eq!(field.begins, end as u64);
        end += single.len();
    }
    assert_eq!(page, singly);
}

#[test]
fn a_refusal_stops_a_page() {
    let text = b"a<\xC3\xA9";
    let stops = |refused: Field, room: usize, refusal: Refusal| {
        let mut fields = [Field::new(Context::Text, 0, 2), refused, Field::new(Context::Text, 0, 1)];
        let last = fields[2];
        let mut page = [0xEE; 16];
        assert_eq!(lintelrye::fill_page(&mut fields, text, &mut page[..room]), Err(Stopped { passed: 1, refusal }));
        assert_eq!(fields[0].result(&page).unwrap().unwrap(), "a&lt;");
        assert_eq!(fields[1].result(&page), Some(Err(refusal)));
        assert_eq!(fields[1].begins, 0);
        assert_eq!((fields[2], fields[2].result(&page)), (last, None));
        assert_eq!(&page, b"a&lt;\xEE\xEE\xEE\xEE\xEE\xEE\xEE\xEE\xEE\xEE\xEE");
    };
    stops(Field::new(Context::Text, 0, 2), 8, Refusal::NoRoom { needed: 5 });
    stops(Field::new(Context::Text, 1, 2), 16, Refusal::CutShort { place: 1 });
    stops(Field::new(Context::Text, 3, 1), 16, Refusal::NotUtf8 { place: 0 });
    for (start, length) in [(5, 0), (0, 5), (4, 1), (usize::MAX, 0), (1, usize::MAX), (usize::MAX, usize::MAX)] {
        stops(Field::new(Context::Text, start, length), 16, Refusal::BadRange);
    }
    stops(Field { context: 99, ..Field::new(Context::Text, 9, 9) }, 16, Refusal::BadContext);
}

#[test]
fn a_field_that_no_page_filled_has_no_result() {
    let mut fields = [Field::new(Context::Text, 0, 1)];
    let mut page = [0xEE; 16];
    assert_eq!(fields[0].result(&page), None);
    assert_eq!(lintelrye::fill_page(&mut fields, "a", &mut page), Ok(()));
    let changes: [fn(&mut Field); 6] = [
        |field| field.begins = u64::MAX,
        |field| field.answer.status = 6,
        |field| field.answer.length = u64::MAX,
        |field| field.answer.length = 2,
        |field| field.answer.same = 0,
        |field| field.answer.reason = 9,
    ];
    for change in changes {
        let mut field = fields[0];
        change(&mut field);
        assert_eq!(field.result(&page), None);
    }
}

#[test]
fn a_list_too_long_touches_nothing() {
    let mut fields = [Field::new(Context::Text, 0, 1); lintelrye::FIELD_LIMIT + 1];
    let before = fields;
    let mut page = [0xEE; 512];
    assert_eq!(lintelrye::fill_page(&mut fields, "a", &mut page), Err(Stopped { passed: 0, refusal: Refusal::TooLong }));
    assert_eq!((fields, page), (before, [0xEE; 512]));
    assert_eq!(lintelrye::fill_page(&mut fields[1..], "a", &mut page), Ok(()));
    assert_eq!(page.iter().filter(|&&b| b == b'a').count(), lintelrye::FIELD_LIMIT);
    assert_eq!(lintelrye::fill_page(&mut [], "", &mut []), Ok(()));
}
