//! Contexts by number and name, results given to the next call, and buffers that are always long enough.
// What is compared with what, and which of them comes first, is what these tests are about.
#![allow(clippy::nonminimal_bool, clippy::cmp_owned)]
use lintelrye::{ascii_encoded_at_most, decoded_at_most, encoded_at_most, Context, Refusal, UnknownContext};

#[test]
fn contexts_by_number() {
    for (number, context) in Context::ALL.into_iter().enumerate() {
        assert_eq!(context as usize, number);
        assert_eq!(Context::try_from(number as u32), Ok(context));
    }
    for number in [16, 17, 99, u32::MAX] {
        assert_eq!(Context::try_from(number), Err(UnknownContext));
    }
}

#[test]
fn contexts_by_name() {
    let names =
        "text_minimal text double_quoted single_quoted quoted safe unquoted script_single script_double script_quoted style_single style_double \
                 style_quoted script_raw json ascii_quoted";
    assert_eq!(names.split(' ').count(), Context::ALL.len());
    for (name, context) in names.split(' ').zip(Context::ALL) {
        assert_eq!(context.name(), name);
        assert_eq!(name.parse(), Ok(context));
        assert_eq!((context.to_string(), u32::from(context)), (name.to_string(), context as u32));
    }
    for name in ["", "Text", "text ", "texts", "script", "Json"] {
        assert_eq!(name.parse::<Context>(), Err(UnknownContext));
    }
    assert_eq!(UnknownContext.to_string(), "there is no such context");
}

#[test]
fn a_result_is_the_text_of_the_next_call() -> Result<(), Refusal> {
    let (mut inner, mut outer, mut back, mut text) = ([0; 64], [0; 64], [0; 64], [0; 64]);
    let string = lintelrye::encode(Context::ScriptSingle, "it's <\"&", &mut inner)?;
    let attribute = lintelrye::encode_borrowing(Context::DoubleQuoted, &string, &mut outer)?;
    assert_eq!(attribute, "it\\'s \\x3C&quot;&amp;");
    let string = lintelrye::decode(Context::DoubleQuoted, &attribute, &mut back)?;
    assert_eq!(lintelrye::take(Context::ScriptSingle, &string, &mut text)?, "it's <\"&");
    Ok(())
}

#[test]
fn a_result_as_text_and_as_bytes() {
    let mut output = [0; 8];
    for text in ["&amp;", "&"] {
        let written = lintelrye::decode_html_entities(text, &mut output).unwrap();
        assert_eq!(AsRef::<str>::as_ref(&written), "&");
        assert_eq!(AsRef::<[u8]>::as_ref(&written), b"&");
    }
}

#[test]
fn a_result_compared_and_turned_into_other_strings() {
    let mut output = [0; 8];
    let written = lintelrye::encode_text("<", &mut output).unwrap();
    assert!(written == "&lt;" && "&lt;" == written && *"&lt;" == written && written == *"&lt;" && "<" != written);
    assert_eq!((<&str>::from(written), <&[u8]>::from(written)), ("&lt;", &b"&lt;"[..]));
    assert_eq!(format!("{:>6}", written), "  &lt;");
}

#[cfg(feature = "alloc")]
#[test]
fn texts_as_html_escape_takes_them() {
    use std::{borrow::Cow, rc::Rc, sync::Arc};
    fn encoded<T: ?Sized + lintelrye::Text>(text: &T) -> String {
        let mut output = [0; 16];
        lintelrye::encode_text(text, &mut output).unwrap().into()
    }
    let (owned, borrowed) = (Cow::<str>::Owned("a<".to_string()), Cow::Borrowed("a<"));
    let held = [encoded("a<"), encoded(&"a<"), encoded(&String::from("a<")), encoded(&owned), encoded(&borrowed), encoded(&Box::<str>::from("a<"))];
    assert!(held.iter().all(|text| text == "a&lt;"));
    let held = [encoded(&Rc::<str>::from("a<")), encoded(&Arc::<str>::from("a<")), encoded(b"a<"), encoded(&b"a<"[..]), encoded(&b"a<".to_vec())];
    assert!(held.iter().all(|text| text == "a&lt;"));
    let mut output = [0; 16];
    let written = lintelrye::encode_text("a<", &mut output).unwrap();
    assert!(written == String::from("a&lt;") && String::from("a&lt;") == written && Cow::from(written) == written);
}

#[test]
fn buffers_that_are_always_enough() {
    const ROOM: usize = encoded_at_most(3);
    assert_eq!(lintelrye::encode_quoted_attribute_to_slice("'''", &mut [0; ROOM]).map(|written| written.len()), Ok(ROOM));
    assert_eq!(lintelrye::encode_quoted_attribute_to_slice("'''", &mut [0; ROOM - 1]), Err(Refusal::NoRoom { needed: ROOM }));
    const ASCII: usize = ascii_encoded_at_most(3);
    assert_eq!(lintelrye::encode_ascii_quoted_attribute_to_slice("\u{25AB}", &mut [0; ASCII]).map(|written| written.len()), Ok(ASCII));
    assert_eq!([0, 1, 2, 3, 65_536].map(ascii_encoded_at_most), [0, 7, 14, 22, 480_597]);
    assert_eq!([0, 4, 5, 9, 10].map(decoded_at_most), [0, 4, 6, 10, 12]);
    let grown = "&nGt;".repeat(20);
    let mut room = vec![0; decoded_at_most(grown.len())];
    assert_eq!(lintelrye::decode_html_entities_to_slice(grown.as_str(), &mut room).map(|written| written.len()), Ok(room.len()));
    assert_eq!([encoded_at_most, ascii_encoded_at_most, decoded_at_most].map(|most| most(usize::MAX)), [usize::MAX; 3]);
}

#[cfg(feature = "std")]
#[test]
fn refusals_as_errors() {
    fn fill(context: &str, text: &str) -> Result<usize, Box<dyn std::error::Error>> {
        Ok(lintelrye::encode(context.parse()?, text, &mut [0; 4])?.len())
    }
    assert_eq!(fill("text", "<").unwrap(), 4);
    assert_eq!(fill("text", "<<").unwrap_err().to_string(), "the result needs 8 bytes of room");
    assert_eq!(fill("texts", "<").unwrap_err().to_string(), "there is no such context");
}
