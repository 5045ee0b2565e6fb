//! The operations in one context each, under the names of html-escape 0.3.0.
use crate::{Context, Refusal, Text, Written};

macro_rules! named {
    ($operation:ident $operation_borrowing:ident: $($does:literal $borrowing:ident $copying:ident $context:ident, $text:literal gives $result:literal;)*) => {$(
        #[doc = $does]
        ///
        /// A borrowing call: where nothing is replaced, the result is the text itself.
        ///
        /// ```
        /// let mut line = [0; 64];
        #[doc = concat!("assert_eq!(lintelrye::", stringify!($borrowing), "(", stringify!($text), ", &mut line)?, ", stringify!($result), ");")]
        /// # Ok::<(), lintelrye::Refusal>(())
        /// ```
        pub fn $borrowing<'a, T: ?Sized + Text>(text: &'a T, output: &'a mut [u8]) -> Result<Written<'a>, Refusal> {
            crate::$operation_borrowing(Context::$context, text, output)
        }

        #[doc = concat!("[`", stringify!($borrowing), "`] as a copying call: the result is always written to the front of the buffer.")]
        pub fn $copying<'a, T: ?Sized + Text>(text: &T, output: &'a mut [u8]) -> Result<Written<'a>, Refusal> {
            crate::$operation(Context::$context, text, output)
        }
    )*};
}

named! {
    encode encode_borrowing:
    "Encodes text between tags, not in script or style elements: `&` and `<`."
        encode_text_minimal encode_text_minimal_to_slice TextMinimal, "a<b>&" gives "a&lt;b>&amp;";
    "Encodes text between tags, not in script or style elements: `&`, `<` and `>`."
        encode_text encode_text_to_slice Text, "a<b>&" gives "a&lt;b&gt;&amp;";
    "Encodes an attribute between double quotes."
        encode_double_quoted_attribute encode_double_quoted_attribute_to_slice DoubleQuoted, "'a' \"b\"" gives "'a' &quot;b&quot;";
    "Encodes an attribute between single quotes."
        encode_single_quoted_attribute encode_single_quoted_attribute_to_slice SingleQuoted, "'a' \"b\"" gives "&#x27;a&#x27; \"b\"";
    "Encodes an attribute between quotes of either kind."
        encode_quoted_attribute encode_quoted_attribute_to_slice Quoted, "'a' \"b\"" gives "&#x27;a&#x27; &quot;b&quot;";
    "Encodes as [`encode_quoted_attribute`] does, and `/` too. It is no sanitizer: it is right between tags and in attributes with quotes, and nowhere else."
        encode_safe encode_safe_to_slice Safe, "'/\"" gives "&#x27;&#x2F;&quot;";
    "Encodes an attribute without quotes: every ASCII character that is no letter or digit. An empty text needs quotes."
        encode_unquoted_attribute encode_unquoted_attribute_to_slice Unquoted, "a b" gives "a&#x20;b";
    "Encodes a string of a script element, between single quotes."
        encode_script_single_quoted_text encode_script_single_quoted_text_to_slice ScriptSingle, "it's </script>" gives "it\\'s \\x3C/script>";
    "Encodes a string of a script element, between double quotes."
        encode_script_double_quoted_text encode_script_double_quoted_text_to_slice ScriptDouble, "\n\"" gives "\\x0A\\\"";
    "Encodes a string of a script element, between quotes of either kind."
        encode_script_quoted_text encode_script_quoted_text_to_slice ScriptQuoted, "'\"" gives "\\'\\\"";
    "Encodes a string of a style element, between single quotes; a NUL becomes U+FFFD."
        encode_style_single_quoted_text encode_style_single_quoted_text_to_slice StyleSingle, "it's" gives "it\\'s";
    "Encodes a string of a style element, between double quotes; a NUL becomes U+FFFD."
        encode_style_double_quoted_text encode_style_double_quoted_text_to_slice StyleDouble, "\n\"" gives "\\0A \\\"";
    "Encodes a string of a style element, between quotes of either kind; a NUL becomes U+FFFD."
        encode_style_quoted_text encode_style_quoted_text_to_slice StyleQuoted, "\n<\0" gives "\\0A \\3C \u{FFFD}";
    "Encodes the whole text of a script element, in one call: a backslash after each `<` that could close it or open a comment. It is no JSON encoder."
        encode_script encode_script_to_slice ScriptRaw, "<</script" gives "<<\\/script";
    "Encodes a JSON string, inside a script element or in a JSON document; not in an attribute."
        encode_json_string encode_json_string_to_slice Json, "\n<\"" gives "\\u000A\\u003C\\\"";
    "Encodes an attribute between quotes of either kind, in ASCII: every other character as a reference, by its shortest name or by number."
        encode_ascii_quoted_attribute encode_ascii_quoted_attribute_to_slice AsciiQuoted, "\u{E9}\u{1F600}&" gives "&eacute;&#x1F600;&amp;";
}

named! {
    decode decode_borrowing:
    "Decodes references, named and numeric."
        decode_html_entities decode_html_entities_to_slice Text, "Hello&#x20;world&excl;" gives "Hello world!";
    "Decodes a string of a script element, between single quotes."
        decode_script_single_quoted_text decode_script_single_quoted_text_to_slice ScriptSingle, "it\\'s \\x3C" gives "it's <";
    "Decodes a string of a script element, between double quotes."
        decode_script_double_quoted_text decode_script_double_quoted_text_to_slice ScriptDouble, "\\x0A\\\"" gives "\n\"";
    "Decodes a string of a script element, between quotes of either kind."
        decode_script_quoted_text decode_script_quoted_text_to_slice ScriptQuoted, "\\\\x3C" gives "\\x3C";
    "Decodes a string of a style element, between single quotes."
        decode_style_single_quoted_text decode_style_single_quoted_text_to_slice StyleSingle, "it\\'s" gives "it's";
    "Decodes a string of a style element, between double quotes."
        decode_style_double_quoted_text decode_style_double_quoted_text_to_slice StyleDouble, "\\0A \\\"" gives "\n\"";
    "Decodes a string of a style element, between quotes of either kind."
        decode_style_quoted_text decode_style_quoted_text_to_slice StyleQuoted, "\\3C \\00 " gives "<\\00 ";
    "Decodes the content of a JSON string, whatever RFC 8259 allows there."
        decode_json_string decode_json_string_to_slice Json, "\\n\\u003c\\ud83d\\ude00" gives "\n<\u{1F600}";
}
