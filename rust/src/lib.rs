//! HTML escaping with proofs: the calls of Lintelrye for Rust.
//!
//! A result is written into a buffer that the caller lends. Nothing is allocated, nothing panics, and a text that does not fit is refused with the buffer
//! as it was. The code behind these calls is proved: what [`encode`] writes, [`take`] gives back, for every text whose encoding has at most [`TEXT_LIMIT`]
//! bytes. Two exceptions: in style strings a NUL becomes U+FFFD, and raw script has no reader. The functions are named as in html-escape 0.3.0 where they do
//! the same, so a caller changes little: a buffer goes in, a `Result` comes out.
//!
//! ```
//! let mut line = [0; lintelrye::encoded_at_most(40)];
//! let name = lintelrye::encode_text("Mum & Dad's", &mut line)?;
//! assert_eq!(name, "Mum &amp; Dad's");
//! # Ok::<(), lintelrye::Refusal>(())
//! ```
//!
//! | html-escape | here | which |
//! |---|---|---|
//! | `encode_text(text)`, a `Cow` | `encode_text(text, output)`, a [`Written`] | borrowing: where nothing is replaced the result is the text itself, and the buffer is left alone |
//! | `encode_text_to_vec(text, vec)` | `encode_text_to_slice(text, output)` | copying: the result is always written to the front of the buffer |
//! | | [`encode`], [`decode`], [`take`], [`browse`] with a [`Context`] | copying; `_borrowing` for the other kind |
//! | | [`check`] with a [`Context`] | whether [`take`] would take a text: no buffer at all |
//! | | [`fill_page`] with a list of [`Field`]s | copying: a whole page in one call, each field by the context of its place |
//!
//! # Which context goes where
//!
//! | the text goes | context | function |
//! |---|---|---|
//! | `<p>HERE</p>`: between tags, not in script or style elements | [`Text`](Context::Text), [`TextMinimal`](Context::TextMinimal) | [`encode_text`], [`encode_text_minimal`] |
//! | `title="HERE"` | [`DoubleQuoted`](Context::DoubleQuoted) | [`encode_double_quoted_attribute`] |
//! | `title='HERE'` | [`SingleQuoted`](Context::SingleQuoted) | [`encode_single_quoted_attribute`] |
//! | in an attribute with either kind of quotes | [`Quoted`](Context::Quoted), [`Safe`](Context::Safe) | [`encode_quoted_attribute`], [`encode_safe`] |
//! | `title=HERE`; an empty text needs quotes | [`Unquoted`](Context::Unquoted) | [`encode_unquoted_attribute`] |
//! | `<script>f('HERE')</script>` | [`ScriptSingle`](Context::ScriptSingle) | [`encode_script_single_quoted_text`] |
//! | `<script>f("HERE")</script>` | [`ScriptDouble`](Context::ScriptDouble) | [`encode_script_double_quoted_text`] |
//! | in a script string with either kind of quotes | [`ScriptQuoted`](Context::ScriptQuoted) | [`encode_script_quoted_text`] |
//! | `<style>a::before{content:'HERE'}</style>` | [`StyleSingle`](Context::StyleSingle) | [`encode_style_single_quoted_text`] |
//! | `<style>a::before{content:"HERE"}</style>` | [`StyleDouble`](Context::StyleDouble) | [`encode_style_double_quoted_text`] |
//! | in a style string with either kind of quotes | [`StyleQuoted`](Context::StyleQuoted) | [`encode_style_quoted_text`] |
//! | `<script>HERE</script>`: the whole text of the element, in one call or by a [`ScriptEncoder`] | [`ScriptRaw`](Context::ScriptRaw) | [`encode_script`] |
//! | `<script type="application/json">{"a":"HERE"}</script>`, a JSON document | [`Json`](Context::Json) | [`encode_json_string`] |
//! | in an attribute with either kind of quotes, where only ASCII may leave | [`AsciiQuoted`](Context::AsciiQuoted) | [`encode_ascii_quoted_attribute`] |
//! | `onclick="f('HERE')"` | `ScriptSingle` for the name, then `DoubleQuoted` for the whole handler | both functions, see below |
//! | a URL, a template literal (between backticks), CSS or script outside a string, a comment, a tag or attribute name | none: no context makes that safe | none |
//!
//! `safe` is not a sanitizer: it is `quoted` with one more character, right between tags and in attributes with quotes, and nowhere else.
//! `encode_script` is no JSON encoder.
//! In a style string a NUL becomes U+FFFD, so a text with NUL is not given back.
//!
//! # Every context in every place
//!
//! Whatever is typed and whatever follows, what [`encode`] writes stays in the place where it is put, and the place holds the text, by proof, in every
//! cell **yes** (every text), **N** (all but NUL, which is held as U+FFFD), **NC** (all but NUL, held as U+FFFD or dropped, and CR, held as LF) and **NC27**
//! (all but these and 27 of the control characters U+0080 to U+009F, whose numbers a browser takes for other characters). In a cell s every text stays, but the one that is shown is held as another one; in a cell x the text that is shown leaves the place.
//!
//! <!-- tools/places_table.py --rust -->
//!
//! | place | `text_minimal` | `text` | `double_quoted` | `single_quoted` | `quoted` | `safe` | `unquoted` | `script_single` | `script_double` | `script_quoted` | `style_single` | `style_double` | `style_quoted` | `script_raw` | `json` | `ascii_quoted` |
//! |---|---|---|---|---|---|---|---|---|---|---|---|---|---|---|---|---|
//! | element text | **NC** | **NC** | **NC** | **NC** | **NC** | **NC** | **N** | s `'` | s `"` | s `"` | s `'` | s `"` | s `"` | x `</` | s `"` | **NC27** |
//! | title | **NC** | **NC** | **NC** | **NC** | **NC** | **NC** | **N** | s `'` | s `"` | s `"` | s `'` | s `"` | s `"` | x `</title>` | s `"` | **NC27** |
//! | textarea | **NC** | **NC** | **NC** | **NC** | **NC** | **NC** | **N** | s `'` | s `"` | s `"` | s `'` | s `"` | s `"` | x `</textarea>` | s `"` | **NC27** |
//! | attribute `"` | x `"` | x `"` | **NC** | x `"` | **NC** | **NC** | **N** | x `"` | x `"` | x `"` | x `"` | x `"` | x `"` | x `"` | x `"` | **NC27** |
//! | attribute `'` | x `'` | x `'` | x `'` | **NC** | **NC** | **NC** | **N** | x `'` | x `'` | x `'` | x `'` | x `'` | x `'` | x `'` | x `'` | **NC27** |
//! | attribute, no quotes | x space | x space | x space | x space | x space | x space | **N** | x space | x space | x space | x space | x space | x space | x space | x space | x space |
//! | script element | s `&` | s `&` | s `"` | s `&` | s `"` | s `"` | s space | s `'` | s `"` | s `"` | s `'` | s `"` | s `"` | s `<!--` | s `"` | s `"` |
//! | style element | s `&` | s `&` | s `"` | s `&` | s `"` | s `"` | s space | s `'` | s `"` | s `"` | s `'` | s `"` | s `"` | x `</style>` | s `"` | s `"` |
//! | JS string `'` | x `'` | x `'` | x `'` | x `\` | x `\` | x `\` | s space | **yes** | x `'` | **yes** | s `<` | x `'` | s `<` | x `'` | x `'` | x `\` |
//! | JS string `"` | x `"` | x `"` | x `\` | x `"` | x `\` | x `\` | s space | x `"` | **yes** | **yes** | x `"` | s `<` | s `<` | x `"` | **yes** | x `\` |
//! | JS string `'` before 2019 | x `'` | x `'` | x `'` | x `\` | x `\` | x `\` | x U+2028 | **yes** | x `'` | **yes** | x U+2028 | x `'` | x U+2028 | x `'` | x `'` | x `\` |
//! | JS string `"` before 2019 | x `"` | x `"` | x `\` | x `"` | x `\` | x `\` | x U+2028 | x `"` | **yes** | **yes** | x `"` | x U+2028 | x U+2028 | x `"` | **yes** | x `\` |
//! | JS template | x `\` | x `\` | x `\` | x `\` | x `\` | x `\` | s space | x `` ` `` | x `` ` `` | x `` ` `` | x `` ` `` | x `` ` `` | x `` ` `` | x `\` | x `` ` `` | x `\` |
//! | CSS string `'` | x `'` | x `'` | x `'` | x `\` | x `\` | x `\` | s space | s `<` | x `'` | s `<` | **N** | x `'` | **N** | x `'` | x `'` | x `\` |
//! | CSS string `"` | x `"` | x `"` | x `\` | x `"` | x `\` | x `\` | s space | x `"` | s `<` | s `<` | x `"` | **N** | **N** | x `"` | s `<` | x `\` |
//! | JSON string | x `"` | x `"` | x `\` | x `"` | x `\` | x `\` | s space | x `"` | x `<` | x `'` | x `"` | x `<` | x `'` | x `"` | **yes** | x `\` |
//!
//! <!-- end of the table -->
//!
//! An attribute value without quotes cannot be empty.
//!
//! # Names inside event attributes
//!
//! A handler has a script string inside an attribute: the inner context is written first, then the outer one, and the whole handler is the text of the
//! attribute. The other order lets a quote in the name end the string. The two decoders, the outer one first, give every text back, by proof.
//!
//! ```
//! let (mut string, mut attribute) = ([0; 64], [0; 128]);
//! let name = lintelrye::encode_script_single_quoted_text("Dad's \"den\"", &mut string)?;
//! let handler = format!("greet('{}')", name);
//! let written = lintelrye::encode_double_quoted_attribute(&handler, &mut attribute)?;
//! assert_eq!(written, "greet('Dad\\'s &quot;den&quot;')");
//! # Ok::<(), lintelrye::Refusal>(())
//! ```
//!
//! # Script text that others wrote
//!
//! [`closing_tag`] says where a browser ends a script element. That it finds no end tag in a text does **not** make the text safe to embed: `<!--<script>` hides
//! the tag that follows it. Judge a text with `</script>` after it: it is right exactly if the place is the text's length.
//!
//! # A script longer than the buffer
//!
//! [`ScriptEncoder`] takes the text of a script element part by part, cut anywhere, and writes what one [`encode_script`] of the whole would.
//!
//! # Texts and buffers
//!
//! A buffer of [`encoded_at_most`] bytes is enough to encode any text of that length (for [`AsciiQuoted`](Context::AsciiQuoted) one of
//! [`ascii_encoded_at_most`] bytes), one of [`decoded_at_most`] bytes to decode or browse it, and one as long as the text to take it. [`Refusal::NoRoom`] says what one text needs.
//!
//! A text is a `&str`, or bytes: the library checks UTF-8 itself, and tells a text that was cut within its last character from a broken one.
//!
//! ```
//! use lintelrye::Refusal;
//! let mut line = [0; 240];
//! assert_eq!(lintelrye::encode_text(b"a\xC3(", &mut line), Err(Refusal::NotUtf8 { place: 1 }));
//! assert_eq!(lintelrye::encode_text(b"a\xC3", &mut line), Err(Refusal::CutShort { place: 1 }));
//! assert_eq!(line, [0; 240]);
//! ```
//!
//! # Features
//!
//! | feature | what it adds |
//! |---|---|
//! | `std`, on by default | `std::error::Error` for the errors, so that `?` works in a function that returns `Box<dyn Error>`; and `alloc` |
//! | `alloc` | texts in `String`, `Vec`, `Cow`, `Box`, `Rc` and `Arc`; results turned into `String` and `Cow` |
//!
//! Firmware without an allocator takes the crate with `default-features = false`. The calls themselves never allocate, nor do they need anything but
//! `memcpy`, `memmove` and `memset`.
//!
//! # Building
//!
//! The crate links the library's static archive, for x86-64 or aarch64: run `tools/archive` of the repository first, or set `LINTELRYE_ARCHIVE_DIR` to a folder
//! that has `liblintelrye_c.a` of the same version. `cargo check` and `cargo doc` need none.
#![no_std]
#![deny(missing_docs)]

#[cfg(feature = "alloc")]
extern crate alloc;
#[cfg(feature = "std")]
extern crate std;

mod calls;
mod contexts;
mod named;
pub mod raw;
mod script;
mod text;

pub use calls::*;
pub use contexts::*;
pub use named::*;
pub use script::*;
pub use text::*;
