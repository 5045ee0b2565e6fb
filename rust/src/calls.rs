//! The four operations in a context, copying and borrowing, the check, their results and their refusals; a whole page in one call; and where a script
//! element's text ends.
use crate::raw::{self, Answer};
use crate::{Context, Text};
use core::{fmt, ops, str};

/// The longest text that a call takes, in bytes.
pub const TEXT_LIMIT: usize = 65_536;

/// The most fields that a page takes.
pub const FIELD_LIMIT: usize = 256;

/// Returns the length of an output that is enough to encode every text of `n` bytes, in every context but [`Context::AsciiQuoted`].
///
/// ```
/// let mut line = [0; lintelrye::encoded_at_most(11)];
/// assert_eq!(line.len(), 66);
/// assert_eq!(lintelrye::encode_text("Mum & Dad's", &mut line)?, "Mum &amp; Dad's");
/// # Ok::<(), lintelrye::Refusal>(())
/// ```
pub const fn encoded_at_most(n: usize) -> usize {
    n.saturating_mul(6)
}

/// Returns the length of an output that is enough to encode every text of `n` bytes in [`Context::AsciiQuoted`]: 22 bytes for 3.
///
/// ```
/// let mut line = [0; lintelrye::ascii_encoded_at_most(3)];
/// assert_eq!(line.len(), 22);
/// assert_eq!(lintelrye::encode_ascii_quoted_attribute("\u{25AB}", &mut line)?, "&EmptyVerySmallSquare;");
/// # Ok::<(), lintelrye::Refusal>(())
/// ```
pub const fn ascii_encoded_at_most(n: usize) -> usize {
    n.saturating_mul(7).saturating_add(n / 3)
}

/// Returns the length of an output that is enough to decode or browse every text of `n` bytes. To [`take`] one, `n` bytes are enough, and
/// [`check`] tells how many it needs.
///
/// ```
/// let mut line = [0; lintelrye::decoded_at_most(5)];
/// assert_eq!(lintelrye::decode_html_entities("&nGt;", &mut line)?.len(), 6);
/// # Ok::<(), lintelrye::Refusal>(())
/// ```
pub const fn decoded_at_most(n: usize) -> usize {
    n.saturating_add(n / 5)
}

/// A refusal of a text. Where several apply, the first of this order is given. The buffer is as it was.
///
/// | refusal | what to do |
/// |---|---|
/// | `TooLong` | cut the text, at the end of a character (to undo escaping: not within a reference or escape); for raw script use a [`ScriptEncoder`](crate::ScriptEncoder) |
/// | `NotUtf8` | convert the text from its encoding, or leave it out |
/// | `CutShort` | read on: the text ends within a character; or cut it at `place` |
/// | `NoRoom` | call again with `needed` bytes, or leave the text out |
/// | `NotAForm` | the stored text was not written by [`encode`] in this context: treat it as plain text and encode it, or report it |
/// | `LoneSurrogate` | the JSON was cut or damaged: refuse it |
/// | `Finished`, `BadContext`, `BadRange` | an error of the program that calls |
#[derive(Clone, Copy, Debug, PartialEq, Eq)]
#[non_exhaustive]
pub enum Refusal {
    /// [`ScriptEncoder`](crate::ScriptEncoder) only: a finish has passed.
    Finished,
    /// The operation has no such context: [`decode`], [`check`] and [`take`] have all but [`Context::ScriptRaw`], [`browse`] has the first seven and [`Context::AsciiQuoted`].
    BadContext,
    /// [`fill_page`] only: the part that a field names leaves the text.
    BadRange,
    /// The text is longer than [`TEXT_LIMIT`]; or a page has more than [`FIELD_LIMIT`] fields.
    TooLong,
    /// The text is not valid UTF-8, and not cut short.
    NotUtf8 {
        /// The length of its longest valid prefix.
        place: usize,
    },
    /// The text ends within a character that more bytes could complete, and is valid up to there. Never both this and [`Refusal::NotUtf8`].
    CutShort {
        /// Where that character begins: the length of the longest valid prefix.
        place: usize,
    },
    /// [`check`] and [`take`]: [`encode`] writes no such text. [`decode`] of [`Context::Json`]: RFC 8259 allows no such string.
    NotAForm {
        /// The length of its longest prefix that [`encode`] writes, or that the RFC allows.
        place: usize,
    },
    /// [`decode`] of [`Context::Json`] only: half a surrogate pair stands alone. Never both this and [`Refusal::NotAForm`].
    LoneSurrogate {
        /// Where its backslash is.
        place: usize,
    },
    /// The buffer is shorter than the result. [`check`] has no buffer, and never gives this.
    NoRoom {
        /// The length needed.
        needed: usize,
    },
}

impl fmt::Display for Refusal {
    fn fmt(&self, f: &mut fmt::Formatter<'_>) -> fmt::Result {
        match self {
            Refusal::Finished => write!(f, "the script is finished"),
            Refusal::BadContext => write!(f, "the operation has no such context"),
            Refusal::BadRange => write!(f, "the part leaves the text"),
            Refusal::TooLong => write!(f, "the text is longer than {} bytes, or the list than {} fields", TEXT_LIMIT, FIELD_LIMIT),
            Refusal::NotUtf8 { place } => write!(f, "the text is not valid UTF-8 from byte {} on", place),
            Refusal::CutShort { place } => write!(f, "the text ends within the character that begins at byte {}", place),
            Refusal::NotAForm { place } => write!(f, "the text is not what encode writes, or not a JSON string, from byte {} on", place),
            Refusal::LoneSurrogate { place } => write!(f, "half a surrogate pair stands alone at byte {}", place),
            Refusal::NoRoom { needed } => write!(f, "the result needs {} bytes of room", needed),
        }
    }
}

#[cfg(feature = "std")]
impl std::error::Error for Refusal {}

/// A result, and how many places were replaced: what a `Cow` is in html-escape. It can be used as a `&str`, and be given to the next call.
///
/// ```
/// // A script string in an attribute: onclick="greet('HERE')". Between double quotes greet(' and ') are copied, so the name can be written alone.
/// let (mut inner, mut outer) = ([0; 64], [0; 64]);
/// let string = lintelrye::encode_script_single_quoted_text("Dad's \"den\"", &mut inner)?;
/// let attribute = lintelrye::encode_double_quoted_attribute(&string, &mut outer)?;
/// assert_eq!(attribute, "Dad\\'s &quot;den&quot;");
/// # Ok::<(), lintelrye::Refusal>(())
/// ```
#[derive(Clone, Copy, Debug, PartialEq, Eq)]
pub struct Written<'a> {
    result: &'a str,
    replaced: usize,
    left: Option<Left>,
}

/// A reference that [`decode`] left as it stands: where its `&` is in the text, and why.
#[derive(Clone, Copy, Debug, PartialEq, Eq)]
pub struct Left {
    /// The place of the `&` in the text.
    pub place: usize,
    /// Why the reference stayed.
    pub reason: Reason,
}

/// Why a reference stayed in [`decode`]. `NoDigit` goes before `NotAllowed`.
#[derive(Clone, Copy, Debug, PartialEq, Eq)]
pub enum Reason {
    /// There is no `;` before the next `&` or the end of the text.
    NoEnd = 1,
    /// Its body is empty: `&;`, `&#;`, `&#x;` or `&#X;`.
    Empty = 2,
    /// Its body is no name of the table.
    UnknownName = 3,
    /// A byte of its number is no digit of the base.
    NoDigit = 4,
    /// [`decode`] does not allow its number.
    NotAllowed = 5,
}

/// Ends the program at an answer that no call of this version gives, by proof: other code than the archive that the build found is linked.
#[cold]
pub(crate) fn impossible() -> ! {
    panic!("lintelrye: this is no answer of the archive that the crate was built with")
}

/// Returns the first reference that stayed, if one did; an error where the reason is none.
fn left(answer: Answer) -> Result<Option<Left>, ()> {
    let reason = match answer.reason {
        0 => return Ok(None),
        1 => Reason::NoEnd,
        2 => Reason::Empty,
        3 => Reason::UnknownName,
        4 => Reason::NoDigit,
        5 => Reason::NotAllowed,
        _ => return Err(()),
    };
    Ok(Some(Left { place: answer.left as usize, reason }))
}

impl<'a> Written<'a> {
    /// Returns the result: the part of the buffer that was written, or from a borrowing call that replaced nothing the text itself.
    pub fn as_str(self) -> &'a str {
        self.result
    }

    /// Returns whether nothing was replaced, so that the result is the text.
    pub fn is_same(self) -> bool {
        self.replaced == 0
    }

    /// Returns how many places were replaced: characters by [`encode`] and [`take`], references or escapes by [`decode`] and [`browse`].
    ///
    /// ```
    /// let mut line = [0; 64];
    /// let name = lintelrye::encode_double_quoted_attribute("Tom's \"5\" & <up>", &mut line)?;
    /// assert_eq!(name.replaced(), 5);
    /// # Ok::<(), lintelrye::Refusal>(())
    /// ```
    pub fn replaced(self) -> usize {
        self.replaced
    }

    /// Returns the first reference that [`decode`] left as it stands, with its place in the text and the reason; [`browse`] tells none.
    ///
    /// ```
    /// use lintelrye::{Left, Reason};
    /// let mut line = [0; 64];
    /// let name = lintelrye::decode_html_entities("Nan&nbps;&amp; Tom", &mut line)?;
    /// assert_eq!(name.left(), Some(Left { place: 3, reason: Reason::UnknownName }));
    /// # Ok::<(), lintelrye::Refusal>(())
    /// ```
    pub fn left(self) -> Option<Left> {
        self.left
    }
}

impl ops::Deref for Written<'_> {
    type Target = str;

    fn deref(&self) -> &str {
        self.as_str()
    }
}

impl AsRef<str> for Written<'_> {
    fn as_ref(&self) -> &str {
        self.as_str()
    }
}

impl AsRef<[u8]> for Written<'_> {
    fn as_ref(&self) -> &[u8] {
        self.as_str().as_bytes()
    }
}

impl fmt::Display for Written<'_> {
    fn fmt(&self, f: &mut fmt::Formatter<'_>) -> fmt::Result {
        f.pad(self.as_str())
    }
}

/// Returns the refusal that a status other than 0 is, if it is one.
fn known(status: u64, length: u64, place: u64) -> Option<Refusal> {
    let (needed, place) = (length as usize, place as usize);
    Some(match status {
        raw::FINISHED => Refusal::Finished,
        raw::BAD_CONTEXT => Refusal::BadContext,
        raw::BAD_RANGE => Refusal::BadRange,
        raw::TOO_LONG => Refusal::TooLong,
        raw::NOT_UTF8 => Refusal::NotUtf8 { place },
        raw::CUT_SHORT => Refusal::CutShort { place },
        raw::NOT_A_FORM => Refusal::NotAForm { place },
        raw::LONE_SURROGATE => Refusal::LoneSurrogate { place },
        raw::NO_ROOM => Refusal::NoRoom { needed },
        _ => return None,
    })
}

/// Returns the refusal of an answer whose status is not 0.
pub(crate) fn refusal(status: u64, length: u64, place: u64) -> Refusal {
    known(status, length, place).unwrap_or_else(|| impossible())
}

/// Returns the result that an answer tells of, from its bytes, or its refusal; `None` where they do not go together. A result is always valid UTF-8, by proof;
/// it is checked here once more, which costs little, so that the only `unsafe` of this crate is the calls themselves.
fn written(result: Option<&[u8]>, answer: Answer) -> Option<Result<Written<'_>, Refusal>> {
    if answer.status != raw::PASSED {
        return known(answer.status, answer.length, answer.place).map(Err);
    }
    let replaced = answer.replaced as usize;
    let (result, left) = (str::from_utf8(result?).ok()?, left(answer).ok()?);
    (answer.same == (replaced == 0) as u64).then_some(Ok(Written { result, replaced, left }))
}

macro_rules! operation {
    ($(#[$doc:meta])* $copying:ident $borrowing:ident) => {
        $(#[$doc])*
        pub fn $copying<'a, T: ?Sized + Text>(context: Context, text: &T, output: &'a mut [u8]) -> Result<Written<'a>, Refusal> {
            let answer = raw::$copying(context as u32, text.text_bytes(), output);
            written(raw::front(output, answer.length), answer).unwrap_or_else(|| impossible())
        }

        #[doc = concat!("[`", stringify!($copying), "`] as a borrowing call: where nothing is replaced it needs no room and leaves the buffer alone.")]
        pub fn $borrowing<'a, T: ?Sized + Text>(context: Context, text: &'a T, output: &'a mut [u8]) -> Result<Written<'a>, Refusal> {
            let text = text.text_bytes();
            let answer = raw::$borrowing(context as u32, text, output);
            written(Some(raw::view(text, output, answer)), answer).unwrap_or_else(|| impossible())
        }
    };
}

operation! {
    /// Escapes the text for the context: every character that the context replaces is replaced, everything else is copied.
    ///
    /// ```
    /// use lintelrye::{encode, Context, Refusal};
    /// let mut line = [0; 16];
    /// assert_eq!(encode(Context::Text, "a<b", &mut line)?, "a&lt;b");
    /// assert_eq!(&line[..7], b"a&lt;b\0");
    /// assert_eq!(encode(Context::Text, "a<b", &mut line[..5]), Err(Refusal::NoRoom { needed: 6 }));
    /// # Ok::<(), lintelrye::Refusal>(())
    /// ```
    encode encode_borrowing
}

operation! {
    /// Undoes the replacements as html-escape does: character references such as `&amp;` in the HTML contexts, escapes such as `\x3C` in the
    /// strings. Everything else is copied, and what was decoded is not decoded again. A result can be longer than its text, by a fifth at most.
    ///
    /// ```
    /// use lintelrye::{decode, Context};
    /// let mut line = [0; 16];
    /// assert_eq!(decode(Context::Text, "&amp;lt;", &mut line)?, "&lt;");
    /// assert_eq!(decode(Context::ScriptSingle, r"it\'s", &mut line)?, "it's");
    /// # Ok::<(), lintelrye::Refusal>(())
    /// ```
    decode decode_borrowing
}

operation! {
    /// Undoes exactly what [`encode`] writes in the context, and refuses every other text. [`check`] tells beforehand, without a buffer.
    ///
    /// ```
    /// use lintelrye::{take, Context, Refusal};
    /// let mut line = [0; 16];
    /// assert_eq!(take(Context::TextMinimal, "a&lt;", &mut line)?, "a<");
    /// assert_eq!(take(Context::TextMinimal, "a&lt;&gt;", &mut line), Err(Refusal::NotAForm { place: 5 }));
    /// # Ok::<(), lintelrye::Refusal>(())
    /// ```
    take take_borrowing
}

/// Tells whether a text is one that [`encode`] writes in the context, without a buffer, and how long the text is that [`take`] gives. It refuses what
/// [`take`] refuses, in the same words; only where that gives [`Refusal::NoRoom`], it passes with the length needed.
///
/// ```
/// use lintelrye::{check, Context, Refusal};
/// assert_eq!(check(Context::TextMinimal, "a&lt;"), Ok(2));
/// assert_eq!(check(Context::TextMinimal, "a&lt;&gt;"), Err(Refusal::NotAForm { place: 5 }));
/// ```
pub fn check<T: ?Sized + Text>(context: Context, text: &T) -> Result<usize, Refusal> {
    let checked = raw::check(context as u32, text.text_bytes());
    match checked.status {
        raw::PASSED => Ok(checked.length as usize),
        status => Err(refusal(status, checked.length, checked.place)),
    }
}

operation! {
    /// Undoes character references as a browser does, by the HTML Standard, in the HTML contexts. The longest name counts, 106 names need no `;`,
    /// and any other byte ends a number. In the contexts of attributes a name without `;` stays before `=` or an ASCII letter or digit;
    /// [`Context::TextMinimal`], [`Context::Text`] and [`Context::Safe`] are text. The numbers 0, surrogates and those above 10FFFF hex give U+FFFD, and
    /// 27 from 80 to 9F hex the character that windows-1252 has there.
    ///
    /// ```
    /// use lintelrye::{browse, Context};
    /// let mut line = [0; 16];
    /// assert_eq!(browse(Context::Text, "&#0;", &mut line)?, "\u{FFFD}");
    /// assert_eq!(browse(Context::Text, "&#150;", &mut line)?, "\u{2013}");
    /// assert_eq!(browse(Context::Text, "&copy2019", &mut line)?, "\u{A9}2019");
    /// assert_eq!(browse(Context::DoubleQuoted, "&copy2019", &mut line)?, "&copy2019");
    /// # Ok::<(), lintelrye::Refusal>(())
    /// ```
    browse browse_borrowing
}

pub use raw::Field;

impl Field {
    /// Makes a field that asks for the context of its place and for a part of the text, and has no result yet.
    pub const fn new(context: Context, start: usize, length: usize) -> Field {
        let answer = Answer { status: raw::NOT_FILLED, length: 0, same: 0, replaced: 0, place: 0, left: 0, reason: 0 };
        Field { context: context as u32, start: start as u64, length: length as u64, begins: 0, answer }
    }

    /// Returns the field's result, in the output that the page was filled into, or its refusal. `None` if it has none there: no page was filled with it, or the page stopped
    /// before it, or this is another output.
    pub fn result<'a>(&self, output: &'a [u8]) -> Option<Result<Written<'a>, Refusal>> {
        let rest = if self.begins <= output.len() as u64 { output.get(self.begins as usize..) } else { None };
        written(rest.and_then(|rest| raw::front(rest, self.answer.length)), self.answer)
    }
}

/// Why a page was not filled: a field was refused, or the list is too long.
#[derive(Clone, Copy, Debug, PartialEq, Eq)]
pub struct Stopped {
    /// How many fields passed. The one with this index was refused, unless the list is longer than [`FIELD_LIMIT`].
    pub passed: usize,
    /// The refusal.
    pub refusal: Refusal,
}

impl fmt::Display for Stopped {
    fn fmt(&self, f: &mut fmt::Formatter<'_>) -> fmt::Result {
        write!(f, "the page stops at field {}: {}", self.passed, self.refusal)
    }
}

#[cfg(feature = "std")]
impl std::error::Error for Stopped {}

/// Fills a whole page: encodes the parts of one text that the fields name, in their order, each into the part of the output that is still free, as that many
/// calls of [`encode`] would. Two fields can name the same part, and [`TEXT_LIMIT`] is that of each part. [`Field::result`] gives each result.
///
/// The first refusal stops the page: that field holds it, the results before it stand, and later fields and the bytes past the last result stay as they
/// were. With more than [`FIELD_LIMIT`] fields nothing is touched.
///
/// ```
/// use lintelrye::{fill_page, Context, Field, Refusal, Stopped};
/// let text = "Mum & Dad's";
/// let mut fields = [Field::new(Context::DoubleQuoted, 0, 11), Field::new(Context::ScriptSingle, 6, 5)];
/// let mut page = [0; 32];
/// assert_eq!(fill_page(&mut fields, text, &mut page), Ok(()));
/// assert_eq!(fields[0].result(&page).unwrap()?, "Mum &amp; Dad's");
/// assert_eq!(fields[1].result(&page).unwrap()?, r"Dad\'s");
/// assert_eq!(&page[..21], br"Mum &amp; Dad'sDad\'s" as &[u8]);
///
/// let mut fields = [Field::new(Context::Text, 0, 3), Field::new(Context::Text, 6, 6)];
/// assert_eq!(fill_page(&mut fields, text, &mut page), Err(Stopped { passed: 1, refusal: Refusal::BadRange }));
/// # Ok::<(), Refusal>(())
/// ```
pub fn fill_page<T: ?Sized + Text>(fields: &mut [Field], text: &T, output: &mut [u8]) -> Result<(), Stopped> {
    let filled = raw::fill_page(fields, text.text_bytes(), output);
    let passed = filled.passed as usize;
    match filled.status {
        raw::PASSED if passed == fields.len() => Ok(()),
        raw::TOO_LONG if fields.len() > FIELD_LIMIT => Err(Stopped { passed, refusal: Refusal::TooLong }),
        status => match fields.get(passed).map(|field| field.answer) {
            Some(answer) if answer.status == status && status != raw::PASSED => {
                Err(Stopped { passed, refusal: refusal(status, answer.length, answer.place) })
            }
            _ => impossible(),
        },
    }
}

/// Returns where the text of a script element ends: at the `<` of the first end tag that a browser takes for the element's own, by the HTML Standard's script
/// data states; `None` if no tag in the text is. It takes the text after `<script>`, and no pages.
///
/// **`None` does not make a text safe to embed.** In `<!--<script>` there is no end tag, but it hides the `</script>` that you write after it. So do not
/// judge a supplier's text alone: judge it with `</script>` after it. It is right exactly if the place is the text's length.
///
/// ```
/// use lintelrye::closing_tag;
/// let right = |text: &str| closing_tag(&format!("{}</script>", text)) == Ok(Some(text.len()));
/// assert!(right("if (a < b) c();"));
/// assert!(!right("document.write('</script>')"));
/// assert_eq!(closing_tag("<!--<script>"), Ok(None));
/// assert!(!right("<!--<script>"));
/// ```
///
/// What [`encode`] writes in [`Context::ScriptRaw`] is always right, where the text with the tag has at most [`TEXT_LIMIT`] bytes.
pub fn closing_tag<T: ?Sized + Text>(text: &T) -> Result<Option<usize>, Refusal> {
    let closing = raw::closing_tag(text.text_bytes());
    match (closing.status, closing.found) {
        (raw::PASSED, 0) => Ok(None),
        (raw::PASSED, 1) => Ok(Some(closing.place as usize)),
        (raw::PASSED, _) => impossible(),
        (status, _) => Err(refusal(status, 0, closing.place)),
    }
}
