//! The sixteen contexts, by variant, number and name.
use core::{fmt, str};

/// Where on the page the result goes. Escaping depends on it; the crate's front page has a table.
#[derive(Clone, Copy, Debug, PartialEq, Eq, Hash)]
#[repr(u32)]
pub enum Context {
    /// Between tags, not in script or style elements: `&` and `<` are replaced.
    TextMinimal = 0,
    /// Between tags, not in script or style elements: `&`, `<` and `>` are replaced.
    Text = 1,
    /// In an attribute between double quotes.
    DoubleQuoted = 2,
    /// In an attribute between single quotes.
    SingleQuoted = 3,
    /// In an attribute between quotes of either kind.
    Quoted = 4,
    /// As `Quoted`, and `/` is replaced. It is no sanitizer: it is right between tags and in attributes with quotes, and nowhere else.
    Safe = 5,
    /// In an attribute without quotes; an empty text needs quotes.
    Unquoted = 6,
    /// In a string of a script element, between single quotes.
    ScriptSingle = 7,
    /// In a string of a script element, between double quotes.
    ScriptDouble = 8,
    /// In a string of a script element, between quotes of either kind.
    ScriptQuoted = 9,
    /// In a string of a style element, between single quotes; a NUL becomes U+FFFD.
    StyleSingle = 10,
    /// In a string of a style element, between double quotes; a NUL becomes U+FFFD.
    StyleDouble = 11,
    /// In a string of a style element, between quotes of either kind; a NUL becomes U+FFFD.
    StyleQuoted = 12,
    /// The whole text of a script element, in one call; [`encode`](crate::encode) only. It is no JSON encoder.
    ScriptRaw = 13,
    /// In a JSON string, inside a script element or in a JSON document; not in an attribute.
    Json = 14,
    /// As `Quoted`, and every character above U+007F as a reference, so that the result is ASCII: by name where HTML has one for that character alone (the
    /// shortest; of several as short the first by bytes: `&COPY;`, `&mldr;`, `&half;`), else by number. [`ascii_encoded_at_most`](crate::ascii_encoded_at_most)
    /// tells how long it gets.
    AsciiQuoted = 15,
}

impl Context {
    /// All contexts, in the order of their numbers.
    pub const ALL: [Context; 16] = [
        Context::TextMinimal,
        Context::Text,
        Context::DoubleQuoted,
        Context::SingleQuoted,
        Context::Quoted,
        Context::Safe,
        Context::Unquoted,
        Context::ScriptSingle,
        Context::ScriptDouble,
        Context::ScriptQuoted,
        Context::StyleSingle,
        Context::StyleDouble,
        Context::StyleQuoted,
        Context::ScriptRaw,
        Context::Json,
        Context::AsciiQuoted,
    ];

    /// Returns the context's name, as docs/RULES.md has it and as the program `entity` reads it.
    ///
    /// ```
    /// use lintelrye::Context;
    /// assert_eq!(Context::DoubleQuoted.name(), "double_quoted");
    /// assert_eq!("double_quoted".parse(), Ok(Context::DoubleQuoted));
    /// assert_eq!(Context::DoubleQuoted.to_string(), "double_quoted");
    /// assert_eq!(Context::try_from(2), Ok(Context::DoubleQuoted));
    /// assert_eq!(u32::from(Context::DoubleQuoted), 2);
    /// ```
    pub const fn name(self) -> &'static str {
        match self {
            Context::TextMinimal => "text_minimal",
            Context::Text => "text",
            Context::DoubleQuoted => "double_quoted",
            Context::SingleQuoted => "single_quoted",
            Context::Quoted => "quoted",
            Context::Safe => "safe",
            Context::Unquoted => "unquoted",
            Context::ScriptSingle => "script_single",
            Context::ScriptDouble => "script_double",
            Context::ScriptQuoted => "script_quoted",
            Context::StyleSingle => "style_single",
            Context::StyleDouble => "style_double",
            Context::StyleQuoted => "style_quoted",
            Context::ScriptRaw => "script_raw",
            Context::Json => "json",
            Context::AsciiQuoted => "ascii_quoted",
        }
    }
}

/// The error of a number or a name that is no context's.
#[derive(Clone, Copy, Debug, PartialEq, Eq)]
pub struct UnknownContext;

impl fmt::Display for UnknownContext {
    fn fmt(&self, f: &mut fmt::Formatter<'_>) -> fmt::Result {
        f.pad("there is no such context")
    }
}

#[cfg(feature = "std")]
impl std::error::Error for UnknownContext {}

impl fmt::Display for Context {
    /// Writes the context's [name](Context::name).
    fn fmt(&self, f: &mut fmt::Formatter<'_>) -> fmt::Result {
        f.pad(self.name())
    }
}

impl From<Context> for u32 {
    /// Returns the context's number.
    fn from(context: Context) -> u32 {
        context as u32
    }
}

impl TryFrom<u32> for Context {
    type Error = UnknownContext;

    /// Returns the context of a number, 0 to 15.
    fn try_from(number: u32) -> Result<Context, UnknownContext> {
        Context::ALL.iter().copied().find(|context| *context as u32 == number).ok_or(UnknownContext)
    }
}

impl str::FromStr for Context {
    type Err = UnknownContext;

    /// Returns the context of a [name](Context::name); letter case counts.
    fn from_str(name: &str) -> Result<Context, UnknownContext> {
        Context::ALL.iter().copied().find(|context| context.name() == name).ok_or(UnknownContext)
    }
}
