//! The calls as the archive exports them: they take any context number and return the seven numbers of the answer, or the three of a check, or fill the
//! fields of a page. The other calls of this crate are made of these.

/// The answer of a call, as include/lintelrye.h lays it out.
#[repr(C)]
#[derive(Clone, Copy, Debug, PartialEq, Eq)]
pub struct Answer {
    /// [`PASSED`], or the refusal.
    pub status: u64,
    /// The result's length; after [`NO_ROOM`] the length needed; after any other refusal 0.
    pub length: u64,
    /// 1 exactly if nothing was replaced, so that the result is the text; after a refusal 0.
    pub same: u64,
    /// How many places were replaced: characters by encode and take, references or escapes by decode and browse; after a refusal 0.
    pub replaced: u64,
    /// After [`NOT_UTF8`], [`CUT_SHORT`], [`NOT_A_FORM`] and [`LONE_SURROGATE`] the length of the longest correct prefix; otherwise 0.
    pub place: u64,
    /// decode in the HTML contexts: the place of the `&` of the first reference that stayed; 0 if none did, and after a refusal.
    pub left: u64,
    /// Why it stayed, 1 to 5, see [`Reason`](crate::Reason); 0 if none did, in every other call, and after a refusal.
    pub reason: u64,
}

/// The answer of [`check`], as include/lintelrye.h lays it out.
#[repr(C)]
#[derive(Clone, Copy, Debug, PartialEq, Eq)]
pub struct Checked {
    /// [`PASSED`], or the refusal; never [`NO_ROOM`].
    pub status: u64,
    /// The length of what [`take`] gives; after a refusal 0.
    pub length: u64,
    /// After [`NOT_UTF8`], [`CUT_SHORT`] and [`NOT_A_FORM`] the length of the longest correct prefix; otherwise 0.
    pub place: u64,
}

/// A field of a page, as include/lintelrye.h lays it out: the context and the part of the text that it asks for, and what [`fill_page`] tells of it.
/// [`Field::new`](crate::Field::new) makes one, [`Field::result`](crate::Field::result) gives its result.
#[repr(C)]
#[derive(Clone, Copy, Debug, PartialEq, Eq)]
pub struct Field {
    /// The number of the context.
    pub context: u32,
    /// Where the field's part of the text begins.
    pub start: u64,
    /// How many bytes it has.
    pub length: u64,
    /// Where the result begins in the output; after a refusal 0.
    pub begins: u64,
    /// The answer of [`encode`] for the part, or [`BAD_RANGE`].
    pub answer: Answer,
}

/// What [`fill_page`] answers, as include/lintelrye.h lays it out.
#[repr(C)]
#[derive(Clone, Copy, Debug, PartialEq, Eq)]
pub struct Filled {
    /// [`PASSED`], or the refusal of the field that stopped the page, or [`TOO_LONG`] for a list that is too long.
    pub status: u64,
    /// How many fields passed; the refused one has this index.
    pub passed: u64,
}

/// The answer about a script element's text, as include/lintelrye.h lays it out.
#[repr(C)]
#[derive(Clone, Copy, Debug, PartialEq, Eq)]
pub struct Closing {
    /// [`PASSED`], or [`TOO_LONG`], [`NOT_UTF8`] or [`CUT_SHORT`].
    pub status: u64,
    /// 1 if an end tag in the text ends the element; 0 if none does, and after a refusal.
    pub found: u64,
    /// Where that tag's `<` is; after [`NOT_UTF8`] and [`CUT_SHORT`] the length of the longest valid prefix; otherwise 0.
    pub place: u64,
}

/// The call passed.
pub const PASSED: u64 = 0;
/// The text is longer than [`TEXT_LIMIT`](crate::TEXT_LIMIT).
pub const TOO_LONG: u64 = 1;
/// The text is not valid UTF-8, and not cut short.
pub const NOT_UTF8: u64 = 2;
/// The output is shorter than the result.
pub const NO_ROOM: u64 = 3;
/// `check` and `take`: encode writes no such text; `decode` of JSON: RFC 8259 allows no such string.
pub const NOT_A_FORM: u64 = 4;
/// The operation has no such context.
pub const BAD_CONTEXT: u64 = 5;
/// The text ends within a character that more bytes could complete, and is valid up to there.
pub const CUT_SHORT: u64 = 7;
/// A field of a page only: the part that it names leaves the text.
pub const BAD_RANGE: u64 = 8;
/// The calls for parts only: a finish has passed.
pub const FINISHED: u64 = 9;
/// `decode` of JSON only: half a surrogate pair stands alone.
pub const LONE_SURROGATE: u64 = 10;
/// No status of a call: what a field holds that no call has filled yet.
pub const NOT_FILLED: u64 = u64::MAX;

// The archive's names end in how many numbers an answer has: with an archive of another record the crate does not link.
macro_rules! exported {
    ($($name:ident is $symbol:ident: $does:literal;)*) => {
        #[link(name = "lintelrye_c", kind = "static")]
        extern "C" {
            $(fn $symbol(context: u32, text: *const u8, text_length: usize, output: *mut u8, output_length: usize) -> Answer;)*
        }
        $(
            #[doc = $does]
            pub fn $name(context: u32, text: &[u8], output: &mut [u8]) -> Answer {
                // SAFETY: the text can be read, and the output read and written, for their lengths, and a mutable borrow overlaps no other borrow.
                // That is all that the call requires.
                unsafe { $symbol(context, text.as_ptr(), text.len(), output.as_mut_ptr(), output.len()) }
            }
        )*
    };
}

exported! {
    encode is lintelrye_encode_7: "`lintelrye_encode`, see [`crate::encode`].";
    encode_borrowing is lintelrye_encode_borrowing_7: "`lintelrye_encode_borrowing`, see [`crate::encode_borrowing`].";
    decode is lintelrye_decode_7: "`lintelrye_decode`, see [`crate::decode`].";
    decode_borrowing is lintelrye_decode_borrowing_7: "`lintelrye_decode_borrowing`, see [`crate::decode_borrowing`].";
    take is lintelrye_take_7: "`lintelrye_take`, see [`crate::take`].";
    take_borrowing is lintelrye_take_borrowing_7: "`lintelrye_take_borrowing`, see [`crate::take_borrowing`].";
    browse is lintelrye_browse_7: "`lintelrye_browse`, see [`crate::browse`].";
    browse_borrowing is lintelrye_browse_borrowing_7: "`lintelrye_browse_borrowing`, see [`crate::browse_borrowing`].";
}

#[link(name = "lintelrye_c", kind = "static")]
extern "C" {
    fn lintelrye_check(context: u32, text: *const u8, text_length: usize) -> Checked;
}

/// Makes the call `lintelrye_check`, see [`crate::check`].
pub fn check(context: u32, text: &[u8]) -> Checked {
    // SAFETY: the text can be read for its length. That is all that the call requires.
    unsafe { lintelrye_check(context, text.as_ptr(), text.len()) }
}

#[link(name = "lintelrye_c", kind = "static")]
extern "C" {
    fn lintelrye_fill_page_7(fields: *mut Field, count: usize, text: *const u8, text_length: usize, output: *mut u8, output_length: usize) -> Filled;
}

/// Makes the call `lintelrye_fill_page`, see [`crate::fill_page`].
pub fn fill_page(fields: &mut [Field], text: &[u8], output: &mut [u8]) -> Filled {
    // SAFETY: the text can be read, and the fields and the output read and written, for their lengths, and a mutable borrow overlaps no other borrow. Every
    // number is a value of each field's type. That is all that the call requires.
    unsafe { lintelrye_fill_page_7(fields.as_mut_ptr(), fields.len(), text.as_ptr(), text.len(), output.as_mut_ptr(), output.len()) }
}

#[link(name = "lintelrye_c", kind = "static")]
extern "C" {
    fn lintelrye_closing_tag(text: *const u8, text_length: usize) -> Closing;
}

/// Makes the call `lintelrye_closing_tag`, see [`crate::closing_tag`].
pub fn closing_tag(text: &[u8]) -> Closing {
    // SAFETY: the text can be read for its length, which is all that the call requires.
    unsafe { lintelrye_closing_tag(text.as_ptr(), text.len()) }
}

/// A state of a raw script by parts, as include/lintelrye.h lays it out: all zeros is a started state, and every value is one.
#[repr(C)]
#[derive(Clone, Copy, Debug, Default, PartialEq, Eq)]
pub struct ScriptRaw {
    /// What is held, and the numbers of the state.
    pub opaque: [u64; 4],
}

// The state goes as two arrays: the eight bytes of the first number, and the other three.
#[link(name = "lintelrye_c", kind = "static")]
extern "C" {
    fn lintelrye_script_raw_part_7(
        held: *mut u8,
        numbers: *mut u64,
        text: *const u8,
        text_length: usize,
        output: *mut u8,
        output_length: usize,
    ) -> Answer;
    fn lintelrye_script_raw_finish_7(held: *mut u8, numbers: *mut u64, output: *mut u8, output_length: usize) -> Answer;
}

impl ScriptRaw {
    fn arrays(&mut self) -> (*mut u8, *mut u64) {
        let (held, numbers) = self.opaque.split_at_mut(1);
        (held.as_mut_ptr() as *mut u8, numbers.as_mut_ptr())
    }

    /// Makes the call `lintelrye_script_raw_part`, see [`crate::ScriptEncoder::part`].
    pub fn part(&mut self, text: &[u8], output: &mut [u8]) -> Answer {
        let (held, numbers) = self.arrays();
        // SAFETY: eight bytes and three numbers of the state can be read and written, as can the output, the text can be read, for their lengths, and mutable
        // borrows overlap no other borrow. That is all that the call requires.
        unsafe { lintelrye_script_raw_part_7(held, numbers, text.as_ptr(), text.len(), output.as_mut_ptr(), output.len()) }
    }

    /// Makes the call `lintelrye_script_raw_finish`, see [`crate::ScriptEncoder::finish`].
    pub fn finish(&mut self, output: &mut [u8]) -> Answer {
        let (held, numbers) = self.arrays();
        // SAFETY: as above, without a text.
        unsafe { lintelrye_script_raw_finish_7(held, numbers, output.as_mut_ptr(), output.len()) }
    }
}

/// Returns the result of a call: the whole text where `same` is 1, otherwise the first `length` bytes of the output, or none where the output is shorter.
///
/// ```
/// use lintelrye::raw;
/// let mut line = [0; 8];
/// let answer = raw::encode_borrowing(1, b"a<b", &mut line);
/// assert_eq!(raw::view(b"a<b", &line, answer), b"a&lt;b");
/// ```
pub fn view<'a>(text: &'a [u8], output: &'a [u8], answer: Answer) -> &'a [u8] {
    if answer.same == 1 {
        return text;
    }
    front(output, answer.length).unwrap_or(&[])
}

/// Returns the first bytes of a slice, if it has so many.
pub(crate) fn front(output: &[u8], length: u64) -> Option<&[u8]> {
    if length <= output.len() as u64 {
        output.get(..length as usize)
    } else {
        None
    }
}
