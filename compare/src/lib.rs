//! What the programs beside the crate share: the library's calls as its archive exports them, the crate's functions by context, what each
//! call is to answer, and a generator of numbers with a fixed seed.

pub mod ascii;
pub mod browser;
pub mod json;
pub mod model;
#[cfg(feature = "archive")]
pub mod nested;
pub mod options;
#[cfg(feature = "archive")]
pub mod parts;

use std::borrow::Cow;

/// The answer record, as include/lintelrye.h lays it out.
#[repr(C)]
#[derive(Clone, Copy, Debug, PartialEq, Eq)]
pub struct Answer {
    pub status: u64,
    pub length: u64,
    pub same: u64,
    pub replaced: u64,
    pub place: u64,
    pub left: u64,
    pub reason: u64,
}

/// What check answers, as include/lintelrye.h lays it out.
#[repr(C)]
#[derive(Clone, Copy, Debug, PartialEq, Eq)]
pub struct Checked {
    pub status: u64,
    pub length: u64,
    pub place: u64,
}

/// A call as the archive exports it: the C call of include/lintelrye.h.
#[cfg(feature = "archive")]
type Exported = unsafe extern "C" fn(u32, *const u8, usize, *mut u8, usize) -> Answer;

#[cfg(feature = "archive")]
macro_rules! exported {
    ($($name:ident)*) => {
        #[link(name = "lintelrye_c", kind = "static")]
        extern "C" {
            $(fn $name(c: u32, t: *const u8, n: usize, o: *mut u8, m: usize) -> Answer;)*
        }
    };
}

#[cfg(feature = "archive")]
exported! {
    lintelrye_encode_7 lintelrye_encode_borrowing_7 lintelrye_decode_7 lintelrye_decode_borrowing_7
    lintelrye_take_7 lintelrye_take_borrowing_7 lintelrye_browse_7 lintelrye_browse_borrowing_7
}

#[cfg(feature = "archive")]
#[link(name = "lintelrye_c", kind = "static")]
extern "C" {
    fn lintelrye_check(c: u32, t: *const u8, n: usize) -> Checked;
}

/// A record of a page, as include/lintelrye.h lays it out.
#[repr(C)]
#[derive(Clone, Copy, Debug, PartialEq, Eq)]
pub struct Field {
    pub context: u32,
    pub start: u64,
    pub length: u64,
    pub begins: u64,
    pub answer: Answer,
}

/// What the call on a page answers, as include/lintelrye.h lays it out.
#[repr(C)]
#[derive(Clone, Copy, Debug, PartialEq, Eq)]
pub struct Filled {
    pub status: u64,
    pub passed: u64,
}

#[cfg(feature = "archive")]
#[link(name = "lintelrye_c", kind = "static")]
extern "C" {
    fn lintelrye_fill_page_7(f: *mut Field, count: usize, t: *const u8, n: usize, o: *mut u8, m: usize) -> Filled;
}

/// Fills a page of records.
#[cfg(feature = "archive")]
#[inline]
pub fn fill_page(fields: &mut [Field], text: &[u8], output: &mut [u8]) -> Filled {
    // SAFETY: the three slices are valid for their lengths, and mutable borrows overlap no other.
    unsafe { lintelrye_fill_page_7(fields.as_mut_ptr(), fields.len(), text.as_ptr(), text.len(), output.as_mut_ptr(), output.len()) }
}

/// The answer about a script element's text, as include/lintelrye.h lays it out.
#[repr(C)]
#[derive(Clone, Copy, Debug, PartialEq, Eq)]
pub struct Closing {
    pub status: u64,
    pub found: u64,
    pub place: u64,
}

#[cfg(feature = "archive")]
#[link(name = "lintelrye_c", kind = "static")]
extern "C" {
    fn lintelrye_closing_tag(t: *const u8, n: usize) -> Closing;
}

/// Where the text of a script element ends.
#[cfg(feature = "archive")]
#[inline]
pub fn closing_tag(text: &[u8]) -> Closing {
    // SAFETY: the text is valid for its length.
    unsafe { lintelrye_closing_tag(text.as_ptr(), text.len()) }
}

/// The four operations. The calls of `Read` are named take.
#[derive(Clone, Copy, Debug, PartialEq, Eq)]
pub enum Operation {
    Encode,
    Decode,
    Read,
    Browse,
}

pub const OPERATIONS: [Operation; 4] = [Operation::Encode, Operation::Decode, Operation::Read, Operation::Browse];

/// The contexts by their numbers.
pub const CONTEXTS: [&str; 16] = [
    "text_minimal",
    "text",
    "double_quoted",
    "single_quoted",
    "quoted",
    "safe",
    "unquoted",
    "script_single",
    "script_double",
    "script_quoted",
    "style_single",
    "style_double",
    "style_quoted",
    "script_raw",
    "json",
    "ascii_quoted",
];

/// A call of the library, found once and made often.
#[cfg(feature = "archive")]
#[derive(Clone, Copy)]
pub struct Call(Exported);

#[cfg(feature = "archive")]
impl Call {
    pub fn find(operation: Operation, borrowing: bool) -> Call {
        Call(match (operation, borrowing) {
            (Operation::Encode, false) => lintelrye_encode_7,
            (Operation::Encode, true) => lintelrye_encode_borrowing_7,
            (Operation::Decode, false) => lintelrye_decode_7,
            (Operation::Decode, true) => lintelrye_decode_borrowing_7,
            (Operation::Read, false) => lintelrye_take_7,
            (Operation::Read, true) => lintelrye_take_borrowing_7,
            (Operation::Browse, false) => lintelrye_browse_7,
            (Operation::Browse, true) => lintelrye_browse_borrowing_7,
        })
    }

    #[inline]
    pub fn make(self, context: u32, text: &[u8], output: &mut [u8]) -> Answer {
        // SAFETY: both slices are valid for their lengths, and a borrowed text and a mutably borrowed output do not overlap.
        unsafe { (self.0)(context, text.as_ptr(), text.len(), output.as_mut_ptr(), output.len()) }
    }
}

/// The check of the library, which has no output.
#[cfg(feature = "archive")]
#[inline]
pub fn check(context: u32, text: &[u8]) -> Checked {
    // SAFETY: the text is valid for its length.
    unsafe { lintelrye_check(context, text.as_ptr(), text.len()) }
}

/// One call of the library, copying or borrowing.
#[cfg(feature = "archive")]
pub fn call(operation: Operation, borrowing: bool, context: u32, text: &[u8], output: &mut [u8]) -> Answer {
    Call::find(operation, borrowing).make(context, text, output)
}

/// A function of the crate that appends its result to a vector.
pub type ToVec = for<'a> fn(&str, &'a mut Vec<u8>) -> &'a [u8];

macro_rules! to_vec {
    ($name:ident) => {
        |text, output| html_escape::$name(text, output)
    };
}

/// The crate's encoders, in the order of the contexts; json and ascii_quoted have none.
pub const CRATE_ENCODERS: [ToVec; 14] = [
    to_vec!(encode_text_minimal_to_vec),
    to_vec!(encode_text_to_vec),
    to_vec!(encode_double_quoted_attribute_to_vec),
    to_vec!(encode_single_quoted_attribute_to_vec),
    to_vec!(encode_quoted_attribute_to_vec),
    to_vec!(encode_safe_to_vec),
    to_vec!(encode_unquoted_attribute_to_vec),
    to_vec!(encode_script_single_quoted_text_to_vec),
    to_vec!(encode_script_double_quoted_text_to_vec),
    to_vec!(encode_script_quoted_text_to_vec),
    to_vec!(encode_style_single_quoted_text_to_vec),
    to_vec!(encode_style_double_quoted_text_to_vec),
    to_vec!(encode_style_quoted_text_to_vec),
    to_vec!(encode_script_to_vec),
];

/// The crate's decoders, in the order of the contexts; script_raw, json and ascii_quoted have none.
pub const CRATE_DECODERS: [ToVec; 13] = [
    to_vec!(decode_html_entities_to_vec),
    to_vec!(decode_html_entities_to_vec),
    to_vec!(decode_html_entities_to_vec),
    to_vec!(decode_html_entities_to_vec),
    to_vec!(decode_html_entities_to_vec),
    to_vec!(decode_html_entities_to_vec),
    to_vec!(decode_html_entities_to_vec),
    to_vec!(decode_script_single_quoted_text_to_vec),
    to_vec!(decode_script_double_quoted_text_to_vec),
    to_vec!(decode_script_quoted_text_to_vec),
    to_vec!(decode_style_single_quoted_text_to_vec),
    to_vec!(decode_style_double_quoted_text_to_vec),
    to_vec!(decode_style_quoted_text_to_vec),
];

/// A function of the crate that lends its text where nothing is replaced.
pub type ToCow = for<'a> fn(&'a str) -> Cow<'a, str>;

macro_rules! to_cow {
    ($name:ident) => {
        |text| html_escape::$name(text)
    };
}

/// The crate's lending encoders, in the order of the contexts; json and ascii_quoted have none.
pub const CRATE_LENDING_ENCODERS: [ToCow; 14] = [
    to_cow!(encode_text_minimal),
    to_cow!(encode_text),
    to_cow!(encode_double_quoted_attribute),
    to_cow!(encode_single_quoted_attribute),
    to_cow!(encode_quoted_attribute),
    to_cow!(encode_safe),
    to_cow!(encode_unquoted_attribute),
    to_cow!(encode_script_single_quoted_text),
    to_cow!(encode_script_double_quoted_text),
    to_cow!(encode_script_quoted_text),
    to_cow!(encode_style_single_quoted_text),
    to_cow!(encode_style_double_quoted_text),
    to_cow!(encode_style_quoted_text),
    to_cow!(encode_script),
];

/// The lending encoder of a context that ours is compared with: the crate's, and those of json.rs and ascii.rs in the two that the crate has not.
pub fn lending_encoder(context: u32) -> ToCow {
    CRATE_LENDING_ENCODERS.get(context as usize).copied().unwrap_or(if context == 14 { json::encode } else { ascii::encode })
}

/// The crate's lending decoders, in the order of the contexts; script_raw, json and ascii_quoted have none.
pub const CRATE_LENDING_DECODERS: [ToCow; 13] = [
    to_cow!(decode_html_entities),
    to_cow!(decode_html_entities),
    to_cow!(decode_html_entities),
    to_cow!(decode_html_entities),
    to_cow!(decode_html_entities),
    to_cow!(decode_html_entities),
    to_cow!(decode_html_entities),
    to_cow!(decode_script_single_quoted_text),
    to_cow!(decode_script_double_quoted_text),
    to_cow!(decode_script_quoted_text),
    to_cow!(decode_style_single_quoted_text),
    to_cow!(decode_style_double_quoted_text),
    to_cow!(decode_style_quoted_text),
];

/// Numbers that look random and are the same in every run (splitmix64).
pub struct Numbers(pub u64);

impl Numbers {
    pub fn next(&mut self) -> u64 {
        self.0 = self.0.wrapping_add(0x9E37_79B9_7F4A_7C15);
        let mut z = self.0;
        z = (z ^ (z >> 30)).wrapping_mul(0xBF58_476D_1CE4_E5B9);
        z = (z ^ (z >> 27)).wrapping_mul(0x94D0_49BB_1331_11EB);
        z ^ (z >> 31)
    }

    /// A number below a bound that is not 0.
    pub fn below(&mut self, bound: usize) -> usize {
        (self.next() % bound as u64) as usize
    }

    /// One of the given values.
    pub fn one_of<'a, T>(&mut self, values: &'a [T]) -> &'a T {
        &values[self.below(values.len())]
    }
}
