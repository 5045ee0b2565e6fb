//! What can be given to a call as a text, and what a result can be compared with and turned into.
use crate::Written;

#[cfg(feature = "alloc")]
use alloc::{
    borrow::{Cow, ToOwned},
    boxed::Box,
    rc::Rc,
    string::String,
    sync::Arc,
    vec::Vec,
};

/// What a call takes as its text: strings and bytes, in whatever they are held. The library checks UTF-8 itself.
///
/// With the feature `alloc`, which is on by default, `String`, `Vec`, `Cow`, `Box`, `Rc` and `Arc` are texts too, as html-escape takes them.
///
/// ```
/// # #[cfg(feature = "alloc")]
/// # fn main() -> Result<(), lintelrye::Refusal> {
/// use std::{borrow::Cow, rc::Rc};
/// let mut line = [0; 64];
/// assert_eq!(lintelrye::encode_text(&Cow::Borrowed("a<b"), &mut line)?, "a&lt;b");
/// assert_eq!(lintelrye::encode_text(&Rc::<str>::from("a<b"), &mut line)?, "a&lt;b");
/// assert_eq!(lintelrye::encode_text(&String::from("a<b"), &mut line)?, "a&lt;b");
/// assert_eq!(lintelrye::encode_text(b"a<b", &mut line)?, "a&lt;b");
/// # Ok(())
/// # }
/// # #[cfg(not(feature = "alloc"))]
/// # fn main() {}
/// ```
pub trait Text {
    /// Returns the text's bytes.
    fn text_bytes(&self) -> &[u8];
}

impl Text for [u8] {
    fn text_bytes(&self) -> &[u8] {
        self
    }
}

impl Text for str {
    fn text_bytes(&self) -> &[u8] {
        self.as_bytes()
    }
}

impl<const N: usize> Text for [u8; N] {
    fn text_bytes(&self) -> &[u8] {
        self
    }
}

impl Text for Written<'_> {
    fn text_bytes(&self) -> &[u8] {
        self.as_str().as_bytes()
    }
}

/// A text behind something that points to it.
macro_rules! pointers {
    ($($(#[$feature:meta])? impl<$($given:ident)?> for $pointer:ty where [$($bounds:tt)*];)*) => {$(
        $(#[$feature])?
        impl<$($given)?> Text for $pointer
        where
            $($bounds)*
        {
            fn text_bytes(&self) -> &[u8] {
                (**self).text_bytes()
            }
        }
    )*};
}

pointers! {
    impl<T> for &T where [T: ?Sized + Text];
    impl<T> for &mut T where [T: ?Sized + Text];
    #[cfg(feature = "alloc")] impl<> for String where [];
    #[cfg(feature = "alloc")] impl<> for Vec<u8> where [];
    #[cfg(feature = "alloc")] impl<T> for Cow<'_, T> where [T: ?Sized + ToOwned + Text];
    #[cfg(feature = "alloc")] impl<T> for Box<T> where [T: ?Sized + Text];
    #[cfg(feature = "alloc")] impl<T> for Rc<T> where [T: ?Sized + Text];
    #[cfg(feature = "alloc")] impl<T> for Arc<T> where [T: ?Sized + Text];
}

/// A result and a string can be compared, either first.
macro_rules! comparable {
    ($($(#[$feature:meta])? $string:ty;)*) => {$(
        $(#[$feature])?
        impl PartialEq<$string> for Written<'_> {
            fn eq(&self, other: &$string) -> bool {
                self.as_str() == AsRef::<str>::as_ref(other)
            }
        }

        $(#[$feature])?
        impl PartialEq<Written<'_>> for $string {
            fn eq(&self, other: &Written<'_>) -> bool {
                other == self
            }
        }
    )*};
}

comparable! {
    str;
    &str;
    #[cfg(feature = "alloc")] String;
    #[cfg(feature = "alloc")] Cow<'_, str>;
}

impl<'a> From<Written<'a>> for &'a str {
    fn from(written: Written<'a>) -> &'a str {
        written.as_str()
    }
}

impl<'a> From<Written<'a>> for &'a [u8] {
    fn from(written: Written<'a>) -> &'a [u8] {
        written.as_str().as_bytes()
    }
}

#[cfg(feature = "alloc")]
impl From<Written<'_>> for String {
    fn from(written: Written<'_>) -> String {
        written.as_str().to_owned()
    }
}

#[cfg(feature = "alloc")]
impl<'a> From<Written<'a>> for Cow<'a, str> {
    fn from(written: Written<'a>) -> Cow<'a, str> {
        Cow::Borrowed(written.as_str())
    }
}
