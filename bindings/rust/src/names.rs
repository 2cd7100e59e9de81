//! Names that the library tells.

use crate::raw;
use std::fmt;
use std::ops::Deref;

/// The name of a fault, as the programs print it. It reads as a `str`.
///
/// ```
/// use npss::{OpenError, Tables};
///
/// match Tables::open(b"0041;x\n", b"") {
///     Err(OpenError::File { name, .. }) => assert_eq!(name, "FieldCount"),
///     other => panic!("{other:?}"),
/// }
/// ```
#[derive(Clone, Copy, PartialEq, Eq)]
pub struct Name {
    padded: raw::Name,
}

impl Name {
    /// The name of the fault that an answer tells.
    pub(crate) fn of_fault(status: u32, fault: u32) -> Name {
        // SAFETY: the call takes numbers alone.
        let padded = unsafe { raw::npss_fault_name(status, fault) };
        Name { padded }
    }
}

impl Deref for Name {
    type Target = str;

    fn deref(&self) -> &str {
        let text = &self.padded.text;
        let end = text.iter().position(|byte| *byte == 0);
        std::str::from_utf8(&text[..end.unwrap_or(text.len())]).unwrap_or("")
    }
}

impl PartialEq<str> for Name {
    fn eq(&self, other: &str) -> bool {
        **self == *other
    }
}

impl PartialEq<&str> for Name {
    fn eq(&self, other: &&str) -> bool {
        **self == **other
    }
}

impl fmt::Display for Name {
    fn fmt(&self, f: &mut fmt::Formatter<'_>) -> fmt::Result {
        f.pad(self)
    }
}

impl fmt::Debug for Name {
    fn fmt(&self, f: &mut fmt::Formatter<'_>) -> fmt::Result {
        fmt::Debug::fmt(&**self, f)
    }
}
