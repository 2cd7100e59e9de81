//! What calls take and answer.

use std::error::Error;
use std::fmt;
use std::str::FromStr;

/// A normalization form.
#[derive(Clone, Copy, Debug, PartialEq, Eq)]
pub enum Form {
    /// Canonical decomposition.
    Nfd,
    /// Canonical decomposition, then canonical composition.
    Nfc,
    /// Compatibility decomposition.
    Nfkd,
    /// Compatibility decomposition, then canonical composition.
    Nfkc,
}

/// The forms by their names.
const NAMES: [(&str, Form); 4] = [
    ("nfd", Form::Nfd),
    ("nfc", Form::Nfc),
    ("nfkd", Form::Nfkd),
    ("nfkc", Form::Nfkc),
];

/// The name in small letters, as the programs have it.
impl fmt::Display for Form {
    fn fmt(&self, f: &mut fmt::Formatter<'_>) -> fmt::Result {
        f.pad(match self {
            Form::Nfd => "nfd",
            Form::Nfc => "nfc",
            Form::Nfkd => "nfkd",
            Form::Nfkc => "nfkc",
        })
    }
}

/// A word that is the name of no form.
#[derive(Clone, Copy, Debug, PartialEq, Eq)]
pub struct NoForm;

impl fmt::Display for NoForm {
    fn fmt(&self, f: &mut fmt::Formatter<'_>) -> fmt::Result {
        f.write_str("a form is nfc, nfd, nfkc or nfkd")
    }
}

impl Error for NoForm {}

/// The form of a name, in small letters or capitals.
///
/// ```
/// # use npss::{Form, NoForm};
/// assert_eq!("NFKC".parse(), Ok(Form::Nfkc));
/// assert_eq!("nfx".parse::<Form>(), Err(NoForm));
/// assert_eq!(Form::Nfkc.to_string(), "nfkc");
/// ```
impl FromStr for Form {
    type Err = NoForm;

    fn from_str(name: &str) -> Result<Form, NoForm> {
        let found = NAMES.iter().find(|(one, _)| one.eq_ignore_ascii_case(name));
        found.map(|(_, form)| *form).ok_or(NoForm)
    }
}

impl Form {
    pub(crate) fn letter(self) -> u8 {
        match self {
            Form::Nfd => b'D',
            Form::Nfc => b'C',
            Form::Nfkd => b'd',
            Form::Nfkc => b'c',
        }
    }
}

/// What ends a line, and its answer.
#[derive(Clone, Copy, Debug, PartialEq, Eq)]
pub enum LineEnd {
    /// LF. A CR before it is part of the line.
    Lf,
    /// NUL.
    Nul,
}

impl LineEnd {
    pub(crate) fn byte(self) -> u8 {
        match self {
            LineEnd::Lf => b'\n',
            LineEnd::Nul => 0,
        }
    }
}

/// The answers to the lines of some bytes.
#[derive(Clone, Debug, PartialEq, Eq)]
pub struct Answers {
    /// The answers in the order of the lines, each with the byte that ends it.
    pub bytes: Vec<u8>,
    /// Whether a line was refused.
    pub any_refused: bool,
}

/// A kind of break. A code point that has several is told with the first in this order.
#[derive(Clone, Copy, Debug, PartialEq, Eq)]
#[non_exhaustive]
pub enum BreakKind {
    /// Assigned in the older version, not in the newer one.
    Lost,
    /// Assigned in both, with unlike combining classes.
    ClassChanged,
    /// Assigned in both, with unlike mappings.
    MappingChanged,
    /// A primary composite of the older version, not of the newer one.
    NowExcluded,
    /// A primary composite of the newer version alone, assigned in both, of parts that the older one assigns.
    NowIncluded,
    /// A primary composite of the newer version that the older one does not assign, of parts that it does.
    NewComposite,
    /// Of versions with their foldings: assigned in both, with unlike foldings.
    FoldingChanged,
}

/// What a newer version breaks of an older one, at a code point.
#[derive(Clone, Copy, Debug, PartialEq, Eq)]
pub struct Break {
    /// The kind of break.
    pub kind: BreakKind,
    /// The code point.
    pub code: u32,
}

/// A code point of a text that the version does not assign.
#[derive(Clone, Copy, Debug, PartialEq, Eq)]
pub struct Unassigned {
    /// Its byte place, from 0.
    pub at: u64,
    /// The code point.
    pub code: char,
}

/// The kind of mapping of a code point.
#[derive(Clone, Copy, Debug, PartialEq, Eq)]
pub enum Mapping {
    /// It counts for all four forms.
    Canonical,
    /// It counts for NFKD and NFKC.
    Compatibility,
}

/// What a version says of a code point that it assigns.
#[derive(Clone, Copy, Debug, PartialEq, Eq)]
pub struct Property {
    /// Its combining class; 0 is a starter.
    pub combining_class: u8,
    /// The kind of its mapping. A syllable of the Hangul arithmetic has a canonical one.
    pub mapping: Option<Mapping>,
    /// Whether it is excluded from composition.
    pub excluded: bool,
}
