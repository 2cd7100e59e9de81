//! Why a call has no answer.

use crate::names::Name;
use crate::raw::{self, Answer};
use crate::values::Break;
use std::error::Error;
use std::fmt;
use std::io;

/// What is said of tables that were opened without CaseFolding.txt.
const NO_FOLDING: &str = "the tables were opened without CaseFolding.txt";

/// Which of the files of a version.
#[derive(Clone, Copy, Debug, PartialEq, Eq)]
#[non_exhaustive]
pub enum File {
    /// UnicodeData.txt.
    Data,
    /// CompositionExclusions.txt.
    Exclusions,
    /// CaseFolding.txt.
    Folding,
}

impl fmt::Display for File {
    fn fmt(&self, f: &mut fmt::Formatter<'_>) -> fmt::Result {
        f.write_str(match self {
            File::Data => "data",
            File::Exclusions => "exclusions",
            File::Folding => "folding",
        })
    }
}

/// Why the files make no version. The names of faults are those of `docs/FORMATS.md`.
#[derive(Clone, Copy, Debug, PartialEq, Eq)]
#[non_exhaustive]
pub enum OpenError {
    /// A file has a fault at a line, which counts from 1.
    File {
        /// The file.
        file: File,
        /// The line.
        line: u64,
        /// The name of the fault, like `BadClass`.
        name: Name,
    },
    /// A file has more than 16,777,216 bytes.
    TooLarge {
        /// The file.
        file: File,
    },
    /// The tables that the first two files make have a fault at a code point.
    Tables {
        /// The code point.
        code: u32,
        /// The name of the fault, like `TooDeep`.
        name: Name,
    },
    /// The version has a fault with the foldings of the third file at a code point, as where they are of two versions.
    Foldings {
        /// The code point.
        code: u32,
        /// The name of the fault, like `NotFolded`.
        name: Name,
    },
    /// Memory ran out.
    Memory,
}

impl fmt::Display for OpenError {
    fn fmt(&self, f: &mut fmt::Formatter<'_>) -> fmt::Result {
        match self {
            OpenError::File { file, line, name } => write!(f, "{file}: line {line}: {name}"),
            OpenError::TooLarge { file } => write!(f, "{file}: TooLarge"),
            OpenError::Tables { code, name } => write!(f, "tables: {name} {code:04X}"),
            OpenError::Foldings { code, name } => write!(f, "folding: {name} {code:04X}"),
            OpenError::Memory => f.write_str("out of memory"),
        }
    }
}

impl Error for OpenError {}

/// Why a text has no key.
#[derive(Clone, Copy, Debug, PartialEq, Eq)]
#[non_exhaustive]
pub enum KeyError {
    /// The version does not assign a code point of the text.
    Unassigned {
        /// The byte place, from 0, of the first such code point.
        at: usize,
        /// That code point.
        code: char,
    },
    /// Of a caseless key: the tables were opened without CaseFolding.txt.
    NoFolding,
    /// Memory ran out.
    Memory,
}

impl KeyError {
    /// What the library's answer tells.
    pub(crate) fn of(a: Answer) -> KeyError {
        match (a.status, char::from_u32(a.code)) {
            (raw::UNASSIGNED, Some(code)) => KeyError::Unassigned {
                at: a.place as usize,
                code,
            },
            (raw::NO_FOLDING, _) => KeyError::NoFolding,
            _ => KeyError::Memory,
        }
    }
}

impl fmt::Display for KeyError {
    fn fmt(&self, f: &mut fmt::Formatter<'_>) -> fmt::Result {
        match self {
            KeyError::Unassigned { at, code } => {
                write!(f, "unassigned {:04X} at byte {at}", u32::from(*code))
            }
            KeyError::NoFolding => f.write_str(NO_FOLDING),
            KeyError::Memory => f.write_str("out of memory"),
        }
    }
}

impl Error for KeyError {}

/// Why there is no answer to a question on case, nor to lines.
#[derive(Clone, Copy, Debug, PartialEq, Eq)]
#[non_exhaustive]
pub enum CaselessError {
    /// The tables were opened without CaseFolding.txt.
    NoFolding,
    /// Memory ran out.
    Memory,
}

impl CaselessError {
    /// What the library's answer tells.
    pub(crate) fn of(a: Answer) -> CaselessError {
        match a.status {
            raw::NO_FOLDING => CaselessError::NoFolding,
            _ => CaselessError::Memory,
        }
    }
}

impl fmt::Display for CaselessError {
    fn fmt(&self, f: &mut fmt::Formatter<'_>) -> fmt::Result {
        f.write_str(match self {
            CaselessError::NoFolding => NO_FOLDING,
            CaselessError::Memory => "out of memory",
        })
    }
}

impl Error for CaselessError {}

/// Why a version with its foldings does not extend another.
#[derive(Clone, Copy, Debug, PartialEq, Eq)]
#[non_exhaustive]
pub enum ExtensionError {
    /// Its first break.
    Breaks(Break),
    /// One of the two was opened without CaseFolding.txt.
    NoFolding,
    /// Memory ran out.
    Memory,
}

impl fmt::Display for ExtensionError {
    fn fmt(&self, f: &mut fmt::Formatter<'_>) -> fmt::Result {
        match self {
            ExtensionError::Breaks(first) => write!(f, "{:?} {:04X}", first.kind, first.code),
            ExtensionError::NoFolding => f.write_str(NO_FOLDING),
            ExtensionError::Memory => f.write_str("out of memory"),
        }
    }
}

impl Error for ExtensionError {}

/// Memory ran out.
#[derive(Clone, Copy, Debug, PartialEq, Eq)]
pub struct Memory;

impl fmt::Display for Memory {
    fn fmt(&self, f: &mut fmt::Formatter<'_>) -> fmt::Result {
        f.write_str("out of memory")
    }
}

impl Error for Memory {}

/// Why a node does not take a string. The node is as it was.
#[derive(Clone, Copy, Debug, PartialEq, Eq)]
#[non_exhaustive]
pub enum Refused {
    /// The string has more than 65,536 bytes.
    TooLong,
    /// The string is not UTF-8.
    NotUtf8 {
        /// How many bytes its longest front has that is.
        at: usize,
    },
    /// The version does not assign a code point of the string.
    Unassigned {
        /// The byte place in the string, from 0, of the first such code point.
        at: usize,
        /// That code point.
        code: char,
    },
    /// The node keeps as many strings as its room.
    Full,
    /// The bytes are no message, or a string of an image stands twice.
    Malformed {
        /// The byte, from 0, where they stop being the beginning of one.
        at: usize,
    },
    /// The message is of another form than the node.
    OtherForm,
    /// The key that came with the string is not the string's key.
    KeyDiffers,
    /// Memory ran out.
    Memory,
}

impl Refused {
    /// What the library's answer tells.
    pub(crate) fn of(a: Answer) -> Refused {
        let at = a.place as usize;
        match (a.status, char::from_u32(a.code)) {
            (raw::TOO_LONG, _) => Refused::TooLong,
            (raw::NOT_UTF8, _) => Refused::NotUtf8 { at },
            (raw::UNASSIGNED, Some(code)) => Refused::Unassigned { at, code },
            (raw::FULL, _) => Refused::Full,
            (raw::MALFORMED, _) => Refused::Malformed { at },
            (raw::OTHER_FORM, _) => Refused::OtherForm,
            (raw::KEY_DIFFERS, _) => Refused::KeyDiffers,
            _ => Refused::Memory,
        }
    }
}

impl fmt::Display for Refused {
    fn fmt(&self, f: &mut fmt::Formatter<'_>) -> fmt::Result {
        match self {
            Refused::TooLong => f.write_str("too long: more than 65,536 bytes"),
            Refused::NotUtf8 { at } => write!(f, "not UTF-8 at byte {at}"),
            Refused::Unassigned { at, code } => {
                write!(f, "unassigned {:04X} at byte {at}", u32::from(*code))
            }
            Refused::Full => f.write_str("full"),
            Refused::Malformed { at } => write!(f, "malformed at byte {at}"),
            Refused::OtherForm => f.write_str("another form"),
            Refused::KeyDiffers => f.write_str("key differs"),
            Refused::Memory => f.write_str("out of memory"),
        }
    }
}

impl Error for Refused {}

/// Why an image is no node.
#[derive(Clone, Copy, Debug, PartialEq, Eq)]
#[non_exhaustive]
pub enum RestoreError {
    /// The room is over 65,536.
    BadRoom,
    /// The bytes are no image.
    Malformed {
        /// The byte, from 0, where they stop being the beginning of one.
        at: usize,
    },
    /// The image is of another form.
    OtherForm,
    /// The image was saved under a later version.
    OlderTables {
        /// How many code points that version assigns.
        needs: u64,
        /// How many the tables assign.
        has: u64,
    },
    /// The image has more entries than the room.
    Full,
    /// An entry is refused.
    Entry {
        /// The entry's number, from 0.
        index: u64,
        /// Why.
        cause: Refused,
    },
    /// Memory ran out.
    Memory,
}

impl RestoreError {
    /// What the library's answer tells.
    pub(crate) fn of(a: Answer) -> RestoreError {
        match a.status {
            raw::BAD_ROOM => RestoreError::BadRoom,
            raw::MALFORMED => RestoreError::Malformed {
                at: a.place as usize,
            },
            raw::OTHER_FORM => RestoreError::OtherForm,
            raw::OLDER_TABLES => RestoreError::OlderTables {
                needs: a.place,
                has: a.length,
            },
            raw::FULL => RestoreError::Full,
            raw::BAD_ENTRY => RestoreError::Entry {
                index: a.length,
                cause: Refused::of(Answer {
                    status: a.fault,
                    ..a
                }),
            },
            _ => RestoreError::Memory,
        }
    }
}

impl fmt::Display for RestoreError {
    fn fmt(&self, f: &mut fmt::Formatter<'_>) -> fmt::Result {
        match self {
            RestoreError::BadRoom => f.write_str("a node has room for at most 65,536 strings"),
            RestoreError::Malformed { at } => write!(f, "malformed at byte {at}"),
            RestoreError::OtherForm => f.write_str("another form"),
            RestoreError::OlderTables { needs, has } => {
                write!(f, "older tables: need {needs} code points, have {has}")
            }
            RestoreError::Full => f.write_str("full"),
            RestoreError::Entry { index, cause } => write!(f, "entry {index}: {cause}"),
            RestoreError::Memory => f.write_str("out of memory"),
        }
    }
}

impl Error for RestoreError {}

/// Why there is no new node.
#[derive(Clone, Copy, Debug, PartialEq, Eq)]
#[non_exhaustive]
pub enum NewNodeError {
    /// The room is over 65,536.
    BadRoom,
    /// Memory ran out.
    Memory,
}

impl fmt::Display for NewNodeError {
    fn fmt(&self, f: &mut fmt::Formatter<'_>) -> fmt::Result {
        f.write_str(match self {
            NewNodeError::BadRoom => "a node has room for at most 65,536 strings",
            NewNodeError::Memory => "out of memory",
        })
    }
}

impl Error for NewNodeError {}

/// Why a node does not go on to a version. Nothing changed.
#[derive(Clone, Copy, Debug, PartialEq, Eq)]
#[non_exhaustive]
pub enum UpgradeError {
    /// The version does not extend the present one: its first break.
    Breaks(Break),
    /// Memory ran out.
    Memory,
}

impl fmt::Display for UpgradeError {
    fn fmt(&self, f: &mut fmt::Formatter<'_>) -> fmt::Result {
        match self {
            UpgradeError::Breaks(first) => write!(f, "{:?} {:04X}", first.kind, first.code),
            UpgradeError::Memory => f.write_str("out of memory"),
        }
    }
}

impl Error for UpgradeError {}

/// Why a stream does not go on. It is as it was.
#[derive(Clone, Copy, Debug, PartialEq, Eq)]
#[non_exhaustive]
pub enum StreamError {
    /// What came is no text, or ends within a character.
    NotUtf8 {
        /// How many bytes the longest front of the whole text has that is one.
        at: u64,
    },
    /// The stream was finished before.
    Finished,
    /// More than 18,446,744,073,709,551,615 bytes would have come.
    TooLong,
    /// Memory ran out.
    Memory,
}

impl StreamError {
    /// What the library's answer tells.
    pub(crate) fn of(a: Answer) -> StreamError {
        match a.status {
            raw::NOT_UTF8 => StreamError::NotUtf8 { at: a.place },
            raw::CLOSED => StreamError::Finished,
            raw::TOO_LONG => StreamError::TooLong,
            _ => StreamError::Memory,
        }
    }
}

impl fmt::Display for StreamError {
    fn fmt(&self, f: &mut fmt::Formatter<'_>) -> fmt::Result {
        match self {
            StreamError::NotUtf8 { at } => write!(f, "not UTF-8 at byte {at}"),
            StreamError::Finished => f.write_str("the stream was finished"),
            StreamError::TooLong => f.write_str("the text is too long"),
            StreamError::Memory => f.write_str("out of memory"),
        }
    }
}

impl Error for StreamError {}

impl From<StreamError> for io::Error {
    fn from(error: StreamError) -> io::Error {
        let kind = match error {
            StreamError::NotUtf8 { .. } => io::ErrorKind::InvalidData,
            StreamError::Finished | StreamError::TooLong => io::ErrorKind::InvalidInput,
            StreamError::Memory => io::ErrorKind::OutOfMemory,
        };
        io::Error::new(kind, error)
    }
}
