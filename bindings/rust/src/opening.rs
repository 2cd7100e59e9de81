//! What is told where the files make no version.

use crate::errors::{File, OpenError};
use crate::names::Name;
use crate::raw::{self, Answer};

/// A file by its number, from 1.
fn file_of(number: u32) -> File {
    match number {
        1 => File::Data,
        2 => File::Exclusions,
        _ => File::Folding,
    }
}

pub(crate) fn open_error(a: Answer) -> OpenError {
    let (name, line, code) = (Name::of_fault(a.status, a.fault), a.place, a.code);
    let at_line = |file| OpenError::File { file, line, name };
    match a.status {
        raw::DATA => at_line(File::Data),
        raw::EXCLUSIONS => at_line(File::Exclusions),
        raw::FOLDING => at_line(File::Folding),
        raw::TABLES => OpenError::Tables { code, name },
        raw::FOLDINGS => OpenError::Foldings { code, name },
        raw::TOO_LARGE => OpenError::TooLarge {
            file: file_of(a.fault),
        },
        _ => OpenError::Memory,
    }
}
