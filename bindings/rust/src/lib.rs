//! Unicode text under the tables of a version that you choose: keys, normal forms, equivalence.
//!
//! A key is a stabilized string (UAX #15, section 12): the normal form of a text, all of whose code points the
//! version assigns. It stays the same under each later version that extends this one. The work is done by a proved
//! library behind its C calls; this crate, which hands the texts over, is tested.
//!
//! ```
//! use npss::{Form, KeyError, Tables};
//!
//! let data = b"0061;X;Ll;0;L;;;;;N;;;;;\n0302;X;Mn;230;L;;;;;N;;;;;\n00E2;X;Ll;0;L;0061 0302;;;;N;;;;;\n";
//! // the records of a data file rise
//! assert!(Tables::open(data, b"").is_err());
//!
//! let data = b"0061;X;Ll;0;L;;;;;N;;;;;\n00E2;X;Ll;0;L;0061 0302;;;;N;;;;;\n0302;X;Mn;230;L;;;;;N;;;;;\n";
//! let tables = Tables::open(data, b"")?;
//! assert_eq!(tables.key(Form::Nfc, "a\u{302}")?, "\u{e2}");
//! assert_eq!(tables.key(Form::Nfc, "ab"), Err(KeyError::Unassigned { at: 1, code: 'b' }));
//! # Ok::<(), Box<dyn std::error::Error>>(())
//! ```
//!
//! With CaseFolding.txt beside the two files, texts that differ by case have one key, which is as stable:
//! [`Tables::open_caseless`].
//!
//! A [`Tables`] serves all threads at once: put it into an `Arc`, or share it by reference. A [`Node`] keeps strings beside
//! their keys, tells them to other nodes by messages, and survives upgrades and restarts.
#![warn(missing_docs)]

mod errors;
mod names;
mod nodes;
mod opening;
mod pool;
#[allow(missing_docs)]
mod raw;
mod streams;
mod tables;
mod values;

pub use errors::{
    CaselessError, ExtensionError, File, KeyError, Memory, NewNodeError, OpenError, Refused,
    RestoreError, StreamError, UpgradeError,
};
pub use names::Name;
pub use nodes::{Accepted, Entry, Node, MOST_ROOM};
pub use streams::{Normalizer, Stream};
pub use tables::Tables;
pub use values::{
    Answers, Break, BreakKind, Form, LineEnd, Mapping, NoForm, Property, Unassigned,
};
