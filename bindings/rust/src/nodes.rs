//! Nodes: strings beside their keys, told to others and saved.

use crate::errors::{Memory, NewNodeError, Refused, RestoreError, UpgradeError};
use crate::raw::{self, Answer, Handle};
use crate::tables::{break_of, filled, Tables};
use crate::values::Form;
use std::cell::UnsafeCell;
use std::fmt;

/// The most strings that a node may have room for.
pub const MOST_ROOM: u32 = 65_536;

/// What a node answers to a string that it does not refuse.
#[derive(Clone, Copy, Debug, PartialEq, Eq)]
pub enum Accepted {
    /// The string was new, and is kept now.
    Kept,
    /// The string was kept already. Nothing changed.
    Known,
}

/// A string that a node keeps, beside its key.
#[derive(Clone, PartialEq, Eq)]
pub struct Entry {
    /// The string, as it was given.
    pub string: String,
    /// Its key.
    pub key: String,
}

/// Shows how long the two are, and nothing of them: they may be names of persons.
impl fmt::Debug for Entry {
    fn fmt(&self, f: &mut fmt::Formatter<'_>) -> fmt::Result {
        f.debug_struct("Entry")
            .field("string", &self.string.len())
            .field("key", &self.key.len())
            .finish()
    }
}

/// Strings in the order in which they were kept, each beside its key: its normal form under the version of its tables.
/// Strings are compared by their bytes, so two that are equivalent and unlike are two entries.
///
/// ```
/// use npss::{Accepted, Form, Node, Tables};
///
/// let data = b"0061;X;Ll;0;L;;;;;N;;;;;\n00E2;X;Ll;0;L;0061 0302;;;;N;;;;;\n0302;X;Mn;230;L;;;;;N;;;;;\n";
/// let tables = Tables::open(data, b"")?;
/// let (mut home, mut away) = (Node::new(&tables, Form::Nfc, 100)?, Node::new(&tables, Form::Nfc, 100)?);
/// if home.accept("a\u{302}")? == Accepted::Kept {
///     away.take(&home.message("a\u{302}")?.unwrap())?;
/// }
/// assert_eq!(away.key("a\u{302}")?.as_deref(), Some("\u{e2}"));
/// let again = Node::restore(&tables, Form::Nfc, 100, &home.image()?)?;
/// assert!(again.entries().eq(home.entries()));
/// # Ok::<(), Box<dyn std::error::Error>>(())
/// ```
///
/// A node may go to another thread, and has one call at a time.
pub struct Node {
    handle: UnsafeCell<Handle>,
    form: Form,
    room: u32,
}

impl fmt::Debug for Node {
    fn fmt(&self, f: &mut fmt::Formatter<'_>) -> fmt::Result {
        f.debug_struct("Node")
            .field("form", &self.form)
            .field("room", &self.room)
            .field("len", &self.len())
            .finish_non_exhaustive()
    }
}

impl Drop for Node {
    fn drop(&mut self) {
        // SAFETY: the handle was last touched by the library.
        unsafe { raw::npss_node_close(self.handle.get_mut()) }
    }
}

/// Kept or known, or why not.
fn accepted(a: Answer) -> Result<Accepted, Refused> {
    match a.status {
        raw::DONE => Ok(Accepted::Kept),
        raw::KNOWN => Ok(Accepted::Known),
        _ => Err(Refused::of(a)),
    }
}

impl Node {
    fn closed(form: Form, room: u32) -> Node {
        Node {
            handle: UnsafeCell::new(Handle::CLOSED),
            form,
            room,
        }
    }

    /// A node that keeps nothing yet, with room for `room` strings, at most 65,536. It lives on where the tables are
    /// dropped.
    ///
    /// # Errors
    ///
    /// `BadRoom` for more than 65,536; `Memory` where memory ran out.
    pub fn new(tables: &Tables, form: Form, room: u32) -> Result<Node, NewNodeError> {
        let mut made = Node::closed(form, room);
        let node = made.handle.get_mut();
        // SAFETY: both handles are ours, and they are two.
        let a = tables
            .pool
            .call(|handle| unsafe { raw::npss_node_new(node, handle, form.letter(), room) });
        match a.status {
            raw::DONE => Ok(made),
            raw::BAD_ROOM => Err(NewNodeError::BadRoom),
            _ => Err(NewNodeError::Memory),
        }
    }

    /// The node of an image, under the version that saved it and each later one that extends it. Each key is made anew
    /// and compared.
    ///
    /// # Errors
    ///
    /// `Malformed`, `OtherForm`, `OlderTables`, `Full`, or `Entry` for the first entry that is refused; `BadRoom` for a
    /// room over 65,536; `Memory` where memory ran out.
    pub fn restore(
        tables: &Tables,
        form: Form,
        room: u32,
        image: &[u8],
    ) -> Result<Node, RestoreError> {
        let mut made = Node::closed(form, room);
        let node = made.handle.get_mut();
        // SAFETY: both handles are ours, and they are two; the image is readable.
        let a = tables.pool.call(|handle| unsafe {
            raw::npss_node_restore(
                node,
                handle,
                form.letter(),
                room,
                image.as_ptr(),
                image.len(),
            )
        });
        if a.status == raw::DONE {
            Ok(made)
        } else {
            Err(RestoreError::of(a))
        }
    }

    /// Keeps a string behind the others, beside its key. [`Node::message`] tells it to other nodes.
    ///
    /// # Errors
    ///
    /// `TooLong`, `NotUtf8`, `Unassigned` or `Full`; `Memory` where memory ran out. Then the node is as it was.
    pub fn accept(&mut self, string: impl AsRef<[u8]>) -> Result<Accepted, Refused> {
        let string = string.as_ref();
        // SAFETY: the string is readable.
        accepted(unsafe {
            raw::npss_node_accept(self.handle.get_mut(), string.as_ptr(), string.len())
        })
    }

    /// Keeps the string of another node's message. The key in it is compared, and never trusted.
    ///
    /// # Errors
    ///
    /// `Malformed`, `OtherForm`, `TooLong`, `NotUtf8`, `Unassigned`, `KeyDiffers` or `Full`; `Memory` where memory ran
    /// out. Then the node is as it was.
    pub fn take(&mut self, message: &[u8]) -> Result<Accepted, Refused> {
        // SAFETY: the message is readable.
        accepted(unsafe {
            raw::npss_node_take(self.handle.get_mut(), message.as_ptr(), message.len())
        })
    }

    /// The message that tells a kept string to other nodes; none of what isn't kept.
    ///
    /// # Errors
    ///
    /// `Memory` where memory ran out.
    pub fn message(&self, string: impl AsRef<[u8]>) -> Result<Option<Vec<u8>>, Memory> {
        let string = string.as_ref();
        self.filled(|node, room, length| {
            // SAFETY: the string is readable and the room writable, and they don't overlap.
            unsafe { raw::npss_node_message(node, string.as_ptr(), string.len(), room, length) }
        })
        .map(|made| made.map(|(message, _)| message))
    }

    /// The key of a kept string; none of what isn't kept.
    ///
    /// # Errors
    ///
    /// `Memory` where memory ran out.
    pub fn key(&self, string: impl AsRef<[u8]>) -> Result<Option<String>, Memory> {
        let string = string.as_ref();
        let made = self.filled(|node, room, length| {
            // SAFETY: the string is readable and the room writable, and they don't overlap.
            unsafe { raw::npss_node_key(node, string.as_ptr(), string.len(), room, length) }
        })?;
        // SAFETY: a key is UTF-8; that is proved.
        Ok(made.map(|(key, _)| unsafe { String::from_utf8_unchecked(key) }))
    }

    /// Forgets a string, and tells whether it was kept. The others keep their order.
    pub fn forget(&mut self, string: impl AsRef<[u8]>) -> bool {
        let string = string.as_ref();
        // SAFETY: the string is readable.
        let a =
            unsafe { raw::npss_node_forget(self.handle.get_mut(), string.as_ptr(), string.len()) };
        a.status == raw::DONE
    }

    /// Whether two kept strings are equivalent, by their keys; none where one of them isn't kept.
    pub fn same(&self, left: impl AsRef<[u8]>, right: impl AsRef<[u8]>) -> Option<bool> {
        let (left, right) = (left.as_ref(), right.as_ref());
        // SAFETY: the strings are readable; the handle has no other call, since a node is no `Sync`.
        let a = unsafe {
            raw::npss_node_same(
                self.handle.get(),
                left.as_ptr(),
                left.len(),
                right.as_ptr(),
                right.len(),
            )
        };
        match a.status {
            raw::DONE => Some(true),
            raw::DIFFERENT => Some(false),
            _ => None,
        }
    }

    /// Whether a string is kept.
    pub fn contains(&self, string: impl AsRef<[u8]>) -> bool {
        let string = string.as_ref();
        let mut room = [0];
        // SAFETY: the string is readable, and nothing is written into a room of length 0.
        let a = unsafe {
            raw::npss_node_key(
                self.handle.get(),
                string.as_ptr(),
                string.len(),
                room.as_mut_ptr(),
                0,
            )
        };
        matches!(a.status, raw::DONE | raw::NO_ROOM)
    }

    /// Entry number `index`, from 0, in the order in which they were kept; none where there is no such entry.
    ///
    /// # Errors
    ///
    /// `Memory` where memory ran out.
    pub fn entry(&self, index: usize) -> Result<Option<Entry>, Memory> {
        let made = self.filled(|node, room, length| {
            // SAFETY: the room is writable.
            unsafe { raw::npss_node_entry(node, index as u64, room, length) }
        })?;
        Ok(made.map(|(mut both, a)| {
            let key = both.split_off(a.place as usize);
            // SAFETY: a kept string and its key are UTF-8; that is proved.
            unsafe {
                Entry {
                    string: String::from_utf8_unchecked(both),
                    key: String::from_utf8_unchecked(key),
                }
            }
        }))
    }

    /// The entries, in the order in which they were kept.
    ///
    /// # Panics
    ///
    /// Where memory ran out.
    pub fn entries(&self) -> impl Iterator<Item = Entry> + '_ {
        (0..self.len()).map_while(|index| self.entry(index).expect("out of memory"))
    }

    /// What the node keeps, as bytes that [`Node::restore`] reads.
    ///
    /// # Errors
    ///
    /// `Memory` where memory ran out.
    pub fn image(&self) -> Result<Vec<u8>, Memory> {
        let made = self.filled(|node, room, length| {
            // SAFETY: the room is writable.
            unsafe { raw::npss_node_image(node, room, length) }
        })?;
        Ok(made.map_or_else(Vec::new, |(image, _)| image))
    }

    /// Goes on to the version of other tables, which has to extend the present one. Strings and keys stay as they are.
    ///
    /// # Errors
    ///
    /// `Breaks` with the first break; `Memory` where memory ran out. Then nothing changes.
    pub fn upgrade(&mut self, tables: &Tables) -> Result<(), UpgradeError> {
        let node = self.handle.get_mut();
        // SAFETY: both handles are ours, and they are two.
        let a = tables
            .pool
            .call(|handle| unsafe { raw::npss_node_upgrade(node, handle) });
        match break_of(a) {
            None if a.status == raw::DONE => Ok(()),
            None => Err(UpgradeError::Memory),
            Some(first) => Err(UpgradeError::Breaks(first)),
        }
    }

    /// How many strings are kept.
    pub fn len(&self) -> usize {
        // SAFETY: the handle is ours, and has no other call.
        unsafe { raw::npss_node_count(self.handle.get()) }.length as usize
    }

    /// Whether no string is kept.
    pub fn is_empty(&self) -> bool {
        self.len() == 0
    }

    /// How many code points the node's version assigns.
    pub fn assigned(&self) -> u64 {
        // SAFETY: the handle is ours, and has no other call.
        unsafe { raw::npss_node_version(self.handle.get()) }.length
    }

    /// The form of the keys.
    pub fn form(&self) -> Form {
        self.form
    }

    /// The most strings that may be kept.
    pub fn room(&self) -> u32 {
        self.room
    }

    /// What a call writes; none of what isn't kept.
    fn filled(
        &self,
        write: impl Fn(*mut Handle, *mut u8, usize) -> Answer,
    ) -> Result<Option<(Vec<u8>, Answer)>, Memory> {
        match filled(64, |room, length| write(self.handle.get(), room, length)) {
            Ok(made) => Ok(Some(made)),
            Err(a) if a.status == raw::NOT_KEPT => Ok(None),
            Err(_) => Err(Memory),
        }
    }
}
