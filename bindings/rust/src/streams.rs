//! Streams: the normal form of a text that comes in pieces.

use crate::errors::{Memory, StreamError};
use crate::raw::{self, Handle};
use crate::tables::Tables;
use crate::values::{Form, Unassigned};
use std::fmt;
use std::io::{self, Write};

/// The bytes that are taken from a stream at once.
const PIECE: usize = 8192;

/// Makes the normal form of a text that comes in pieces, which may end within a character, in the memory of a piece and of
/// the text's longest run of non-starters.
///
/// ```
/// use npss::{Form, Stream, Tables};
///
/// let data = b"0061;X;Ll;0;L;;;;;N;;;;;\n00E2;X;Ll;0;L;0061 0302;;;;N;;;;;\n0302;X;Mn;230;L;;;;;N;;;;;\n";
/// let tables = Tables::open(data, b"")?;
/// let mut stream = Stream::new(&tables, Form::Nfc)?;
/// let mut made = Vec::new();
/// for piece in [b"a\xcc".as_slice(), b"\x82a"] {
///     stream.feed(piece)?;
///     stream.take(&mut made);
/// }
/// assert_eq!(stream.finish()?, None); // so what is made is a key
/// stream.take(&mut made);
/// assert_eq!(made, "\u{e2}a".as_bytes());
/// # Ok::<(), Box<dyn std::error::Error>>(())
/// ```
pub struct Stream {
    handle: Handle,
}

impl fmt::Debug for Stream {
    fn fmt(&self, f: &mut fmt::Formatter<'_>) -> fmt::Result {
        f.debug_struct("Stream").finish_non_exhaustive()
    }
}

impl Drop for Stream {
    fn drop(&mut self) {
        // SAFETY: the handle was last touched by the library.
        unsafe { raw::npss_stream_close(&mut self.handle) }
    }
}

impl Stream {
    /// A stream at the front of a text. It lives on where the tables are dropped.
    ///
    /// # Errors
    ///
    /// `Memory` where memory ran out.
    pub fn new(tables: &Tables, form: Form) -> Result<Stream, Memory> {
        let mut made = Stream {
            handle: Handle::CLOSED,
        };
        // SAFETY: both handles are ours, and they are two.
        let a = tables.pool.call(|handle| unsafe {
            raw::npss_stream_new(&mut made.handle, handle, form.letter())
        });
        if a.status == raw::DONE {
            Ok(made)
        } else {
            Err(Memory)
        }
    }

    /// Goes on with the next piece of the text, and answers how many bytes of its form are ready.
    ///
    /// # Errors
    ///
    /// `NotUtf8` where what came and the piece begin no text; `Finished` behind `finish`; `TooLong` where more than
    /// 18,446,744,073,709,551,615 bytes would have come; `Memory` where memory ran out. Then the stream is as it was.
    pub fn feed(&mut self, piece: &[u8]) -> Result<usize, StreamError> {
        // SAFETY: the piece is readable.
        let a = unsafe { raw::npss_stream_feed(&mut self.handle, piece.as_ptr(), piece.len()) };
        if a.status == raw::DONE {
            Ok(a.length as usize)
        } else {
            Err(StreamError::of(a))
        }
    }

    /// Writes as much as fits of what is ready to the front of a room, and answers how many bytes.
    pub fn read(&mut self, room: &mut [u8]) -> usize {
        // SAFETY: the room is writable.
        let a = unsafe { raw::npss_stream_take(&mut self.handle, room.as_mut_ptr(), room.len()) };
        a.length as usize
    }

    /// Appends all that is ready.
    pub fn take(&mut self, made: &mut Vec<u8>) {
        let mut room = [0; PIECE];
        loop {
            let length = self.read(&mut room);
            if length == 0 {
                return;
            }
            made.extend_from_slice(&room[..length]);
        }
    }

    /// Ends the text; what was held back is ready now. None where all that was and will be taken is the text's key; else
    /// the first code point of the whole text that is not assigned.
    ///
    /// # Errors
    ///
    /// `NotUtf8` where the text ends within a character: then the stream goes on. `Finished` behind another `finish`;
    /// `Memory` where memory ran out.
    pub fn finish(&mut self) -> Result<Option<Unassigned>, StreamError> {
        // SAFETY: the handle is ours.
        let a = unsafe { raw::npss_stream_finish(&mut self.handle) };
        match (a.status, char::from_u32(a.code)) {
            (raw::DONE, _) => Ok(None),
            (raw::UNASSIGNED, Some(code)) => Ok(Some(Unassigned { at: a.place, code })),
            _ => Err(StreamError::of(a)),
        }
    }
}

/// A writer that normalizes what is written through it. [`Normalizer::finish`] ends the text.
///
/// ```
/// use npss::{Form, Normalizer, Tables};
/// use std::io::Write;
///
/// let data = b"0061;X;Ll;0;L;;;;;N;;;;;\n00E2;X;Ll;0;L;0061 0302;;;;N;;;;;\n0302;X;Mn;230;L;;;;;N;;;;;\n";
/// let tables = Tables::open(data, b"")?;
/// let mut writer = Normalizer::new(&tables, Form::Nfc, Vec::new())?;
/// write!(writer, "a{}", '\u{302}')?;
/// let (made, unassigned) = writer.finish()?;
/// assert_eq!((made.as_slice(), unassigned), ("\u{e2}".as_bytes(), None));
/// # Ok::<(), Box<dyn std::error::Error>>(())
/// ```
#[derive(Debug)]
pub struct Normalizer<W: Write> {
    stream: Stream,
    inner: W,
}

impl<W: Write> Normalizer<W> {
    /// A writer over another one.
    ///
    /// # Errors
    ///
    /// `Memory` where memory ran out.
    pub fn new(tables: &Tables, form: Form, inner: W) -> Result<Normalizer<W>, Memory> {
        Ok(Normalizer {
            stream: Stream::new(tables, form)?,
            inner,
        })
    }

    /// Ends the text, and answers the inner writer with the first code point that is not assigned; none where what was
    /// written is the text's key.
    ///
    /// # Errors
    ///
    /// Those of the inner writer; `InvalidData` where the text ends within a character.
    pub fn finish(mut self) -> io::Result<(W, Option<Unassigned>)> {
        let unassigned = self.stream.finish()?;
        self.write_ready()?;
        self.inner.flush()?;
        Ok((self.inner, unassigned))
    }

    fn write_ready(&mut self) -> io::Result<()> {
        let mut room = [0; PIECE];
        loop {
            let length = self.stream.read(&mut room);
            if length == 0 {
                return Ok(());
            }
            self.inner.write_all(&room[..length])?;
        }
    }
}

/// What is refused as no UTF-8 is `InvalidData`, and is not written.
impl<W: Write> Write for Normalizer<W> {
    fn write(&mut self, piece: &[u8]) -> io::Result<usize> {
        self.stream.feed(piece)?;
        self.write_ready()?;
        Ok(piece.len())
    }

    fn flush(&mut self) -> io::Result<()> {
        self.inner.flush()
    }
}
