//! The tables of a version.

use crate::errors::{CaselessError, ExtensionError, KeyError, Memory, OpenError};
use crate::opening::open_error;
use crate::pool::Pool;
use crate::raw::{self, Answer, Handle};
use crate::values::{Answers, Break, BreakKind, Form, LineEnd, Mapping, Property, Unassigned};
use std::fmt;

/// The tables of a version of Unicode. They serve all threads at once.
pub struct Tables {
    pub(crate) pool: Pool,
}

/// Shows how many code points the version assigns.
impl fmt::Debug for Tables {
    fn fmt(&self, f: &mut fmt::Formatter<'_>) -> fmt::Result {
        f.debug_struct("Tables")
            .field("count", &self.count())
            .finish_non_exhaustive()
    }
}

/// A call that writes what it makes of a text into a room.
type Writer = unsafe extern "C" fn(*mut Handle, u8, *const u8, usize, *mut u8, usize) -> Answer;

/// The tables behind a handle that was opened, or why it wasn't.
fn opened(first: Handle, a: Answer) -> Result<Tables, OpenError> {
    if a.status == raw::DONE {
        Pool::new(first)
            .map(|pool| Tables { pool })
            .map_err(|_| OpenError::Memory)
    } else {
        Err(open_error(a))
    }
}

/// A call that writes the answers to lines into a room.
type Answerer = unsafe extern "C" fn(
    *mut Handle,
    *const raw::Asked,
    *const u8,
    usize,
    *mut u8,
    usize,
) -> Answer;

/// What a call writes into a room, first into one of so many bytes and then into one of as many as it tells.
pub(crate) fn filled(
    mut wanted: usize,
    mut write: impl FnMut(*mut u8, usize) -> Answer,
) -> Result<(Vec<u8>, Answer), Answer> {
    let mut room: Vec<u8> = Vec::new();
    loop {
        if room.try_reserve_exact(wanted).is_err() {
            return Err(Answer {
                status: raw::MEMORY,
                fault: 0,
                code: 0,
                place: 0,
                length: 0,
            });
        }
        room.resize(wanted, 0);
        let a = write(room.as_mut_ptr(), room.len());
        match a.status {
            raw::DONE => {
                room.truncate(a.length as usize);
                return Ok((room, a));
            }
            raw::NO_ROOM => wanted = a.length as usize,
            _ => return Err(a),
        }
    }
}

impl Tables {
    /// The version that the bytes of UnicodeData.txt and CompositionExclusions.txt make. Takes 5 to 10 ms
    /// for the published files, and holds 3 MB.
    ///
    /// # Errors
    ///
    /// The first fault of the data file; else that of the exclusions; else that of the tables. `Memory` where memory
    /// ran out.
    ///
    /// ```
    /// let error = npss::Tables::open(b"0041;x\n", b"").unwrap_err();
    /// assert_eq!(error.to_string(), "data: line 1: FieldCount");
    /// ```
    pub fn open(data: &[u8], exclusions: &[u8]) -> Result<Tables, OpenError> {
        let mut first = Handle::CLOSED;
        // SAFETY: the slices are readable, and the handle is closed.
        let a = unsafe {
            raw::npss_open(
                &mut first,
                data.as_ptr(),
                data.len(),
                exclusions.as_ptr(),
                exclusions.len(),
            )
        };
        opened(first, a)
    }

    /// The version of two files with the foldings of CaseFolding.txt, for caseless keys. The three are of one version. Takes
    /// 12 to 25 ms for the published files, and holds 6 MB.
    ///
    /// # Errors
    ///
    /// As [`Tables::open`]; else the first fault of the lines of the third file; else `Foldings`, where it doesn't go with
    /// the others.
    ///
    /// ```
    /// use npss::{Form, Tables};
    ///
    /// let data = b"0041;X;Lu;0;L;;;;;N;;;;0061;\n0061;X;Ll;0;L;;;;;N;;;0041;;0041\n";
    /// let tables = Tables::open_caseless(data, b"", b"0041; C; 0061;\n")?;
    /// assert_eq!(tables.caseless_key(Form::Nfkc, "A")?, "a");
    /// assert_eq!(tables.caseless_match(false, "A", "a"), Ok(true));
    ///
    /// // a folding file that was cut lacks capitals
    /// let error = Tables::open_caseless(data, b"", b"").unwrap_err();
    /// assert_eq!(error.to_string(), "folding: NotFolded 0041");
    /// # Ok::<(), Box<dyn std::error::Error>>(())
    /// ```
    pub fn open_caseless(
        data: &[u8],
        exclusions: &[u8],
        folding: &[u8],
    ) -> Result<Tables, OpenError> {
        let mut first = Handle::CLOSED;
        // SAFETY: the slices are readable, and the handle is closed.
        let a = unsafe {
            raw::npss_open_caseless(
                &mut first,
                data.as_ptr(),
                data.len(),
                exclusions.as_ptr(),
                exclusions.len(),
                folding.as_ptr(),
                folding.len(),
            )
        };
        opened(first, a)
    }

    /// The same tables once more: both share one table. There is no need of it for threads, since one `Tables` serves
    /// all of them.
    ///
    /// # Errors
    ///
    /// `Memory` where memory ran out.
    pub fn share(&self) -> Result<Tables, Memory> {
        self.pool.another().map(|pool| Tables { pool })
    }

    /// What a call makes of a text.
    fn make(&self, write: Writer, form: Form, text: &str) -> Result<String, Answer> {
        let (made, _) = filled(text.len() + text.len() / 2, |room, length| {
            // SAFETY: the text is readable and the room writable, and they don't overlap.
            self.pool.call(|handle| unsafe {
                write(
                    handle,
                    form.letter(),
                    text.as_ptr(),
                    text.len(),
                    room,
                    length,
                )
            })
        })?;
        // SAFETY: what is written is the UTF-8 of code points; that is proved.
        Ok(unsafe { String::from_utf8_unchecked(made) })
    }

    /// The key of a text: its stabilized string.
    ///
    /// # Errors
    ///
    /// `Unassigned` exactly where the version does not assign a code point of the text; `Memory` where memory ran out.
    pub fn key(&self, form: Form, text: &str) -> Result<String, KeyError> {
        self.make(raw::npss_key, form, text).map_err(KeyError::of)
    }

    /// The caseless key of a text: texts that match caselessly have one, and it stays the same under each later version that
    /// extends this one with its foldings (The Unicode Standard, D145, and D146 under NFKD and NFKC). It is made of a text, or
    /// of its NFC or NFD key; the NFKC key may have another.
    ///
    /// # Errors
    ///
    /// `Unassigned` exactly where the version does not assign a code point of the text; `NoFolding` where the tables have no
    /// foldings; `Memory` where memory ran out.
    pub fn caseless_key(&self, form: Form, text: &str) -> Result<String, KeyError> {
        self.make(raw::npss_caseless_key, form, text)
            .map_err(KeyError::of)
    }

    /// The normal form of a text, whether or not its code points are assigned.
    ///
    /// # Errors
    ///
    /// `Memory` where memory ran out.
    pub fn normalize(&self, form: Form, text: &str) -> Result<String, Memory> {
        self.make(raw::npss_normalize, form, text)
            .map_err(|_| Memory)
    }

    /// The answers to the lines of some bytes, each with the byte that ends it: `=` and the key of the line, or `!`
    /// and why it has none, as `docs/FORMATS.md` tells. A last line without that byte is a line.
    ///
    /// # Errors
    ///
    /// `Memory` where memory ran out.
    ///
    /// ```
    /// # use npss::{Form, LineEnd, Tables};
    /// let tables = Tables::open(b"0041;X;Lu;0;L;;;;;N;;;;;\n", b"")?;
    /// let answers = tables.answers(Form::Nfc, LineEnd::Lf, b"A\nB\n")?;
    /// assert_eq!(answers.bytes, b"=A\n!unassigned 0042 at byte 0\n");
    /// assert!(answers.any_refused);
    /// # Ok::<(), Box<dyn std::error::Error>>(())
    /// ```
    pub fn answers(&self, form: Form, end: LineEnd, lines: &[u8]) -> Result<Answers, Memory> {
        self.answered(raw::npss_answers, form, end, lines)
            .map_err(|_| Memory)
    }

    /// The answers to the lines of some bytes, as [`Tables::answers`] has them, by their caseless keys.
    ///
    /// # Errors
    ///
    /// `NoFolding` where the tables have no foldings; `Memory` where memory ran out.
    pub fn caseless_answers(
        &self,
        form: Form,
        end: LineEnd,
        lines: &[u8],
    ) -> Result<Answers, CaselessError> {
        self.answered(raw::npss_caseless_answers, form, end, lines)
            .map_err(CaselessError::of)
    }

    /// What a call answers to lines.
    fn answered(
        &self,
        write: Answerer,
        form: Form,
        end: LineEnd,
        lines: &[u8],
    ) -> Result<Answers, Answer> {
        let asked = raw::Asked {
            form: form.letter(),
            end: end.byte(),
        };
        let (bytes, a) = filled(lines.len() + lines.len() / 2, |room, length| {
            // SAFETY: the lines are readable and the room writable, and they don't overlap.
            self.pool.call(|handle| unsafe {
                write(handle, &asked, lines.as_ptr(), lines.len(), room, length)
            })
        })?;
        Ok(Answers {
            bytes,
            any_refused: a.fault != 0,
        })
    }

    /// Whether a text is its own normal form.
    ///
    /// # Errors
    ///
    /// `Memory` where memory ran out.
    pub fn is_normalized(&self, form: Form, text: &str) -> Result<bool, Memory> {
        // SAFETY: the text is readable.
        truth_of(self.pool.call(|handle| unsafe {
            raw::npss_is_form(handle, form.letter(), text.as_ptr(), text.len())
        }))
    }

    /// Whether each text of ASCII is known to be its own key, as under all published versions. Who knows of a text that
    /// it is ASCII need not ask for its key then.
    ///
    /// ```
    /// # use npss::{Form, Tables};
    /// let tables = Tables::open(b"0041;X;Lu;0;L;;;;;N;;;;;\n", b"")?;
    /// assert!(!tables.keeps_ascii(Form::Nfc)); // no other character is assigned
    /// # Ok::<(), Box<dyn std::error::Error>>(())
    /// ```
    pub fn keeps_ascii(&self, form: Form) -> bool {
        // SAFETY: the handle is one of the pool's.
        let a = self.pool.call(|handle| unsafe { raw::npss_keeps_ascii(handle, form.letter()) });
        a.status == raw::DONE
    }

    /// Whether two texts are canonical equivalents, or compatible ones where `compatible`.
    ///
    /// # Errors
    ///
    /// `Memory` where memory ran out.
    ///
    /// ```
    /// # use npss::Tables;
    /// let tables = Tables::open(b"0066;X;Ll;0;L;;;;;N;;;;;\n0069;X;Ll;0;L;;;;;N;;;;;\nFB01;X;Ll;0;L;<compat> 0066 0069;;;;N;;;;;\n", b"")?;
    /// assert!(!tables.equivalent("\u{fb01}", "fi", false)?);
    /// assert!(tables.equivalent("\u{fb01}", "fi", true)?);
    /// # Ok::<(), Box<dyn std::error::Error>>(())
    /// ```
    pub fn equivalent(&self, left: &str, right: &str, compatible: bool) -> Result<bool, Memory> {
        // SAFETY: the texts are readable.
        truth_of(self.pool.call(|handle| unsafe {
            raw::npss_equivalent(
                handle,
                compatible,
                left.as_ptr(),
                left.len(),
                right.as_ptr(),
                right.len(),
            )
        }))
    }

    /// Whether two texts match caselessly: compatibly where `compatible`, else canonically. They do exactly where their caseless
    /// keys are equal. Code points that are not assigned are taken too.
    ///
    /// # Errors
    ///
    /// `NoFolding` where the tables have no foldings; `Memory` where memory ran out.
    pub fn caseless_match(
        &self,
        compatible: bool,
        left: &str,
        right: &str,
    ) -> Result<bool, CaselessError> {
        // SAFETY: the texts are readable.
        let a = self.pool.call(|handle| unsafe {
            raw::npss_caseless_match(
                handle,
                compatible,
                left.as_ptr(),
                left.len(),
                right.as_ptr(),
                right.len(),
            )
        });
        truth_of(a).map_err(|_| CaselessError::of(a))
    }

    /// What this version breaks of an older one at the least code point. `None` where it extends the older one, so
    /// that keys under the older one stay keys.
    pub fn first_break(&self, older: &Tables) -> Option<Break> {
        if std::ptr::eq(self, older) {
            return None;
        }
        // SAFETY: both handles are ours, and they are two: those of two pools.
        break_of(
            older
                .pool
                .call(|old| self.pool.call(|new| unsafe { raw::npss_extends(old, new) })),
        )
    }

    /// Whether this version with its foldings extends an older one with its own, so that caseless keys under the older one stay
    /// caseless keys.
    ///
    /// # Errors
    ///
    /// `Breaks` with what it breaks at the least code point; `NoFolding` where one of the two has no foldings; `Memory` where
    /// memory ran out.
    pub fn caseless_extends(&self, older: &Tables) -> Result<(), ExtensionError> {
        if std::ptr::eq(self, older) {
            let own = self.share().map_err(|_| ExtensionError::Memory)?;
            return self.caseless_extends(&own);
        }
        // SAFETY: both handles are ours, and they are two: those of two pools.
        let a = older.pool.call(|old| {
            self.pool
                .call(|new| unsafe { raw::npss_caseless_extends(old, new) })
        });
        match (a.status, break_of(a)) {
            (raw::DONE, _) => Ok(()),
            (raw::NO_FOLDING, _) => Err(ExtensionError::NoFolding),
            (_, Some(first)) => Err(ExtensionError::Breaks(first)),
            _ => Err(ExtensionError::Memory),
        }
    }

    /// What the version says of a code point; none where it does not assign it.
    ///
    /// ```
    /// # use npss::{Mapping, Tables};
    /// let tables = Tables::open(b"0061;X;Ll;0;L;;;;;N;;;;;\n00E2;X;Ll;0;L;0061 0302;;;;N;;;;;\n0302;X;Mn;230;L;;;;;N;;;;;\n", b"")?;
    /// assert_eq!(tables.property('\u{302}').unwrap().combining_class, 230);
    /// assert_eq!(tables.property('\u{e2}').unwrap().mapping, Some(Mapping::Canonical));
    /// assert_eq!(tables.property('b'), None);
    /// assert_eq!(tables.decomposition('\u{e2}', false)?, "a\u{302}");
    /// assert_eq!(tables.composite('a', '\u{302}'), Some('\u{e2}'));
    /// # Ok::<(), Box<dyn std::error::Error>>(())
    /// ```
    pub fn property(&self, code: char) -> Option<Property> {
        // SAFETY: the handle is ours.
        let a = self
            .pool
            .call(|handle| unsafe { raw::npss_property(handle, u32::from(code)) });
        let mapping = match a.fault {
            1 => Some(Mapping::Canonical),
            2 => Some(Mapping::Compatibility),
            _ => None,
        };
        (a.status == raw::DONE).then_some(Property {
            combining_class: a.code as u8,
            mapping,
            excluded: a.place != 0,
        })
    }

    /// The full decomposition of a code point: the compatible one where `compatible`, else the canonical one. Of a code
    /// point without a mapping that is the code point itself.
    ///
    /// # Errors
    ///
    /// `Memory` where memory ran out.
    pub fn decomposition(&self, code: char, compatible: bool) -> Result<String, Memory> {
        let made = filled(64, |room, length| {
            // SAFETY: the room is writable.
            self.pool.call(|handle| unsafe {
                raw::npss_decomposition(handle, compatible, u32::from(code), room, length)
            })
        });
        match made {
            // SAFETY: what is written is the UTF-8 of code points; that is proved.
            Ok((bytes, _)) => Ok(unsafe { String::from_utf8_unchecked(bytes) }),
            Err(_) => Err(Memory),
        }
    }

    /// The primary composite of two code points.
    pub fn composite(&self, first: char, second: char) -> Option<char> {
        // SAFETY: the handle is ours.
        let a = self.pool.call(|handle| unsafe {
            raw::npss_composite(handle, u32::from(first), u32::from(second))
        });
        (a.status == raw::DONE)
            .then(|| char::from_u32(a.code))
            .flatten()
    }

    /// The first code point of a text that the version does not assign. With the tables of an earlier version it tells
    /// what a machine that lags behind lacks of a key.
    pub fn first_unassigned(&self, text: &str) -> Option<Unassigned> {
        // SAFETY: the text is readable.
        let a = self.pool.call(|handle| unsafe {
            raw::npss_first_unassigned(handle, text.as_ptr(), text.len())
        });
        match (a.status, char::from_u32(a.code)) {
            (raw::UNASSIGNED, Some(code)) => Some(Unassigned { at: a.place, code }),
            _ => None,
        }
    }

    /// How many code points the version assigns.
    pub fn count(&self) -> u64 {
        // SAFETY: the handle is ours.
        self.pool
            .call(|handle| unsafe { raw::npss_count(handle) })
            .length
    }
}

/// Whether an answer says yes.
fn truth_of(a: Answer) -> Result<bool, Memory> {
    match a.status {
        raw::DONE => Ok(true),
        raw::DIFFERENT => Ok(false),
        _ => Err(Memory),
    }
}

/// The first break that an answer tells, where it tells one.
pub(crate) fn break_of(a: Answer) -> Option<Break> {
    let kind = match (a.status, a.fault) {
        (raw::DIFFERENT, 1) => BreakKind::Lost,
        (raw::DIFFERENT, 2) => BreakKind::ClassChanged,
        (raw::DIFFERENT, 3) => BreakKind::MappingChanged,
        (raw::DIFFERENT, 4) => BreakKind::NowExcluded,
        (raw::DIFFERENT, 5) => BreakKind::NowIncluded,
        (raw::DIFFERENT, 6) => BreakKind::NewComposite,
        (raw::DIFFERENT, _) => BreakKind::FoldingChanged,
        _ => return None,
    };
    Some(Break { kind, code: a.code })
}
