//! Texts that come in pieces, and code points, over a fixture of the repository.

use npss::{Form, Mapping, Normalizer, Property, Stream, StreamError, Tables, Unassigned};
use std::io::{ErrorKind, Write};

const FOLDER: &str = concat!(env!("CARGO_MANIFEST_DIR"), "/../../fixtures/v1/");

fn v1() -> Tables {
    let bytes = |file| std::fs::read(format!("{FOLDER}{file}")).unwrap();
    Tables::open(
        &bytes("UnicodeData.txt"),
        &bytes("CompositionExclusions.txt"),
    )
    .unwrap()
}

fn made(tables: &Tables, form: Form, pieces: &[&[u8]]) -> (Vec<u8>, Option<Unassigned>) {
    let mut stream = Stream::new(tables, form).unwrap();
    let mut made = Vec::new();
    for piece in pieces {
        stream.feed(piece).unwrap();
        stream.take(&mut made);
    }
    let unassigned = stream.finish().unwrap();
    stream.take(&mut made);
    (made, unassigned)
}

#[test]
fn a_text_in_two_pieces() {
    let tables = v1();
    let text = "a\u{302}\u{323}\u{fb01}\u{1100}\u{1161}\u{11a8}A";
    for (form, key) in [
        (Form::Nfc, "\u{1ead}\u{fb01}\u{ac01}A"),
        (Form::Nfkd, "a\u{323}\u{302}fi\u{1100}\u{1161}\u{11a8}A"),
    ] {
        for at in 0..=text.len() {
            let (front, back) = text.as_bytes().split_at(at);
            assert_eq!(
                made(&tables, form, &[front, back]),
                (key.as_bytes().to_vec(), None)
            );
        }
    }
}

#[test]
fn a_long_text_through_a_writer() {
    let tables = v1();
    let mut writer = Normalizer::new(&tables, Form::Nfc, Vec::new()).unwrap();
    writer
        .write_all("a\u{302}\u{323}".repeat(100_000).as_bytes())
        .unwrap();
    let (made, unassigned) = writer.finish().unwrap();
    assert_eq!(made, "\u{1ead}".repeat(100_000).as_bytes());
    assert_eq!(unassigned, None);
}

#[test]
fn a_text_without_a_key() {
    let lacks = Unassigned {
        at: 3,
        code: '\u{16d67}',
    };
    let text = "\u{1ead}\u{16d67}A";
    let (form, unassigned) = made(&v1(), Form::Nfc, &[text.as_bytes()]);
    assert_eq!(
        (form.as_slice(), unassigned),
        (text.as_bytes(), Some(lacks))
    );
    assert_eq!(v1().first_unassigned(text), Some(lacks));
    assert_eq!(v1().first_unassigned("\u{1ead}"), None);
}

#[test]
fn what_is_no_text() {
    let tables = v1();
    let mut stream = Stream::new(&tables, Form::Nfc).unwrap();
    drop(tables);
    stream.feed(b"A\xe1\xba").unwrap();
    let cut = StreamError::NotUtf8 { at: 1 };
    assert_eq!(stream.feed(b"A"), Err(cut));
    assert_eq!(stream.finish(), Err(cut));
    stream.feed(b"\xad").unwrap();
    assert_eq!(stream.finish(), Ok(None));
    assert_eq!(stream.feed(b"A"), Err(StreamError::Finished));
    let mut made = Vec::new();
    stream.take(&mut made);
    assert_eq!(made, "A\u{1ead}".as_bytes());
    let mut writer = Normalizer::new(&v1(), Form::Nfc, Vec::new()).unwrap();
    assert_eq!(
        writer.write(b"\xff").unwrap_err().kind(),
        ErrorKind::InvalidData
    );
}

#[test]
fn what_the_version_says_of_code_points() {
    let tables = v1();
    for (code, combining_class, mapping, excluded) in [
        ('a', 0, None, false),
        ('\u{323}', 220, None, false),
        ('\u{958}', 0, Some(Mapping::Canonical), true),
        ('\u{fb01}', 0, Some(Mapping::Compatibility), false),
        ('\u{ac01}', 0, Some(Mapping::Canonical), false),
    ] {
        let property = Property {
            combining_class,
            mapping,
            excluded,
        };
        assert_eq!(tables.property(code), Some(property));
    }
    assert_eq!(tables.property('\u{10ffff}'), None);
    for (code, compatible, decomposition) in [
        ('\u{1ead}', false, "a\u{323}\u{302}"),
        ('\u{fb01}', false, "\u{fb01}"),
        ('\u{fb01}', true, "fi"),
    ] {
        assert_eq!(
            tables.decomposition(code, compatible).as_deref(),
            Ok(decomposition)
        );
    }
    assert_eq!(tables.composite('a', '\u{302}'), Some('\u{e2}'));
    assert_eq!(tables.composite('\u{915}', '\u{93c}'), None);
}
