//! The calls over the fixtures of the repository.

use npss::{Break, BreakKind, File, Form, KeyError, LineEnd, OpenError, Tables};
use std::sync::Arc;
use std::thread;

const FOLDER: &str = concat!(env!("CARGO_MANIFEST_DIR"), "/../../fixtures/");

fn bytes(name: &str) -> Vec<u8> {
    std::fs::read(format!("{FOLDER}{name}")).unwrap()
}

fn version(name: &str) -> Tables {
    let data = bytes(&format!("{name}/UnicodeData.txt"));
    Tables::open(&data, &bytes(&format!("{name}/CompositionExclusions.txt"))).unwrap()
}

#[test]
fn forms_of_a_text() {
    let v1 = version("v1");
    for (form, text, made) in [
        (Form::Nfd, "a\u{302}\u{323}", "a\u{323}\u{302}"),
        (Form::Nfc, "a\u{302}\u{323}", "\u{1ead}"),
        (Form::Nfkd, "\u{fb01}", "fi"),
        (Form::Nfkc, "\u{fb01}", "fi"),
        (Form::Nfc, "\u{958}", "\u{915}\u{93c}"),
        (Form::Nfc, "", ""),
        (Form::Nfd, "\u{d4db}", "\u{1111}\u{1171}\u{11b6}"),
    ] {
        assert_eq!(v1.key(form, text).as_deref(), Ok(made));
        assert_eq!(v1.normalize(form, text).as_deref(), Ok(made));
        assert_eq!(v1.is_normalized(form, made), Ok(true));
        assert_eq!(v1.is_normalized(form, text), Ok(text == made));
    }
}

#[test]
fn unassigned_code_points_are_told() {
    let v1 = version("v1");
    let error = v1.key(Form::Nfc, "A\u{16d67}").unwrap_err();
    assert_eq!(
        error,
        KeyError::Unassigned {
            at: 1,
            code: '\u{16d67}'
        }
    );
    assert_eq!(error.to_string(), "unassigned 16D67 at byte 1");
    assert_eq!(
        v1.normalize(Form::Nfc, "\u{16d67}").as_deref(),
        Ok("\u{16d67}")
    );
}

#[test]
fn lines_are_answered() {
    let v1 = version("v1");
    for (form, end, lines, answers, any_refused) in [
        (Form::Nfc, LineEnd::Lf, "", "", false),
        (
            Form::Nfc,
            LineEnd::Lf,
            "a\u{302}\u{323}\n\nA",
            "=\u{1ead}\n=\n=A\n",
            false,
        ),
        (
            Form::Nfkc,
            LineEnd::Lf,
            "\u{fb01}\nA\u{16d67}\n",
            "=fi\n!unassigned 16D67 at byte 1\n",
            true,
        ),
        (Form::Nfc, LineEnd::Nul, "a\0A", "=a\0=A\0", false),
    ] {
        let made = v1.answers(form, end, lines.as_bytes()).unwrap();
        assert_eq!(made.bytes, answers.as_bytes());
        assert_eq!(made.any_refused, any_refused);
    }
    let many = v1
        .answers(Form::Nfc, LineEnd::Lf, &b"a\n".repeat(100_000))
        .unwrap();
    assert_eq!(many.bytes, b"=a\n".repeat(100_000));
}

#[test]
fn files_are_refused() {
    let exclusions = bytes("v1/CompositionExclusions.txt");
    let none = |data: &[u8], exclusions: &[u8]| Tables::open(data, exclusions).unwrap_err();
    let at_line = |error| match error {
        OpenError::File { file, line, name } => (file, line, name.to_string()),
        other => panic!("{other:?}"),
    };
    assert_eq!(
        at_line(none(b"0041;x\n", &exclusions)),
        (File::Data, 1, "FieldCount".to_owned())
    );
    let error = none(b"", b"\nnone");
    assert_eq!(at_line(error), (File::Exclusions, 2, "BadCode".to_owned()));
    assert_eq!(error.to_string(), "exclusions: line 2: BadCode");
    let tables = none(b"0041;X;Lu;0;L;0042;;;;N;;;;;\n", &exclusions);
    assert_eq!(tables.to_string(), "tables: MapsToUnassigned 0041");
    let large = vec![b'\n'; 16_777_217];
    assert_eq!(none(&large, b""), OpenError::TooLarge { file: File::Data });
    assert_eq!(
        none(b"", &large),
        OpenError::TooLarge {
            file: File::Exclusions
        }
    );
}

#[test]
fn versions_beside_one_another() {
    let (v1, v2) = (version("v1"), version("v2"));
    assert_eq!((v1.count(), v2.count()), (17_660, 17_666));
    assert_eq!(v2.first_break(&v1), None);
    let lost = Break {
        kind: BreakKind::Lost,
        code: 0x1dfa,
    };
    assert_eq!(v1.first_break(&v2), Some(lost));
}

#[test]
fn threads_share_a_table() {
    let tables = Arc::new(version("v1"));
    let other = tables.share().unwrap();
    let threads: Vec<_> = (0..40)
        .map(|number| {
            let tables = Arc::clone(&tables);
            thread::spawn(move || {
                let text = "a\u{302}\u{323}".repeat(number + 1);
                (0..2_000).all(|_| {
                    tables.key(Form::Nfc, &text).as_deref() == Ok(&"\u{1ead}".repeat(number + 1))
                })
            })
        })
        .collect();
    drop(tables);
    assert!(threads.into_iter().all(|thread| thread.join().unwrap()));
    assert_eq!(other.count(), 17_660);
}

#[test]
fn questions_on_two_versions_from_both_sides_at_once() {
    let (v1, v2) = (version("v1"), version("v2"));
    thread::scope(|scope| {
        for number in 0..40 {
            let (v1, v2) = (&v1, &v2);
            scope.spawn(move || {
                for _ in 0..20 {
                    if number % 2 == 0 {
                        assert!(v1.first_break(v2).is_some());
                    } else {
                        assert!(v2.first_break(v1).is_none());
                    }
                }
            });
        }
    });
}

#[test]
fn long_texts() {
    let v1 = version("v1");
    let text = "a\u{302}\u{323}".repeat(1_000_000);
    assert_eq!(
        v1.key(Form::Nfc, &text).unwrap(),
        "\u{1ead}".repeat(1_000_000)
    );
    assert_eq!(
        v1.equivalent(&text, &"\u{1ead}".repeat(1_000_000), false),
        Ok(true)
    );
}
