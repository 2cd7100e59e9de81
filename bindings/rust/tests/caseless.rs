//! Caseless keys and matches over the fixtures of the repository, which are from the definitions of `docs/STANDARD.md`.

use npss::{CaselessError, ExtensionError, File, Form, KeyError, LineEnd, OpenError, Tables};
use std::thread;

const FOLDER: &str = concat!(env!("CARGO_MANIFEST_DIR"), "/../../fixtures/");

fn bytes(name: &str) -> Vec<u8> {
    std::fs::read(format!("{FOLDER}{name}")).unwrap()
}

fn opened(data: &str, folding: &str) -> Result<Tables, OpenError> {
    let exclusions = bytes("v1/CompositionExclusions.txt");
    Tables::open_caseless(&bytes(data), &exclusions, &bytes(folding))
}

/// The tables of a version of the fixtures, of which both have the same exclusions.
fn version(name: &str) -> Tables {
    assert_eq!(
        bytes("v1/CompositionExclusions.txt"),
        bytes("v2/CompositionExclusions.txt")
    );
    opened(
        &format!("{name}/UnicodeData.txt"),
        &format!("caseless/{name}/CaseFolding.txt"),
    )
    .unwrap()
}

/// The rows of a file of the fixtures, cut into their parts.
fn rows(name: &str) -> Vec<Vec<String>> {
    let text = String::from_utf8(bytes(&format!("caseless/{name}"))).unwrap();
    let lines = text
        .lines()
        .filter(|line| !line.is_empty() && !line.starts_with('#'));
    lines
        .map(|line| line.split(" / ").map(str::to_owned).collect())
        .collect()
}

/// The text of code points as the fixtures write them; `-` is the empty one.
fn text_of(codes: &str) -> String {
    let codes = codes.split(' ').filter(|code| *code != "-");
    codes
        .map(|code| char::from_u32(u32::from_str_radix(code, 16).unwrap()).unwrap())
        .collect()
}

#[test]
fn keys() {
    let versions = [version("v1"), version("v2")];
    let rows = rows("KEYS.txt");
    assert_eq!(rows.len(), 312);
    for row in rows {
        let (name, form) = row[0].split_once(' ').unwrap();
        let form: Form = form.parse().unwrap();
        let made = versions[usize::from(name == "v2")].caseless_key(form, &text_of(&row[1]));
        match made {
            Ok(key) => assert_eq!(key, text_of(&row[2]), "{row:?}"),
            Err(error) => assert_eq!(error.to_string(), row[2], "{row:?}"),
        }
    }
}

#[test]
fn lines_are_answered() {
    let tables = version("v1");
    let lines = "A\u{e000}\nA\u{16d67}\n\u{fb01}\n".as_bytes();
    let made = tables
        .caseless_answers(Form::Nfkc, LineEnd::Lf, lines)
        .unwrap();
    assert_eq!(made.bytes, b"=aaa\n!unassigned 16D67 at byte 1\n=ii\n");
    assert!(made.any_refused);
    let made = tables.caseless_answers(Form::Nfc, LineEnd::Nul, b"A\0i");
    assert_eq!(made.unwrap().bytes, b"=a\0=i\0");
}

#[test]
fn matches() {
    let versions = [version("v1"), version("v2")];
    let rows = rows("MATCHES.txt");
    assert_eq!(rows.len(), 52);
    // `compare` refuses what isn't assigned, which is taken here
    for row in rows.iter().filter(|row| !row[3].starts_with('3')) {
        let tables = &versions[usize::from(row[0].starts_with("v2"))];
        let (left, right) = (text_of(&row[1]), text_of(&row[2]));
        let answer = tables.caseless_match(row[0].contains("nfk"), &left, &right);
        assert_eq!(answer, Ok(row[3].starts_with('0')), "{row:?}");
    }
    assert_eq!(
        versions[0].caseless_match(false, "A\u{16d67}", "a\u{16d67}"),
        Ok(true)
    );
    assert_eq!(
        versions[0].caseless_match(true, "A\u{16d67}", "A"),
        Ok(false)
    );
}

#[test]
fn extension() {
    let tables = |name: &str| match name {
        "changed" => opened("v2/UnicodeData.txt", "caseless/changed/CaseFolding.txt").unwrap(),
        name => version(name),
    };
    let rows = rows("AUDITS.txt");
    let audits = rows
        .iter()
        .filter(|row| row[0].split(' ').count() == 2)
        .collect::<Vec<_>>();
    assert_eq!(audits.len(), 9);
    for row in audits {
        let (old, new) = row[0].split_once(' ').unwrap();
        match tables(new).caseless_extends(&tables(old)) {
            Ok(()) => assert_eq!(row[2], "extends", "{row:?}"),
            Err(first) => assert_eq!(first.to_string(), row[2].split(", ").next().unwrap()),
        }
    }
    let (v1, data) = (version("v1"), bytes("v2/UnicodeData.txt"));
    let bare = Tables::open(&data, &bytes("v2/CompositionExclusions.txt")).unwrap();
    for (older, newer) in [(&v1, &bare), (&bare, &v1), (&bare, &bare)] {
        assert_eq!(
            newer.caseless_extends(older),
            Err(ExtensionError::NoFolding)
        );
    }
    assert_eq!(v1.caseless_extends(&v1), Ok(()));
    assert_eq!(bare.first_break(&v1), None);
}

#[test]
fn without_foldings() {
    let data = bytes("v1/UnicodeData.txt");
    let tables = Tables::open(&data, &bytes("v1/CompositionExclusions.txt")).unwrap();
    let text = "the tables were opened without CaseFolding.txt";
    for tables in [&tables, &tables.share().unwrap()] {
        let error = tables.caseless_key(Form::Nfc, "A").unwrap_err();
        assert_eq!(
            (error, error.to_string().as_str()),
            (KeyError::NoFolding, text)
        );
        let lines = tables.caseless_answers(Form::Nfc, LineEnd::Lf, b"A");
        assert_eq!(lines, Err(CaselessError::NoFolding));
        let error = tables.caseless_match(false, "A", "a").unwrap_err();
        assert_eq!(
            (error, error.to_string().as_str()),
            (CaselessError::NoFolding, text)
        );
    }
}

#[test]
fn files_at_the_edges() {
    let rows = rows("edges/EXPECTED.txt");
    assert_eq!(rows.len(), 104);
    for row in rows {
        let data = match row[1].as_str() {
            "v1" => "v1/UnicodeData.txt".to_owned(),
            name => format!("caseless/edges/{name}.data"),
        };
        match opened(&data, &format!("caseless/edges/{}", row[0])) {
            Ok(tables) => assert_eq!(
                tables.caseless_key(Form::Nfc, "A"),
                Ok(text_of(&row[3])),
                "{row:?}"
            ),
            Err(error) => assert_eq!(format!("version 0 {error}"), row[3], "{row:?}"),
        }
    }
}

#[test]
fn which_file_is_faulty() {
    let none = |files: [&[u8]; 3]| Tables::open_caseless(files[0], files[1], files[2]).unwrap_err();
    let faulty: &[u8] = b"0041; Q; 0061;\n";
    let text = |files| none(files).to_string();
    assert_eq!(
        text([b"0041;x\n", b"none", faulty]),
        "data: line 1: FieldCount"
    );
    assert_eq!(text([b"", b"none", faulty]), "exclusions: line 1: BadCode");
    assert_eq!(text([b"", b"", faulty]), "folding: line 1: BadStatus");
    match none([b"", b"", b"0041; C; 0061;\n"]) {
        OpenError::Foldings { code, name } => {
            assert_eq!((code, &*name), (0x41, "FoldsUnassigned"))
        }
        other => panic!("{other:?}"),
    }
    let large = vec![b'\n'; 16_777_217];
    assert_eq!(
        none([b"", b"", &large]),
        OpenError::TooLarge {
            file: File::Folding
        }
    );
}

#[test]
fn threads_share_the_foldings() {
    let tables = version("v1");
    let text = "A\u{302}\u{323}".repeat(100);
    let key = tables
        .key(Form::Nfc, &"a\u{302}\u{323}".repeat(100))
        .unwrap();
    thread::scope(|scope| {
        for _ in 0..20 {
            scope.spawn(|| {
                for _ in 0..200 {
                    assert_eq!(
                        tables.caseless_key(Form::Nfc, &text).as_deref(),
                        Ok(key.as_str())
                    );
                }
            });
        }
    });
    let shared = tables.share().unwrap();
    drop(tables);
    assert_eq!(shared.caseless_key(Form::Nfc, "A").as_deref(), Ok("a"));
}
