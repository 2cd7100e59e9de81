//! Nodes over the fixtures of the repository.

use npss::{
    Accepted, Break, BreakKind, Entry, Form, NewNodeError, Node, Refused, RestoreError, Tables,
    UpgradeError,
};
use std::thread;

const FOLDER: &str = concat!(env!("CARGO_MANIFEST_DIR"), "/../../fixtures/");

fn version(name: &str) -> Tables {
    let bytes = |file| std::fs::read(format!("{FOLDER}{name}/{file}")).unwrap();
    Tables::open(
        &bytes("UnicodeData.txt"),
        &bytes("CompositionExclusions.txt"),
    )
    .unwrap()
}

/// A length and what it counts.
fn field(content: &[u8]) -> Vec<u8> {
    [&(content.len() as u32).to_be_bytes(), content].concat()
}

/// The bytes of a message (docs/FORMATS.md).
fn message(form: u8, string: &[u8], key: &[u8]) -> Vec<u8> {
    [vec![form], field(string), field(key)].concat()
}

fn pairs(node: &Node) -> Vec<(String, String)> {
    node.entries()
        .map(|entry| (entry.string, entry.key))
        .collect()
}

#[test]
fn strings_are_kept_beside_their_keys() {
    let v1 = version("v1");
    let mut node = Node::new(&v1, Form::Nfc, 3).unwrap();
    assert!(node.is_empty());
    assert_eq!(node.accept("a\u{302}"), Ok(Accepted::Kept));
    assert_eq!(node.accept(b"a\xcc\x82"), Ok(Accepted::Known));
    assert_eq!(node.accept("\u{e2}"), Ok(Accepted::Kept));
    assert_eq!(node.same("a\u{302}", "\u{e2}"), Some(true));
    assert_eq!(node.same("a\u{302}", "A"), None);
    assert_eq!(node.key("a\u{302}"), Ok(Some("\u{e2}".into())));
    assert_eq!(node.key([0xff]), Ok(None));
    assert!(node.contains("\u{e2}") && !node.contains("A"));
    let first = Entry {
        string: "a\u{302}".into(),
        key: "\u{e2}".into(),
    };
    assert_eq!(node.entry(0), Ok(Some(first)));
    assert_eq!(node.entry(2), Ok(None));
    assert_eq!(node.entry(usize::MAX), Ok(None));
    assert_eq!(node.accept("A"), Ok(Accepted::Kept));
    assert_eq!(node.same("A", "\u{e2}"), Some(false));
    assert!(node.forget("a\u{302}") && !node.forget("a\u{302}"));
    assert_eq!(node.message("a\u{302}"), Ok(None));
    assert_eq!(
        pairs(&node),
        [("\u{e2}".into(), "\u{e2}".into()), ("A".into(), "A".into())]
    );
    assert_eq!((node.form(), node.room(), node.len()), (Form::Nfc, 3, 2));
    assert_eq!(node.assigned(), 17_660);
    assert_eq!(
        format!("{node:?}"),
        "Node { form: Nfc, room: 3, len: 2, .. }"
    );
}

#[test]
fn what_is_refused_changes_nothing() {
    let v1 = version("v1");
    assert_eq!(
        Node::new(&v1, Form::Nfc, 65_537).unwrap_err(),
        NewNodeError::BadRoom
    );
    let mut node = Node::new(&v1, Form::Nfc, 1).unwrap();
    let long = "A".repeat(65_537);
    let code = '\u{16d67}';
    for (string, refused) in [
        (long.as_bytes(), Refused::TooLong),
        (b"A\xcc", Refused::NotUtf8 { at: 1 }),
        ("A\u{16d67}".as_bytes(), Refused::Unassigned { at: 1, code }),
    ] {
        assert_eq!(node.accept(string), Err(refused));
        assert!(node.is_empty());
    }
    assert_eq!(node.accept("A"), Ok(Accepted::Kept));
    assert_eq!(node.accept("a"), Err(Refused::Full));
    assert_eq!(Refused::Full.to_string(), "full");
    assert_eq!(node.len(), 1);
}

#[test]
fn messages_reach_other_nodes() {
    let (v1, v2) = (version("v1"), version("v2"));
    let mut home = Node::new(&v1, Form::Nfc, 9).unwrap();
    let mut away = Node::new(&v2, Form::Nfc, 9).unwrap();
    assert_eq!(home.message("a\u{302}"), Ok(None));
    assert_eq!(home.message(""), Ok(None));
    home.accept("a\u{302}").unwrap();
    let sent = home.message("a\u{302}").unwrap().unwrap();
    assert_eq!(
        sent,
        message(b'C', "a\u{302}".as_bytes(), "\u{e2}".as_bytes())
    );
    assert_eq!(away.take(&sent), Ok(Accepted::Kept));
    assert_eq!(away.take(&sent), Ok(Accepted::Known));
    let mut more = sent.clone();
    more.push(0);
    for (bytes, refused) in [
        (more.as_slice(), Refused::Malformed { at: sent.len() }),
        (b"", Refused::Malformed { at: 0 }),
        (&message(b'D', b"a", b"a"), Refused::OtherForm),
        (&message(b'C', b"a", b"A"), Refused::KeyDiffers),
        (&message(b'C', b"a\xff", b"A"), Refused::NotUtf8 { at: 1 }),
    ] {
        assert_eq!(away.take(bytes), Err(refused));
    }
    assert_eq!(pairs(&away), pairs(&home));
}

#[test]
fn images_and_upgrades() {
    let (v1, v2) = (version("v1"), version("v2"));
    let mut node = Node::new(&v1, Form::Nfc, 9).unwrap();
    node.accept("a\u{302}").unwrap();
    let saved = node.image().unwrap();
    let head = [b"NPS2C".as_slice(), &17_660u32.to_be_bytes(), &[0, 0, 0, 1]].concat();
    let entry = [
        field("a\u{302}".as_bytes()),
        vec![1],
        field("\u{e2}".as_bytes()),
    ]
    .concat();
    assert_eq!(saved, [head, entry].concat());
    node.upgrade(&v2).unwrap();
    node.accept("\u{1dfa}").unwrap();
    let lost = Break {
        kind: BreakKind::Lost,
        code: 0x1dfa,
    };
    assert_eq!(node.upgrade(&v1), Err(UpgradeError::Breaks(lost)));
    assert_eq!((node.len(), node.assigned()), (2, 17_666));
    let newer = node.image().unwrap();
    drop(v1);
    let again = Node::restore(&v2, Form::Nfc, 9, &newer).unwrap();
    assert_eq!(pairs(&again), pairs(&node));
    let v1 = version("v1");
    let older = RestoreError::OlderTables {
        needs: 17_666,
        has: 17_660,
    };
    assert_eq!(Node::restore(&v1, Form::Nfc, 9, &newer).unwrap_err(), older);
    let bad = [
        b"NPS1C".as_slice(),
        &[0, 0, 0, 1],
        &field(b"A"),
        &field(b"a"),
    ]
    .concat();
    let entry = RestoreError::Entry {
        index: 0,
        cause: Refused::KeyDiffers,
    };
    for (room, image, refused) in [
        (9, b"NPS3".as_slice(), RestoreError::Malformed { at: 0 }),
        (0, saved.as_slice(), RestoreError::Full),
        (65_537, saved.as_slice(), RestoreError::BadRoom),
        (9, bad.as_slice(), entry),
    ] {
        assert_eq!(
            Node::restore(&v1, Form::Nfc, room, image).unwrap_err(),
            refused
        );
    }
    assert_eq!(
        Node::restore(&v1, Form::Nfd, 9, &saved).unwrap_err(),
        RestoreError::OtherForm
    );
}

#[test]
fn a_node_goes_to_another_thread_and_outlives_its_tables() {
    let v1 = version("v1");
    let mut node = Node::new(&v1, Form::Nfkc, 9).unwrap();
    drop(v1);
    let node = thread::spawn(move || {
        node.accept("\u{fb01}").unwrap();
        node
    })
    .join()
    .unwrap();
    assert_eq!(node.key("\u{fb01}"), Ok(Some("fi".into())));
}
