//! What a user of Rust expects of any type: names, and what is shown of a value.

use npss::{Form, NoForm, Normalizer, Stream, Tables};

const FORMS: [(&str, Form); 4] = [
    ("nfd", Form::Nfd),
    ("nfc", Form::Nfc),
    ("nfkd", Form::Nfkd),
    ("nfkc", Form::Nfkc),
];

#[test]
fn a_form_has_a_name_in_either_case() {
    for (name, form) in FORMS {
        assert_eq!(form.to_string(), name);
        assert_eq!(name.parse(), Ok(form));
        assert_eq!(name.to_uppercase().parse(), Ok(form));
        assert_eq!(format!("[{form:>5}]"), format!("[{name:>5}]"));
    }
    for name in ["", "nf", "nfcc", "NFX", "nfc ", "\u{ff4e}fc"] {
        assert_eq!(name.parse::<Form>(), Err(NoForm), "{name:?}");
    }
    assert!(NoForm.to_string().contains("nfkc"));
}

#[test]
fn no_address_is_shown() {
    let data = b"0061;X;Ll;0;L;;;;;N;;;;;\n0062;X;Ll;0;L;;;;;N;;;;;\n";
    let tables = Tables::open(data, b"").unwrap();
    assert_eq!(format!("{tables:?}"), "Tables { count: 2, .. }");
    let writer = Normalizer::new(&tables, Form::Nfc, Vec::new()).unwrap();
    for shown in [
        format!("{tables:#?}"),
        format!("{writer:?}"),
        format!("{:?}", Stream::new(&tables, Form::Nfc).unwrap()),
    ] {
        assert!(!shown.contains("0x") && shown.len() < 80, "{shown}");
    }
}
