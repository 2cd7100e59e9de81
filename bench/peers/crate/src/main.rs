// crate-peer FORM: standard input to standard output by the crate unicode-normalization, all at once.
use std::io::{Read, Write};
use unicode_normalization::UnicodeNormalization;

fn main() {
    let form = std::env::args().nth(1).unwrap_or_default();
    let mut text = String::new();
    std::io::stdin().lock().read_to_string(&mut text).unwrap();
    let mut output = String::with_capacity(text.len() + text.len() / 2);
    match form.as_str() {
        "nfc" => output.extend(text.nfc()),
        "nfd" => output.extend(text.nfd()),
        "nfkc" => output.extend(text.nfkc()),
        "nfkd" => output.extend(text.nfkd()),
        _ => std::process::exit(2),
    }
    std::io::stdout().lock().write_all(output.as_bytes()).unwrap();
}
