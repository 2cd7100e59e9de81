// names FILE PASSES FORM: what names.c does, by the crate unicode-normalization: what isn't of the form by its quick check is made.
use std::time::Instant;
use unicode_normalization::char::is_public_assigned;
use unicode_normalization::{is_nfc_quick, is_nfd_quick, IsNormalized, UnicodeNormalization, UNICODE_VERSION};

fn nfc(text: &str, room: &mut String) -> bool {
    room.clear();
    match is_nfc_quick(text.chars()) {
        IsNormalized::Yes => room.push_str(text),
        _ => room.extend(text.nfc()),
    }
    true
}

fn nfd(text: &str, room: &mut String) -> bool {
    room.clear();
    match is_nfd_quick(text.chars()) {
        IsNormalized::Yes => room.push_str(text),
        _ => room.extend(text.nfd()),
    }
    true
}

fn nfc_key(text: &str, room: &mut String) -> bool {
    text.chars().all(is_public_assigned) && nfc(text, room)
}

fn nfd_key(text: &str, room: &mut String) -> bool {
    text.chars().all(is_public_assigned) && nfd(text, room)
}

fn main() {
    let words: Vec<String> = std::env::args().collect();
    let text = std::fs::read_to_string(&words[1]).unwrap();
    let names: Vec<&str> = text.lines().collect();
    println!("version {}.{}.{}", UNICODE_VERSION.0, UNICODE_VERSION.1, UNICODE_VERSION.2);
    let ways: [(&str, fn(&str, &mut String) -> bool); 2] =
        if words[3] == "nfd" { [("form", nfd), ("key", nfd_key)] } else { [("form", nfc), ("key", nfc_key)] };
    for (way, make) in ways {
        let (mut least, mut sum) = (f64::MAX, 0xcbf29ce484222325_u64);
        for pass in 0..=words[2].parse().unwrap() {
            let mut room = String::with_capacity(4096);
            let begun = Instant::now();
            for name in &names {
                assert!(make(name, &mut room));
                if pass == 0 {
                    for byte in room.bytes().chain(*b"\n") {
                        sum = (sum ^ u64::from(byte)).wrapping_mul(0x100000001b3);
                    }
                }
            }
            if pass > 0 {
                least = least.min(begun.elapsed().as_nanos() as f64 / names.len() as f64);
            }
        }
        println!("{way} {least:.1} {sum:016x}");
    }
}
