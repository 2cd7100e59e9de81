//! Keys of short names by 1, 4 and 16 threads over one `Tables`: cargo run --release --example threads -- DATA EXCLUSIONS
//!
//! Prints for each number of threads how many keys were made in a second, and beside one thread's.

use npss::{Form, Tables};
use std::error::Error;
use std::time::Instant;

const NAMES: [&str; 3] = [
    "alice.smith9",
    "J\u{f6}rg M\u{fc}ller",
    "\u{ae40}\u{bbfc}\u{c218}",
];
const KEYS: usize = 2_000_000;

/// Makes so many keys on each of some threads; the keys that were made in a second.
fn rate(tables: &Tables, threads: usize) -> f64 {
    let begun = Instant::now();
    std::thread::scope(|scope| {
        for _ in 0..threads {
            scope.spawn(|| {
                for name in NAMES.iter().cycle().take(KEYS) {
                    assert!(tables.key(Form::Nfc, name).is_ok());
                }
            });
        }
    });
    (threads * KEYS) as f64 / begun.elapsed().as_secs_f64()
}

fn main() -> Result<(), Box<dyn Error>> {
    let words: Vec<String> = std::env::args().skip(1).collect();
    let [data, exclusions] = words.as_slice() else {
        return Err(
            "the two files are wanted: UnicodeData.txt and CompositionExclusions.txt".into(),
        );
    };
    let tables = Tables::open(&std::fs::read(data)?, &std::fs::read(exclusions)?)?;
    let one = rate(&tables, 1).max(rate(&tables, 1));
    println!(
        "1 thread: {one:.0} keys a second, {:.1} ns a key",
        1e9 / one
    );
    for threads in [4, 16] {
        let many = rate(&tables, threads).max(rate(&tables, threads));
        println!(
            "{threads} threads: {many:.0} keys a second, {:.2} times",
            many / one
        );
    }
    Ok(())
}
