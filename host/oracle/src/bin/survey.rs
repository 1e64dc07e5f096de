//! Asks the Rust about every text of the generators and prints how many texts got each number.
//!
//! Usage: `survey small|full [GENERATOR ..]`, without generators for all. It stops if the Rust ever says what document 01
//! calls impossible.

use oracle::generators::{GENERATORS, Scale};
use std::collections::BTreeMap;
use std::process::ExitCode;

fn main() -> ExitCode {
    let mut arguments = std::env::args().skip(1);
    let scale = match arguments.next().as_deref() {
        Some("small") => Scale::Small,
        Some("full") => Scale::Full,
        _ => {
            eprintln!("usage: survey small|full [GENERATOR ..]");
            return ExitCode::FAILURE;
        }
    };
    let asked: Vec<String> = arguments.collect();
    for generator in GENERATORS {
        if !asked.is_empty() && !asked.iter().any(|name| name == generator.name) {
            continue;
        }
        let mut counts: BTreeMap<u8, u64> = BTreeMap::new();
        let mut texts: u64 = 0;
        generator.each(scale, &mut |text| {
            *counts.entry(oracle::answer(text).number()).or_default() += 1;
            texts += 1;
        });
        assert_eq!(
            texts,
            generator.count(scale),
            "{} does not make the number of texts it states",
            generator.name
        );
        let counts: Vec<String> = counts.iter().map(|(number, count)| format!("{number}: {count}")).collect();
        println!("{} (seed {}): {texts} texts; {}", generator.name, generator.seed, counts.join(", "));
    }
    ExitCode::SUCCESS
}
