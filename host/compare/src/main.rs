//! Compares the proved reader with upstream's Rust on the texts of the generators.
//!
//! Usage: `compare small|full [GENERATOR ..]`, without generators for all. The exit status is 0 only without a difference.

use compare::{Archive, Prober};
use oracle::generators::{GENERATORS, Scale, by_name};
use std::process::ExitCode;
use std::time::Instant;

fn main() -> ExitCode {
    let mut arguments = std::env::args().skip(1);
    let scale = match arguments.next().as_deref() {
        Some("small") => Scale::Small,
        Some("full") => Scale::Full,
        _ => {
            eprintln!("usage: compare small|full [GENERATOR ..]");
            return ExitCode::FAILURE;
        }
    };
    let asked: Vec<String> = arguments.collect();
    if let Some(unknown) = asked.iter().find(|name| by_name(name).is_none()) {
        eprintln!("compare: there is no generator {unknown}");
        return ExitCode::FAILURE;
    }

    let (mut texts, mut calls, mut wrong) = (0, 0, 0);
    for generator in GENERATORS {
        if !asked.is_empty() && !asked.iter().any(|name| name == generator.name) {
            continue;
        }
        let start = Instant::now();
        let mut prober = Prober::new(Archive);
        let report = oracle::compare(generator, scale, &mut |text| prober.ask(text));
        println!(
            "{}: {} texts, {} calls, {} differences, {} broken promises, {:.1} s",
            generator.name,
            report.cases,
            prober.calls,
            report.different,
            prober.broken,
            start.elapsed().as_secs_f64()
        );
        for difference in &report.first {
            let text = &difference.text[..difference.text.len().min(200)];
            println!(
                "  text {} of {} bytes \"{}\"",
                difference.index,
                difference.text.len(),
                text.escape_ascii()
            );
            println!("    Rust {}", shown(&difference.expected));
            println!("    here {}", shown(&difference.found));
        }
        for broken in &prober.first {
            println!("  {broken}");
        }
        texts += report.cases;
        calls += prober.calls;
        wrong += report.different + prober.broken;
    }
    println!("all: {texts} texts, {calls} calls, {wrong} differences and broken promises");
    if wrong == 0 { ExitCode::SUCCESS } else { ExitCode::FAILURE }
}

/// An answer on one line, cut where it is long.
fn shown(answer: &oracle::Answer) -> String {
    let line = format!("{answer:?}");
    match line.char_indices().nth(200) {
        Some((cut, _)) => format!("{}..", &line[..cut]),
        None => line,
    }
}
