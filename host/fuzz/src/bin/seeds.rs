//! Writes the short texts of the fixed list to a directory: the texts that a fuzzing run starts from. Those with values of many
//! megabytes are left out, since a run would spend its time on them; the comparison's generator `limit` has such texts.

use oracle::{Answer, Records};
use std::path::Path;
use std::process::ExitCode;

/// The text is short, and so is what it gives.
fn is_small(text: &[u8]) -> bool {
    text.len() <= 1000
        && match oracle::answer(text) {
            Answer::Accepted(Records::Exact(_)) => true,
            Answer::Accepted(Records::Long(_)) => false,
            Answer::Refused(refusal) => refusal.number != 16,
        }
}

fn main() -> ExitCode {
    let Some(directory) = std::env::args().nth(1) else {
        eprintln!("usage: seeds DIRECTORY");
        return ExitCode::FAILURE;
    };
    let list = Path::new(env!("CARGO_MANIFEST_DIR")).join("../oracle/answers/answers.bin");
    let written = std::fs::read(&list).and_then(|binary| {
        std::fs::create_dir_all(&directory)?;
        let mut count = 0;
        for text in oracle::list::texts(&binary).into_iter().filter(|text| is_small(text)) {
            std::fs::write(Path::new(&directory).join(format!("seed-{count}")), text)?;
            count += 1;
        }
        Ok(count)
    });
    match written {
        Ok(count) => {
            println!("{count} texts");
            ExitCode::SUCCESS
        }
        Err(error) => {
            eprintln!("seeds: {error}");
            ExitCode::FAILURE
        }
    }
}
