//! Prints the flags of each file named: compile flags, then link flags, on one line. A file that is refused is named on
//! standard error with the reason, and the exit status is 1.
//!
//!     cargo run --example flags -- FILE ..

use cabbagelute::PkgConfig;
use std::process::ExitCode;

fn main() -> ExitCode {
    let mut status = ExitCode::SUCCESS;
    for file in std::env::args().skip(1) {
        match flags(&file) {
            Ok(flags) => println!("{}", flags.join(" ")),
            Err(why) => {
                eprintln!("{file}: error: {why}");
                status = ExitCode::FAILURE;
            }
        }
    }
    status
}

fn flags(file: &str) -> Result<Vec<String>, String> {
    let text = std::fs::read_to_string(file).map_err(|error| error.to_string())?;
    let config = PkgConfig::parse(&text).map_err(|error| error.to_string())?;
    let lists = [config.cflags, config.libs];
    Ok(lists.into_iter().flatten().flatten().map(|flag| quoted(&flag)).collect())
}

/// A flag as a shell takes it for one word.
fn quoted(flag: &str) -> String {
    let plain = |c: char| c.is_ascii_alphanumeric() || "-_./=:+,@%".contains(c);
    if !flag.is_empty() && flag.chars().all(plain) {
        flag.to_owned()
    } else {
        format!("'{}'", flag.replace('\'', r"'\''"))
    }
}
