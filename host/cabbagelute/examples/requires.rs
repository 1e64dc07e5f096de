//! Prints the packages that each file named requires, an item a line: the file, the field and the item. A file that is refused is
//! named on standard error with the reason, and the exit status is 1.
//!
//!     cargo run --example requires -- FILE ..

use cabbagelute::{Package, PkgConfig};
use std::process::ExitCode;

fn main() -> ExitCode {
    let mut status = ExitCode::SUCCESS;
    for file in std::env::args().skip(1) {
        match packages(&file) {
            Ok(packages) => {
                packages.iter().for_each(|package| println!("{file}: {}: {package}", package.field))
            }
            Err(why) => {
                eprintln!("{file}: error: {why}");
                status = ExitCode::FAILURE;
            }
        }
    }
    status
}

fn packages(file: &str) -> Result<Vec<Package>, String> {
    let text = std::fs::read_to_string(file).map_err(|error| error.to_string())?;
    let config = PkgConfig::parse(&text).map_err(|error| error.to_string())?;
    config.requires().map_err(|error| error.to_string())
}
